#!/usr/bin/env python3
"""Respells this repository's own definitions, fields and lemmas as the toolchain spells its own.

Run it once, at the top, right after the toolchain's port.py.

  factMark, leastOf-least  ->  fact_mark, least_of-least    words are in snake case, types are not
  below-first (a field)    ->  below_first                  a field is one word
  key-member (a lemma)     ->  key_member                   a dash stands behind a definition's name
  A .. F (the examples)    ->  example_a .. example_f

It goes by the names that files of specs/ and proofs/ declare, and leaves the functions of src/,
strings, inputs and outputs alone. In comments and pages a name with a dash is respelled between
backticks alone. It prints each pair that falls together with another name, and then writes nothing.
With --list it prints each pair and writes nothing.
"""
import os
import re
import sys

WORD = re.compile(r"[A-Za-z](?:[A-Za-z0-9_'₀-₉-]*[A-Za-z0-9_'₀-₉])?")
# words of the library that lemmas begin with
LIBRARY = {"length", "take", "drop", "set", "replicate", "append", "eqb", "ltb", "leb", "cond", "map", "and", "or", "not", "add", "mul", "sub", "div", "mod", "pow", "bit_and", "bit_or", "bit_xor", "get_or", "reverse", "beq", "min", "max"}
EXAMPLES = ["theory/specs/Examples.antt", "theory/proofs/Examples.antt", "demands/specs/Examples.antt", "demands/specs/Starred.antt", "demands/specs/Wish07.antt", "demands/proofs/Starred.antt"]

EXAMPLE = re.compile(r"(?<![\w'◌*-])(?!(?<=\{)[A-F] [=:])([A-F][23]?)(?![\w'*-])")


def files(top, *ends):
    for folder, dirs, names in os.walk(top):
        dirs[:] = sorted(d for d in dirs if d not in ("out", "target", ".git"))
        for n in sorted(names):
            if n.endswith(ends):
                yield os.path.join(folder, n)


def declared():
    """The names that files of specs/ and lemma files declare: definitions, fields, all."""
    definitions, fields, every = set(), set(), set()
    for path in files("crates", ".antt"):
        if path.endswith("Proof.antt"):
            continue
        inside = None
        for line in open(path, encoding="utf-8"):
            text = line.rstrip("\n")
            if not text.strip() or text.lstrip().startswith("--"):
                continue
            depth = len(text) - len(text.lstrip())
            if inside is not None and depth <= inside:
                inside = None
            m = re.match(r"\s*(?:abbrev |unfoldable )?(?:pub )?(record|data) (\S+)", text)
            if m:
                inside = depth
                continue
            m = re.match(r"\s*(abbrev |unfoldable )?(?:pub )?([^\s(){}:;,=λ]+) : ", text)
            if not m:
                continue
            name = m.group(2)
            every.add(name)
            if inside is not None:
                fields.add(name)
            elif m.group(1):
                definitions.add(name)
    return definitions, fields, every


def snake(part):
    if not re.match(r"[a-z]", part) or not re.search(r"[A-Z]", part):
        return part
    part = part.replace("getD", "get_or")
    return re.sub(r"(?<=[a-z0-9_])([A-Z]+)", lambda m: "_" + m.group(1).lower(), part)


def respelled():
    definitions, fields, every = declared()
    starts = {snake(d) for d in definitions if "-" not in d} | LIBRARY
    new = {}
    for name in every:
        parts = [snake(p) for p in name.split("-")]
        if name in fields:
            to = "_".join(parts)
        elif len(parts) > 1 and (parts[0] in starts or parts[0][:1].isupper()):
            to = parts[0] + "-" + "_".join(parts[1:])
        else:
            to = "_".join(parts)
        if to != name:
            new[name] = to
    return new, every


def fallen(new, every):
    """Pairs that would have one name, and new names that some file has already."""
    seen, bad = {}, []
    for old, to in sorted(new.items()):
        if to in seen:
            bad.append((old, to, "also " + seen[to]))
        seen[to] = old
    tokens = {}
    for path in files("crates", ".antt", ".rt"):
        text = re.sub(r"Rattle(?:\.\w+)*\.|--.*|//.*", "", open(path, encoding="utf-8").read())
        tokens[path] = set(WORD.findall(text))
    for old, to in sorted(new.items()):
        for path, words in tokens.items():
            if old in words and to in words and to not in new and to not in THERE:
                bad.append((old, to, path))
    return bad


# The same, where only these files have both.
THERE = {
    "left_out": ("left_out_lem", ("crates/theory/proofs/Guesses", "crates/guessing/proofs/GuessDerived")),
    "none_left": ("none_left_lem", ("crates/proofcheck/",)),
}


def here(new, path):
    """The names as a file has them."""
    return {**new, **{old: to for old, (to, where) in THERE.items() if path.startswith(where)}}


def names_function(pair):
    """In a file of src/ the other name is a function's: a clause cannot name that."""
    _, to, path = pair
    return path.endswith(".rt") and re.search(r"\b%s\b" % to, re.sub(r"(fn|use [\w:{, ]*|::|\.)\b%s\b|\b%s(\(|::)" % (to, to), "", re.sub(r"//.*", "", open(path, encoding="utf-8").read()))) is None


def turned(text, new):
    return WORD.sub(lambda m: new.get(m.group(0), m.group(0)), text)


def in_prose(text, new):
    """Camel case anywhere; names with a dash between backticks."""
    plain = {k: v for k, v in new.items() if "-" not in k}
    if isinstance(new, Known):
        plain.update({w: new.get(w, w) for w in WORD.findall(text) if "-" not in w})
    parts = text.split("`")
    return "`".join(turned(p, new if i % 2 else plain) for i, p in enumerate(parts))


def canonical(name):
    return "_".join(snake(p) for p in name.split("-"))


class Known(dict):
    """For pages and must-fail edits, which port.py leaves: a name that no file declares any more, but for its spelling."""

    def __init__(self, new, every):
        dict.__init__(self, new)
        self.now = {new.get(n, n) for n in every}
        self.by = {}
        for n in sorted(self.now):
            self.by.setdefault(canonical(n), n)

    def get(self, word, default=None):
        if word in self:
            return self[word]
        if word in self.now or not re.match(r"[a-z]", word) or not re.search(r"[A-Z-]", word):
            return default
        return self.by.get(canonical(word), default)

    def items(self):
        return dict.items(self)


def by_comment(line, mark, new):
    at = line.find(mark)
    if at < 0:
        return turned(line, new)
    return turned(line[:at], new) + in_prose(line[at:], new)


def in_code(line, new):
    """A line of src/: only its comment and what stands in a clause or a ghost item."""
    if line.lstrip().startswith("//"):
        return in_prose(line, new)
    if re.match(r"\s*(ghost|requires|ensures|\w+: \{)", line) or (re.search(r"[≡≤→×λ⌜]", line) and not line.lstrip().startswith("let ")):
        return by_comment(line, "//", new)
    return line


def write(path, text, old):
    if text != old:
        with open(path, "w", encoding="utf-8") as f:
            f.write(text)


def main():
    new, every = respelled()
    new.update(OWN)
    # a dash stays too where the name would fall together with another
    for old, _, where in fallen(new, every):
        for name in (old, where[5:] if where.startswith("also ") else ""):
            if "-" in name and name not in OWN:
                new.pop(name, None)
    bad = [b for b in fallen(new, every) if not names_function(b) and b[0] not in OWN]
    if bad or "--list" in sys.argv:
        for b in bad:
            print("falls together:", *b)
        if "--list" in sys.argv:
            print("\n".join(f"{a} {b}" for a, b in sorted(new.items())))
        return 1
    known = Known(new, every)
    for path in files("crates", ".antt", ".rt", ".edit"):
        old = open(path, encoding="utf-8").read()
        mark = "//" if path.endswith(".rt") else "--"
        if path.endswith(".edit"):
            text = "".join(turned(l, known) if l.startswith(("old:", "new:")) else in_prose(l, known) for l in old.splitlines(True))
        elif path.endswith(".rt"):
            text = "".join(in_code(l, here(new, path)) for l in old.splitlines(True))
        else:
            text = "".join(by_comment(l, mark, here(new, path)) for l in old.splitlines(True))
        if any(path.endswith(e) for e in EXAMPLES):
            text = "".join(l if l.lstrip().startswith("--") else EXAMPLE.sub(lambda m: "example_" + m.group(1).lower(), l) for l in text.splitlines(True))
        write(path, text, old)
    for top in ("docs", "README.md", "samples", "harness", "include"):
        for path in [top] if top.endswith(".md") else files(top, ".md"):
            old = open(path, encoding="utf-8").read()
            write(path, in_prose(old, known), old)
    return 0


# A lemma of a definition's name, by which the two would fall together, and the other names of that kind.
OWN = {
    "all_digits": "all_digits_lem",
    "no_number": "no_number_lem",
    "none_allowed": "none_allowed_lem",
    "told_of": "told_of_lem",
    "handedOut": "handed_over",
    "factMarks": "marks_of_facts",
    "ruleMarks": "marks_of_rules",
    "fact-marks": "fact_marks",
    "rule-marks": "rule_marks",
    # named in comments, or in proofs of one function
    "firedFrom": "fired_from",
    "upheldIn": "upheld_in",
    "missingFacts": "missing_facts",
    "viewVal": "view_val",
    "typeIn": "type_in",
    "toldVal": "told_val",
}

if __name__ == "__main__":
    sys.exit(main())
