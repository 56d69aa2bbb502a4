//! The list of named cases: text that says for each case its operation, its
//! inputs and buffers, and the reply and the bytes that are expected.
//!
//! A line that begins with `#` is a comment; one that begins with a blank goes on
//! with the line before. A line is one of:
//!
//! - `let <name> = <file>` names a file, for the lines after it;
//! - `lend <operation> <lengths> of <byte>` says which buffers the cases of an
//!   operation after it lend, and what every byte of them holds before;
//! - `<operation> <name> | <field> | ..` is a case;
//! - `all <name> | file <file> | refused <number>` is a case of every operation on a
//!   file: the file gets that number although everything else that is handed over would get
//!   a no too;
//! - `sets <name> | file <file> | stable <set> | ..` is a case of the judge for every
//!   set of facts: these are stable, with no rule listed, and no other is;
//! - `kinds <operation> <name> | but <kinds> | <field> | ..` is a case for every kind
//!   but these: it stands in the place of `??`, in the name too;
//! - `earliest <name> | file <file> | in <facts>` is a case of the search, in buffers that just
//!   suffice: of the constraint facts these are in the set that it finds, and the rest is the
//!   reference's. With `none fits` for the facts there is no such set;
//! - `caller <name> | file <file> | lent ..` is a row of cases (see `caller.rs`), and
//!   with `refused <number>` only the search that refuses; with `order <order>` it is
//!   those of grounds, with `layered` those of an order by ranks, and with `first <order>`
//!   and `second <order>` those of two orders.
//!
//! Inputs are the fields `file`, `order`, `list`, `set`, `asked`, `row`, of a load
//! `start`, `facts`, `rules`, of two orders `first`, `second`, and, for other buffers than
//! before, `lent`. What is expected is `refused <number>`, with every count 0, nothing handed
//! back and every buffer as it was; or the counts, as `1 stages, 2 steps`, `2 kept`, `2 named`
//! or `11 bytes`, or a verdict, or the order that is handed back, as `the first` or `the
//! second`; and the buffers that are written: `facts`, `rules`, `steps`, `order`, `text`, of a
//! load `file`, each from its start, and past that as it was. Better is lent no buffer; the
//! byte of its `lent none of <byte>` is what stands behind the order that is handed back, in
//! the vectors.
//!
//! The reference must agree with everything that is expected.

use crate::caller;
use crate::cases::{Case, Operation, Reply};
use crate::notation::{bytes, facts_of, file, lines, number, rule_numbers, steps};
use reference::accept;
use std::collections::{BTreeMap, BTreeSet};

/// A file for which every set is judged has no more facts.
const MOST_FACTS_OF_SETS: usize = 6;

/// A case with its name, what its buffers hold before, and what is expected.
pub struct Named {
    pub name: String,
    pub case: Case,
    pub fill: u8,
    pub expected: Reply,
}

impl Named {
    /// The case, if the reference gives what is expected of it.
    pub fn new(name: String, case: Case, fill: u8, expected: Reply) -> Result<Named, String> {
        let reference = case.expected(|_| fill);
        if reference != expected {
            return Err(format!(
                "{name}: the list expects\n{expected:?}\nand the reference\n{reference:?}"
            ));
        }
        Ok(Named { name: format!("{} {name}", case.operation.name()), case, fill, expected })
    }
}

/// The lengths of lent buffers, and the byte that they hold before.
#[derive(Clone)]
pub struct Buffers {
    pub lengths: Vec<usize>,
    pub fill: u8,
}

#[derive(Default)]
pub struct List {
    files: BTreeMap<String, Vec<u8>>,
    lent: BTreeMap<String, Buffers>,
    pub cases: Vec<Named>,
    names: BTreeSet<String>,
}

impl List {
    /// Takes in the text of one file of the list.
    pub fn read(&mut self, text: &str) -> Result<(), String> {
        for (place, line) in joined_lines(text) {
            self.line(&line).map_err(|message| format!("line {place}: {message}"))?;
        }
        Ok(())
    }

    fn line(&mut self, line: &str) -> Result<(), String> {
        let (word, rest) = line.split_once(' ').unwrap_or((line, ""));
        match word {
            "let" => {
                let (name, text) = rest.split_once(" = ").ok_or("a name, =, and a file")?;
                let bytes = file(text, &self.files)?;
                let new = self.files.insert(name.trim().to_string(), bytes).is_none();
                if new { Ok(()) } else { Err(format!("a second file {name}")) }
            }
            "lend" => {
                let (operation, text) = rest.split_once(' ').ok_or("an operation and lengths")?;
                self.lent.insert(operation.to_string(), lent(text)?);
                Ok(())
            }
            "all" => self.all(rest)?.into_iter().try_for_each(|case| self.put(case)),
            "sets" => self.sets(rest)?.into_iter().try_for_each(|case| self.put(case)),
            "kinds" => self.kinds(rest)?.into_iter().try_for_each(|case| self.put(case)),
            "earliest" => self.earliest(rest).and_then(|case| self.put(case)),
            "caller" => self.caller(rest)?.into_iter().try_for_each(|case| self.put(case)),
            _ => self.case(operation_of(word)?, rest).and_then(|case| self.put(case)),
        }
    }

    fn put(&mut self, case: Named) -> Result<(), String> {
        if !self.names.insert(case.name.clone()) {
            return Err(format!("a second case {:?}", case.name));
        }
        self.cases.push(case);
        Ok(())
    }

    fn lent_to(&self, word: &str) -> Buffers {
        self.lent.get(word).cloned().unwrap_or(Buffers { lengths: vec![], fill: 0 })
    }

    fn earliest(&self, text: &str) -> Result<Named, String> {
        let fields: Vec<&str> = text.split('|').map(str::trim).collect();
        let [name, file_field, found] = fields[..] else { return Err("three fields".to_string()) };
        let bytes = file(file_field.strip_prefix("file ").ok_or("no file")?, &self.files)?;
        let guess = match found {
            "none fits" => None,
            _ => Some(facts_of(found.strip_prefix("in ").ok_or("not the facts that are in")?)?),
        };
        caller::earliest(name, &bytes, guess.as_deref(), self.lent_to("search").fill)
    }

    fn caller(&self, text: &str) -> Result<Vec<Named>, String> {
        let mut fields = text.split('|').map(str::trim);
        let name = fields.next().unwrap_or_default();
        let (mut bytes, mut buffers, mut refused, mut order) = (None, None, None, None);
        let (mut layered, mut first, mut second) = (false, None, None);
        for field in fields {
            match field.split_once(' ') {
                None if field == "layered" => layered = true,
                Some(("file", text)) => bytes = Some(file(text, &self.files)?),
                Some(("lent", text)) => buffers = Some(lent(text)?),
                Some(("refused", text)) => refused = Some(number(text)?),
                Some(("order", text)) => order = Some(rule_numbers(text)?),
                Some(("first", text)) => first = Some(rule_numbers(text)?),
                Some(("second", text)) => second = Some(rule_numbers(text)?),
                _ => return Err(format!("not a field of a caller: {field:?}")),
            }
        }
        let bytes = bytes.ok_or("no file")?;
        let lent = |word: &str| buffers.unwrap_or_else(|| self.lent_to(word));
        match (order, first, second) {
            (Some(order), ..) => caller::grounds(name, &bytes, &order, &lent("grounds")),
            (_, Some(first), Some(second)) => {
                caller::better(name, &bytes, [&first, &second], &lent("run"))
            }
            _ if layered => caller::layered(name, &bytes, &lent("search")),
            _ => caller::cases(name, &bytes, &lent("search"), refused),
        }
    }

    fn sets(&self, text: &str) -> Result<Vec<Named>, String> {
        let mut fields = text.split('|').map(str::trim);
        let (name, file_field) =
            (fields.next().unwrap_or_default(), fields.next().unwrap_or_default());
        let file_text = file_field.strip_prefix("file ").ok_or("no file")?;
        let facts = accept(&file(file_text, &self.files)?).map_err(|no| format!("{no:?}"))?.facts;
        let set = |field: &str| bytes(field.strip_prefix("stable ").ok_or("not a stable set")?);
        let stable: BTreeSet<Vec<u8>> = fields.map(set).collect::<Result<_, String>>()?;
        if facts > MOST_FACTS_OF_SETS || stable.iter().any(|set| set.len() != facts) {
            return Err(format!("{name}: too many facts, or not the sets of this file"));
        }
        let case = |number: usize| {
            let set: Vec<u8> = (0..facts).map(|fact| (number >> fact & 1) as u8).collect();
            let digits: Vec<String> = set.iter().map(u8::to_string).collect();
            let digits = if facts == 0 { "none".to_string() } else { digits.join(" ") };
            let verdict = if stable.contains(&set) { "stable" } else { "not stable" };
            let fields = format!("{file_field} | list none | set {digits} | {verdict}");
            self.case(Operation::Judge, &format!("{name}, every set: {digits} | {fields}"))
        };
        (0..1 << facts).map(case).collect()
    }

    fn kinds(&self, text: &str) -> Result<Vec<Named>, String> {
        let (word, rest) = text.split_once(' ').ok_or("an operation and a case")?;
        let operation = operation_of(word)?;
        let (name, rest) = rest.split_once(" | but ").ok_or("no kinds that are left out")?;
        let (left_out, fields) = rest.split_once(" | ").ok_or("no fields")?;
        let left_out = bytes(&format!("hex {left_out}"))?;
        if !name.contains("??") || !fields.contains("??") {
            return Err(format!("{name}: no place for the kind"));
        }
        let case = |kind: u8| {
            let text = format!("{name} | {fields}").replace("??", &format!("{kind:02X}"));
            self.case(operation, &text)
        };
        (0..=u8::MAX).filter(|kind| !left_out.contains(kind)).map(case).collect()
    }

    /// The calls of a refused file: cut rows, a byte 2 for a set, a fact that no
    /// file has, and one byte for each buffer.
    fn all(&self, text: &str) -> Result<Vec<Named>, String> {
        let fields: Vec<&str> = text.split('|').map(str::trim).collect();
        let [name, file, refused] = fields[..] else { return Err("three fields".to_string()) };
        let case = |operation: Operation| {
            let others = match operation {
                Operation::Accept | Operation::Panel => "",
                Operation::Run => "| order hex 05 | lent 1 1 1 of 9",
                Operation::Judge => "| list hex 05 | set 2",
                Operation::Check => "| set 2 | asked 4294967295 | row hex 06",
                Operation::Search => "| lent 1 1 1 1 of 9",
                Operation::AskOrder => "| order hex 05",
                Operation::AskList => "| list hex 05",
                Operation::AskSet => "| set 2",
                Operation::AskRow => "| asked 4294967295 | row hex 06",
                Operation::Grounds => "| order hex 05 | asked 4294967295 | lent 1 1 1 of 9",
                Operation::Layered => "| lent 1 of 9",
                Operation::Load => unreachable!("a load reads no file"),
                Operation::Better => "| first hex 05 | second hex 06 00 | lent none of 9",
            };
            let expected = match operation {
                Operation::Panel => refused.replace("refused", "text E"),
                _ => refused.to_string(),
            };
            self.case(operation, &format!("{name} | {file} {others} | {expected}"))
        };
        Operation::ALL.into_iter().filter(|operation| operation.reads_a_file()).map(case).collect()
    }

    fn case(&self, operation: Operation, text: &str) -> Result<Named, String> {
        let mut fields = text.split('|').map(str::trim);
        let name = fields.next().unwrap_or_default().to_string();
        let mut draft = CaseDraft::new(operation, self.lent_to(operation.name()));
        for field in fields {
            if !draft.input(field, &self.files)? && !draft.output(field, &self.files)? {
                return Err(format!("not a field of {}: {field:?}", operation.name()));
            }
        }
        draft.finish(name)
    }
}

fn operation_of(word: &str) -> Result<Operation, String> {
    let of_word = |operation: &Operation| operation.name() == word;
    Operation::ALL.into_iter().find(of_word).ok_or_else(|| format!("no operation: {word:?}"))
}

/// Lines without comments, those that begin with a blank joined to the line
/// before, each with the place of its beginning.
fn joined_lines(text: &str) -> Vec<(usize, String)> {
    let mut all: Vec<(usize, String)> = Vec::new();
    for (place, line) in text.lines().enumerate() {
        if line.trim().is_empty() || line.starts_with('#') {
            continue;
        }
        match all.last_mut() {
            Some((_, before)) if line.starts_with(' ') => {
                *before += " ";
                *before += line.trim();
            }
            _ => all.push((place + 1, line.trim_end().to_string())),
        }
    }
    all
}

/// `8 8 28 of 9`, or `none of 9`.
fn lent(text: &str) -> Result<Buffers, String> {
    let (lengths, fill) = text.split_once(" of ").ok_or("lengths, of, and a byte")?;
    let lengths = if lengths == "none" { "" } else { lengths };
    let lengths: Result<Vec<usize>, String> = lengths.split_whitespace().map(number).collect();
    Ok(Buffers { lengths: lengths?, fill: number(fill)? })
}

/// `1 stages, 2 steps`: the numbers, if the words after them are these.
fn counted(field: &str, names: &[&str]) -> Result<Vec<u32>, String> {
    let parts: Vec<&str> = field.split(", ").collect();
    if parts.len() != names.len() {
        return Err(format!("the counts are {names:?}: {field:?}"));
    }
    let count = |(part, name): (&str, &&str)| {
        let (count, word) = part.split_once(' ').unwrap_or((part, ""));
        if word == *name { number(count) } else { Err(format!("not {name}: {part:?}")) }
    };
    parts.into_iter().zip(names).map(count).collect()
}

/// The reply of an operation whose answer is said in words.
fn answer_in_words(operation: Operation, field: &str) -> Option<Vec<u32>> {
    match (operation, field) {
        (Operation::Judge, "stable") | (Operation::Check, "yes") => Some(vec![0, 1]),
        (Operation::Judge, "not stable") | (Operation::Check, "no") => Some(vec![0, 0]),
        (Operation::Better, "the first") => Some(vec![0, 1]),
        (Operation::Better, "the second") => Some(vec![0, 2]),
        (question, "yes") if question.is_question() => Some(vec![0]),
        _ => None,
    }
}

/// A case as far as its fields were read.
struct CaseDraft {
    case: Case,
    fill: u8,
    /// The inputs that the operation takes and that were not given yet.
    missing: Vec<&'static str>,
    numbers: Option<Vec<u32>>,
    /// What is written at the start of each buffer.
    written: Vec<Option<Vec<u8>>>,
}

impl CaseDraft {
    fn new(operation: Operation, lent: Buffers) -> CaseDraft {
        let missing: &[&str] = match operation {
            Operation::Accept | Operation::Search | Operation::Panel | Operation::Layered => {
                &["file"]
            }
            Operation::Run | Operation::AskOrder => &["file", "order"],
            Operation::Judge => &["file", "list", "set"],
            Operation::Check => &["file", "set", "asked", "row"],
            Operation::AskList => &["file", "list"],
            Operation::AskSet => &["file", "set"],
            Operation::AskRow => &["file", "asked", "row"],
            Operation::Grounds => &["file", "order", "asked"],
            Operation::Load => &["start", "facts", "rules"],
            Operation::Better => &["file", "first", "second"],
        };
        let mut draft = CaseDraft {
            case: Case::new(operation, &[]),
            fill: 0,
            missing: missing.to_vec(),
            numbers: None,
            written: vec![],
        };
        draft.lend(lent);
        draft
    }

    fn lend(&mut self, lent: Buffers) {
        self.written = vec![None; lent.lengths.len()];
        self.case.lent = lent.lengths;
        self.fill = lent.fill;
    }

    /// Takes a field that is an input of the operation.
    fn input(&mut self, field: &str, files: &BTreeMap<String, Vec<u8>>) -> Result<bool, String> {
        let (word, text) = field.split_once(' ').unwrap_or((field, ""));
        if word == "lent" {
            self.lend(lent(text)?);
            return Ok(true);
        }
        let Some(place) = self.missing.iter().position(|missing| *missing == word) else {
            return Ok(false);
        };
        self.missing.remove(place);
        match word {
            "file" => self.case.file = file(text, files)?,
            "order" | "list" | "first" => self.case.rules = rule_numbers(text)?,
            "second" => self.case.second = rule_numbers(text)?,
            "set" => self.case.set = bytes(text)?,
            "asked" => self.case.asked = number(text)?,
            "start" => self.case.load.start = number(text)?,
            "facts" => self.case.load.facts = number(text)?,
            "rules" => self.case.load.rules = number(text)?,
            _ => self.case.proof = steps(text)?,
        }
        Ok(true)
    }

    /// Takes a field that is expected of the operation.
    fn output(&mut self, field: &str, files: &BTreeMap<String, Vec<u8>>) -> Result<bool, String> {
        let (word, text) = field.split_once(' ').unwrap_or((field, ""));
        if let Some(refusal) = field.strip_prefix("refused ") {
            let mut numbers = vec![0; self.numbers_of_a_reply()];
            numbers[0] = number(refusal)?;
            self.written.fill(Some(vec![]));
            return self.reply(numbers);
        }
        if let Some(numbers) = answer_in_words(self.case.operation, field) {
            return self.reply(numbers);
        }
        match (self.case.operation, word) {
            (writes, "facts") if writes.writes_a_run() => self.wrote(0, bytes(text)?),
            (writes, "rules") if writes.writes_a_run() => self.wrote(1, bytes(text)?),
            (writes, "steps") if writes.writes_a_run() => self.wrote(2, steps(text)?),
            (Operation::Search, "order") => self.wrote(3, rule_numbers(text)?),
            (Operation::Layered, "order") => self.wrote(0, rule_numbers(text)?),
            (Operation::Load, "file") => self.wrote(0, file(text, files)?),
            (Operation::Panel, "text") => {
                let text = lines(text);
                self.reply(vec![text.len() as u32])?;
                self.wrote(0, text)
            }
            (Operation::Panel, "length") => {
                let length = text.strip_suffix(", nothing written").ok_or("nothing written?")?;
                self.wrote(0, vec![])?;
                self.reply(vec![number(length)?])
            }
            (Operation::Accept, _) => {
                let names = ["facts", "rules", "exceptions", "constraints", "step bytes"];
                self.reply([vec![0], counted(field, &names)?].concat())
            }
            (Operation::Run | Operation::Search, _) => {
                self.reply([vec![0], counted(field, &["stages", "steps"])?].concat())
            }
            (Operation::Grounds, _) => self.reply([vec![0], counted(field, &["kept"])?].concat()),
            (Operation::Layered, _) => self.reply([vec![0], counted(field, &["named"])?].concat()),
            (Operation::Load, _) => self.reply([vec![0], counted(field, &["bytes"])?].concat()),
            _ => Ok(false),
        }
    }

    fn numbers_of_a_reply(&self) -> usize {
        match self.case.operation {
            Operation::Accept => 6,
            Operation::Run | Operation::Search => 3,
            Operation::Judge | Operation::Check => 2,
            Operation::Grounds | Operation::Layered | Operation::Load => 2,
            Operation::Better => 2,
            _ => 1,
        }
    }

    fn reply(&mut self, numbers: Vec<u32>) -> Result<bool, String> {
        match self.numbers.replace(numbers) {
            None => Ok(true),
            Some(_) => Err("two replies".to_string()),
        }
    }

    fn wrote(&mut self, buffer: usize, bytes: Vec<u8>) -> Result<bool, String> {
        let lent = self.written.get_mut(buffer).ok_or("that buffer is not lent")?;
        match lent.replace(bytes) {
            None => Ok(true),
            Some(_) => Err("a buffer twice".to_string()),
        }
    }

    fn finish(self, name: String) -> Result<Named, String> {
        if !self.missing.is_empty() {
            return Err(format!("{name}: no {}", self.missing.join(", no ")));
        }
        let numbers = self.numbers.ok_or_else(|| format!("{name}: no reply"))?;
        let mut buffers = Vec::new();
        for (written, &length) in self.written.into_iter().zip(&self.case.lent) {
            let mut buffer = written.ok_or_else(|| format!("{name}: what is in each buffer?"))?;
            if buffer.len() > length {
                return Err(format!("{name}: more is written than was lent"));
            }
            buffer.resize(length, self.fill);
            buffers.push(buffer);
        }
        let handed_back = self.case.handed_back(&numbers);
        Named::new(name, self.case, self.fill, Reply { numbers, handed_back, buffers })
    }
}
