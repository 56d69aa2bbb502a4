//! The search and the order by ranks against the stable models of clingo, where it is
//! installed.

use crate::archive;
use crate::files::{random_draft, random_layers};
use crate::hard;
use crate::random::Random;
use reference::{RULE_NUMBER_BYTES, Rule, RuleFile, STEP_BYTES};
use std::collections::BTreeSet;
use std::fmt::Write as _;
use std::io::{ErrorKind, Write as _};
use std::process::{Command, Stdio};

const FILES: usize = 400;
/// The files of each hard family.
const HARD_FILES: u64 = 6;
const MOST_CONSTRAINT_FACTS: usize = 16;
const MOST_RULES: usize = 100;
/// At least one file in so many is layered.
const LAYERED_ONE_IN: u64 = 10;
/// The mark of a rule that is set aside.
const SET_ASIDE: u8 = 2;

type Model = BTreeSet<usize>;

/// Compares some hundreds of files for the search, those that are hard for it, and as many
/// layered ones. An error names the first difference.
pub fn compare(seed: u64) -> Result<(), String> {
    if !is_installed()? {
        println!("clingo is not on PATH: that comparison is left out");
        return Ok(());
    }
    compare_searches(seed)?;
    compare_hard(seed)?;
    compare_layers(seed)
}

/// What the search finds in a file, where clingo's earliest set is the same.
fn compare_search(parsed: &RuleFile, file: &[u8]) -> Result<Option<Model>, String> {
    let models = stable_models(&program(parsed))?;
    let earliest = earliest(parsed, models);
    let found = archive_set(file);
    if found != earliest {
        return Err(format!(
            "clingo's earliest set {earliest:?}, the search's {found:?}, file {file:02X?}"
        ));
    }
    Ok(found)
}

fn compare_searches(seed: u64) -> Result<(), String> {
    let mut without = 0;
    let mut withheld = 0;
    let mut compared = 0;
    for stream in 0.. {
        let file = random_draft(&mut Random::new(seed ^ 0xC11_6060, stream)).bytes();
        let counts = reference::accept(&file).expect("a draft is accepted");
        if counts.constraint_facts > MOST_CONSTRAINT_FACTS || counts.rules > MOST_RULES {
            continue;
        }
        let parsed = RuleFile::parse(&file).expect("a draft is accepted");
        let found = compare_search(&parsed, &file)?;
        without += usize::from(found.is_none());
        withheld += usize::from(has_withheld(&parsed));
        compared += 1;
        if compared == FILES {
            break;
        }
    }
    println!(
        "clingo agrees on {compared} files, {without} of them without a stable set, {withheld} \
         with rules withheld"
    );
    Ok(())
}

/// Each family of hard files, with seeds from this one on.
fn compare_hard(seed: u64) -> Result<(), String> {
    let (mut without, mut compared) = (0, 0);
    for (_, family) in hard::FAMILIES {
        for (number, order) in (seed..seed + HARD_FILES).zip(hard::RULE_ORDERS.into_iter().cycle())
        {
            let file = family(number, order).bytes();
            let parsed = RuleFile::parse(&file).expect("a draft is accepted");
            without += usize::from(compare_search(&parsed, &file)?.is_none());
            compared += 1;
        }
    }
    println!("clingo agrees on {compared} hard files, {without} of them without a stable set");
    Ok(())
}

/// A layered file has one stable set, at which the run under the order by ranks ends.
fn compare_layers(seed: u64) -> Result<(), String> {
    let mut cyclic = 0;
    let mut withheld = 0;
    let mut compared = 0;
    for stream in 0..LAYERED_ONE_IN * FILES as u64 {
        let random = &mut Random::new(seed ^ 0x1A_7E25, stream);
        let draft = if random.one_in(4) { random_draft(random) } else { random_layers(random) };
        let file = draft.bytes();
        if draft.rules.len() > MOST_RULES {
            continue;
        }
        let Some(end) = archive_end(&file)? else {
            cyclic += 1;
            continue;
        };
        let parsed = RuleFile::parse(&file).expect("a draft is accepted");
        let models = stable_models(&program(&parsed))?;
        if models[..] != [end.clone()] {
            return Err(format!(
                "clingo's sets {models:?}, the run ends at {end:?}, file {file:02X?}"
            ));
        }
        withheld += usize::from(has_withheld(&parsed));
        compared += 1;
        if compared == FILES {
            println!(
                "clingo agrees on {compared} layered files, {withheld} of them with rules \
                 withheld, met with {cyclic} others"
            );
            return Ok(());
        }
    }
    Err(format!("only {compared} files were layered"))
}

fn is_installed() -> Result<bool, String> {
    match Command::new("clingo").arg("--version").stdout(Stdio::null()).status() {
        Ok(_) => Ok(true),
        Err(error) if error.kind() == ErrorKind::NotFound => Ok(false),
        Err(error) => Err(format!("clingo does not start: {error}")),
    }
}

fn has_withheld(file: &RuleFile) -> bool {
    rules_in_force(file).count() < file.rules.len()
}

fn rules_in_force(file: &RuleFile) -> impl Iterator<Item = &Rule> {
    let numbered = file.rules.iter().enumerate();
    numbered.filter(|&(number, _)| !file.is_withheld(number)).map(|(_, rule)| rule)
}

/// The rules in force as a logic program: a premise as an atom, a constraint negated.
fn program(file: &RuleFile) -> String {
    let mut text = String::new();
    for rule in rules_in_force(file) {
        let premises = (0..file.facts).filter(|&fact| rule.premises.contains(fact));
        let constraints = (0..file.facts).filter(|&fact| rule.constraints.contains(fact));
        let body: Vec<String> = premises
            .map(|fact| format!("f{fact}"))
            .chain(constraints.map(|fact| format!("not f{fact}")))
            .collect();
        let arrow = if body.is_empty() { "" } else { " :- " };
        writeln!(text, "f{}{}{}.", rule.conclusion, arrow, body.join(", "))
            .expect("a string takes every line");
    }
    text
}

fn stable_models(program: &str) -> Result<Vec<Model>, String> {
    let failed = |error: std::io::Error| format!("clingo: {error}");
    let mut clingo = Command::new("clingo")
        .args(["-n", "0", "-"])
        .stdin(Stdio::piped())
        .stdout(Stdio::piped())
        .stderr(Stdio::null())
        .spawn()
        .map_err(failed)?;
    let mut input = clingo.stdin.take().expect("the input is piped");
    input.write_all(program.as_bytes()).map_err(failed)?;
    drop(input);
    let output = clingo.wait_with_output().map_err(failed)?;
    models_in(&String::from_utf8_lossy(&output.stdout))
}

/// Each line after an "Answer: n" line is one model, as its atoms. The exit
/// status is no sign of failure, so the closing word of the text is.
fn models_in(text: &str) -> Result<Vec<Model>, String> {
    if !text.lines().any(|line| line == "SATISFIABLE" || line == "UNSATISFIABLE") {
        return Err(format!("clingo gave no result: {text}"));
    }
    let mut lines = text.lines();
    let mut models = Vec::new();
    while let Some(line) = lines.next() {
        if line.starts_with("Answer:") {
            let atoms = lines.next().unwrap_or("").split_whitespace();
            let numbers = atoms.map(|atom| atom.trim_start_matches('f').parse());
            let model: Result<Model, _> = numbers.collect();
            models.push(model.map_err(|_| format!("clingo gave an unknown atom: {text}"))?);
        }
    }
    Ok(models)
}

/// The earlier of two sets lacks the highest constraint fact on which they
/// differ: it comes first when both are read from the highest fact down.
fn earliest(file: &RuleFile, models: Vec<Model>) -> Option<Model> {
    let is_constraint =
        |fact: &usize| rules_in_force(file).any(|rule| rule.constraints.contains(*fact));
    let constraints: Vec<usize> = (0..file.facts).rev().filter(is_constraint).collect();
    models.into_iter().min_by_key(|model| {
        constraints.iter().map(|fact| model.contains(fact)).collect::<Vec<bool>>()
    })
}

/// The set of the archive's search, or none where it says that there is none.
fn archive_set(file: &[u8]) -> Option<Model> {
    let counts = reference::accept(file).expect("a draft is accepted");
    let mut fact_marks = vec![0; counts.facts];
    let mut rule_marks = vec![0; counts.rules];
    let mut steps = vec![0; STEP_BYTES * counts.facts];
    let mut order = vec![0; RULE_NUMBER_BYTES * counts.exceptions];
    let reply = archive::search(file, &mut fact_marks, &mut rule_marks, &mut steps, &mut order);
    let marked = |&fact: &usize| fact_marks[fact] == 1;
    (reply[0] == 0).then(|| (0..counts.facts).filter(marked).collect())
}

/// Where the archive's run under its order by ranks ends, or none where it says that a
/// cycle goes through a constraint.
fn archive_end(file: &[u8]) -> Result<Option<Model>, String> {
    let counts = reference::accept(file).expect("a draft is accepted");
    let mut order = vec![0; RULE_NUMBER_BYTES * counts.exceptions];
    match archive::layered(file, &mut order)[0] {
        0 => {}
        52 => return Ok(None),
        refusal => return Err(format!("the layers are refused with {refusal}, file {file:02X?}")),
    }
    let mut fact_marks = vec![0; counts.facts];
    let mut rule_marks = vec![0; counts.rules];
    let mut steps = vec![0; STEP_BYTES * counts.facts];
    let reply = archive::run(file, &order, &mut fact_marks, &mut rule_marks, &mut steps);
    if reply[0] != 0 || rule_marks.contains(&SET_ASIDE) {
        return Err(format!(
            "the run under the order by ranks: reply {reply:?}, rule marks {rule_marks:?}, \
             file {file:02X?}"
        ));
    }
    let marked = |&fact: &usize| fact_marks[fact] == 1;
    Ok(Some((0..counts.facts).filter(marked).collect()))
}
