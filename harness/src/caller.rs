//! What a caller does with the answer of a search, as cases: the search; the
//! check of the row for each fact in the set; for facts outside it a row that
//! tries; and the run under the search's order, in equal buffers. And what a caller
//! does with grounds: the grounds of each fact that the run derives; the check of
//! that row; and the check of what is left of it without any one step. And what a
//! caller does with an order by ranks: the run under it, which sets nothing aside; the
//! judge on where that ends; and the search, which ends there too. And what a caller does with
//! two orders: the run under each, and the better of both, either way round.
//!
//! The inputs of the checks, of the run and of the judge come from the reference's
//! search, grounds or order. If the engine's agree with them, they are what a caller
//! reads from the engine's own buffers.

use crate::cases::{Case, Operation, Reply};
use crate::list::{Buffers, Named};
use reference::{RULE_NUMBER_BYTES, RuleFile, STEP_BYTES, kind};

/// The most constraint facts that the search takes.
const MOST_GUESSED: usize = 16;
/// The refusal of a search that finds no set.
const NO_STABLE_SET: u32 = 41;
/// The mark of a rule that is set aside.
const SET_ASIDE: u8 = 2;

/// The reply of an operation that hands nothing back.
fn reply(numbers: Vec<u32>, buffers: Vec<Vec<u8>>) -> Reply {
    Reply { numbers, handed_back: vec![], buffers }
}

/// The run of a file under an order, in buffers of these lengths.
fn run_under(order: &[u8], file: &[u8], lengths: &[usize]) -> Case {
    Case { rules: order.to_vec(), lent: lengths.to_vec(), ..Case::new(Operation::Run, file) }
}

/// The cases for a file; only the search where it is to refuse.
pub fn cases(
    name: &str,
    file: &[u8],
    lent: &Buffers,
    refused: Option<u32>,
) -> Result<Vec<Named>, String> {
    let title = |what: &str| format!("{name}, as a caller: {what}");
    let search = Case { lent: lent.lengths.clone(), ..Case::new(Operation::Search, file) };
    if let Some(refusal) = refused {
        let untouched = lent.lengths.iter().map(|&length| vec![lent.fill; length]).collect();
        let expected = reply(vec![refusal, 0, 0], untouched);
        return Ok(vec![Named::new(title("the search"), search, lent.fill, expected)?]);
    }
    let found = search.expected(|_| lent.fill);
    if found.numbers[0] != 0 {
        return Err(format!("{name}: the search refuses with {}", found.numbers[0]));
    }
    let parsed = RuleFile::parse(file).expect("the search did not refuse it");
    let mut cases = vec![Named::new(title("the search"), search, lent.fill, found.clone())?];
    let answer = Answer::of(&parsed, found);
    let rows = answer.rows().chain(answer.attempts(&parsed));
    for row in rows {
        cases.push(row.checked(title(&row.what), file, &answer.set)?);
    }
    let run = run_under(&answer.order, file, &lent.lengths[..3]);
    cases.push(Named::new(title("the run under its order"), run, lent.fill, answer.same_run)?);
    Ok(cases)
}

/// The search of a file in buffers that just suffice, where it finds a set with these
/// constraint facts and no others, or no set.
pub fn earliest(name: &str, file: &[u8], guess: Option<&[u8]>, fill: u8) -> Result<Named, String> {
    let parsed = RuleFile::parse(file).map_err(|refusal| format!("{name}: {refusal:?}"))?;
    let counts = reference::accept(file).expect("it was parsed");
    let order = RULE_NUMBER_BYTES * counts.exceptions;
    let lent = vec![counts.facts, counts.rules, STEP_BYTES * counts.facts, order];
    let search = Case { lent, ..Case::new(Operation::Search, file) };
    let reply = search.expected(|_| fill);
    let found = match reply.numbers[0] {
        0 => Some(guess_of(&parsed, &reply.buffers[0])),
        NO_STABLE_SET => None,
        refusal => return Err(format!("{name}: the search refuses with {refusal}")),
    };
    if found.as_deref() != guess {
        return Err(format!("{name}: the reference finds {found:?}"));
    }
    Named::new(name.to_string(), search, fill, reply)
}

/// The constraint facts that are in, by the fact marks.
fn guess_of(file: &RuleFile, fact_marks: &[u8]) -> Vec<u8> {
    let constrains = |rule: usize, fact: usize| {
        !file.is_withheld(rule) && file.rules[rule].constraints.contains(fact)
    };
    let is_guessed = |fact: usize| (0..file.rules.len()).any(|rule| constrains(rule, fact));
    let facts = 0..file.facts;
    facts.filter(|&fact| fact_marks[fact] == 1 && is_guessed(fact)).map(|fact| fact as u8).collect()
}

/// The cases of grounds under an order. The marks must be the run's.
pub fn grounds(
    name: &str,
    file: &[u8],
    order: &[u8],
    lent: &Buffers,
) -> Result<Vec<Named>, String> {
    let title = |what: &str| format!("{name}, as a caller: {what}");
    let run = run_under(order, file, &lent.lengths);
    let end = run.expected(|_| lent.fill);
    let parsed = RuleFile::parse(file).map_err(|refusal| format!("{name}: {refusal:?}"))?;
    let set: Vec<u8> = end.buffers[0].iter().take(parsed.facts).map(in_set).collect();
    let mut cases = Vec::new();
    for fact in (0..set.len()).filter(|&fact| set[fact] == 1) {
        let call = Case { operation: Operation::Grounds, asked: fact as u32, ..run.clone() };
        let found = call.expected(|_| lent.fill);
        let kept = found.buffers[2][..STEP_BYTES * found.numbers[1] as usize].to_vec();
        let mut expected = reply(found.numbers, end.buffers.clone());
        expected.buffers[2].clone_from(&found.buffers[2]);
        cases.push(Named::new(
            title(&format!("the grounds of {fact}")),
            call,
            lent.fill,
            expected,
        )?);
        for row in rows_of_grounds(fact, &kept) {
            cases.push(row.checked(title(&row.what), file, &set)?);
        }
    }
    if cases.is_empty() { Err(format!("{name}: nothing is derived")) } else { Ok(cases) }
}

/// The cases of an order by ranks. The buffers are those of a search, which is left out
/// where the file has too many constraint facts for it.
pub fn layered(name: &str, file: &[u8], lent: &Buffers) -> Result<Vec<Named>, String> {
    let title = |what: &str| format!("{name}, by its layers: {what}");
    let counts = reference::accept(file).map_err(|refusal| format!("{name}: {refusal:?}"))?;
    let set_in = |fact_marks: &[u8]| fact_marks[..counts.facts].iter().map(in_set).collect();
    let with = |lent: &[usize], operation: Operation| Case {
        lent: lent.to_vec(),
        ..Case::new(operation, file)
    };
    let layers = with(&lent.lengths[3..], Operation::Layered);
    let ordered = layers.expected(|_| lent.fill);
    if ordered.numbers[0] != 0 {
        return Err(format!("{name}: the layers are refused with {}", ordered.numbers[0]));
    }
    let order = ordered.buffers[0][..RULE_NUMBER_BYTES * counts.exceptions].to_vec();
    let run = run_under(&order, file, &lent.lengths[..3]);
    let end = run.expected(|_| lent.fill);
    if end.buffers[1][..counts.rules].contains(&SET_ASIDE) {
        return Err(format!("{name}: the run under its order sets a rule aside"));
    }
    let set: Vec<u8> = set_in(&end.buffers[0]);
    let judge = Case { set: set.clone(), ..with(&[], Operation::Judge) };
    let stable = reply(vec![0, 1], vec![]);
    let mut cases = vec![
        Named::new(title("the order"), layers, lent.fill, ordered)?,
        Named::new(title("the run under it"), run, lent.fill, end)?,
        Named::new(title("its end is stable"), judge, 0, stable)?,
    ];
    if counts.constraint_facts <= MOST_GUESSED {
        let search = with(&lent.lengths, Operation::Search);
        let found = search.expected(|_| lent.fill);
        if found.numbers[0] != 0 || set_in(&found.buffers[0]) != set {
            return Err(format!("{name}: the search does not find where the run ends"));
        }
        cases.push(Named::new(title("the search"), search, lent.fill, found)?);
    }
    Ok(cases)
}

/// The cases of two orders. Which is the better one is read from the marks of the runs.
pub fn better(
    name: &str,
    file: &[u8],
    orders: [&[u8]; 2],
    lent: &Buffers,
) -> Result<Vec<Named>, String> {
    let title = |what: &str| format!("{name}, as a caller: {what}");
    let counts = reference::accept(file).map_err(|refusal| format!("{name}: {refusal:?}"))?;
    let mut cases = Vec::new();
    let mut aside = [0; 2];
    for (place, which) in ["first", "second"].into_iter().enumerate() {
        let run = run_under(orders[place], file, &lent.lengths);
        let end = run.expected(|_| lent.fill);
        if end.numbers[0] != 0 {
            return Err(format!("{name}: the run is refused with {}", end.numbers[0]));
        }
        let marks = end.buffers[1][..counts.rules].iter();
        aside[place] = marks.filter(|&&mark| mark == SET_ASIDE).count();
        let what = format!("the run under the {which} order, {} set aside", aside[place]);
        cases.push(Named::new(title(&what), run, lent.fill, end)?);
    }
    for (what, [one, other]) in [("the better of both", [0, 1]), ("the same, exchanged", [1, 0])] {
        let case = Case {
            rules: orders[one].to_vec(),
            second: orders[other].to_vec(),
            ..Case::new(Operation::Better, file)
        };
        let numbers = vec![0, if aside[other] < aside[one] { 2 } else { 1 }];
        let handed_back = case.handed_back(&numbers);
        let expected = Reply { numbers, handed_back, buffers: vec![] };
        cases.push(Named::new(title(what), case, lent.fill, expected)?);
    }
    Ok(cases)
}

/// The kept steps, which prove the fact, and all but one of them, which do not:
/// "no proof of that fact uses only some of its rules".
fn rows_of_grounds(fact: usize, kept: &[u8]) -> Vec<Row> {
    let whole = Row {
        what: format!("the row kept for {fact}"),
        asked: fact,
        steps: kept.to_vec(),
        verdict: true,
    };
    let without = |number: usize| {
        let place = STEP_BYTES * number;
        Row {
            what: format!("no row for {fact} without step {number}"),
            asked: fact,
            steps: [&kept[..place], &kept[place + STEP_BYTES..]].concat(),
            verdict: false,
        }
    };
    let shorter = (0..kept.len() / STEP_BYTES).map(without);
    std::iter::once(whole).chain(shorter).collect()
}

/// What a mark says of its fact in the set that a caller hands to the check.
fn in_set(&mark: &u8) -> u8 {
    u8::from(mark == 1)
}

/// What a caller reads from the buffers of a search.
struct Answer {
    set: Vec<u8>,
    steps: Vec<u8>,
    order: Vec<u8>,
    /// The search's counts and its first three buffers, which the run must give.
    same_run: Reply,
}

/// A row for a fact, with the verdict that demand 3 or wish 1 gives it.
struct Row {
    what: String,
    asked: usize,
    steps: Vec<u8>,
    verdict: bool,
}

impl Row {
    /// The check of the row in a set.
    fn checked(&self, title: String, file: &[u8], set: &[u8]) -> Result<Named, String> {
        let check = Case {
            set: set.to_vec(),
            asked: self.asked as u32,
            proof: self.steps.clone(),
            ..Case::new(Operation::Check, file)
        };
        let expected = reply(vec![0, u32::from(self.verdict)], vec![]);
        Named::new(title, check, 0, expected)
    }
}

impl Answer {
    fn of(file: &RuleFile, found: Reply) -> Answer {
        let [fact_marks, _, steps, order] = &found.buffers[..] else {
            unreachable!("a search lends four buffers")
        };
        Answer {
            set: fact_marks[..file.facts].iter().map(in_set).collect(),
            steps: steps[..STEP_BYTES * found.numbers[2] as usize].to_vec(),
            order: order[..RULE_NUMBER_BYTES * file.exceptions().count()].to_vec(),
            same_run: reply(found.numbers.clone(), found.buffers[..3].to_vec()),
        }
    }

    /// For each fact in the set the steps up to its own.
    fn rows(&self) -> impl Iterator<Item = Row> {
        let facts = (0..self.set.len()).filter(|&fact| self.set[fact] == 1);
        facts.map(|fact| {
            let own = |step: &[u8]| usize::from(step[1]) == fact;
            let last = self.steps.chunks(STEP_BYTES).position(own);
            let last = last.expect("every fact of the set has a step");
            Row {
                what: format!("the row for {fact}"),
                asked: fact,
                steps: self.steps[..STEP_BYTES * (last + 1)].to_vec(),
                verdict: true,
            }
        })
    }

    /// For each rule that concludes a fact outside the set, all steps and then
    /// that rule; and the same by rule 0 for the first fact that no rule
    /// concludes.
    fn attempts(&self, file: &RuleFile) -> impl Iterator<Item = Row> {
        let outside = |&fact: &usize| self.set[fact] == 0;
        let concluding = file.rules.iter().enumerate().map(|(rule, body)| (body.conclusion, rule));
        let concluding: Vec<_> = concluding.filter(|(fact, _)| outside(fact)).collect();
        let concluded = |fact: usize| file.rules.iter().any(|rule| rule.conclusion == fact);
        let other = (0..file.facts).filter(outside).find(|&fact| !concluded(fact));
        let other = other.filter(|_| !file.rules.is_empty()).map(|fact| (fact, 0));
        concluding.into_iter().chain(other).map(|(fact, rule)| {
            let [high, low] = (rule as u16).to_be_bytes();
            Row {
                what: format!("no row for {fact} by rule {rule}"),
                asked: fact,
                steps: [&self.steps[..], &[kind::STEP, fact as u8, high, low]].concat(),
                verdict: false,
            }
        })
    }
}
