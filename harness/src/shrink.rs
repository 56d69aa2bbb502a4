//! Makes a failing case smaller as long as it still fails.

use crate::cases::{Case, Load};
use reference::{RULE_NUMBER_BYTES, STEP_BYTES, kind, load_bytes};
use std::ops::Range;
use std::time::{Duration, Instant};

/// Shrinking a large case stops here; what is left then is printed.
const TIME_LIMIT: Duration = Duration::from_secs(20);

/// The smallest case reached by single removals that still fails.
pub fn shrink(mut case: Case, fails: impl Fn(&Case) -> bool) -> Case {
    let started = Instant::now();
    let in_time = |_: &Case| started.elapsed() < TIME_LIMIT;
    loop {
        let smaller = smaller_cases(&case).take_while(in_time).find(&fails);
        match smaller {
            Some(smaller) => case = smaller,
            None => return case,
        }
    }
}

fn smaller_cases(case: &Case) -> impl Iterator<Item = Case> {
    let rules = rule_ranges(&case.file);
    let without_rules = cuts(rules.len()).map(move |cut| without_rules(case, &rules, cut));
    let items = case.file.len().saturating_sub(5) / 2;
    let without_items = cuts(items).map(move |cut| {
        let mut smaller = case.clone();
        smaller.file.drain(2 + 2 * cut.start..2 + 2 * cut.end);
        smaller
    });
    let without_fact = (0..=255).filter_map(move |fact| without_fact(case, fact));
    let shorter_rows = cut_row(case, |case| &mut case.rules, RULE_NUMBER_BYTES)
        .chain(cut_row(case, |case| &mut case.second, RULE_NUMBER_BYTES))
        .chain(cut_row(case, |case| &mut case.proof, STEP_BYTES))
        .chain(cut_row(case, |case| &mut case.set, 1))
        .chain(cut_row(case, |case| &mut case.rules, 1))
        .chain(cut_row(case, |case| &mut case.second, 1))
        .chain(cut_row(case, |case| &mut case.proof, 1))
        .chain(cut_row(case, |case| &mut case.file, 1));
    without_rules
        .chain(without_items)
        .chain(without_fact)
        .chain(smaller_loads(case))
        .chain(shorter_rows)
        .chain(shorter_buffers(case))
}

/// Ranges to leave out of a row of some length: halves, quarters, at last single
/// places.
fn cuts(length: usize) -> impl Iterator<Item = Range<usize>> {
    let sizes = std::iter::successors(Some(length / 2), |size| Some(size / 2));
    let sizes = sizes.take_while(|&size| size > 1).chain((length > 0).then_some(1));
    sizes.flat_map(move |size| {
        (0..length).step_by(size).map(move |start| start..length.min(start + size))
    })
}

fn cut_row<'c>(
    case: &'c Case,
    row: fn(&mut Case) -> &mut Vec<u8>,
    item_bytes: usize,
) -> impl Iterator<Item = Case> + 'c {
    let items = row(&mut case.clone()).len() / item_bytes;
    cuts(items).map(move |cut| {
        let mut smaller = case.clone();
        row(&mut smaller).drain(cut.start * item_bytes..cut.end * item_bytes);
        smaller
    })
}

fn shorter_buffers(case: &Case) -> impl Iterator<Item = Case> {
    (0..case.lent.len()).flat_map(move |buffer| {
        let length = case.lent[buffer];
        let shorter = [length / 2, length.saturating_sub(1)];
        shorter.into_iter().filter(move |&shorter| shorter < length).map(move |shorter| {
            let mut smaller = case.clone();
            smaller.lent[buffer] = shorter;
            smaller
        })
    })
}

/// One of the numbers of a load lowered; with fewer rules the buffer is as much shorter as
/// the file.
fn smaller_loads(case: &Case) -> impl Iterator<Item = Case> {
    let lowered = |number: u32| [0, number / 2, number.saturating_sub(1)];
    let load = case.load;
    // A start is lowered by whole bits, of which there are few.
    let starts = [0, load.start >> 1, load.start & load.start.saturating_sub(1)];
    let starts = starts.map(|start| Load { start, ..load }).into_iter();
    let facts = lowered(load.facts).map(|facts| Load { facts, ..load });
    let rules = lowered(load.rules).map(|rules| Load { rules, ..load });
    let others = starts.chain(facts).chain(rules).filter(move |other| *other != load);
    others.map(move |smaller| {
        let less = load_bytes(load.rules as usize) - load_bytes(smaller.rules as usize);
        let lent = case.lent.iter().map(|length| length.saturating_sub(less)).collect();
        Case { load: smaller, lent, ..case.clone() }
    })
}

/// Where each rule stands in the file, as far as it can be read.
fn rule_ranges(file: &[u8]) -> Vec<Range<usize>> {
    let mut rules: Vec<Range<usize>> = Vec::new();
    for start in (2..file.len().saturating_sub(1)).step_by(2) {
        match (file[start], rules.last_mut()) {
            (kind::UNREAD, None) => {}
            (kind::CONCLUSION, _) => rules.push(start..start + 2),
            (kind::PREMISE | kind::CONSTRAINT, Some(rule)) => rule.end = start + 2,
            _ => break,
        }
    }
    rules
}

/// Leaves out rules, and renumbers what names the rules after them.
fn without_rules(case: &Case, rules: &[Range<usize>], cut: Range<usize>) -> Case {
    let mut smaller = case.clone();
    smaller.file.drain(rules[cut.start].start..rules[cut.end - 1].end);
    lower_rule_count(&mut smaller.file, cut.len());
    smaller.rules = renumbered(&case.rules, RULE_NUMBER_BYTES, &cut);
    smaller.second = renumbered(&case.second, RULE_NUMBER_BYTES, &cut);
    smaller.proof = renumbered(&case.proof, STEP_BYTES, &cut);
    if case.operation.writes_a_run() {
        smaller.lent[1] = smaller.lent[1].saturating_sub(cut.len());
    }
    if let Some(buffer) = case.operation.order_buffer() {
        let is_exception = |rule: &Range<usize>| {
            case.file[rule.clone()].chunks(2).any(|item| item[0] == kind::CONSTRAINT)
        };
        let exceptions = rules[cut].iter().filter(|rule| is_exception(rule)).count();
        let less = RULE_NUMBER_BYTES * exceptions;
        smaller.lent[buffer] = smaller.lent[buffer].saturating_sub(less);
    }
    smaller
}

fn lower_rule_count(file: &mut [u8], by: usize) {
    if let Some([kind::RULE_COUNT, high, low]) = file.last_chunk_mut::<3>() {
        let count = u16::from_be_bytes([*high, *low]);
        [*high, *low] = count.saturating_sub(by as u16).to_be_bytes();
    }
}

/// The row without the items that name a rule of the cut. The rule number is at
/// the end of every item.
fn renumbered(row: &[u8], item_bytes: usize, cut: &Range<usize>) -> Vec<u8> {
    let mut kept = Vec::new();
    for item in row.chunks(item_bytes) {
        let [head @ .., high, low] = item else {
            kept.extend(item);
            continue;
        };
        let rule = usize::from(u16::from_be_bytes([*high, *low]));
        if item.len() == item_bytes && cut.contains(&rule) {
            continue;
        }
        let rule = if rule >= cut.end { rule - cut.len() } else { rule };
        kept.extend(head);
        kept.extend((rule as u16).to_be_bytes());
    }
    kept
}

/// Where the items that name facts stand: the unread facts, and the rules behind them.
fn fact_items(file: &[u8]) -> Range<usize> {
    let unread = file.get(2..).unwrap_or(&[]).chunks_exact(2);
    let unread = unread.take_while(|item| item[0] == kind::UNREAD).count();
    2..rule_ranges(file).last().map_or(2 + 2 * unread, |rule| rule.end)
}

/// Leaves out a fact that no item names, and renames the facts above it.
fn without_fact(case: &Case, fact: u8) -> Option<Case> {
    let facts = *case.file.get(1)?;
    let places = fact_items(&case.file).skip(1).step_by(2);
    if fact >= facts || places.clone().any(|place| case.file[place] == fact) {
        return None;
    }
    let mut smaller = case.clone();
    smaller.file[1] -= 1;
    places.for_each(|place| smaller.file[place] -= u8::from(smaller.file[place] > fact));
    for step in smaller.proof.chunks_exact_mut(STEP_BYTES) {
        step[1] -= u8::from(step[1] > fact);
    }
    if usize::from(fact) < smaller.set.len() {
        smaller.set.remove(usize::from(fact));
    }
    smaller.asked -= u32::from(smaller.asked > u32::from(fact));
    if case.operation.writes_a_run() {
        smaller.lent[0] = smaller.lent[0].saturating_sub(1);
        smaller.lent[2] = smaller.lent[2].saturating_sub(STEP_BYTES);
    }
    Some(smaller)
}
