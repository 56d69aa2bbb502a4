//! Large rule files by a name and a count, for the list of named cases.

use crate::draft::{Draft, MOST_OWN_ITEMS};

/// The most facts that a file can have.
const FACTS: usize = 255;
/// The most rules that a file can have.
const RULES: usize = 512;

/// The rules 0<!0, 0<!1 and so on up to the last constraint fact, by turns.
pub fn exceptions(rules: usize, constraint_facts: usize) -> Draft {
    let mut draft = Draft::new(FACTS);
    (0..rules).for_each(|rule| draft.rule(0, &[], &[rule % constraint_facts]));
    draft
}

/// The rules 0<!1, 1<!2 and so on up to 254<!0, by turns.
pub fn ring(rules: usize) -> Draft {
    let mut draft = Draft::new(FACTS);
    (0..rules).for_each(|rule| draft.rule(rule % FACTS, &[], &[(rule + 1) % FACTS]));
    draft
}

/// The rule 0<!1, then 1<!2 for all others: where it stands first in the order they are set
/// aside, all of them, and else none is.
pub fn rivals(rules: usize) -> Draft {
    let mut draft = Draft::new(FACTS);
    (0..rules).for_each(|rule| {
        let fact = usize::from(rule > 0);
        draft.rule(fact, &[], &[fact + 1]);
    });
    draft
}

/// A file with 16 constraint facts and no stable set. Fact 0 wants itself out; 1
/// to 15 want it out, and 16 wants each of them out, so none is sure before 0 is
/// decided; the others are a chain from 1 down, each rule before the one that it
/// waits for.
pub fn tangled(rules: usize) -> Draft {
    let mut draft = Draft::new(FACTS);
    for rule in 0..rules {
        let link = rule % 200 + 20;
        match rule {
            0..15 => draft.rule(rule + 1, &[], &[0]),
            15..30 => draft.rule(16, &[], &[rule - 14]),
            30 => draft.rule(0, &[], &[0]),
            _ if rule % 200 == 199 => draft.rule(link, &[1], &[]),
            _ => draft.rule(link, &[link + 1], &[]),
        }
    }
    draft
}

/// Eight pairs that exclude each other, so 16 constraint facts and 256 stable
/// sets; a chain of plain rules from fact 0 over the facts 16 to 59; then
/// exception rules for the facts of that chain, each against a fact of a pair.
pub fn ladder(rules: usize) -> Draft {
    let (pairs, top) = (16, 60);
    let mut draft = Draft::new(top);
    for fact in 0..pairs {
        draft.rule(fact, &[], &[fact ^ 1]);
    }
    draft.rule(pairs, &[0], &[]);
    for fact in pairs + 1..top {
        draft.rule(fact, &[fact - 1], &[]);
    }
    for rule in draft.rules.len()..rules {
        draft.rule(pairs + rule % (top - pairs), &[], &[rule % pairs]);
    }
    draft
}

/// A chain over the facts 0 to 7 by the first and last rules of some of the words
/// of 64 in which 512 rule numbers stand, from the last down; the other rules are
/// 254<254, which never derives anything.
pub fn words() -> Draft {
    let mut draft = Draft::new(FACTS);
    (0..512).for_each(|_| draft.rule(254, &[254], &[]));
    let chain = [511, 448, 447, 128, 127, 64, 63, 0];
    for (fact, rule) in chain.into_iter().enumerate() {
        let premises: Vec<usize> = fact.checked_sub(1).into_iter().collect();
        draft.rule(fact, &premises, &[]);
        draft.rules.swap_remove(rule);
    }
    draft
}

/// The full files by name: how many of its 24 items a rule has as premises, by its
/// number. Where all are premises nothing is derived.
pub const FULL: [(&str, fn(usize) -> usize); 4] = [
    ("full premises", |_| MOST_OWN_ITEMS),
    ("full constraints", |_| 0),
    ("full mixed", |rule| rule % MOST_OWN_ITEMS),
    ("full after one exception", |rule| if rule == 0 { 0 } else { MOST_OWN_ITEMS }),
];

/// The longest files without unread facts that are accepted: as many rules as may be,
/// each with as many items of its own as may be. The rules go up the facts 0 to 237 by
/// turns, from the facts right below, and the last alone goes on to 238, so that its
/// items matter though they stand last. Constraints are the 16 facts above, which no
/// rule concludes. Odd rules have their constraints first.
pub fn full(premises: fn(usize) -> usize) -> Draft {
    let (top, last) = (238, RULES - 1);
    let constraint_facts = FACTS - (top + 1);
    let mut draft = Draft::new(FACTS);
    for rule in 0..RULES {
        let conclusion = if rule == last { top } else { rule % top };
        let premises = premises(rule);
        let below: Vec<usize> =
            (1..=premises).map(|less| conclusion.saturating_sub(less)).collect();
        let above: Vec<usize> = (premises..MOST_OWN_ITEMS)
            .map(|place| top + 1 + (rule + place) % constraint_facts)
            .collect();
        draft.rule(conclusion, &below, &above);
        if rule % 2 == 1 {
            draft.rules[rule].items.reverse();
        }
    }
    draft
}
