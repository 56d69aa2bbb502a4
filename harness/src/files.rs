//! Random rule files of many shapes, valid and spoilt.

use crate::draft::{Draft, MOST_OWN_ITEMS, chain};
use crate::loads;
use crate::random::Random;
use reference::kind;

/// One draft in so many has unread facts.
const UNREAD_ONE_IN: usize = 3;

/// A valid draft of a random shape, within the cap. Most are small; few are large.
pub fn random_draft(random: &mut Random) -> Draft {
    let mut draft = match random.below(1000) {
        0..370 => scattered(random, 10, 14),
        370..380 => load(random),
        380..400 => wide(random),
        400..700 => choices(random),
        700..850 => guarded_chain(random),
        850..900 => scattered(random, 4, 30),
        900..993 => stacked(random),
        993..996 => many_rules(random),
        996..999 => many_facts(random),
        _ => crowded(random),
    };
    if random.one_in(UNREAD_ONE_IN) {
        name_unread(random, &mut draft);
    }
    draft
}

/// Names facts as unread, mostly few and mostly constraints, so that some of the exception
/// rules are withheld and others are not; at times as many as the constraints or more, and
/// at times one of them again.
fn name_unread(random: &mut Random, draft: &mut Draft) {
    let facts = usize::from(draft.facts);
    if facts == 0 {
        return;
    }
    let items = draft.rules.iter().flat_map(|rule| &rule.items);
    let constraints: Vec<u8> =
        items.filter(|(kind, _)| *kind == kind::CONSTRAINT).map(|&(_, fact)| fact).collect();
    let count = if random.one_in(8) { random.within(1, facts) } else { random.within(1, 2) };
    for _ in 0..count {
        let fact = if constraints.is_empty() || random.one_in(4) {
            random.below(facts) as u8
        } else {
            constraints[random.below(constraints.len())]
        };
        draft.unread.push(fact);
    }
    if random.one_in(4) {
        let again = draft.unread[random.below(draft.unread.len())];
        draft.unread.insert(random.below(draft.unread.len() + 1), again);
    }
}

fn some_facts(random: &mut Random, facts: usize, most: usize) -> Vec<usize> {
    (0..random.below(most + 1)).map(|_| random.below(facts)).collect()
}

/// What a test load writes: few facts and rules mostly, and any start.
fn load(random: &mut Random) -> Draft {
    let start = random.below(1 << 32) as u32;
    if random.one_in(20) {
        return loads::draft(start, random.within(1, 255), random.below(513));
    }
    loads::draft(start, random.within(1, 16), random.below(25))
}

/// Rules with random premises and constraints.
fn scattered(random: &mut Random, most_facts: usize, most_rules: usize) -> Draft {
    let facts = random.below(most_facts + 1);
    let mut draft = Draft::new(facts);
    if facts == 0 {
        return draft;
    }
    let (most_premises, most_constraints) = (random.below(4), random.below(4));
    for _ in 0..random.below(most_rules + 1) {
        let conclusion = random.below(facts);
        let premises = some_facts(random, facts, most_premises);
        let constraints =
            if random.one_in(2) { some_facts(random, facts, most_constraints) } else { vec![] };
        draft.rule(conclusion, &premises, &constraints);
    }
    draft
}

/// Pairs that exclude each other, so that there are several stable sets; some
/// members lead by plain rules to constraint facts, and odd loops that a member
/// guards take stable sets away again, at times all of them.
fn choices(random: &mut Random) -> Draft {
    let pairs = random.within(1, 4);
    let loops = random.below(3);
    let links = random.below(4);
    let mut draft = Draft::new(2 * pairs + loops + links);
    for pair in 0..pairs {
        draft.rule(2 * pair, &[], &[2 * pair + 1]);
        draft.rule(2 * pair + 1, &[], &[2 * pair]);
    }
    for odd in 0..loops {
        let guard = random.below(2 * pairs);
        draft.rule(2 * pairs + odd, &[guard], &[2 * pairs + odd]);
    }
    for link in 0..links {
        let middle = 2 * pairs + loops + link;
        draft.rule(middle, &[random.below(2 * pairs)], &[]);
        draft.rule(random.below(2 * pairs + loops), &[middle], &[]);
    }
    finish(random, draft)
}

/// A chain of plain rules, forward, backward or shuffled, that starts with an
/// exception rule and may end in one of its own constraints.
fn guarded_chain(random: &mut Random) -> Draft {
    let length = random.within(2, 12);
    let mut draft = Draft::new(length);
    draft.rule(0, &[], &[random.within(1, length - 1)]);
    if random.one_in(2) {
        draft.rule(random.below(length), &[random.below(length)], &[random.below(length)]);
    }
    let mut facts: Vec<usize> = (0..length).collect();
    if random.one_in(2) {
        facts.pop();
    }
    chain(&mut draft, &facts);
    match random.below(3) {
        0 => draft.rules.reverse(),
        1 => random.shuffle(&mut draft.rules),
        _ => {}
    }
    finish(random, draft)
}

/// A stratified file: each fact rests on lower ones, so one stable set exists.
fn stacked(random: &mut Random) -> Draft {
    let facts = random.within(2, 14);
    let mut draft = Draft::new(facts);
    for _ in 0..random.within(1, 20) {
        let conclusion = random.within(1, facts - 1);
        let premises = some_facts(random, conclusion, 2);
        let constraints = some_facts(random, conclusion, 2);
        draft.rule(conclusion, &premises, &constraints);
    }
    finish(random, draft)
}

/// Facts in levels, and rules with premises of their conclusion's level or lower ones
/// and constraints of lower ones, so that the file is layered; within a level facts
/// often wait for each other. At times a rule goes against the levels, which mostly
/// closes a cycle.
pub fn random_layers(random: &mut Random) -> Draft {
    let facts = if random.one_in(200) { random.within(40, 255) } else { random.within(1, 12) };
    let levels = random.within(1, facts);
    let level_of = |fact: usize| fact * levels / facts;
    let first_of = |level: usize| (level * facts).div_ceil(levels);
    let mut draft = Draft::new(facts);
    for _ in 0..random.within(1, 250.min(2 * facts)) {
        let conclusion = random.below(facts);
        let level = level_of(conclusion);
        let premises = some_facts(random, first_of(level + 1), 2);
        let constraints = if level == 0 { vec![] } else { some_facts(random, first_of(level), 2) };
        draft.rule(conclusion, &premises, &constraints);
    }
    if random.one_in(2) {
        let level = random.below(levels);
        let together: Vec<usize> = (first_of(level)..first_of(level + 1)).collect();
        chain(&mut draft, &together);
        draft.rule(together[0], &[together[together.len() - 1]], &[]);
    }
    if random.one_in(4) {
        let premises = some_facts(random, facts, 1);
        draft.rule(random.below(facts), &premises, &[random.below(facts)]);
    }
    let mut draft = finish(random, draft);
    if random.one_in(UNREAD_ONE_IN) {
        name_unread(random, &mut draft);
    }
    draft
}

/// Rules of which some are set aside under one order and not under another: rows of facts that
/// each want the next one out, and facts that want themselves out, at times only with another.
/// Equal rules are set aside together.
pub fn random_rivals(random: &mut Random) -> Draft {
    let rows: Vec<usize> = (0..random.within(1, 4)).map(|_| random.within(1, 4)).collect();
    let (loops, links) = (random.below(3), random.below(3));
    let in_rows: usize = rows.iter().map(|length| length + 1).sum();
    let mut draft = Draft::new(in_rows + loops);
    let mut first = 0;
    for length in rows {
        (first..first + length).for_each(|fact| draft.rule(fact, &[], &[fact + 1]));
        first += length + 1;
    }
    for odd in in_rows..in_rows + loops {
        let guards = some_facts(random, in_rows, 1);
        draft.rule(odd, &guards, &[odd]);
    }
    for _ in 0..links {
        let constraints = some_facts(random, in_rows, 1);
        draft.rule(random.below(in_rows), &[random.below(in_rows)], &constraints);
    }
    let mut draft = finish(random, draft);
    if random.one_in(UNREAD_ONE_IN) {
        name_unread(random, &mut draft);
    }
    draft
}

/// Rules that are as long as they may be, or a little shorter. Their premises are
/// mostly given and their constraints are facts that such rules conclude, so that
/// some of the rules exclude others.
fn wide(random: &mut Random) -> Draft {
    let facts = random.within(MOST_OWN_ITEMS, 40);
    let given = facts - random.within(2, 14);
    let mut draft = Draft::new(facts);
    (0..given).for_each(|fact| draft.rule(fact, &[], &[]));
    for _ in 0..random.within(2, 6) {
        let length = random.within(MOST_OWN_ITEMS - 3, MOST_OWN_ITEMS);
        let constraints = if random.one_in(3) { 0 } else { random.below(length + 1) };
        let conclusion = random.within(given, facts - 1);
        let premise = |random: &mut Random| {
            if random.one_in(60) { random.below(facts) } else { random.below(given) }
        };
        let premises: Vec<usize> = (constraints..length).map(|_| premise(random)).collect();
        let constraints: Vec<usize> =
            (0..constraints).map(|_| random.within(given, facts - 1)).collect();
        draft.rule(conclusion, &premises, &constraints);
    }
    finish(random, draft)
}

/// Rule numbers of 256 and more, few facts.
fn many_rules(random: &mut Random) -> Draft {
    let mut draft = if random.one_in(2) { choices(random) } else { scattered(random, 12, 60) };
    if draft.rules.is_empty() {
        return draft;
    }
    let copies = random.within(257, 512) - draft.rules.len();
    repeat_rules(random, &mut draft, copies);
    draft
}

/// High fact numbers, few rules that matter, long chains.
fn many_facts(random: &mut Random) -> Draft {
    let facts = random.within(100, 255);
    let mut draft = Draft::new(facts);
    let constraints: Vec<usize> = (0..8).map(|_| random.below(facts)).collect();
    for _ in 0..random.within(2, 12) {
        let constraint = constraints[random.below(constraints.len())];
        draft.rule(constraints[random.below(8)], &[], &[constraint]);
        let premise = random.below(facts);
        draft.rule(random.below(facts), &[premise], &[constraint]);
    }
    let mut middle: Vec<usize> = (0..facts).collect();
    random.shuffle(&mut middle);
    chain(&mut draft, &middle);
    if random.one_in(2) {
        random.shuffle(&mut draft.rules);
    }
    draft
}

/// About as many constraint facts as the search takes, in pairs and longer rings.
fn crowded(random: &mut Random) -> Draft {
    let facts = random.within(14, 18);
    let mut draft = Draft::new(facts + 1);
    let mut first = 0;
    while first < facts {
        let ring = random.within(2, 6).min(facts - first);
        for place in 0..ring {
            draft.rule(first + place, &[], &[first + (place + 1) % ring]);
        }
        first += ring;
    }
    draft.rule(facts, &[random.below(facts)], &[random.below(facts)]);
    finish(random, draft)
}

fn finish(random: &mut Random, mut draft: Draft) -> Draft {
    if random.one_in(2) {
        shuffle_facts(random, &mut draft);
    }
    if random.one_in(2) {
        random.shuffle(&mut draft.rules);
    }
    if random.one_in(4) {
        repeat_items(random, &mut draft);
    }
    if random.one_in(4) {
        let copies = random.within(1, 3);
        repeat_rules(random, &mut draft, copies);
    }
    draft
}

/// Renames the facts by a random permutation.
fn shuffle_facts(random: &mut Random, draft: &mut Draft) {
    let mut names: Vec<u8> = (0..draft.facts).collect();
    random.shuffle(&mut names);
    for rule in &mut draft.rules {
        rule.conclusion = names[usize::from(rule.conclusion)];
        for (_, fact) in &mut rule.items {
            *fact = names[usize::from(*fact)];
        }
    }
}

/// Repeats some items, and mixes premises with constraints.
fn repeat_items(random: &mut Random, draft: &mut Draft) {
    for rule in &mut draft.rules {
        if (1..MOST_OWN_ITEMS).contains(&rule.items.len()) && random.one_in(2) {
            let again = rule.items[random.below(rule.items.len())];
            rule.items.push(again);
            random.shuffle(&mut rule.items);
        }
    }
}

fn repeat_rules(random: &mut Random, draft: &mut Draft, copies: usize) {
    for _ in 0..copies {
        if !draft.rules.is_empty() {
            let copy = draft.rules[random.below(draft.rules.len())].clone();
            draft.rules.insert(random.below(draft.rules.len() + 1), copy);
        }
    }
}

/// Gives a rule as many items as the cap allows, one less, or one or two more. They
/// repeat its own, so that it says what it said before; a rule without any waits for
/// its conclusion.
pub fn lengthen_rule(random: &mut Random, draft: &mut Draft) {
    let chosen = random.below(draft.rules.len());
    let Some(rule) = draft.rules.get_mut(chosen) else { return };
    if rule.items.is_empty() {
        rule.items.push((kind::PREMISE, rule.conclusion));
    }
    let length = random.within(MOST_OWN_ITEMS - 1, MOST_OWN_ITEMS + 2);
    while rule.items.len() < length {
        let again = rule.items[random.below(rule.items.len())];
        rule.items.push(again);
    }
}

/// Puts a 07 item at any place behind the first item: mostly after a rule, at times before
/// one or behind the end, and at times of a fact that is too high.
pub fn misplace_unread(random: &mut Random, bytes: &mut Vec<u8>) {
    let facts = usize::from(bytes[1]);
    let fact = if random.one_in(6) { facts } else { random.below(facts) };
    let place = 2 + 2 * random.below(bytes.len() / 2);
    let place = place.min(bytes.len());
    bytes.splice(place..place, [kind::UNREAD, fact as u8]);
}

/// Changes the bytes of a file in one place; mostly it is then refused.
pub fn spoil_file(random: &mut Random, bytes: &mut Vec<u8>) {
    if random.one_in(500) {
        *bytes = oversized(random);
        return;
    }
    let place = random.below(bytes.len());
    match random.below(8) {
        0 => bytes.truncate(place),
        1 | 2 => change_byte(random, bytes, place),
        3 => bytes.insert(place, random.below(256) as u8),
        4 => bytes.push(random.below(256) as u8),
        5 => {
            bytes.remove(place);
        }
        6 => {
            let end = bytes.len() - 1;
            bytes[end] = bytes[end].wrapping_add(1);
        }
        _ => {
            let kinds = [kind::CONCLUSION, kind::PREMISE, kind::CONSTRAINT, kind::UNREAD];
            let item = [kinds[random.below(kinds.len())], random.below(12) as u8];
            bytes.splice(2..2, item);
        }
    }
}

/// More rules or more bytes than a file may have, by a little. Some are refused
/// for an unknown fact before that.
fn oversized(random: &mut Random) -> Vec<u8> {
    let mut draft = Draft::new(1);
    let rules = if random.one_in(2) { random.within(511, 515) } else { 16_382 };
    (0..rules).for_each(|_| draft.rule(0, &[], &[]));
    if random.one_in(2) {
        let unknown = random.within(510, 512);
        draft.rules.get_mut(unknown).into_iter().for_each(|rule| rule.conclusion = 1);
    }
    draft.bytes()
}

/// Often another kind, since a random byte is rarely one.
fn change_byte(random: &mut Random, bytes: &mut [u8], place: usize) {
    const KINDS: [u8; 6] = [
        kind::CONCLUSION,
        kind::PREMISE,
        kind::CONSTRAINT,
        kind::UNREAD,
        kind::RULE_COUNT,
        kind::FACT_COUNT,
    ];
    bytes[place] =
        if random.one_in(2) { KINDS[random.below(KINDS.len())] } else { random.below(256) as u8 };
}
