//! Large rule files by name for what hands out an order by ranks: deep and shallow,
//! with long rows of constraints and with facts that wait for each other. Each takes
//! its number of rules, which go over the facts by turns, and how many items a rule
//! has of its own.

use crate::draft::Draft;
use crate::random::Random;

/// The most facts that a file can have.
const FACTS: usize = 255;
/// The highest fact.
const TOP: usize = FACTS - 1;

type Builder = fn(rules: usize, items: usize) -> Draft;

/// The files by name. A cycle goes through a constraint in the last two alone.
pub const FILES: [(&str, Builder); 11] = [
    ("ladder up", ladder_up),
    ("ladder down", ladder_down),
    ("two layers", two_layers),
    ("chain of cycles", chain_of_cycles),
    ("path both ways", path_both_ways),
    ("nested cycles", nested_cycles),
    ("one component", one_component),
    ("scattered", |rules, items| scattered(1, rules, items)),
    ("ring and teeth", ring_and_teeth),
    ("late constraint", late_constraint),
    ("self-constraint", self_constraint),
];

/// So many items of a row that has no end, and its first once more in the place of the
/// last, so that it is met first from either side.
fn filled(row: impl Iterator<Item = usize>, items: usize) -> Vec<usize> {
    let mut facts: Vec<usize> = row.take(items).collect();
    if let [first, .., last] = &mut facts[..] {
        *last = *first;
    }
    facts
}

/// The facts below, the nearest first; 0 is the last of them and comes again.
fn below(fact: usize) -> impl Iterator<Item = usize> {
    (1..).map(move |less| fact.saturating_sub(less))
}

/// The facts above, the nearest first; the highest is the last of them and comes again.
fn above(fact: usize, highest: usize) -> impl Iterator<Item = usize> {
    (1..).map(move |more| highest.min(fact + more))
}

/// Each fact has those below it as constraints: 255 ranks, as the facts go up.
fn ladder_up(rules: usize, items: usize) -> Draft {
    let mut draft = Draft::new(FACTS);
    for rule in 0..rules {
        let fact = 1 + rule % TOP;
        draft.rule(fact, &[], &filled(below(fact), items));
    }
    draft
}

/// Each fact has those above it as constraints: 255 ranks against the numbers, and a
/// walk from the lowest fact goes as deep as it can.
fn ladder_down(rules: usize, items: usize) -> Draft {
    let mut draft = Draft::new(FACTS);
    for rule in 0..rules {
        let fact = rule % TOP;
        draft.rule(fact, &[], &filled(above(fact, TOP), items));
    }
    draft
}

/// Three facts and three more wait for each other, and so on, each three above those
/// before them: a fact has the next of its three as its first premise, and all other
/// items are constraints of the three before.
fn chain_of_cycles(rules: usize, items: usize) -> Draft {
    let mut draft = Draft::new(FACTS);
    for rule in 0..rules {
        let fact = rule % FACTS;
        let first = fact - fact % 3;
        let next = first + (fact + 1) % 3;
        let before = (0..).map(|place| first - 1 - place % 3);
        match first {
            0 => draft.rule(fact, &vec![next; items], &[]),
            _ => draft.rule(fact, &[next], &before.take(items - 1).collect::<Vec<_>>()),
        }
    }
    draft
}

/// Each fact but the highest waits for those around it, and its last item is the
/// highest as a constraint: all rules have one rank.
fn path_both_ways(rules: usize, items: usize) -> Draft {
    let mut draft = Draft::new(FACTS);
    for rule in 0..rules {
        let fact = rule % TOP;
        let around = above(fact, TOP - 1).zip(below(fact)).flat_map(|(up, down)| [up, down]);
        draft.rule(fact, &around.take(items - 1).collect::<Vec<_>>(), &[TOP]);
    }
    draft
}

/// Each fact waits for those above it and as its last premise for the one below: a walk
/// from the lowest fact that comes back from the highest finds at each fact that it is
/// in one cycle more, around those before. The last item is the highest fact as a
/// constraint.
fn nested_cycles(rules: usize, items: usize) -> Draft {
    let mut draft = Draft::new(FACTS);
    for rule in 0..rules {
        let fact = rule % TOP;
        let nearest = below(fact).take(1);
        let premises = above(fact, TOP - 1).take(items - 2).chain(nearest);
        draft.rule(fact, &premises.collect::<Vec<_>>(), &[TOP]);
    }
    draft
}

/// Each fact but the highest waits for the next and for others without a plan, and its
/// last item is the highest as a constraint.
fn one_component(rules: usize, items: usize) -> Draft {
    let random = &mut Random::new(5, rules as u64);
    let mut draft = Draft::new(FACTS);
    for rule in 0..rules {
        let fact = rule % TOP;
        let mut premises = vec![(fact + 1) % TOP];
        premises.resize_with(items - 1, || random.below(TOP));
        random.shuffle(&mut premises);
        draft.rule(fact, &premises, &[TOP]);
    }
    draft
}

/// Conclusions without a plan, premises of no higher fact and constraints of lower ones,
/// in such an order as chance gives: what comes next in the file cannot be foreseen. The
/// facts have other numbers, so that these do not give the ranks.
pub fn scattered(seed: u64, rules: usize, items: usize) -> Draft {
    let random = &mut Random::new(seed, rules as u64);
    let mut names: Vec<usize> = (0..FACTS).collect();
    random.shuffle(&mut names);
    let mut draft = Draft::new(FACTS);
    for _ in 0..rules {
        let conclusion = random.within(1, TOP);
        let (mut premises, mut constraints) = (vec![], vec![]);
        for _ in 0..items {
            if random.one_in(2) {
                premises.push(names[random.below(conclusion + 1)]);
            } else {
                constraints.push(names[random.below(conclusion)]);
            }
        }
        draft.rule(names[conclusion], &premises, &constraints);
        let rule = draft.rules.last_mut().expect("a rule was just made");
        random.shuffle(&mut rule.items);
    }
    draft
}

/// The lower half is a ring by premises, and then its lowest fact waits for each of the
/// upper ones, which no rule concludes: a walk that goes back from each of them to that
/// fact along its open facts passes the whole ring each time.
pub fn ring_and_teeth(rules: usize, items: usize) -> Draft {
    const RING: usize = FACTS / 2;
    let mut draft = Draft::new(FACTS);
    for rule in 0..rules {
        let turn = rule % FACTS;
        let (fact, next) = match turn {
            RING => (RING, 0),
            turn if turn < RING => (turn, turn + 1),
            turn => (0, turn),
        };
        draft.rule(fact, &vec![next; items], &[]);
    }
    draft
}

/// A ring of all facts by premises, each fact waiting for those after it. The last rule
/// concludes the lowest fact, and its last item is a constraint.
fn late_constraint(rules: usize, items: usize) -> Draft {
    let mut draft = Draft::new(FACTS);
    for rule in 0..rules {
        let fact = if rule == rules - 1 { 0 } else { rule % FACTS };
        let after: Vec<usize> = (1..=items).map(|more| (fact + more) % FACTS).collect();
        if rule < rules - 1 {
            draft.rule(fact, &after, &[]);
        } else {
            draft.rule(fact, &after[..items - 1], &after[items - 1..]);
        }
    }
    draft
}

/// Two shallow layers: the rules of the first half conclude the upper facts and have
/// lower ones as constraints, those of the second half conclude the lower facts and have
/// the highest as a constraint.
fn two_layers(rules: usize, items: usize) -> Draft {
    let lower = TOP / 2;
    let mut draft = Draft::new(FACTS);
    for rule in 0..rules {
        if rule < rules / 2 {
            let constraints: Vec<usize> =
                (0..items).map(|place| (7 * rule + place) % lower).collect();
            draft.rule(lower + rule % (TOP - lower), &[], &constraints);
        } else {
            draft.rule(rule % lower, &[], &vec![TOP; items]);
        }
    }
    draft
}

/// The two layers, above a fact that is a constraint of itself, by the last rule.
fn self_constraint(rules: usize, items: usize) -> Draft {
    let mut draft = two_layers(rules - 1, items);
    draft.rule(TOP, &[], &vec![TOP; items]);
    draft
}
