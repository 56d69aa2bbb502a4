//! Rule files that are hard for the search, made from a seed: 16 constraint facts, which
//! are the lowest facts, and as many rules as may be.
//!
//! What a guess derives can only shrink as the guess grows, so of two stable sets none
//! holds all constraint facts of the other. A file leaves the search much to guess where
//! half of some facts must be in, whichever they are, and where nothing is wrong with a
//! part of a guess.

use crate::counting;
use crate::draft::{Draft, MOST_OWN_ITEMS};
use crate::random::Random;

/// The most facts that a file can have.
const FACTS: usize = 255;
/// The most rules that a file can have.
const RULES: usize = 512;
/// The most constraint facts that the search takes.
const GUESSED: usize = 16;

/// How the rules stand in the file.
#[derive(Clone, Copy, Debug)]
pub enum RuleOrder {
    /// A rule after those that conclude its premises, as far as there is such an order.
    Forward,
    Backward,
    Shuffled,
}

pub const RULE_ORDERS: [RuleOrder; 3] =
    [RuleOrder::Forward, RuleOrder::Backward, RuleOrder::Shuffled];

type Builder = fn(seed: u64, order: RuleOrder) -> Draft;

/// The families by name.
pub const FAMILIES: [(&str, Builder); 4] =
    [("late", late), ("ring", ring), ("threshold", threshold), ("parity", parity)];

/// A file that is being made.
struct Maker {
    draft: Draft,
    random: Random,
    /// The lowest fact that no rule has yet.
    unused: usize,
}

impl Maker {
    fn new(seed: u64) -> Maker {
        let random = Random::new(seed, RULES as u64);
        Maker { draft: Draft::new(FACTS), random, unused: GUESSED }
    }

    fn fact(&mut self) -> usize {
        self.unused += 1;
        self.unused - 1
    }

    /// The constraint facts, in an order by chance.
    fn guessed(&mut self) -> Vec<usize> {
        let mut facts: Vec<usize> = (0..GUESSED).collect();
        self.random.shuffle(&mut facts);
        facts
    }

    /// For each of these facts one that says that it is out.
    fn absences(&mut self, facts: &[usize]) -> Vec<usize> {
        counting::absences(&mut self.draft, &mut self.unused, facts)
    }

    /// A fact that is derived where at least so many of these are.
    fn count_to(&mut self, facts: &[usize], least: usize) -> usize {
        counting::count_to(&mut self.draft, &mut self.unused, facts, least)
    }

    /// A rule as wide as may be, with premises from `low` to `high`, this one among them.
    fn wide_rule(&mut self, conclusion: usize, low: usize, high: usize) {
        let others = (1..MOST_OWN_ITEMS).map(|_| self.random.within(low, high));
        let premises: Vec<usize> = others.chain([high]).collect();
        self.draft.rule(conclusion, &premises, &[]);
    }

    /// The file with its rules in that order, and before that as many rules as may be:
    /// wide ones behind all others, for facts that nothing else has.
    fn finish(mut self, order: RuleOrder) -> Draft {
        let highest = self.unused - 1;
        let above = FACTS - self.unused;
        for number in 0..RULES - self.draft.rules.len() {
            let conclusion = self.unused + number % above;
            self.wide_rule(conclusion, GUESSED, highest);
        }
        match order {
            RuleOrder::Forward => {}
            RuleOrder::Backward => self.draft.rules.reverse(),
            RuleOrder::Shuffled => self.random.shuffle(&mut self.draft.rules),
        }
        self.draft
    }
}

/// A small file by chance in which the guesses are refuted almost one by one: some of the
/// constraint facts are counted, and follow where enough of them are out; others exclude each
/// other in pairs. Where one of each pair is in, none of these guesses fits; a few further rules
/// lead from the other one to counted facts, and from anything to anything.
pub fn counting(seed: u64) -> Draft {
    let random = &mut Random::new(seed, FACTS as u64);
    let (counted, pairs) = (random.within(7, 10), random.below(3));
    let guessed = counted + 2 * pairs;
    let mut facts: Vec<usize> = (0..guessed).collect();
    random.shuffle(&mut facts);
    let mut draft = Draft::new(FACTS);
    let mut unused = guessed;
    let absent = counting::absences(&mut draft, &mut unused, &facts[..counted]);
    let least = random.within(counted / 2, counted / 2 + 2);
    let enough = counting::count_to(&mut draft, &mut unused, &absent, least);
    for pair in facts[counted..].chunks(2) {
        draft.rule(pair[0], &[], &[pair[1]]);
        draft.rule(pair[1], &[], &[pair[0]]);
    }
    let (counted, paired) = facts.split_at(counted);
    let wrong: Vec<usize> = paired.iter().step_by(2).copied().chain([enough]).collect();
    counted.iter().for_each(|&fact| draft.rule(fact, &wrong, &[]));
    for _ in 0..random.below(6) {
        let premise = paired.get(random.below(paired.len()) | 1).unwrap_or(&enough);
        draft.rule(counted[random.below(counted.len())], &[*premise], &[]);
    }
    for _ in 0..random.below(3) {
        let premises: Vec<usize> = (0..random.within(2, 5)).map(|_| random.below(unused)).collect();
        let out: Vec<usize> = (0..random.below(3)).map(|_| random.below(guessed)).collect();
        draft.rule(random.below(unused), &premises, &out);
    }
    random.shuffle(&mut draft.rules);
    Draft { facts: unused as u8, ..draft }
}

/// No stable set: everything rests on the absence of the lowest constraint fact, that
/// fact itself too, by a tower of wide rules. No other guess says anything, so a search
/// that goes down the facts is wrong only once it has guessed all of them.
fn late(seed: u64, order: RuleOrder) -> Draft {
    let mut maker = Maker::new(seed);
    let lowest = maker.fact();
    let second = maker.fact();
    maker.draft.rule(lowest, &[], &[0]);
    maker.draft.rule(second, &[lowest], &[]);
    for guessed in 1..GUESSED {
        maker.draft.rule(second, &[lowest], &[guessed]);
    }
    while maker.unused < FACTS - 1 {
        let fact = maker.fact();
        (0..2).for_each(|_| maker.wide_rule(fact, lowest, fact - 1));
    }
    let top = maker.unused - 1;
    (0..GUESSED).for_each(|guessed| maker.wide_rule(guessed, lowest, top));
    maker.finish(order)
}

/// No stable set: a cycle of 200 facts, which the absence of any constraint fact enters at
/// a place of its own, and which derives each of them at another place. That takes the
/// absence of the lowest one as well, and for odd seeds of 5 of the 9 lowest, so that
/// refuted sets do not decide the file.
fn ring(seed: u64, order: RuleOrder) -> Draft {
    let mut maker = Maker::new(seed);
    let length = 200;
    let (lowest, least) = if seed % 2 == 0 { (1, 1) } else { (9, 5) };
    let absent = maker.absences(&(0..lowest).collect::<Vec<_>>());
    let enough = maker.count_to(&absent, least);
    let facts: Vec<usize> = (0..length).map(|_| maker.fact()).collect();
    for guessed in 0..GUESSED {
        let entry = facts[maker.random.below(length)];
        maker.draft.rule(entry, &[], &[guessed]);
    }
    for place in 0..length {
        let next = facts[(place + 1) % length];
        maker.draft.rule(next, &[facts[place]], &[]);
        // The same from as many facts before as may be; it comes later in every case.
        let before = (0..MOST_OWN_ITEMS).map(|less| facts[(place + length - less) % length]);
        maker.draft.rule(next, &before.collect::<Vec<_>>(), &[]);
    }
    for guessed in 0..GUESSED {
        let exit = facts[maker.random.below(length)];
        maker.draft.rule(guessed, &[exit, enough], &[]);
    }
    maker.finish(order)
}

/// All constraint facts are derived where at least 9 of them are out, and none where fewer
/// are: what refutes the guesses with 7 in says nothing of another such guess. Even seeds
/// have no stable set. The others have one, of 8 constraint facts with the highest four
/// among them, which derive themselves where all others are out.
fn threshold(seed: u64, order: RuleOrder) -> Draft {
    let mut maker = Maker::new(seed);
    let (least, in_stable) = (9, 8);
    let guessed = maker.guessed();
    let absent = maker.absences(&guessed);
    let enough = maker.count_to(&absent, least);
    guessed.iter().for_each(|&fact| maker.draft.rule(fact, &[enough], &[]));
    if seed % 2 == 1 {
        let mut facts: Vec<usize> = (0..GUESSED - 4).collect();
        maker.random.shuffle(&mut facts);
        let others = &facts[..GUESSED - in_stable];
        let is_other = |fact: &usize| others.contains(fact);
        let wanted: Vec<usize> =
            (0..GUESSED).filter(|&place| is_other(&guessed[place])).map(|p| absent[p]).collect();
        for fact in (0..GUESSED).filter(|fact| !is_other(fact)) {
            maker.draft.rule(fact, &wanted, &[]);
        }
    }
    maker.finish(order)
}

/// Groups of constraint facts of which half must be in, by turns of the seed 256, 1296
/// and 2400 guesses; parities of some of them that refute half of these guesses each. Even
/// seeds have no stable set, since the last parity is the first one again, wanted the other
/// way. The others have the latest of all the guesses that the groups leave: what differs
/// from it on a high fact is refuted too, but only with the first parity, so that still
/// nothing is wrong with a part of a guess.
fn parity(seed: u64, order: RuleOrder) -> Draft {
    let mut maker = Maker::new(seed);
    let sizes: &[usize] = match seed / 2 % 3 {
        0 => &[2; 8],
        1 => &[4; 4],
        _ => &[6, 6, 4],
    };
    let latest = groups(&mut maker, sizes);
    let absent = maker.absences(&(0..GUESSED).collect::<Vec<_>>());
    let wrong = maker.fact();
    let parities = 6;
    let first = maker.guessed()[..11].to_vec();
    for number in 0..parities {
        let others = maker.guessed()[..11].to_vec();
        let again = seed % 2 == 0 && number == parities - 1;
        let facts = if number == 0 || again { &first } else { &others };
        let mut both = parity_of(&mut maker, facts, &absent);
        if (facts.iter().filter(|&&fact| latest[fact]).count() % 2 == 1) != again {
            both.reverse();
        }
        let [wanted, refuted] = both;
        maker.draft.rule(wrong, &[refuted], &[]);
        if seed % 2 == 1 && number == 0 {
            (GUESSED / 2..GUESSED)
                .filter(|&fact| latest[fact])
                .for_each(|fact| maker.draft.rule(wrong, &[wanted, absent[fact]], &[]));
        }
    }
    (0..GUESSED).for_each(|fact| maker.draft.rule(fact, &[wrong], &[]));
    maker.finish(order)
}

/// Groups of so many constraint facts, from the lowest up, of which half must be in; gives
/// the facts of the latest guess that they leave.
fn groups(maker: &mut Maker, sizes: &[usize]) -> [bool; GUESSED] {
    let mut latest = [false; GUESSED];
    let mut end = 0;
    for size in sizes {
        half_of(maker, &(end..end + size).collect::<Vec<_>>());
        end += size;
        latest[end - size / 2..end].fill(true);
    }
    latest
}

/// Lets half of these facts be in, whichever: each is derived where as many others are out.
fn half_of(maker: &mut Maker, group: &[usize]) {
    let half = group.len() / 2;
    for &fact in group {
        let others: Vec<usize> = group.iter().copied().filter(|&other| other != fact).collect();
        for chosen in 0_usize..1 << others.len() {
            if chosen.count_ones() as usize == half {
                let places = (0..others.len()).filter(|place| chosen >> place & 1 == 1);
                let out: Vec<usize> = places.map(|place| others[place]).collect();
                maker.draft.rule(fact, &[], &out);
            }
        }
    }
}

/// Two facts that say whether an even or an odd number of these is in, by a gate for each.
fn parity_of(maker: &mut Maker, facts: &[usize], absent: &[usize]) -> [usize; 2] {
    let [mut even, mut odd] = [absent[facts[0]], facts[0]];
    for &fact in &facts[1..] {
        let [next_even, next_odd] = [maker.fact(), maker.fact()];
        let out = absent[fact];
        for (conclusion, premises) in [
            (next_even, [even, out]),
            (next_even, [odd, fact]),
            (next_odd, [odd, out]),
            (next_odd, [even, fact]),
        ] {
            maker.draft.rule(conclusion, &premises, &[]);
        }
        [even, odd] = [next_even, next_odd];
    }
    [even, odd]
}
