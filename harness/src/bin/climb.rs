//! Climbs at random to accepted rule files on which the archive's search is slow, and keeps the
//! slowest.
//!
//! climb <minutes> <seed> <path>
//!
//! A climb begins with a file that is made to be hard, with a mix of two, with a random one or
//! with the slowest so far, and takes a changed file where it is not faster. After some tries
//! without gain the next climb begins. The slowest file is written to the path; what is
//! printed of it at the end is its time, its counts and the time of the reference.
//!
//! Times are of the thread's processor, and a file counts as slow only by the least of some
//! calls, so that other programs on the machine are not climbed.

// Of the archive only the search is called, and of the files not every kind is made.
#[allow(dead_code)]
#[path = "../archive.rs"]
mod archive;
#[path = "../counting.rs"]
mod counting;
#[allow(dead_code)]
#[path = "../draft.rs"]
mod draft;
#[allow(dead_code)]
#[path = "../files.rs"]
mod files;
#[path = "../hard.rs"]
mod hard;
#[path = "../loads.rs"]
mod loads;
#[path = "../random.rs"]
mod random;

use draft::{Draft, DraftRule, MOST_OWN_ITEMS};
use random::Random;
use reference::{Lent, RULE_NUMBER_BYTES, STEP_BYTES, kind};
use std::collections::BTreeSet;
use std::process::ExitCode;
use std::sync::mpsc;
use std::thread;
use std::time::{Duration, Instant};

/// The most facts and rules that a file can have.
const FACTS: usize = 255;
const RULES: usize = 512;
/// The most constraint facts that the search takes.
const GUESSED: usize = 16;
/// A climb ends after so many tries without gain, and after this part of all the time.
const PATIENCE: usize = 600;
const MOST_OF_TIME: f64 = 0.1;
/// Of so many hard files the slowest begins a climb.
const DRAWN: usize = 6;
/// After so many tries the file at hand is timed anew, lest one bad measurement stop a climb.
const TIMED_ANEW: usize = 25;
/// The calls of which the least counts, of a file that may be slower than the one at hand, and
/// of one that may be the slowest.
const CALLS: usize = 3;
const MORE_CALLS: usize = 7;
/// How long the reference may take.
const LIMIT: Duration = Duration::from_secs(30);
/// The refusal of a search that finds no set; with any other the file is not one to search.
const NO_STABLE_SET: u32 = 41;

/// A moment as the C library gives it.
#[repr(C)]
struct Moment {
    seconds: i64,
    nanoseconds: i64,
}

/// The clock of the time that a thread has spent on the processor, by its number in Linux.
const THREAD_CLOCK: i32 = 3;

unsafe extern "C" {
    fn clock_gettime(clock: i32, moment: *mut Moment) -> i32;
}

/// The time that this thread has spent on the processor, in milliseconds.
fn thread_time() -> f64 {
    let mut moment = Moment { seconds: 0, nanoseconds: 0 };
    // The moment is valid for the call, which keeps nothing.
    let failed = unsafe { clock_gettime(THREAD_CLOCK, &mut moment) };
    assert_eq!(failed, 0, "no clock of the thread");
    moment.seconds as f64 * 1e3 + moment.nanoseconds as f64 * 1e-6
}

/// The milliseconds of one search, or none where the file is not one to search.
fn time_search(file: &[u8]) -> Option<f64> {
    let (mut fact_marks, mut rule_marks) = ([0; FACTS], [0; RULES]);
    let (mut steps, mut order) = ([0; STEP_BYTES * FACTS], [0; RULE_NUMBER_BYTES * RULES]);
    let begin = thread_time();
    let reply = archive::search(file, &mut fact_marks, &mut rule_marks, &mut steps, &mut order);
    let milliseconds = thread_time() - begin;
    matches!(reply[0], 0 | NO_STABLE_SET).then_some(milliseconds)
}

/// The least of so many calls; fewer where one is below the bound already.
fn least_time(file: &[u8], calls: usize, bound: f64) -> f64 {
    let mut least = f64::MAX;
    for _ in 0..calls {
        least = least.min(time_search(file).unwrap_or(0.0));
        if least < bound {
            break;
        }
    }
    least
}

/// The constraint facts of a draft. Those of withheld rules are among them, so that they are at
/// least as many as the search counts.
fn constraint_facts(draft: &Draft) -> Vec<u8> {
    let items = draft.rules.iter().flat_map(|rule| &rule.items);
    let constraints = items.filter(|(kind, _)| *kind == kind::CONSTRAINT).map(|&(_, fact)| fact);
    constraints.collect::<BTreeSet<u8>>().into_iter().collect()
}

fn is_accepted(draft: &Draft) -> bool {
    draft.rules.len() <= RULES
        && draft.rules.iter().all(|rule| rule.items.len() <= MOST_OWN_ITEMS)
        && constraint_facts(draft).len() <= GUESSED
}

/// A premise or a constraint: of any fact, of one that a rule concludes, or of a constraint fact,
/// since others are rarely both derived and asked for.
fn random_item(random: &mut Random, draft: &Draft) -> (u8, u8) {
    let guessed = constraint_facts(draft);
    if random.one_in(4) {
        let known = !guessed.is_empty() && (guessed.len() == GUESSED || !random.one_in(4));
        let fact = if known { guessed[random.below(guessed.len())] } else { any_fact(random) };
        return (kind::CONSTRAINT, fact);
    }
    let concluded = !draft.rules.is_empty() && random.one_in(2);
    let fact = match draft.rules.get(random.below(draft.rules.len())) {
        Some(rule) if concluded => rule.conclusion,
        _ => any_fact(random),
    };
    (kind::PREMISE, fact)
}

fn any_fact(random: &mut Random) -> u8 {
    random.below(FACTS) as u8
}

/// Changes a literal of a rule, its conclusion among them, adds one or removes one.
fn change_rule(random: &mut Random, draft: &mut Draft, number: usize) {
    let item = random_item(random, draft);
    let conclusion = match draft.rules[random.below(draft.rules.len())].items.first() {
        Some(&(_, fact)) if random.one_in(2) => fact,
        _ => any_fact(random),
    };
    let rule = &mut draft.rules[number];
    let place = random.below(rule.items.len());
    match random.below(6) {
        0 => rule.conclusion = conclusion,
        1 | 2 if !rule.items.is_empty() => rule.items[place] = item,
        3 if !rule.items.is_empty() => {
            rule.items.remove(place);
        }
        _ => rule.items.push(item),
    }
}

/// Adds a rule, mostly one that is there with another conclusion.
fn add_rule(random: &mut Random, draft: &mut Draft) {
    let conclusion = any_fact(random);
    let items = match draft.rules.get(random.below(draft.rules.len())) {
        Some(rule) if !random.one_in(4) => rule.items.clone(),
        _ => (0..random.within(1, 3)).map(|_| random_item(random, draft)).collect(),
    };
    let place = random.below(draft.rules.len() + 1);
    draft.rules.insert(place, DraftRule { conclusion, items });
}

/// Changes a rule, adds or removes one, or puts rules in other places.
fn change(random: &mut Random, draft: &mut Draft) {
    let rules = draft.rules.len();
    if rules == 0 {
        return add_rule(random, draft);
    }
    let number = random.below(rules);
    match random.below(12) {
        0 => add_rule(random, draft),
        1 => {
            draft.rules.remove(number);
        }
        2 => draft.rules.swap(number, random.below(rules)),
        3 => {
            let rule = draft.rules.remove(number);
            draft.rules.insert(random.below(rules), rule);
        }
        4 => draft.rules[number..].reverse(),
        _ => change_rule(random, draft, number),
    }
}

/// The draft with a few changes, at times with many.
fn changed(random: &mut Random, draft: &Draft) -> Draft {
    let mut draft = draft.clone();
    let most = if random.one_in(3) { 12 } else { 3 };
    (0..random.within(1, most)).for_each(|_| change(random, &mut draft));
    draft
}

fn hard_file(random: &mut Random) -> (String, Draft) {
    let (family, file) = hard::FAMILIES[random.below(hard::FAMILIES.len())];
    let order = hard::RULE_ORDERS[random.below(hard::RULE_ORDERS.len())];
    let seed = random.below(1000) as u64;
    (format!("{family} {order:?} {seed}").to_lowercase(), file(seed, order))
}

/// A hard file with rules of another in the place of its last ones, which are only there to fill
/// it up. Those of the other that conclude constraint facts would mostly decide it.
fn mixed_file(random: &mut Random) -> (String, Draft) {
    let (name, mut draft) = hard_file(random);
    let (other_name, other) = hard_file(random);
    draft.rules.truncate(random.within(RULES / 4, RULES / 2));
    let guessed = constraint_facts(&draft);
    let more = other.rules.into_iter().filter(|rule| !guessed.contains(&rule.conclusion));
    let missing = RULES - draft.rules.len();
    draft.rules.extend(more.take(missing));
    if random.one_in(2) {
        random.shuffle(&mut draft.rules);
    }
    (format!("{name} with {other_name}"), draft)
}

/// The slowest of some hard files and mixes.
fn slow_file(random: &mut Random) -> (String, Draft) {
    let mut slowest = (0.0, String::new(), Draft::new(0));
    for _ in 0..DRAWN {
        let (name, draft) = if random.one_in(2) { hard_file(random) } else { mixed_file(random) };
        let milliseconds = least_time(&draft.bytes(), CALLS, slowest.0);
        if milliseconds > slowest.0 {
            slowest = (milliseconds, name, draft);
        }
    }
    (slowest.1, slowest.2)
}

/// Where a climb begins: every third time it goes on from the slowest file so far.
fn start(random: &mut Random, slowest: &Slowest, number: u64) -> (String, Draft) {
    let (name, draft) = match random.below(8) {
        _ if number % 3 == 2 => {
            let draft = Some(changed(random, &slowest.draft)).filter(is_accepted);
            (slowest.from.clone(), draft.unwrap_or_else(|| slowest.draft.clone()))
        }
        0 => ("random".to_string(), files::random_draft(random)),
        1 => ("counting".to_string(), hard::counting(random.below(1000) as u64)),
        _ => slow_file(random),
    };
    (name, Draft { facts: FACTS as u8, ..draft })
}

/// The slowest file so far.
struct Slowest {
    draft: Draft,
    milliseconds: f64,
    from: String,
}

impl Slowest {
    /// The least time so far: what shares the processor may have slowed all calls down before.
    fn time_anew(&mut self) {
        let milliseconds = least_time(&self.draft.bytes(), MORE_CALLS, 0.0);
        self.milliseconds = self.milliseconds.min(milliseconds);
    }

    /// Takes the file where it is slower. Gives its time, by more calls than a climb makes.
    fn consider(&mut self, draft: Draft, from: &str) -> f64 {
        self.time_anew();
        let milliseconds = least_time(&draft.bytes(), MORE_CALLS, 0.0);
        if milliseconds > self.milliseconds {
            *self = Slowest { draft, milliseconds, from: from.to_string() };
        }
        milliseconds
    }
}

/// Climbs from a file until the end, or as long as there is gain. Gives the last file and the
/// count of tries.
fn climb(random: &mut Random, draft: Draft, end: Instant) -> (Draft, usize) {
    let mut at_hand = draft;
    let mut milliseconds = least_time(&at_hand.bytes(), CALLS, 0.0);
    let (mut tries, mut without_gain) = (0, 0);
    while without_gain < PATIENCE && Instant::now() < end {
        tries += 1;
        without_gain += 1;
        if tries % TIMED_ANEW == 0 {
            milliseconds = least_time(&at_hand.bytes(), CALLS, 0.0);
        }
        let other = changed(random, &at_hand);
        if !is_accepted(&other) {
            continue;
        }
        let time = least_time(&other.bytes(), CALLS, milliseconds);
        if time >= milliseconds {
            // A gain that is no more than noise does not prolong the climb.
            if time > 1.005 * milliseconds {
                without_gain = 0;
            }
            (at_hand, milliseconds) = (other, time);
        }
    }
    (at_hand, tries)
}

/// The milliseconds of the reference, or none where it takes longer than the limit.
fn reference_time(file: Vec<u8>) -> Option<f64> {
    let (sender, receiver) = mpsc::channel();
    // It cannot be stopped, and ends with the program.
    thread::spawn(move || {
        let (mut fact_marks, mut rule_marks) = ([0; FACTS], [0; RULES]);
        let (mut steps, mut order) = ([0; STEP_BYTES * FACTS], [0; RULE_NUMBER_BYTES * RULES]);
        let lent =
            Lent { fact_marks: &mut fact_marks, rule_marks: &mut rule_marks, steps: &mut steps };
        let begin = Instant::now();
        let _ = reference::search(&file, lent, &mut order);
        // Nobody listens where the limit is over.
        let _ = sender.send(begin.elapsed().as_secs_f64() * 1e3);
    });
    receiver.recv_timeout(LIMIT).ok()
}

fn report(slowest: &Slowest, path: &str) {
    let file = slowest.draft.bytes();
    let counts = reference::accept(&file).expect("only accepted files are kept");
    let items: usize = slowest.draft.rules.iter().map(|rule| rule.items.len()).sum();
    println!(
        "slowest {:.2} ms, from {}: {} rules, {items} items, {} constraint facts, {} bytes, {path}",
        slowest.milliseconds,
        slowest.from,
        counts.rules,
        counts.constraint_facts,
        file.len(),
    );
    match reference_time(file) {
        Some(milliseconds) => println!("the reference takes {milliseconds:.0} ms on it"),
        None => println!("the reference takes more than {} s on it", LIMIT.as_secs()),
    }
}

fn run(minutes: f64, seed: u64, path: &str) -> Result<(), String> {
    let time = Duration::from_secs_f64(60.0 * minutes);
    let end = Instant::now() + time;
    let mut slowest =
        Slowest { draft: Draft::new(0), milliseconds: 0.0, from: "no rules".to_string() };
    for number in 0.. {
        let random = &mut Random::new(seed, number);
        let (from, draft) = start(random, &slowest, number);
        if is_accepted(&draft) {
            let first = least_time(&draft.bytes(), CALLS, 0.0);
            let soon = Instant::now() + time.mul_f64(MOST_OF_TIME);
            let (last, tries) = climb(random, draft, end.min(soon));
            let milliseconds = slowest.consider(last, &from);
            println!("{first:8.2} to {milliseconds:8.2} ms in {tries:6} tries, from {from}");
            let written = std::fs::write(path, slowest.draft.bytes());
            written.map_err(|error| format!("{path}: {error}"))?;
        }
        if Instant::now() >= end {
            break;
        }
    }
    slowest.time_anew();
    report(&slowest, path);
    Ok(())
}

fn main() -> ExitCode {
    let arguments: Vec<String> = std::env::args().skip(1).collect();
    let [minutes, seed, path] = &arguments[..] else {
        eprintln!("usage: climb <minutes> <seed> <path>");
        return ExitCode::FAILURE;
    };
    let (Ok(minutes), Ok(seed)) = (minutes.parse(), seed.parse()) else {
        eprintln!("not numbers: {minutes} {seed}");
        return ExitCode::FAILURE;
    };
    match run(minutes, seed, path) {
        Ok(()) => ExitCode::SUCCESS,
        Err(message) => {
            println!("FAIL: {message}");
            ExitCode::FAILURE
        }
    }
}
