//! Drives the archive and the reference with the same inputs and compares the
//! replies and every byte of every buffer.
//!
//! differential [cases] [seed] [--threads n] [--trace] [--clingo]
//!
//! The cases made on purpose are always run; random ones fill up to the count.
//! The same seed gives the same cases. `--trace` prints each case's number
//! before its calls, for an archive that does not come back from one.

#[path = "../archive.rs"]
mod archive;
#[path = "../cases.rs"]
mod cases;
#[path = "../clingo.rs"]
mod clingo;
#[path = "../counting.rs"]
mod counting;
#[path = "../directed.rs"]
mod directed;
#[path = "../draft.rs"]
mod draft;
#[path = "../files.rs"]
mod files;
#[path = "../hard.rs"]
mod hard;
#[path = "../large.rs"]
mod large;
#[path = "../layers.rs"]
mod layers;
#[path = "../loads.rs"]
mod loads;
#[path = "../random.rs"]
mod random;
#[path = "../shrink.rs"]
mod shrink;

use cases::{Case, LENGTH_WRAPS, Load, Met, Operation, Reply, Tally, random_case};
use directed::{
    all_operations, all_orders, better_cases, better_of_pairs, directed_cases, examples,
    layered_examples, rival_examples,
};
use draft::{Draft, MOST_OWN_ITEMS, stairs};
use random::Random;
use reference::{LOAD_STEP, RULE_NUMBER_BYTES, STEP_BYTES, accept, kind, load_bytes};
use std::process::ExitCode;
use std::sync::Mutex;
use std::thread;
use std::time::Instant;

/// Bytes on both sides of everything that is handed to the archive.
const FENCE_BYTES: usize = 16;
/// Past an input stands a byte that is valid in a set and as a kind, so that
/// reading too far is likely to change the answer.
const INPUT_FENCE: u8 = 0x01;
const LENT_FENCE: u8 = 0xC3;

/// The longest file that question 1 lets pass. One of that length is within the cap only
/// with unread facts.
const LONGEST: usize = 32_767;

/// The small files that are hard for the search.
const COUNTING_FILES: u64 = 4_000;

/// The kinds of the items that a rule has of its own.
const ITEM_KINDS: [u8; 2] = [kind::PREMISE, kind::CONSTRAINT];

/// What a lent buffer holds at first: by place, and never a mark, a kind or a
/// byte of text.
fn pattern(place: usize) -> u8 {
    0x80 | (place * 5 + 1) as u8
}

/// Bytes with a fence on both sides.
struct Fenced {
    bytes: Vec<u8>,
    fence: u8,
}

impl Fenced {
    fn new(content: impl Iterator<Item = u8>, fence: u8) -> Fenced {
        let mut bytes = vec![fence; FENCE_BYTES];
        bytes.extend(content);
        bytes.extend([fence; FENCE_BYTES]);
        Fenced { bytes, fence }
    }

    fn input(content: &[u8]) -> Fenced {
        Fenced::new(content.iter().copied(), INPUT_FENCE)
    }

    /// An empty input is handed over at an address that cannot be read.
    fn content(&self) -> &[u8] {
        match &self.bytes[FENCE_BYTES..self.bytes.len() - FENCE_BYTES] {
            [] => &[],
            content => content,
        }
    }

    fn content_mut(&mut self) -> &mut [u8] {
        let end = self.bytes.len() - FENCE_BYTES;
        match &mut self.bytes[FENCE_BYTES..end] {
            [] => &mut [],
            content => content,
        }
    }

    fn is_intact(&self) -> bool {
        let is_fence = |bytes: &[u8]| bytes.iter().all(|&byte| byte == self.fence);
        is_fence(&self.bytes[..FENCE_BYTES])
            && is_fence(&self.bytes[self.bytes.len() - FENCE_BYTES..])
    }
}

/// Where the second row can begin in the first, so that both stand in one: as far to the front as
/// their bytes allow, and right behind it where no end of the first begins the second.
fn overlap(first: &[u8], second: &[u8]) -> usize {
    let fits = |&start: &usize| first[start..].iter().zip(second).all(|(one, other)| one == other);
    (0..first.len()).find(fits).unwrap_or(first.len())
}

/// What the archive says of two orders in buffers of their own. In one buffer, in which they
/// overlap where they can, it must say the same: equal orders are then the very same bytes.
fn better(file: &[u8], first: &[u8], second: &[u8]) -> Result<Vec<u32>, String> {
    let start = overlap(first, second);
    let behind = second.get(first.len() - start..).unwrap_or_default();
    let both = Fenced::input(&[first, behind].concat());
    let row = both.content();
    let apart = archive::better(file, first, second);
    let together = archive::better(file, &row[..first.len()], &row[start..start + second.len()]);
    if together != apart {
        return Err(format!("reply    {apart:?}\nin one buffer {together:?}\n"));
    }
    Ok(apart.to_vec())
}

/// The archive's reply, or what it did outside the bytes lent to it.
fn call_archive(case: &Case) -> Result<Reply, String> {
    let originals = [&case.file, &case.rules, &case.second, &case.set, &case.proof];
    let inputs = originals.map(|input| Fenced::input(input));
    let [file, rules, second, set, proof] = inputs.each_ref().map(Fenced::content);
    let lend = |&length: &usize| Fenced::new((0..length).map(pattern), LENT_FENCE);
    let mut lent: Vec<Fenced> = case.lent.iter().map(lend).collect();
    let mut buffers: Vec<&mut [u8]> = lent.iter_mut().map(Fenced::content_mut).collect();
    let numbers = match (case.operation, &mut buffers[..]) {
        (Operation::Accept, _) => archive::accept(file).to_vec(),
        (Operation::Run, [fact_marks, rule_marks, steps]) => {
            archive::run(file, rules, fact_marks, rule_marks, steps).to_vec()
        }
        (Operation::Judge, _) => archive::judge(file, rules, set).to_vec(),
        (Operation::Check, _) => archive::check(file, set, case.asked, proof).to_vec(),
        (Operation::Search, [fact_marks, rule_marks, steps, order]) => {
            archive::search(file, fact_marks, rule_marks, steps, order).to_vec()
        }
        (Operation::Panel, [out]) => vec![archive::panel(file, out)],
        (Operation::Grounds, [fact_marks, rule_marks, steps]) => {
            archive::grounds(file, rules, case.asked, fact_marks, rule_marks, steps).to_vec()
        }
        (Operation::Layered, [order]) => archive::layered(file, order).to_vec(),
        (Operation::Load, [out]) => {
            let Load { start, facts, rules } = case.load;
            archive::load(start, facts, rules, out).to_vec()
        }
        (Operation::Better, _) => better(file, rules, second)?,
        _ => unreachable!("a case lends what its operation takes"),
    };
    if lent.iter().chain(&inputs).any(|fenced| !fenced.is_intact()) {
        return Err("the archive wrote outside its buffers".to_string());
    }
    if inputs.iter().zip(originals).any(|(input, original)| input.content() != original) {
        return Err("the archive changed an input".to_string());
    }
    let buffers = lent.iter().map(|buffer| buffer.content().to_vec()).collect();
    Ok(Reply { handed_back: case.handed_back(&numbers), numbers, buffers })
}

/// What the reference says, where the archive says the same.
fn compare(case: &Case) -> Result<Met, String> {
    let expected = case.expected(pattern);
    let actual = call_archive(case)?;
    if actual == expected {
        return Ok(case.met(&expected));
    }
    let mut text = format!("reply    {:?}\nexpected {:?}\n", actual.numbers, expected.numbers);
    for (buffer, (actual, expected)) in actual.buffers.iter().zip(&expected.buffers).enumerate() {
        if actual != expected {
            text += &format!("buffer {buffer} {}\nexpected {}\n", hex(actual), hex(expected));
        }
    }
    Err(text)
}

fn hex(bytes: &[u8]) -> String {
    let digits: Vec<String> = bytes.iter().map(|byte| format!("{byte:02X}")).collect();
    if digits.is_empty() { "(empty)".to_string() } else { digits.join(" ") }
}

/// Every prefix and every change of one byte.
fn neighbouring_rows(row: &[u8]) -> Vec<Vec<u8>> {
    let prefixes = (0..row.len()).map(|length| row[..length].to_vec());
    let changes = (0..row.len()).flat_map(|place| {
        (1..=255).map(move |change| {
            let mut changed = row.to_vec();
            changed[place] ^= change;
            changed
        })
    });
    prefixes.chain(changes).collect()
}

/// The neighbours of a file, under all operations with the inputs that fit the file
/// itself.
fn neighbours(file: &[u8]) -> Vec<Case> {
    let files = neighbouring_rows(file);
    let calls = all_operations(file);
    let on = |file: &Vec<u8>, call: &Case| Case { file: file.clone(), ..call.clone() };
    files.iter().flat_map(|file| calls.iter().map(move |call| on(file, call))).collect()
}

/// The order by ranks of a draft, in a buffer that just suffices.
fn layered_of(draft: &Draft) -> Case {
    let file = draft.bytes();
    let exceptions = accept(&file).expect("a draft is accepted").exceptions;
    Case { lent: vec![RULE_NUMBER_BYTES * exceptions], ..Case::new(Operation::Layered, &file) }
}

/// Every draft in which one premise or constraint is another one.
fn with_another_item(draft: &Draft) -> Vec<Draft> {
    let mut changed = Vec::new();
    for (number, rule) in draft.rules.iter().enumerate() {
        for place in 0..rule.items.len() {
            for item in (0..draft.facts).flat_map(|fact| ITEM_KINDS.map(|kind| (kind, fact))) {
                let mut draft = draft.clone();
                draft.rules[number].items[place] = item;
                changed.push(draft);
            }
        }
    }
    changed
}

/// Every file of three facts in which each fact depends on each, itself too, by a
/// premise, by a constraint or not at all: by turns one rule for each fact, and one for
/// each that it depends on.
fn all_dependencies() -> Vec<Case> {
    const FACTS: usize = 3;
    let case = |number: usize| {
        let mut draft = Draft::new(FACTS);
        let mut rest = number;
        for conclusion in 0..FACTS {
            let (mut premises, mut constraints) = (vec![], vec![]);
            for fact in 0..FACTS {
                match rest % 3 {
                    0 => {}
                    1 => premises.push(fact),
                    _ => constraints.push(fact),
                }
                rest /= 3;
            }
            if number.is_multiple_of(2) {
                draft.rule(conclusion, &premises, &constraints);
            } else {
                premises.iter().for_each(|&fact| draft.rule(conclusion, &[fact], &[]));
                constraints.iter().for_each(|&fact| draft.rule(conclusion, &[], &[fact]));
            }
        }
        layered_of(&draft)
    };
    (0..3usize.pow((FACTS * FACTS) as u32)).map(case).collect()
}

/// Loads of every count of facts and every count of rules up to two more than may be, in
/// every length of a small buffer, and from starts of every single bit; and of counts
/// that are too high, but not in their low bytes or not at the length of their file.
fn all_loads() -> Vec<Case> {
    let mut cases = Vec::new();
    let start = |number: u32| number.wrapping_mul(LOAD_STEP) >> 1;
    for facts in 0..=257 {
        cases.push(Case::load(start(facts), facts, 4, load_bytes(4)));
    }
    for rules in 0..=514 {
        let needed = load_bytes(rules as usize);
        for length in [needed - 1, needed, needed + 9] {
            cases.push(Case::load(start(rules), 1 + rules % 255, rules, length));
        }
    }
    for length in 0..=load_bytes(6) {
        cases.push(Case::load(1, 9, 5, length));
    }
    for bit in (0..32).map(|place| 1 << place) {
        cases.extend([bit, !bit].map(|start| Case::load(start, 251, 7, load_bytes(7))));
    }
    let high = [256, 260, 65_536, 65_540, LENGTH_WRAPS, LENGTH_WRAPS + 1, 1 << 31, u32::MAX];
    for count in high {
        for length in [0, 1, load_bytes(1), load_bytes(512), load_bytes(513)] {
            cases.push(Case::load(0, count, 1, length));
            cases.push(Case::load(0, 4, count, length));
            cases.push(Case::load(0, count, count, length));
        }
    }
    cases
}

/// Loads, and all operations on the file that each writes: where the load agrees, the
/// archive has written that file too.
fn loads_in_use() -> Vec<Case> {
    let sizes =
        [(4, 1), (1, 3), (2, 6), (3, 10), (8, 16), (16, 48), (17, 64), (64, 512), (255, 512)];
    let mut cases = Vec::new();
    for (facts, rules) in sizes {
        for start in [0, 1, u32::MAX] {
            cases.push(Case::load(start, facts as u32, rules as u32, load_bytes(rules)));
            cases.extend(all_operations(&loads::draft(start, facts, rules).bytes()));
        }
    }
    cases
}

/// Every prefix and every change of one byte of the order, of the second of two orders, of the
/// list or of the proof that fits a file.
fn neighbours_beside(file: &[u8]) -> Vec<Case> {
    let mut cases = Vec::new();
    for call in all_operations(file) {
        let rows = neighbouring_rows(&call.rules).into_iter();
        cases.extend(rows.map(|rules| Case { rules, ..call.clone() }));
        let rows = neighbouring_rows(&call.second).into_iter();
        cases.extend(rows.map(|second| Case { second, ..call.clone() }));
        let rows = neighbouring_rows(&call.proof).into_iter();
        cases.extend(rows.map(|proof| Case { proof, ..call.clone() }));
    }
    cases
}

/// Another file for its neighbours: two pairs, a guarded odd loop, equal rules.
fn mixed_file() -> Vec<u8> {
    let mut draft = Draft::new(6);
    draft.rule(4, &[1], &[4]);
    draft.rule(3, &[], &[0]);
    draft.rule(0, &[], &[3]);
    draft.rule(5, &[0, 0], &[]);
    draft.rule(1, &[5], &[2, 2]);
    draft.rule(2, &[5], &[1]);
    draft.rule(2, &[5], &[1]);
    draft.bytes()
}

/// The file with these facts named as unread.
fn with_unread(unread: &[u8], file: &[u8]) -> Vec<u8> {
    let items = unread.iter().flat_map(|&fact| [kind::UNREAD, fact]);
    [&file[..2], &items.collect::<Vec<_>>(), &file[2..]].concat()
}

/// The file with every choice of unread facts.
fn choices_of_unread(file: &[u8]) -> Vec<Vec<u8>> {
    let with_choice = |chosen: u32| {
        let unread: Vec<u8> = (0..file[1]).filter(|fact| chosen >> fact & 1 == 1).collect();
        with_unread(&unread, file)
    };
    (1..1 << file[1]).map(with_choice).collect()
}

/// Every choice of unread facts of small files.
fn all_unread() -> Vec<Case> {
    let small = examples().into_iter().chain(layered_examples());
    let files = small.map(|draft| draft.bytes()).chain([mixed_file()]);
    let chosen = files.flat_map(|file| choices_of_unread(&file));
    chosen.flat_map(|file| all_operations(&file)).collect()
}

/// Every two orders of small files, and every order beside the ascending one where some of
/// their facts are unread, and of a file with more orders.
fn all_pairs_of_orders() -> Vec<Case> {
    let mut cases = Vec::new();
    for draft in rival_examples() {
        let file = draft.bytes();
        cases.extend(better_of_pairs(&file, &all_orders(&file)));
        let read = Draft { unread: vec![], ..draft }.bytes();
        cases.extend(choices_of_unread(&read).iter().flat_map(|file| better_cases(file)));
    }
    cases.extend(better_cases(&mixed_file()));
    cases
}

/// A file with a 07 item at every place, of its lowest and highest fact and of one too high.
fn unread_at_every_place(file: &[u8]) -> Vec<Case> {
    let mut cases = Vec::new();
    for place in 2..=file.len() {
        for fact in [0, file[1] - 1, file[1]] {
            let mut file = file.to_vec();
            file.splice(place..place, [kind::UNREAD, fact]);
            cases.extend(all_operations(&file));
        }
    }
    cases
}

/// Large files with some constraints unread, or all; as many constraint facts as may be and
/// one more, with one of them in withheld rules alone; and unread facts that fill up the
/// longest file, alone, before rules as long as may be, and by one item too many.
fn large_unread_files() -> Vec<Vec<u8>> {
    let every = |step: usize| (0..=254).step_by(step).collect::<Vec<u8>>();
    let mut files = Vec::new();
    for draft in [
        large::exceptions(512, 16),
        large::ring(512),
        large::tangled(512),
        large::ladder(512),
        large::full(|rule| rule % MOST_OWN_ITEMS),
    ] {
        let file = draft.bytes();
        let known = |unread: Vec<u8>| unread.into_iter().filter(|&fact| fact < file[1]).collect();
        let few: [Vec<u8>; 6] = [vec![0], vec![1], vec![3, 250, 7], every(2), every(3), every(1)];
        for unread in few.map(known) as [Vec<u8>; 6] {
            files.push(with_unread(&unread, &file));
        }
    }
    for (_, file) in layers::FILES {
        let file = file(512, MOST_OWN_ITEMS).bytes();
        files.push(with_unread(&every(5), &file));
        files.push(with_unread(&[254], &file));
    }
    for constraint_facts in [17, 18] {
        let file = large::exceptions(512, constraint_facts).bytes();
        files.extend([[0], [16]].map(|unread| with_unread(&unread, &file)));
    }
    let bare = Draft::new(1).bytes();
    let full = large::full(|rule| rule % MOST_OWN_ITEMS).bytes();
    for (file, unread) in [(&bare, 0), (&full, 250)] {
        let room = (LONGEST - file.len()) / 2;
        files.push(with_unread(&vec![unread; room], file));
        files.push(with_unread(&vec![unread; room + 1], file));
    }
    files
}

/// A file of 511 rules and this length, by premises repeated: its last rule is too
/// long.
fn lengthened_file(length: usize) -> Vec<u8> {
    let mut draft = Draft::new(2);
    (0..510).for_each(|_| draft.rule(0, &[], &[]));
    let missing = (length - draft.bytes().len()) / 2 - 1;
    draft.rule(0, &vec![1; missing], &[]);
    draft.bytes()
}

/// Another, at the cap: a rule of 24 items between two others. Where the item after it
/// no longer opens a rule, it has one item too many.
fn file_at_the_cap() -> Vec<u8> {
    let mut draft = Draft::new(4);
    draft.rule(0, &[], &[]);
    draft.rule(1, &[0; MOST_OWN_ITEMS / 2], &[3; MOST_OWN_ITEMS / 2]);
    draft.rule(2, &[1], &[]);
    draft.bytes()
}

/// As many rules as may be; steps that go as deep as they can, by a chain, by rules of
/// 24 items, and by rules that are too long; ranks and cycles that do; each rule as long
/// as may be, and such files with something else behind their last rule; as many bytes
/// as question 1 lets pass, and one more; files that are hard for the search.
fn large_files() -> Vec<Vec<u8>> {
    let rules = [
        large::exceptions(512, 16),
        large::ring(512),
        large::tangled(512),
        large::ladder(512),
        large::words(),
        large::rivals(512),
    ];
    let deep = [1, MOST_OWN_ITEMS - 1, 60].map(|premises| stairs(255, premises));
    let layers =
        layers::FILES.iter().flat_map(|(_, file)| [file(512, MOST_OWN_ITEMS), file(256, 3)]);
    let mut files: Vec<Vec<u8>> =
        rules.into_iter().chain(deep).chain(layers).map(|draft| draft.bytes()).collect();
    for (_, premises) in large::FULL {
        let full = large::full(premises).bytes();
        let unended = &full[..full.len() - 3];
        for end in [&[][..], &[2], &[2, 0], &[3, 254], &[2, 255], &[1, 0], &[0x1F, 2, 1]] {
            files.push([unended, end].concat());
        }
        files.push(full);
    }
    for (_, file) in hard::FAMILIES {
        let orders = hard::RULE_ORDERS.into_iter().zip(0..);
        files.extend(orders.map(|(order, seed)| file(seed, order).bytes()));
    }
    let longest = lengthened_file(LONGEST);
    files.extend([vec![0; LONGEST + 1], [&longest[..], &[0]].concat(), longest]);
    files
}

/// Searches of small files that take them past the first guesses.
fn counting_searches() -> Vec<Case> {
    let case = |seed: u64| {
        let file = hard::counting(seed).bytes();
        let counts = accept(&file).expect("a draft is accepted");
        let order = RULE_NUMBER_BYTES * counts.exceptions;
        let lent = vec![counts.facts, counts.rules, STEP_BYTES * counts.facts, order];
        Case { lent, ..Case::new(Operation::Search, &file) }
    };
    (0..COUNTING_FILES).map(case).collect()
}

fn purposeful_cases() -> Vec<Case> {
    let mut cases = directed_cases();
    for draft in examples() {
        cases.extend(neighbours(&draft.bytes()));
        cases.extend(neighbours_beside(&draft.bytes()));
    }
    cases.extend(neighbours(&mixed_file()));
    cases.extend(neighbours_beside(&mixed_file()));
    cases.extend(neighbours(&file_at_the_cap()));
    let mixed_unread = with_unread(&[2, 3], &mixed_file());
    cases.extend(neighbours(&mixed_unread));
    cases.extend(neighbours_beside(&mixed_unread));
    cases.extend(all_unread());
    cases.extend(all_pairs_of_orders());
    cases.extend(unread_at_every_place(&mixed_file()));
    cases.extend(unread_at_every_place(&mixed_unread));
    let changed = layered_examples().into_iter().flat_map(|draft| with_another_item(&draft));
    cases.extend(changed.map(|draft| layered_of(&draft)));
    cases.extend(all_dependencies());
    cases.extend(all_loads());
    cases.extend(loads_in_use());
    cases.extend(counting_searches());
    for file in [large_files(), large_unread_files()].concat() {
        cases.extend(all_operations(&file));
    }
    cases
}

struct Settings {
    count: usize,
    seed: u64,
    threads: usize,
    trace: bool,
    clingo: bool,
}

impl Settings {
    fn read() -> Result<Settings, String> {
        let mut settings =
            Settings { count: 1_000_000, seed: 1, threads: 2, trace: false, clingo: false };
        let mut plain = 0;
        let mut arguments = std::env::args().skip(1);
        while let Some(argument) = arguments.next() {
            let number =
                |text: &str| text.parse::<u64>().map_err(|_| format!("not a number: {text}"));
            match argument.as_str() {
                "--trace" => settings.trace = true,
                "--clingo" => settings.clingo = true,
                "--threads" => {
                    let next = arguments.next().unwrap_or_default();
                    settings.threads = number(&next)?.max(1) as usize;
                }
                text if plain == 0 => {
                    settings.count = number(text)? as usize;
                    plain = 1;
                }
                text => settings.seed = number(text)?,
            }
        }
        Ok(settings)
    }
}

/// What the workers have met so far.
#[derive(Default)]
struct Progress {
    tally: Tally,
    /// The first case found to differ; it ends the work.
    difference: Option<(usize, Case)>,
}

/// Compares every case whose number is `first` and a multiple of the threads.
fn work(settings: &Settings, purposeful: &[Case], first: usize, progress: &Mutex<Progress>) {
    let count = settings.count.max(purposeful.len());
    for number in (first..count).step_by(settings.threads) {
        if settings.trace {
            eprintln!("case {number}");
        }
        let case = match purposeful.get(number) {
            Some(case) => case.clone(),
            None => random_case(&mut Random::new(settings.seed, number as u64)),
        };
        let compared = compare(&case);
        let mut progress = progress.lock().expect("no worker panics");
        if progress.difference.is_some() {
            return;
        }
        match compared {
            Ok(met) => progress.tally.count(case.operation, met),
            Err(_) => progress.difference = Some((number, case)),
        }
    }
}

fn compare_all(settings: &Settings, purposeful: &[Case]) -> Progress {
    let progress = Mutex::new(Progress::default());
    thread::scope(|scope| {
        for first in 0..settings.threads {
            let progress = &progress;
            scope.spawn(move || work(settings, purposeful, first, progress));
        }
    });
    progress.into_inner().expect("no worker panics")
}

fn report_difference(number: usize, case: Case) {
    println!("DIFFERENCE in case {number}, {:?}; shrinking", case.operation);
    let case = shrink::shrink(case, |case| compare(case).is_err());
    println!("{:?}", case.operation);
    if case.operation.reads_a_file() {
        println!("file     {}", hex(&case.file));
    }
    match case.operation {
        Operation::Run => println!("order    {}", hex(&case.rules)),
        Operation::Judge => {
            println!("list     {}\nset      {}", hex(&case.rules), hex(&case.set));
        }
        Operation::Check => {
            println!("set      {}\nfact     {}", hex(&case.set), case.asked);
            println!("proof    {}", hex(&case.proof));
        }
        Operation::Grounds => {
            println!("order    {}\nfact     {}", hex(&case.rules), case.asked);
        }
        Operation::Load => {
            let Load { start, facts, rules } = case.load;
            println!("start    {start}\nfacts    {facts}\nrules    {rules}");
        }
        Operation::Better => {
            println!("first    {}\nsecond   {}", hex(&case.rules), hex(&case.second));
        }
        _ => {}
    }
    println!("buffers  {:?} bytes", case.lent);
    println!("{}", compare(&case).expect_err("the shrunk case differs"));
}

fn run(settings: &Settings) -> Result<bool, String> {
    let purposeful = purposeful_cases();
    let started = Instant::now();
    let Progress { tally, difference } = compare_all(settings, &purposeful);
    if let Some((number, case)) = difference {
        report_difference(number, case);
        return Ok(false);
    }
    let count = settings.count.max(purposeful.len());
    let seconds = started.elapsed().as_secs_f64();
    let (table, all_met) = tally.table(false);
    print!("{table}");
    println!(
        "{count} cases agree, {} of them made on purpose; seed {}; {seconds:.1} s, {:.0} cases/s",
        purposeful.len(),
        settings.seed,
        count as f64 / seconds,
    );
    if !all_met {
        println!("FAIL: not every number and answer was met");
    }
    if settings.clingo {
        clingo::compare(settings.seed)?;
    }
    Ok(all_met)
}

fn main() -> ExitCode {
    match Settings::read().and_then(|settings| run(&settings)) {
        Ok(true) => ExitCode::SUCCESS,
        Ok(false) => ExitCode::FAILURE,
        Err(message) => {
            println!("FAIL: {message}");
            ExitCode::FAILURE
        }
    }
}
