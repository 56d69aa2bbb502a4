//! Times the archive and the reference side by side on the same inputs.
//!
//! bench [--out path] [--without-unread]
//!
//! Every row is one operation on one file, or a load with as many facts and rules. The
//! growth is the time over the time at the size before, with half the rules. Nothing is
//! written unless asked for. The load files are the reference's, which the differential
//! holds equal to the archive's.
//!
//! Files with unread facts come last and are summed up by themselves. An archive that
//! knows none, such as an older one to compare with, is timed without them. Of two orders the
//! first is the ascending one and the second the descending one. An archive without a function
//! for them is timed by this program as `--cfg without_better` builds it, and the rows of the
//! other operations are then the same.

#[path = "../archive.rs"]
mod archive;
#[path = "../counting.rs"]
mod counting;
#[path = "../draft.rs"]
mod draft;
// The small files of it are not timed.
#[allow(dead_code)]
#[path = "../hard.rs"]
mod hard;
#[path = "../layers.rs"]
mod layers;
#[path = "../loads.rs"]
mod loads;
#[path = "../random.rs"]
mod random;

use draft::{Draft, MOST_OWN_ITEMS, chain, stairs};
use hard::RuleOrder;
use random::Random;
use reference::{Lent, RuleFile, STEP_BYTES, load_bytes};
use std::hint::black_box;
use std::process::ExitCode;
use std::slice;
use std::time::{Duration, Instant};

// Moves the code behind it, the archive's too, by so many bytes: how fast a loop runs depends on
// where it lies, so times of one place alone do not tell one archive from another.
std::arch::global_asm!(
    ".section .text.place, \"axR\", @progbits",
    ".p2align 6",
    concat!(".skip ", env!("PLACE")),
    ".text"
);

/// Whether the archive chooses between two orders.
const HAS_BETTER: bool = cfg!(not(without_better));

/// Rules and facts of the growing files.
const SIZES: [(usize, usize); 4] = [(64, 32), (128, 64), (256, 128), (512, 255)];
/// The start of the test loads.
const START: u32 = 0;
/// One round repeats its call for about this long.
const ROUND: Duration = Duration::from_millis(2);
const ROUNDS: usize = 9;
/// Calls slower than this are timed in fewer rounds.
const SLOW: Duration = Duration::from_millis(200);
const SLOW_ROUNDS: usize = 3;

/// Fact `first` from nothing and a chain up from it; further rules, up to the
/// count, lead to the same facts from two before them.
fn add_chains(draft: &mut Draft, first: usize, rules: usize) {
    let facts: Vec<usize> = (first..usize::from(draft.facts)).collect();
    draft.rule(first, &[], &[]);
    chain(draft, &facts);
    draft.rules.truncate(rules);
    for place in (2..facts.len()).cycle() {
        if draft.rules.len() == rules {
            return;
        }
        draft.rule(facts[place], &[facts[place - 1], facts[place - 2]], &[]);
    }
}

fn chains((rules, facts): (usize, usize), order: RuleOrder) -> Draft {
    let mut draft = Draft::new(facts);
    add_chains(&mut draft, 0, rules);
    match order {
        RuleOrder::Forward => {}
        RuleOrder::Backward => draft.rules.reverse(),
        RuleOrder::Shuffled => Random::new(1, rules as u64).shuffle(&mut draft.rules),
    }
    draft
}

/// Constraint facts that exclude each other in pairs, and rules above them that
/// mostly have one as a constraint. There are stable sets.
fn exceptions((rules, facts): (usize, usize), constraint_facts: usize) -> Draft {
    let random = &mut Random::new(2, rules as u64);
    let mut draft = Draft::new(facts);
    for fact in 0..constraint_facts {
        draft.rule(fact, &[], &[fact ^ 1]);
    }
    while draft.rules.len() < rules {
        let conclusion = random.within(constraint_facts, facts - 1);
        let premise = random.below(conclusion);
        if random.one_in(4) {
            draft.rule(conclusion, &[premise], &[]);
        } else {
            draft.rule(conclusion, &[premise], &[random.below(constraint_facts)]);
        }
    }
    random.shuffle(&mut draft.rules);
    draft
}

/// No stable set: seven pairs, and an odd loop on the lowest constraint fact,
/// which a search from the highest number down meets last.
fn pairs_above_odd_loop() -> Draft {
    let mut draft = Draft::new(255);
    draft.rule(0, &[], &[0]);
    draft.rule(1, &[], &[0]);
    draft.rule(16, &[], &[1]);
    for fact in 2..16 {
        draft.rule(fact, &[], &[fact ^ 1]);
    }
    add_chains(&mut draft, 16, 512);
    draft.rules.reverse();
    draft
}

/// No stable set: fifteen constraint facts that all rest on the absence of the
/// lowest, which is an odd loop; none of them says anything of another.
fn all_above_lowest() -> Draft {
    let mut draft = Draft::new(255);
    draft.rule(0, &[], &[0]);
    for fact in 1..16 {
        draft.rule(fact, &[], &[0]);
        draft.rule(16, &[], &[fact]);
    }
    add_chains(&mut draft, 16, 512);
    draft.rules.reverse();
    draft
}

/// Most of 512 rules have 23 premises and a constraint, 20 KB. Every premise is a fact
/// of a chain that is derived, so each rule is looked through to its end.
fn dense() -> Draft {
    let random = &mut Random::new(3, 512);
    let mut draft = Draft::new(255);
    let (constraint_facts, derived) = (16, 120);
    draft.rule(constraint_facts, &[], &[]);
    chain(&mut draft, &(constraint_facts..derived).collect::<Vec<_>>());
    for fact in 0..constraint_facts {
        draft.rule(fact, &[], &[fact ^ 1]);
    }
    while draft.rules.len() < 512 {
        let premises: Vec<usize> =
            (1..MOST_OWN_ITEMS).map(|_| random.within(constraint_facts, derived - 1)).collect();
        let conclusion = random.within(derived, 254);
        draft.rule(conclusion, &premises, &[random.below(constraint_facts)]);
    }
    draft
}

/// Most of 512 rules have 24 items: premises, facts of a chain that is derived, and
/// constraints, facts that no rule concludes, so many of each and in such an order as
/// chance gives. What comes next in the file cannot be foreseen.
fn mixed(seed: u64) -> Draft {
    let random = &mut Random::new(seed, 512);
    let mut draft = Draft::new(255);
    let (derived, concluded) = (120, 200);
    draft.rule(0, &[], &[]);
    chain(&mut draft, &(0..derived).collect::<Vec<_>>());
    while draft.rules.len() < 512 {
        let premises = random.within(0, MOST_OWN_ITEMS - 1);
        let mut facts = |count: usize, low, high| -> Vec<usize> {
            (0..count).map(|_| random.within(low, high)).collect()
        };
        let premises = facts(premises, 0, derived - 1);
        let constraints = facts(MOST_OWN_ITEMS - premises.len(), concluded, 254);
        draft.rule(random.within(derived, concluded - 1), &premises, &constraints);
        let rule = draft.rules.last_mut().expect("a rule was just made");
        random.shuffle(&mut rule.items);
    }
    draft
}

/// The test load in layers: the lowest fact that a rule draws is its conclusion, and
/// where it was drawn twice the other is one higher.
fn load_in_layers((rules, facts): (usize, usize)) -> Draft {
    let mut draft = loads::draft(START, facts - 1, rules);
    draft.facts += 1;
    for rule in &mut draft.rules {
        let mut drawn = [rule.conclusion, rule.items[0].1, rule.items[1].1];
        drawn.sort_unstable();
        let [conclusion, second, third] = drawn;
        let above = conclusion + 1;
        rule.conclusion = conclusion;
        rule.items[0].1 = second.max(above);
        rule.items[1].1 = third.max(above);
    }
    draft
}

/// Each fact has the next as a constraint and the one behind that as a premise: as many
/// ranks as facts, against the numbers.
fn ranks((rules, facts): (usize, usize)) -> Draft {
    let mut draft = Draft::new(facts);
    for rule in 0..rules {
        let fact = rule % (facts - 1);
        draft.rule(fact, &[(fact + 2).min(facts - 1)], &[fact + 1]);
    }
    draft
}

/// Half of the rules are plain ones of 24 premises that repeat one fact and want
/// another that never comes, before a chain of 200 facts; exception rules that start
/// the chain and are refused at its end.
fn decoys() -> Draft {
    let mut draft = Draft::new(255);
    let (decoys, last, missing) = (256, 200, 254);
    for rule in 0..decoys {
        let mut premises = [0; MOST_OWN_ITEMS];
        premises[MOST_OWN_ITEMS - 1] = missing;
        draft.rule(last + 1 + rule % 50, &premises, &[]);
    }
    chain(&mut draft, &(0..=last).collect::<Vec<_>>());
    draft.rules[decoys..].reverse();
    while draft.rules.len() < 512 {
        draft.rule(0, &[], &[last]);
    }
    draft
}

/// Pairs of which the lower fact wants the upper one out, and that one the highest fact. In
/// ascending order the rules of the upper facts are set aside, and in descending order none.
fn upper_set_aside((rules, facts): (usize, usize)) -> Draft {
    let mut draft = Draft::new(facts);
    let highest = facts - 1;
    for rule in 0..rules {
        let fact = rule % (highest - highest % 2);
        let constraint = if fact.is_multiple_of(2) { fact + 1 } else { highest };
        draft.rule(fact, &[], &[constraint]);
    }
    draft
}

/// The same, where each fourth rule wants its own conclusion out: of these some are set aside in
/// descending order too.
fn some_set_aside(size: (usize, usize)) -> Draft {
    let mut draft = upper_set_aside(size);
    for rule in draft.rules.iter_mut().step_by(4) {
        rule.items[0].1 = rule.conclusion;
    }
    draft
}

/// No stable set, 24 KB: the file above with all facts above the lowest, and rules
/// of 24 premises in the place of most of its chains.
fn wide_above_lowest() -> Draft {
    let random = &mut Random::new(4, 512);
    let mut draft = Draft::new(255);
    draft.rule(0, &[], &[0]);
    for fact in 1..16 {
        draft.rule(fact, &[], &[0]);
        draft.rule(16, &[], &[fact]);
    }
    while draft.rules.len() < 512 {
        let conclusion = random.within(17, 254);
        let premises: Vec<usize> =
            (0..MOST_OWN_ITEMS).map(|_| random.within(16, conclusion - 1)).collect();
        draft.rule(conclusion, &premises, &[]);
    }
    draft
}

fn with_unread(unread: &[u8], draft: Draft) -> Draft {
    Draft { unread: unread.to_vec(), ..draft }
}

/// A file with the inputs and the buffers of all operations.
struct Subject {
    file: Vec<u8>,
    order: Vec<u8>,
    descending: Vec<u8>,
    set: Vec<u8>,
    list: Vec<u8>,
    proof: Vec<u8>,
    asked: u32,
    constraint_facts: usize,
    buffers: Buffers,
}

#[derive(Clone, PartialEq, Eq)]
struct Buffers {
    fact_marks: Vec<u8>,
    rule_marks: Vec<u8>,
    steps: Vec<u8>,
    order: Vec<u8>,
    /// Of a load with as many facts and rules.
    load: Vec<u8>,
}

impl Buffers {
    fn lent(&mut self) -> (Lent<'_>, &mut [u8]) {
        let Buffers { fact_marks, rule_marks, steps, order, .. } = self;
        (Lent { fact_marks, rule_marks, steps }, order)
    }
}

fn rule_numbers(rules: impl IntoIterator<Item = usize>) -> Vec<u8> {
    let item = |rule: usize| [reference::kind::RULE_NUMBER, (rule >> 8) as u8, rule as u8];
    rules.into_iter().flat_map(item).collect()
}

impl Subject {
    /// The judge gets the end of the ascending run with the rules set aside, the
    /// check the whole row of its steps, the grounds its last fact.
    fn new(draft: &Draft) -> Subject {
        let file = draft.bytes();
        let parsed = RuleFile::parse(&file).expect("the file is accepted");
        let exceptions: Vec<usize> = parsed.exceptions().collect();
        let order = rule_numbers(exceptions.iter().copied());
        let descending = rule_numbers(exceptions.into_iter().rev());
        let mut buffers = Buffers {
            fact_marks: vec![0; usize::from(draft.facts)],
            rule_marks: vec![0; draft.rules.len()],
            steps: vec![0; STEP_BYTES * usize::from(draft.facts)],
            order: vec![0; order.len()],
            load: vec![0; load_bytes(draft.rules.len())],
        };
        let counts = reference::run(&file, &order, buffers.lent().0).expect("the run is answered");
        let set = buffers.fact_marks.iter().map(|&mark| u8::from(mark == 1)).collect();
        let rule_marks = &buffers.rule_marks;
        let list = rule_numbers((0..rule_marks.len()).filter(|&rule| rule_marks[rule] == 2));
        let proof = buffers.steps[..STEP_BYTES * counts.steps].to_vec();
        let asked = proof.rchunks(STEP_BYTES).next().map_or(0, |step| u32::from(step[1]));
        let constraint_facts =
            reference::accept(&file).expect("the file is accepted").constraint_facts;
        Subject { file, order, descending, set, list, proof, asked, constraint_facts, buffers }
    }

    fn has_unread(&self) -> bool {
        self.file[2] == reference::kind::UNREAD
    }

    /// Both sides say the same, so that the times are of the same work.
    fn agrees(&self) -> bool {
        let mut ours = self.buffers.clone();
        let mut theirs = self.buffers.clone();
        let (lent, order) = ours.lent();
        let expected = match reference::search(&self.file, lent, order) {
            Ok(counts) => [0, counts.stages as u32, counts.steps as u32],
            Err(refusal) => [refusal as u32, 0, 0],
        };
        let searched = self.archive_search(&mut theirs) == expected && ours == theirs;
        let text = reference::panel(&self.file);
        let mut out = vec![0; text.len()];
        let length = archive::panel(&self.file, &mut out);
        let same_panel = length as usize == text.len() && out == text.as_bytes();
        let accepted = archive::accept(&self.file)[0] == 0;
        let stable = archive::judge(&self.file, &self.list, &self.set) == [0, 1];
        let checked = archive::check(&self.file, &self.set, self.asked, &self.proof);
        let proved = checked == [0, u32::from(!self.proof.is_empty())];
        searched
            && same_panel
            && accepted
            && stable
            && proved
            && self.agrees_on_grounds()
            && self.agrees_on_layers()
            && self.agrees_on_load()
            && (!HAS_BETTER || self.agrees_on_better())
    }

    fn agrees_on_grounds(&self) -> bool {
        let mut ours = self.buffers.clone();
        let mut theirs = self.buffers.clone();
        let lent = ours.lent().0;
        let expected = match reference::grounds(&self.file, &self.order, self.asked, lent) {
            Ok(count) => [0, count as u32],
            Err(refusal) => [refusal as u32, 0],
        };
        self.archive_grounds(&mut theirs) == expected && ours == theirs
    }

    fn agrees_on_layers(&self) -> bool {
        let mut ours = self.buffers.order.clone();
        let mut theirs = self.buffers.order.clone();
        let expected = match reference::layered(&self.file, &mut ours) {
            Ok(count) => [0, count as u32],
            Err(refusal) => [refusal as u32, 0],
        };
        archive::layered(&self.file, &mut theirs) == expected && ours == theirs
    }

    fn agrees_on_better(&self) -> bool {
        let expected = match reference::choose(&self.file, &self.order, &self.descending) {
            Ok(which) => [0, which as u32],
            Err(refusal) => [refusal as u32, 0],
        };
        archive::better(&self.file, &self.order, &self.descending) == expected
    }

    /// How many facts and rules the file has, and so the load.
    fn counts(&self) -> [u32; 2] {
        [self.buffers.fact_marks.len() as u32, self.buffers.rule_marks.len() as u32]
    }

    fn agrees_on_load(&self) -> bool {
        let [facts, rules] = self.counts();
        let mut ours = self.buffers.load.clone();
        let mut theirs = self.buffers.load.clone();
        let Ok(length) = reference::load(START, facts, rules, &mut ours) else { return false };
        archive::load(START, facts, rules, &mut theirs) == [0, length as u32] && ours == theirs
    }

    fn archive_search(&self, buffers: &mut Buffers) -> [u32; 3] {
        let Buffers { fact_marks, rule_marks, steps, order, .. } = buffers;
        archive::search(&self.file, fact_marks, rule_marks, steps, order)
    }

    fn archive_run(&self, buffers: &mut Buffers) -> [u32; 3] {
        let Buffers { fact_marks, rule_marks, steps, .. } = buffers;
        archive::run(&self.file, &self.order, fact_marks, rule_marks, steps)
    }

    fn archive_grounds(&self, buffers: &mut Buffers) -> [u32; 2] {
        let Buffers { fact_marks, rule_marks, steps, .. } = buffers;
        archive::grounds(&self.file, &self.order, self.asked, fact_marks, rule_marks, steps)
    }

    fn archive_call(&self, operation: Operation, buffers: &mut Buffers) -> u32 {
        let (file, set) = (black_box(&self.file), &self.set);
        match operation {
            Operation::Accept => archive::accept(file)[0],
            Operation::Run => self.archive_run(buffers)[0],
            Operation::Judge => archive::judge(file, &self.list, set)[1],
            Operation::Check => archive::check(file, set, self.asked, &self.proof)[1],
            Operation::Search => self.archive_search(buffers)[0],
            Operation::Grounds => self.archive_grounds(buffers)[0],
            Operation::Layered => archive::layered(file, &mut buffers.order)[0],
            Operation::Load => {
                let [facts, rules] = black_box(self.counts());
                archive::load(black_box(START), facts, rules, &mut buffers.load)[1]
            }
            Operation::Better => archive::better(file, &self.order, &self.descending)[1],
        }
    }

    fn reference_call(&self, operation: Operation, buffers: &mut Buffers) -> bool {
        let (file, set) = (black_box(&self.file), &self.set);
        let Buffers { fact_marks, rule_marks, steps, order, load } = buffers;
        let lent = Lent { fact_marks, rule_marks, steps };
        match operation {
            Operation::Accept => reference::accept(file).is_ok(),
            Operation::Run => reference::run(file, &self.order, lent).is_ok(),
            Operation::Judge => reference::judge(file, &self.list, set).is_ok(),
            Operation::Check => reference::check(file, set, self.asked, &self.proof).is_ok(),
            Operation::Search => reference::search(file, lent, order).is_ok(),
            Operation::Grounds => reference::grounds(file, &self.order, self.asked, lent).is_ok(),
            Operation::Layered => reference::layered(file, order).is_ok(),
            Operation::Load => {
                let [facts, rules] = black_box(self.counts());
                reference::load(black_box(START), facts, rules, load).is_ok()
            }
            Operation::Better => reference::choose(file, &self.order, &self.descending).is_ok(),
        }
    }
}

/// The time of one call, from calls on all subjects in turn.
fn times(subjects: &[Subject], operation: Operation) -> Times {
    let buffers = || subjects.iter().map(|subject| subject.buffers.clone()).collect::<Vec<_>>();
    let (mut ours, mut theirs) = (buffers(), buffers());
    let all = side_by_side(
        || {
            for (subject, buffers) in subjects.iter().zip(&mut ours) {
                black_box(subject.archive_call(operation, buffers));
            }
        },
        || {
            for (subject, buffers) in subjects.iter().zip(&mut theirs) {
                black_box(subject.reference_call(operation, buffers));
            }
        },
    );
    let count = subjects.len() as f64;
    Times { archive: all.archive / count, reference: all.reference / count }
}

#[derive(Clone, Copy, Debug)]
enum Operation {
    Accept,
    Run,
    Judge,
    Check,
    Search,
    Grounds,
    Layered,
    Load,
    Better,
}

/// The operations on a file. The time of a load depends on its counts alone.
const ALL_ON_FILES: [Operation; 8] = [
    Operation::Accept,
    Operation::Run,
    Operation::Judge,
    Operation::Check,
    Operation::Search,
    Operation::Grounds,
    Operation::Layered,
    Operation::Better,
];
const COUNT: usize = ALL_ON_FILES.len() + 1;

/// Those of them that the archive has.
fn on_files() -> &'static [Operation] {
    if HAS_BETTER { &ALL_ON_FILES } else { &ALL_ON_FILES[..ALL_ON_FILES.len() - 1] }
}

/// Median seconds of one call.
#[derive(Clone, Copy)]
struct Times {
    archive: f64,
    reference: f64,
}

/// A call, timed in rounds of a fixed number of repeats.
struct Timed<C> {
    call: C,
    repeats: u32,
    rounds: usize,
}

impl<R, C: FnMut() -> R> Timed<C> {
    /// The first call warms up, and a second tells how often to repeat.
    fn new(mut call: C) -> Timed<C> {
        let mut once = time_of(&mut call);
        if once > SLOW {
            return Timed { call, repeats: 1, rounds: SLOW_ROUNDS };
        }
        once = time_of(&mut call).max(Duration::from_nanos(20));
        let repeats = (ROUND.as_nanos() / once.as_nanos()).max(1) as u32;
        Timed { call, repeats, rounds: ROUNDS }
    }

    fn round(&mut self) -> f64 {
        let started = Instant::now();
        for _ in 0..self.repeats {
            black_box((self.call)());
        }
        started.elapsed().as_secs_f64() / f64::from(self.repeats)
    }
}

fn time_of<R>(call: &mut impl FnMut() -> R) -> Duration {
    let started = Instant::now();
    black_box(call());
    started.elapsed()
}

/// The rounds of both sides alternate, so that a change of the machine's speed
/// meets both.
fn side_by_side<A, B>(archive: impl FnMut() -> A, reference: impl FnMut() -> B) -> Times {
    let mut archive = Timed::new(archive);
    let mut reference = Timed::new(reference);
    let rounds = archive.rounds.min(reference.rounds);
    let (ours, theirs): (Vec<f64>, Vec<f64>) =
        (0..rounds).map(|_| (archive.round(), reference.round())).unzip();
    Times { archive: median(ours), reference: median(theirs) }
}

fn median(mut times: Vec<f64>) -> f64 {
    times.sort_by(f64::total_cmp);
    times[times.len() / 2]
}

/// The table, printed line by line and kept.
struct Table {
    text: String,
    /// Logarithms of the ratios, by operation.
    ratios: [Vec<f64>; COUNT],
    /// The same of files with unread facts.
    ratios_unread: [Vec<f64>; COUNT],
    /// By operation, the exponents with which the archive's times grow with the rules,
    /// from the smallest file of a family to its largest.
    exponents: [Vec<f64>; COUNT],
}

impl Table {
    fn line(&mut self, line: &str) {
        println!("{line}");
        self.text += line;
        self.text.push('\n');
    }

    fn head(&mut self) {
        self.line(&format!(
            "{:<22}{:>6}{:>6}{:>5}  {:<8}{:>12}{:>12}{:>8}{:>10}{:>10}",
            "file",
            "rules",
            "facts",
            "con",
            "",
            "archive us",
            "refer. us",
            "ratio",
            "growth a",
            "growth r"
        ));
    }

    /// The rows of files that grow, and how the times grow with them.
    fn family(&mut self, (name, file): Family, operations: &[Operation]) -> Result<(), String> {
        let mut before: [Option<Times>; COUNT] = [None; COUNT];
        let mut smallest: [Option<Times>; COUNT] = [None; COUNT];
        for size in SIZES {
            let subject = agreeing(name, &file(size))?;
            for &operation in operations {
                let now = times(slice::from_ref(&subject), operation);
                let before = before[operation as usize].replace(now);
                self.row(name, &subject, operation, TimesRow { now, before });
                smallest[operation as usize].get_or_insert(now);
            }
        }
        let rules = SIZES[SIZES.len() - 1].0 as f64 / SIZES[0].0 as f64;
        for (exponents, (first, last)) in
            self.exponents.iter_mut().zip(smallest.iter().zip(&before))
        {
            if let (Some(first), Some(last)) = (first, last) {
                exponents.push((last.archive / first.archive).ln() / rules.ln());
            }
        }
        Ok(())
    }

    /// The rows of files of one size; the search is not timed where it refuses them.
    fn rows(&mut self, file: &str, subjects: &[Subject]) {
        for &operation in on_files() {
            let searches = matches!(operation, Operation::Search);
            if !searches || subjects[0].constraint_facts <= MOST_GUESSED {
                self.single(file, subjects, operation);
            }
        }
    }

    /// The row of files of one size under one operation.
    fn single(&mut self, file: &str, subjects: &[Subject], operation: Operation) {
        let now = times(subjects, operation);
        self.row(file, &subjects[0], operation, TimesRow { now, before: None });
    }

    fn row(&mut self, file: &str, subject: &Subject, operation: Operation, rows: TimesRow) {
        let growth = |time: f64, before: Option<f64>| {
            before.map_or("-".to_string(), |before| format!("{:.2}", time / before))
        };
        let TimesRow { now, before } = rows;
        let ratios = if subject.has_unread() { &mut self.ratios_unread } else { &mut self.ratios };
        ratios[operation as usize].push((now.archive / now.reference).ln());
        self.line(&format!(
            "{:<22}{:>6}{:>6}{:>5}  {:<8}{:>12.3}{:>12.3}{:>8.2}{:>10}{:>10}",
            file,
            subject.buffers.rule_marks.len(),
            subject.buffers.fact_marks.len(),
            subject.constraint_facts,
            format!("{operation:?}").to_lowercase(),
            now.archive * 1e6,
            now.reference * 1e6,
            now.archive / now.reference,
            growth(now.archive, before.map(|times| times.archive)),
            growth(now.reference, before.map(|times| times.reference)),
        ));
    }

    fn summary(&mut self) {
        let all = on_files().iter().copied().chain([Operation::Load]);
        for operation in all.clone() {
            let sum = mean_and_worst(&self.ratios[operation as usize]);
            let name = format!("{operation:?}").to_lowercase();
            self.line(&format!("{name:<8} archive/reference: {sum}"));
        }
        for &operation in on_files() {
            let ratios = &self.ratios_unread[operation as usize];
            if !ratios.is_empty() {
                let sum = mean_and_worst(ratios);
                let name = format!("{operation:?}").to_lowercase();
                self.line(&format!("{name:<8} with unread facts: {sum}"));
            }
        }
        for operation in all {
            let exponents = &self.exponents[operation as usize];
            let worst = exponents.iter().copied().fold(f64::MIN, f64::max);
            let name = format!("{operation:?}").to_lowercase();
            self.line(&format!(
                "{name:<8} growth of the archive with the rules: exponent at most {worst:.2}"
            ));
        }
    }
}

fn mean_and_worst(logs: &[f64]) -> String {
    let mean = (logs.iter().sum::<f64>() / logs.len() as f64).exp();
    let worst = logs.iter().copied().fold(f64::MIN, f64::max).exp();
    format!("geometric mean {mean:>8.2}, worst {worst:>8.2}")
}

/// The times at this size, and at the size before.
struct TimesRow {
    now: Times,
    before: Option<Times>,
}

type Family = (&'static str, fn((usize, usize)) -> Draft);

/// Files that grow; each takes rules and facts.
const FAMILIES: [Family; 8] = [
    ("chain forward", |size| chains(size, RuleOrder::Forward)),
    ("chain backward", |size| chains(size, RuleOrder::Backward)),
    ("chain shuffled", |size| chains(size, RuleOrder::Shuffled)),
    ("backward, 16 facts", |(rules, _)| chains((rules, 16), RuleOrder::Backward)),
    ("exceptions, 16 facts", |(rules, _)| exceptions((rules, 16), 8)),
    ("exceptions", |size| exceptions(size, 4)),
    ("exceptions", |size| exceptions(size, 8)),
    ("exceptions", |size| exceptions(size, 16)),
];

/// Layered files that grow; of those above only the chains are.
const LAYERED_FAMILIES: [Family; 2] = [("load in layers", load_in_layers), ("ranks", ranks)];

/// Files that grow for the choice between two orders: the second wins, and both set some aside.
/// In the chains above the first sets nothing aside, so that it alone need be run.
const RIVAL_FAMILIES: [Family; 2] =
    [("upper set aside", upper_set_aside), ("some set aside", some_set_aside)];

/// Test loads that grow.
const LOADS: Family = ("load", |(rules, facts)| loads::draft(START, facts, rules));

type Single = (&'static str, fn() -> Draft);

/// Files of one size. On those with too many constraint facts the search is not timed.
const SINGLES: [Single; 3] =
    [("dense, 24 items", dense), LOAD_OF_64_FACTS, ("decoys, 24 premises", decoys)];

const LOAD_OF_64_FACTS: Single = ("load, 64 facts", || loads::draft(START, 64, 512));

/// Test loads of one size: the least that has a rule, and one of large files.
const SINGLE_LOADS: [Single; 2] =
    [("load, 4 facts", || loads::draft(START, 4, 1)), LOAD_OF_64_FACTS];

const WORST_SEARCHES: [Single; 3] = [
    ("pairs above odd loop", pairs_above_odd_loop),
    ("all above lowest", all_above_lowest),
    ("wide, 24 premises", wide_above_lowest),
];

/// All steps are kept, from the last back to the first, one behind another.
const DEEPEST_GROUNDS: [Single; 3] = [
    ("stairs, 32 facts", || stairs(32, 1)),
    ("stairs, 1 premise", || stairs(255, 1)),
    ("stairs, 24 premises", || stairs(255, MOST_OWN_ITEMS - 1)),
];

/// Facts that are unread: five of the sixteen constraint facts, of two rules that exclude
/// each other at most one.
const FIVE_OF_SIXTEEN: [u8; 5] = [0, 3, 6, 9, 12];

/// Files of which about a third of the exception rules are withheld, and one of which all.
const WITHHELD: [Single; 5] = [
    ("exceptions, 5 unread", || with_unread(&FIVE_OF_SIXTEEN, exceptions((512, 255), 16))),
    ("dense, 5 unread", || with_unread(&FIVE_OF_SIXTEEN, dense())),
    ("dense, 16 unread", || with_unread(&(0..16).collect::<Vec<_>>(), dense())),
    ("load, 16 unread", || {
        with_unread(&(0..64).step_by(4).collect::<Vec<_>>(), loads::draft(START, 64, 512))
    }),
    ("scattered, 6 unread", || {
        with_unread(
            &(7..255).step_by(42).collect::<Vec<_>>(),
            layers::scattered(1, 512, MOST_OWN_ITEMS),
        )
    }),
];

/// So many files are read in turn, more than the processor can remember the branches of:
/// a delivery has never been read before.
const IN_TURN: u64 = 48;

/// The most constraint facts that the search takes.
const MOST_GUESSED: usize = 16;

fn agreeing(name: &str, draft: &Draft) -> Result<Subject, String> {
    let subject = Subject::new(draft);
    if subject.agrees() { Ok(subject) } else { Err(format!("{name}: the answers differ")) }
}

/// The files with unread facts.
fn measure_withheld(table: &mut Table) -> Result<(), String> {
    for (name, file) in WITHHELD {
        table.rows(name, &[agreeing(name, &file())?]);
    }
    let unread =
        (0..IN_TURN).map(|seed| agreeing("mixed, unread", &with_unread(&[210, 240], mixed(seed))));
    table.rows("mixed, 2 unread", &unread.collect::<Result<Vec<_>, String>>()?);
    Ok(())
}

/// The files that are made to be hard for the search, each family in each order of its rules and
/// each of these with a seed of its own.
fn measure_hard(table: &mut Table) -> Result<(), String> {
    for (family, file) in hard::FAMILIES {
        for (order, seed) in hard::RULE_ORDERS.into_iter().zip(0..) {
            let name = format!("{family}, {order:?}").to_lowercase();
            table.single(&name, &[agreeing(&name, &file(seed, order))?], Operation::Search);
        }
    }
    Ok(())
}

fn measure(without_unread: bool) -> Result<Table, String> {
    let mut table = Table {
        text: String::new(),
        ratios: Default::default(),
        ratios_unread: Default::default(),
        exponents: Default::default(),
    };
    table.head();
    for family in FAMILIES {
        table.family(family, on_files())?;
    }
    for family in LAYERED_FAMILIES {
        table.family(family, &[Operation::Layered])?;
    }
    if HAS_BETTER {
        for family in RIVAL_FAMILIES {
            table.family(family, &[Operation::Better])?;
        }
    }
    table.family(LOADS, &[Operation::Load])?;
    for (name, file) in SINGLES {
        table.rows(name, &[agreeing(name, &file())?]);
    }
    let mixed = (0..IN_TURN).map(|seed| agreeing("mixed", &mixed(seed)));
    table.rows("mixed, files in turn", &mixed.collect::<Result<Vec<_>, String>>()?);
    let worst = WORST_SEARCHES.map(|single| (single, Operation::Search));
    let deepest = DEEPEST_GROUNDS.map(|single| (single, Operation::Grounds));
    let loads = SINGLE_LOADS.map(|single| (single, Operation::Load));
    for ((name, file), operation) in worst.into_iter().chain(deepest).chain(loads) {
        table.single(name, &[agreeing(name, &file())?], operation);
    }
    measure_hard(&mut table)?;
    for (name, file) in layers::FILES {
        let subject = agreeing(name, &file(512, MOST_OWN_ITEMS))?;
        table.single(name, &[subject], Operation::Layered);
    }
    let teeth = agreeing("ring and teeth", &layers::ring_and_teeth(255, 1))?;
    table.single("ring and teeth, 1 item", &[teeth], Operation::Layered);
    let scattered = (0..IN_TURN)
        .map(|seed| agreeing("scattered", &layers::scattered(seed, 512, MOST_OWN_ITEMS)));
    let scattered = scattered.collect::<Result<Vec<_>, String>>()?;
    table.single("scattered, in turn", &scattered, Operation::Layered);
    if !without_unread {
        measure_withheld(&mut table)?;
    }
    table.summary();
    Ok(table)
}

fn run() -> Result<(), String> {
    let mut arguments: Vec<String> = std::env::args().skip(1).collect();
    let without_unread = arguments.last().is_some_and(|last| last == "--without-unread");
    if without_unread {
        arguments.pop();
    }
    let out = match &arguments[..] {
        [] => None,
        [option, path] if option == "--out" => Some(path),
        _ => return Err("usage: bench [--out path] [--without-unread]".to_string()),
    };
    let table = measure(without_unread)?;
    match out {
        Some(path) => std::fs::write(path, table.text).map_err(|error| format!("{path}: {error}")),
        None => Ok(()),
    }
}

fn main() -> ExitCode {
    match run() {
        Ok(()) => ExitCode::SUCCESS,
        Err(message) => {
            println!("FAIL: {message}");
            ExitCode::FAILURE
        }
    }
}
