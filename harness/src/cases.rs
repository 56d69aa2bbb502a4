//! Cases: one call of one operation, with its inputs and the lengths of the
//! buffers it is lent, and the reply that the reference gives.

use crate::draft::{Draft, DraftRule};
use crate::files::{
    lengthen_rule, misplace_unread, random_draft, random_layers, random_rivals, spoil_file,
};
use crate::random::Random;
use reference::{Counts, Lent, RULE_NUMBER_BYTES, Refusal, RuleFile, STEP_BYTES, kind, load_bytes};

#[derive(Clone, Copy, PartialEq, Eq, Debug)]
pub enum Operation {
    Accept,
    Run,
    Judge,
    Check,
    Search,
    Panel,
    AskOrder,
    AskList,
    AskSet,
    AskRow,
    Grounds,
    Layered,
    Load,
    Better,
}

impl Operation {
    pub const ALL: [Operation; 14] = [
        Operation::Accept,
        Operation::Run,
        Operation::Judge,
        Operation::Check,
        Operation::Search,
        Operation::Panel,
        Operation::AskOrder,
        Operation::AskList,
        Operation::AskSet,
        Operation::AskRow,
        Operation::Grounds,
        Operation::Layered,
        Operation::Load,
        Operation::Better,
    ];

    pub fn name(self) -> &'static str {
        match self {
            Operation::Accept => "accept",
            Operation::Run => "run",
            Operation::Judge => "judge",
            Operation::Check => "check",
            Operation::Search => "search",
            Operation::Panel => "panel",
            Operation::AskOrder => "ask_order",
            Operation::AskList => "ask_list",
            Operation::AskSet => "ask_set",
            Operation::AskRow => "ask_row",
            Operation::Grounds => "grounds",
            Operation::Layered => "layered",
            Operation::Load => "load",
            Operation::Better => "better",
        }
    }

    /// All but the load, which takes three numbers and writes a file.
    pub fn reads_a_file(self) -> bool {
        self != Operation::Load
    }

    /// A question by itself. The C interface has no function for these.
    pub fn is_question(self) -> bool {
        matches!(
            self,
            Operation::AskOrder | Operation::AskList | Operation::AskSet | Operation::AskRow
        )
    }

    /// Its first buffers are those of a run: fact marks, rule marks and steps.
    pub fn writes_a_run(self) -> bool {
        matches!(self, Operation::Run | Operation::Search | Operation::Grounds)
    }

    /// Which of its buffers takes an order.
    pub fn order_buffer(self) -> Option<usize> {
        match self {
            Operation::Search => Some(3),
            Operation::Layered => Some(0),
            _ => None,
        }
    }

    /// The refusals that can come from this operation.
    pub fn own_refusals(self) -> Vec<u32> {
        let beyond_file: &[u32] = match self {
            Operation::Accept | Operation::Panel => &[],
            Operation::Run => &[11, 12, 13, 14, 31, 32, 33],
            Operation::Judge => &[11, 12, 13, 21, 22],
            Operation::Check => &[21, 22, 24, 23],
            Operation::Search => &[31, 32, 33, 34, 40, 41],
            Operation::AskOrder | Operation::Better => &[11, 12, 13, 14],
            Operation::AskList => &[11, 12, 13],
            Operation::AskSet => &[21, 22],
            Operation::AskRow => &[24, 23],
            Operation::Grounds => &[11, 12, 13, 14, 31, 32, 33, 50],
            Operation::Layered => &[34, 52],
            Operation::Load => return vec![53, 54, 55],
        };
        (1..=10).chain([51, 56]).chain(beyond_file.iter().copied()).collect()
    }

    /// The names of its answers where nothing is refused.
    pub fn answers(self) -> &'static [&'static str] {
        match self {
            Operation::Accept => &["without exception", "with exceptions"],
            Operation::Run | Operation::Search => &["no stage", "stages"],
            Operation::Judge => &["not stable", "stable"],
            Operation::Check => &["no", "yes"],
            Operation::Panel => &["buffer short", "text"],
            Operation::Grounds => &["steps left out", "all steps kept"],
            Operation::Layered => &["no rule named", "ascending order", "another order"],
            Operation::Load => &["without rules", "with rules"],
            Operation::Better => &["first, equal", "first, fewer", "second"],
            _ => &["yes"],
        }
    }
}

/// The numbers that a load takes.
#[derive(Clone, Copy, Default, Debug, PartialEq, Eq)]
pub struct Load {
    pub start: u32,
    pub facts: u32,
    pub rules: u32,
}

#[derive(Clone, Debug)]
pub struct Case {
    pub operation: Operation,
    pub load: Load,
    pub file: Vec<u8>,
    /// The order or the list of rules; the first of two orders.
    pub rules: Vec<u8>,
    /// The second of two orders.
    pub second: Vec<u8>,
    pub set: Vec<u8>,
    pub asked: u32,
    pub proof: Vec<u8>,
    /// Lengths of the lent buffers, in the order of the C interface.
    pub lent: Vec<usize>,
}

/// What a call leaves behind: the numbers of its reply in the order of the C
/// structure, which of its inputs it hands back, where it does, and all bytes of the lent
/// buffers.
#[derive(Clone, Debug, PartialEq, Eq)]
pub struct Reply {
    pub numbers: Vec<u32>,
    /// The bytes of the better order; empty on a refusal, and of every other operation.
    pub handed_back: Vec<u8>,
    pub buffers: Vec<Vec<u8>>,
}

/// What a reply says, for counting.
#[derive(Clone, Copy, PartialEq, Eq, Debug)]
pub enum Met {
    Refusal(u32),
    /// An index into the answers of the operation, and what the withheld rules of the file
    /// have to do with it.
    Answer(usize, Withheld),
}

/// What the withheld rules of a file have to do with an answer.
#[derive(Clone, Copy, PartialEq, Eq, Debug)]
pub enum Withheld {
    /// There are none, or no file.
    None,
    /// There are some, and the same call is answered the same where all facts were read.
    Same,
    /// There are some, and it is answered otherwise then.
    Other,
}

impl Case {
    pub fn new(operation: Operation, file: &[u8]) -> Case {
        Case {
            operation,
            load: Load::default(),
            file: file.to_vec(),
            rules: Vec::new(),
            second: Vec::new(),
            set: Vec::new(),
            asked: 0,
            proof: Vec::new(),
            lent: Vec::new(),
        }
    }

    /// A load in a buffer of this length.
    pub fn load(start: u32, facts: u32, rules: u32, lent: usize) -> Case {
        let load = Load { start, facts, rules };
        Case { load, lent: vec![lent], ..Case::new(Operation::Load, &[]) }
    }

    /// The reply of the reference, from buffers that hold `pattern(place)`.
    pub fn expected(&self, pattern: impl Fn(usize) -> u8) -> Reply {
        let fill = |&length: &usize| (0..length).map(&pattern).collect();
        let mut buffers: Vec<Vec<u8>> = self.lent.iter().map(fill).collect();
        let numbers = self.call_reference(&mut buffers);
        let handed_back = match self.operation {
            Operation::Better => reference::better(&self.file, &self.rules, &self.second).to_vec(),
            _ => vec![],
        };
        Reply { numbers, handed_back, buffers }
    }

    /// The order that is handed back by the numbers of a reply: none on a refusal, and of any
    /// other operation.
    pub fn handed_back(&self, numbers: &[u32]) -> Vec<u8> {
        match (self.operation, numbers) {
            (Operation::Better, [_, 1]) => self.rules.clone(),
            (Operation::Better, [_, 2]) => self.second.clone(),
            _ => vec![],
        }
    }

    /// How many rules the run under an order sets aside, of a case that is not refused.
    fn count_set_aside(&self, order: &[u8]) -> usize {
        let counts = reference::accept(&self.file).expect("the file is accepted");
        let run = Case {
            rules: order.to_vec(),
            lent: vec![counts.facts, counts.rules, STEP_BYTES * counts.facts],
            ..Case::new(Operation::Run, &self.file)
        };
        End::of(&run).expect("the order is one of the file").set_aside.len()
    }

    fn call_reference(&self, buffers: &mut [Vec<u8>]) -> Vec<u32> {
        let file = &self.file;
        match (self.operation, buffers) {
            (Operation::Accept, _) => match reference::accept(file) {
                Ok(found) => {
                    let counts =
                        [found.facts, found.rules, found.exceptions, found.constraint_facts];
                    let [facts, rules, exceptions, constraints] = counts.map(|count| count as u32);
                    vec![0, facts, rules, exceptions, constraints, STEP_BYTES as u32]
                }
                Err(refusal) => vec![refusal as u32, 0, 0, 0, 0, 0],
            },
            (Operation::Run, [fact_marks, rule_marks, steps]) => counts_reply(reference::run(
                file,
                &self.rules,
                Lent { fact_marks, rule_marks, steps },
            )),
            (Operation::Judge, _) => verdict_reply(reference::judge(file, &self.rules, &self.set)),
            (Operation::Check, _) => {
                verdict_reply(reference::check(file, &self.set, self.asked, &self.proof))
            }
            (Operation::Search, [fact_marks, rule_marks, steps, order]) => {
                counts_reply(reference::search(file, Lent { fact_marks, rule_marks, steps }, order))
            }
            (Operation::Panel, [out]) => {
                let text = reference::panel(file);
                if let Some(start) = out.get_mut(..text.len()) {
                    start.copy_from_slice(text.as_bytes());
                }
                vec![text.len() as u32]
            }
            (Operation::AskOrder, _) => answer_reply(reference::ask_order(file, &self.rules)),
            (Operation::AskList, _) => answer_reply(reference::ask_list(file, &self.rules)),
            (Operation::AskSet, _) => answer_reply(reference::ask_set(file, &self.set)),
            (Operation::AskRow, _) => {
                answer_reply(reference::ask_row(file, self.asked, &self.proof))
            }
            (Operation::Grounds, [fact_marks, rule_marks, steps]) => {
                count_reply(reference::grounds(
                    file,
                    &self.rules,
                    self.asked,
                    Lent { fact_marks, rule_marks, steps },
                ))
            }
            (Operation::Layered, [order]) => count_reply(reference::layered(file, order)),
            (Operation::Load, [out]) => {
                let Load { start, facts, rules } = self.load;
                count_reply(reference::load(start, facts, rules, out))
            }
            (Operation::Better, _) => {
                let (first, second) = (&self.rules, &self.second);
                let which = reference::choose(file, first, second).map_or(0, |which| which as u32);
                vec![reference::better_number(file, first, second), which]
            }
            _ => unreachable!("a case lends what its operation takes"),
        }
    }

    /// What the reply of the reference says.
    pub fn met(&self, reply: &Reply) -> Met {
        let numbers = &reply.numbers;
        let answer = match self.operation {
            Operation::Panel => match reference::accept(&self.file) {
                Err(refusal) => return Met::Refusal(refusal as u32),
                Ok(_) => usize::from(self.lent[0] >= numbers[0] as usize),
            },
            _ if numbers[0] != 0 => return Met::Refusal(numbers[0]),
            Operation::Accept => usize::from(numbers[3] > 0),
            question if question.is_question() => 0,
            Operation::Grounds => {
                // Each fact derived has one step.
                let facts = usize::from(self.file[1]);
                let marks = reply.buffers[0][..facts].iter();
                let steps = marks.filter(|&&mark| mark == 1).count();
                usize::from(numbers[1] as usize == steps)
            }
            Operation::Layered => {
                let named = RULE_NUMBER_BYTES * numbers[1] as usize;
                let ascending = reply.buffers[0][..named].chunks(RULE_NUMBER_BYTES).is_sorted();
                if named == 0 { 0 } else { 1 + usize::from(!ascending) }
            }
            Operation::Load => usize::from(self.load.rules > 0),
            Operation::Better if numbers[1] == 2 => 2,
            Operation::Better => {
                let [first, second] =
                    [&self.rules, &self.second].map(|order| self.count_set_aside(order));
                usize::from(first < second)
            }
            _ => usize::from(numbers[1] > 0),
        };
        Met::Answer(answer, self.withheld(reply))
    }

    /// Whether withheld rules change the reply, of a case that is not refused. All unread
    /// facts stand right behind the first item then.
    fn withheld(&self, reply: &Reply) -> Withheld {
        if !self.operation.reads_a_file() || self.file.get(2) != Some(&kind::UNREAD) {
            return Withheld::None;
        }
        let file = RuleFile::parse(&self.file).expect("the case is not refused");
        if !(0..file.rules.len()).any(|rule| file.is_withheld(rule)) {
            return Withheld::None;
        }
        let unread = self.file[2..].chunks(2).take_while(|item| item[0] == kind::UNREAD);
        let mut read = self.file.clone();
        read.drain(2..2 + 2 * unread.count());
        let other = Case { file: read, ..self.clone() }.expected(|_| UNTOUCHED);
        let written = self.expected(|_| UNTOUCHED);
        debug_assert_eq!(written.numbers, reply.numbers);
        if other == written { Withheld::Same } else { Withheld::Other }
    }
}

/// What the buffers hold where a reply is compared with another one.
const UNTOUCHED: u8 = 0xA5;

fn counts_reply(result: Result<Counts, Refusal>) -> Vec<u32> {
    match result {
        Ok(counts) => vec![0, counts.stages as u32, counts.steps as u32],
        Err(refusal) => vec![refusal as u32, 0, 0],
    }
}

fn verdict_reply(result: Result<bool, Refusal>) -> Vec<u32> {
    match result {
        Ok(verdict) => vec![0, u32::from(verdict)],
        Err(refusal) => vec![refusal as u32, 0],
    }
}

fn count_reply(result: Result<usize, Refusal>) -> Vec<u32> {
    match result {
        Ok(count) => vec![0, count as u32],
        Err(refusal) => vec![refusal as u32, 0],
    }
}

fn answer_reply(result: Result<(), Refusal>) -> Vec<u32> {
    vec![result.map_or_else(|refusal| refusal as u32, |()| 0)]
}

/// The highest refusal number.
const MOST_REFUSAL: usize = 56;
/// The most answers that an operation has.
const MOST_ANSWERS: usize = 3;
const OPERATIONS: usize = Operation::ALL.len();

/// How often each refusal and each answer was met, by operation.
#[derive(Clone)]
pub struct Tally {
    refusals: [[u64; MOST_REFUSAL + 1]; OPERATIONS],
    answers: [[u64; MOST_ANSWERS]; OPERATIONS],
    /// Answers for a file with withheld rules, and those of them that these change.
    withheld: [[u64; 2]; OPERATIONS],
}

impl Default for Tally {
    fn default() -> Tally {
        Tally {
            refusals: [[0; MOST_REFUSAL + 1]; OPERATIONS],
            answers: [[0; MOST_ANSWERS]; OPERATIONS],
            withheld: [[0; 2]; OPERATIONS],
        }
    }
}

impl Tally {
    pub fn count(&mut self, operation: Operation, met: Met) {
        match met {
            Met::Refusal(number) => self.refusals[operation as usize][number as usize] += 1,
            Met::Answer(answer, withheld) => {
                self.answers[operation as usize][answer] += 1;
                let [with, changed] = &mut self.withheld[operation as usize];
                *with += u64::from(withheld != Withheld::None);
                *changed += u64::from(withheld == Withheld::Other);
            }
        }
    }

    /// The table of counts, with the questions or without them, and whether every
    /// entry was met at least once.
    pub fn table(&self, with_questions: bool) -> (String, bool) {
        let mut text = String::new();
        let mut all_met = true;
        let shown = |operation: &Operation| with_questions || !operation.is_question();
        for operation in Operation::ALL.into_iter().filter(shown) {
            text += &format!("{}\n", operation.name());
            for (answer, count) in operation.answers().iter().zip(self.answers[operation as usize])
            {
                text += &format!("  {answer:<18}{count:>10}\n");
                all_met &= count > 0;
            }
            if operation.reads_a_file() {
                let [with, changed] = self.withheld[operation as usize];
                text += &format!("  rules withheld    {with:>10}, other reply by them {changed}\n");
                // What a row or a set is asked does not depend on the rules.
                all_met &= with > 0 && (changed > 0 || operation.is_question());
            }
            for refusal in operation.own_refusals() {
                let count = self.refusals[operation as usize][refusal as usize];
                let note = if count == 0 { "  never met" } else { "" };
                text += &format!("  refusal {refusal:<10}{count:>10}{note}\n");
                all_met &= count > 0;
            }
        }
        (text, all_met)
    }
}

pub fn rule_numbers(rules: &[usize]) -> Vec<u8> {
    let item = |&rule: &usize| [kind::RULE_NUMBER, (rule >> 8) as u8, rule as u8];
    rules.iter().flat_map(item).collect()
}

/// The numbers of the exception rules, ascending.
fn exceptions(draft: &Draft) -> Vec<usize> {
    let is_exception =
        |rule: &DraftRule| rule.items.iter().any(|&(kind, _)| kind == kind::CONSTRAINT);
    (0..draft.rules.len()).filter(|&rule| is_exception(&draft.rules[rule])).collect()
}

/// The lengths that the questions 31 to 34 ask for.
fn needed(operation: Operation, draft: &Draft) -> Vec<usize> {
    let facts = usize::from(draft.facts);
    let mut lengths = if operation.writes_a_run() {
        vec![facts, draft.rules.len(), STEP_BYTES * facts]
    } else {
        vec![]
    };
    if operation.order_buffer().is_some() {
        lengths.push(RULE_NUMBER_BYTES * exceptions(draft).len());
    }
    lengths
}

/// Where a run or a search ended.
struct End {
    set: Vec<u8>,
    set_aside: Vec<usize>,
    steps: Vec<u8>,
}

impl End {
    fn of(case: &Case) -> Option<End> {
        let reply = case.expected(|_| 0);
        let [0, _, steps] = reply.numbers[..] else { return None };
        let set = reply.buffers[0].iter().map(|&mark| u8::from(mark == 1)).collect();
        let rule_marks = &reply.buffers[1];
        let set_aside = (0..rule_marks.len()).filter(|&rule| rule_marks[rule] == 2).collect();
        let steps = reply.buffers[2][..STEP_BYTES * steps as usize].to_vec();
        Some(End { set, set_aside, steps })
    }
}

fn run_case(draft: &Draft, file: &[u8], order: &[usize]) -> Case {
    Case {
        rules: rule_numbers(order),
        lent: needed(Operation::Run, draft),
        ..Case::new(Operation::Run, file)
    }
}

fn search_case(draft: &Draft, file: &[u8]) -> Case {
    Case { lent: needed(Operation::Search, draft), ..Case::new(Operation::Search, file) }
}

/// A file, the draft it was made from, and calls of all operations on it.
struct Subject {
    draft: Draft,
    file: Vec<u8>,
}

/// A case of any operation, from its own random numbers. Most orders by ranks are asked
/// of files that are made in layers. Whether it is one of two orders is drawn last, so that all
/// other cases are those that there were before.
pub fn random_case(random: &mut Random) -> Case {
    let chosen = random.below(28);
    if chosen == 1 {
        return random_load(random);
    }
    let layers = (23..27).contains(&chosen) && !random.one_in(3);
    let mut draft = if layers { random_layers(random) } else { random_draft(random) };
    if random.one_in(20) {
        lengthen_rule(random, &mut draft);
    }
    let mut file = draft.bytes();
    if random.one_in(40) {
        misplace_unread(random, &mut file);
    } else if random.one_in(8) {
        spoil_file(random, &mut file);
    }
    let subject = Subject { draft, file };
    let case = match chosen {
        0 => Case::new(Operation::Accept, &subject.file),
        2..7 => subject.random_run(random),
        7..11 => subject.random_judge(random),
        11..15 => subject.random_check(random),
        15..19 => subject.random_search(random),
        19..23 => subject.random_grounds(random),
        23..27 => subject.random_layered(random),
        _ => subject.random_panel(random),
    };
    if random.one_in(BETTER_ONE_IN) { subject.random_better(random) } else { case }
}

/// One case on a file in so many is of two orders.
const BETTER_ONE_IN: usize = 8;

/// With so many rules the length of a load's file is 1 at 32 bits.
pub const LENGTH_WRAPS: u32 = 715_827_882;

/// A load, mostly of few rules; at times with a count that is refused. Of these some have
/// low bytes that would not be, and with some the length wraps.
fn random_load(random: &mut Random) -> Case {
    let start = match random.below(4) {
        0 => random.below(8) as u32,
        1 => u32::MAX - random.below(8) as u32,
        _ => random.below(1 << 32) as u32,
    };
    let facts = match random.below(16) {
        0 => 256 * random.below(3) as u32,
        1 => u32::MAX - random.below(256) as u32,
        2 => 256 + random.below(66_000) as u32,
        3..6 => random.within(1, 255) as u32,
        _ => random.within(1, 12) as u32,
    };
    let rules = match random.below(64) {
        0..3 => random.within(513, 600) as u32,
        3..5 => 65_536 + random.below(513) as u32,
        5..7 => LENGTH_WRAPS + random.below(513) as u32,
        7 => u32::MAX - random.below(513) as u32,
        8 => random.within(0, 512) as u32,
        _ => random.below(10) as u32,
    };
    let mut lent = [load_bytes(rules.min(513) as usize)];
    spoil_lengths(random, &mut lent);
    Case::load(start, facts, rules, lent[0])
}

impl Subject {
    fn facts(&self) -> usize {
        usize::from(self.draft.facts)
    }

    fn shuffled_exceptions(&self, random: &mut Random) -> Vec<usize> {
        let mut exceptions = exceptions(&self.draft);
        random.shuffle(&mut exceptions);
        exceptions
    }

    fn random_run(&self, random: &mut Random) -> Case {
        let mut case = run_case(&self.draft, &self.file, &self.shuffled_exceptions(random));
        if random.one_in(5) {
            self.spoil_rule_numbers(random, &mut case.rules);
        }
        spoil_lengths(random, &mut case.lent);
        case
    }

    /// Mostly of a fact that the run derives, where it is not refused.
    fn random_grounds(&self, random: &mut Random) -> Case {
        let run = self.random_run(random);
        let derived = match End::of(&run) {
            Some(end) => end.steps.chunks(STEP_BYTES).map(|step| u32::from(step[1])).collect(),
            None => vec![],
        };
        let asked = if derived.is_empty() || random.one_in(5) {
            self.odd_fact(random)
        } else {
            derived[random.below(derived.len())]
        };
        Case { operation: Operation::Grounds, asked, ..run }
    }

    fn random_search(&self, random: &mut Random) -> Case {
        let mut case = search_case(&self.draft, &self.file);
        spoil_lengths(random, &mut case.lent);
        case
    }

    fn random_layered(&self, random: &mut Random) -> Case {
        let mut lent = needed(Operation::Layered, &self.draft);
        spoil_lengths(random, &mut lent);
        Case { lent, ..Case::new(Operation::Layered, &self.file) }
    }

    /// Mostly of a file made so that orders set aside more rules or fewer; at times with the same
    /// order twice, and with either order spoilt or both.
    fn random_better(self, random: &mut Random) -> Case {
        let subject = if random.one_in(3) {
            self
        } else {
            let draft = random_rivals(random);
            Subject { file: draft.bytes(), draft }
        };
        let first = subject.shuffled_exceptions(random);
        let second =
            if random.one_in(8) { first.clone() } else { subject.shuffled_exceptions(random) };
        let mut orders = [first, second].map(|order| rule_numbers(&order));
        for order in &mut orders {
            if random.one_in(8) {
                subject.spoil_rule_numbers(random, order);
            }
        }
        let [rules, second] = orders;
        Case { rules, second, ..Case::new(Operation::Better, &subject.file) }
    }

    fn random_panel(&self, random: &mut Random) -> Case {
        let mut lent = vec![reference::panel(&self.file).len()];
        spoil_lengths(random, &mut lent);
        Case { lent, ..Case::new(Operation::Panel, &self.file) }
    }

    /// The end of a run or of the search, with the list that makes it stable. At times it
    /// is that of the file with all facts read, which uses rules that are withheld here.
    fn random_end(&self, random: &mut Random) -> Option<End> {
        let read = Draft { unread: vec![], ..self.draft.clone() }.bytes();
        let file = if random.one_in(2) { &read } else { &self.file };
        let searched = random.one_in(2).then(|| End::of(&search_case(&self.draft, file)));
        searched.flatten().or_else(|| {
            let order = self.shuffled_exceptions(random);
            End::of(&run_case(&self.draft, file, &order))
        })
    }

    /// Names the withheld rules in a list that lacks them, so that it says the same.
    fn list_withheld(&self, list: &mut Vec<usize>) {
        let unread = |&(kind, fact): &(u8, u8)| {
            kind == kind::CONSTRAINT && self.draft.unread.contains(&fact)
        };
        for (number, rule) in self.draft.rules.iter().enumerate() {
            if rule.items.iter().any(unread) && !list.contains(&number) {
                list.push(number);
            }
        }
    }

    fn random_set(&self, random: &mut Random) -> Vec<u8> {
        (0..self.facts()).map(|_| random.below(2) as u8).collect()
    }

    fn random_judge(&self, random: &mut Random) -> Case {
        let mut case = Case::new(Operation::Judge, &self.file);
        let end = if random.one_in(4) { None } else { self.random_end(random) };
        let mut list;
        if let Some(end) = end {
            list = end.set_aside;
            case.set = end.set;
        } else {
            list = self.shuffled_exceptions(random);
            list.truncate(random.below(list.len() + 1));
            case.set = self.random_set(random);
        }
        if random.one_in(4) {
            self.list_withheld(&mut list);
        }
        case.rules = rule_numbers(&list);
        if random.one_in(8) {
            self.spoil_rule_numbers(random, &mut case.rules);
        }
        if random.one_in(8) {
            spoil_set(random, &mut case.set);
        } else if random.one_in(4) {
            flip_fact(random, &mut case.set);
        }
        case
    }

    fn random_check(&self, random: &mut Random) -> Case {
        let mut case = Case::new(Operation::Check, &self.file);
        match self.random_end(random) {
            Some(end) if !end.steps.is_empty() => {
                let last = random.below(end.steps.len() / STEP_BYTES);
                case.proof = end.steps[..STEP_BYTES * (last + 1)].to_vec();
                case.asked = u32::from(case.proof[STEP_BYTES * last + 1]);
                case.set = end.set;
            }
            _ => {
                case.set = self.random_set(random);
                let steps = random.below(4);
                case.proof = (0..steps).flat_map(|_| self.random_step(random)).collect();
                case.asked = random.below(self.facts() + 1) as u32;
            }
        }
        self.spoil_check(random, &mut case);
        case
    }

    fn random_step(&self, random: &mut Random) -> [u8; STEP_BYTES] {
        let rule = random.below(self.draft.rules.len() + 1);
        let fact = match self.draft.rules.get(rule) {
            Some(rule) if !random.one_in(4) => rule.conclusion,
            _ => random.below(self.facts() + 1) as u8,
        };
        [kind::STEP, fact, (rule >> 8) as u8, rule as u8]
    }

    fn spoil_check(&self, random: &mut Random, case: &mut Case) {
        match random.below(12) {
            0 => spoil_set(random, &mut case.set),
            1 => flip_fact(random, &mut case.set),
            2 => case.set = self.random_set(random),
            _ => {}
        }
        if random.one_in(12) {
            case.asked = self.odd_fact(random);
        }
        match random.below(12) {
            0 => spoil_items(random, &mut case.proof, STEP_BYTES),
            1..4 => self.spoil_steps(random, &mut case.proof),
            _ => {}
        }
    }

    /// A fact number that is mostly not in the file.
    fn odd_fact(&self, random: &mut Random) -> u32 {
        match random.below(4) {
            0 => self.facts() as u32,
            1 => 256 + random.below(self.facts() + 1) as u32,
            2 => u32::MAX - random.below(300) as u32,
            _ => random.below(self.facts() + 2) as u32,
        }
    }

    /// Changes whole steps, so that the row stays a row of steps.
    fn spoil_steps(&self, random: &mut Random, proof: &mut Vec<u8>) {
        let step = random.below(proof.len() / STEP_BYTES);
        let start = STEP_BYTES * step;
        match random.below(5) {
            0 if !proof.is_empty() => {
                proof.drain(start..start + STEP_BYTES);
            }
            1 if !proof.is_empty() => {
                let place = start + random.within(1, STEP_BYTES - 1);
                proof[place] ^= 1 << random.below(8);
            }
            2 if !proof.is_empty() => {
                let other = STEP_BYTES * random.below(proof.len() / STEP_BYTES);
                for byte in 0..STEP_BYTES {
                    proof.swap(start + byte, other + byte);
                }
            }
            3 => {
                let inserted = self.random_step(random);
                proof.splice(start..start, inserted);
            }
            _ => {
                let repeated: Vec<u8> = proof.iter().copied().take(STEP_BYTES).collect();
                proof.splice(start..start, repeated);
            }
        }
    }

    fn spoil_rule_numbers(&self, random: &mut Random, row: &mut Vec<u8>) {
        let items = row.len() / RULE_NUMBER_BYTES;
        let start = RULE_NUMBER_BYTES * random.below(items);
        match random.below(5) {
            0 if items > 0 => {
                row.drain(start..start + RULE_NUMBER_BYTES);
            }
            1 if items > 0 => {
                let from = RULE_NUMBER_BYTES * random.below(items);
                let repeated = row[from..from + RULE_NUMBER_BYTES].to_vec();
                row.splice(start..start, repeated);
            }
            2 => {
                let any = rule_numbers(&[random.below(self.draft.rules.len() + 2)]);
                row.splice(start..start, any);
            }
            3 => {
                let beyond = rule_numbers(&[random.below(65_536)]);
                row.splice(start..start, beyond);
            }
            _ => spoil_items(random, row, RULE_NUMBER_BYTES),
        }
    }
}

/// Breaks a row of items: a cut, a byte too many, or another kind.
fn spoil_items(random: &mut Random, row: &mut Vec<u8>, item_bytes: usize) {
    match random.below(4) {
        0 => row.truncate(row.len().saturating_sub(random.within(1, item_bytes - 1))),
        1 => row.push(if random.one_in(2) { kind::STEP } else { kind::RULE_NUMBER }),
        2 if !row.is_empty() => {
            let start = item_bytes * random.below(row.len() / item_bytes);
            row[start] = random.below(8) as u8;
        }
        _ => row.insert(0, random.below(256) as u8),
    }
}

fn flip_fact(random: &mut Random, set: &mut [u8]) {
    if !set.is_empty() {
        set[random.below(set.len())] ^= 1;
    }
}

fn spoil_set(random: &mut Random, set: &mut Vec<u8>) {
    match random.below(4) {
        0 => set.push(random.below(2) as u8),
        1 if !set.is_empty() => {
            set.pop();
        }
        2 if !set.is_empty() => {
            let place = random.below(set.len());
            set[place] = random.within(2, 255) as u8;
        }
        _ => set.extend([random.below(3) as u8, 1]),
    }
}

/// Makes some buffers longer than needed, and at times some too short.
fn spoil_lengths(random: &mut Random, lengths: &mut [usize]) {
    let all_enough = !random.one_in(8);
    for length in lengths {
        if all_enough || random.one_in(2) {
            *length += if random.one_in(3) { random.below(9) } else { 0 };
        } else if random.one_in(3) {
            *length = random.below(*length);
        } else {
            *length = length.saturating_sub(1);
        }
    }
}
