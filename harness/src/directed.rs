//! Cases made on purpose: the specification's examples, every refusal of every
//! operation, and calls that could be refused for two reasons at once.

use crate::cases::{Case, Operation, rule_numbers};
use crate::draft::{Draft, MOST_OWN_ITEMS};
use reference::{LOAD_STEP, RULE_NUMBER_BYTES, RuleFile, STEP_BYTES, kind, load_bytes};

type PlainRule<'a> = (usize, &'a [usize], &'a [usize]);

/// Fact 0, from nothing.
const ALWAYS: PlainRule = (0, &[], &[]);

fn example(facts: usize, rules: &[PlainRule]) -> Draft {
    let mut draft = Draft::new(facts);
    for (conclusion, premises, constraints) in rules {
        draft.rule(*conclusion, premises, constraints);
    }
    draft
}

/// The examples A to F.
pub fn examples() -> Vec<Draft> {
    vec![
        example(4, &[(0, &[], &[]), (1, &[0], &[2]), (2, &[0], &[1]), (3, &[2], &[])]),
        example(1, &[(0, &[], &[0])]),
        example(3, &[(0, &[], &[1]), (1, &[], &[2])]),
        example(2, &[(1, &[0], &[]), (0, &[], &[1])]),
        example(0, &[]),
        example(1, &[(0, &[0], &[])]),
    ]
}

/// Some of the examples with facts unread, and a file whose withheld rules stand before and
/// between others and would be in either group of the search's order.
fn unread_examples() -> Vec<Draft> {
    let examples = examples();
    let unread =
        |place: usize, unread: &[u8]| Draft { unread: unread.to_vec(), ..examples[place].clone() };
    let mut three_withheld = example(
        6,
        &[
            (4, &[], &[5]),
            (1, &[], &[2]),
            (2, &[], &[1]),
            (3, &[2], &[5]),
            (0, &[], &[4]),
            (0, &[1], &[5, 4]),
            (3, &[], &[1]),
        ],
    );
    three_withheld.unread = vec![5, 5];
    vec![
        unread(0, &[2]),
        unread(0, &[1, 2, 1]),
        unread(0, &[0, 3]),
        unread(1, &[0]),
        unread(2, &[2]),
        unread(3, &[1]),
        unread(5, &[0]),
        three_withheld,
    ]
}

/// Unread facts before the first rule that are too high or cut, and 07 items behind it.
fn files_with_unread_misplaced() -> Vec<Vec<u8>> {
    let ends: [&[u8]; 12] = [
        &[7],
        &[7, 0],
        &[7, 2],
        &[7, 1, 2, 0],
        &[7, 1, 0x1F, 0, 1],
        &[7, 0, 1, 0, 7],
        &[7, 0, 1, 0, 7, 2],
        &[1, 0, 7, 1],
        &[1, 0, 3, 1, 7, 1, 3, 1, 0x1F, 0, 1],
        &[1, 0, 7, 1, 1, 0, 0x1F, 0, 2],
        &[7, 1, 1, 0, 7, 1, 0x1F, 0, 3],
        &[7, 1, 0x1F, 0, 0, 7, 1],
    ];
    ends.iter().map(|end| [&[0x10, 2], *end].concat()).collect()
}

/// One more fact than constraint facts; every rule number from 0 to 511.
fn constraint_facts(count: usize) -> Draft {
    let mut draft = Draft::new(count + 1);
    for rule in 0..512 {
        draft.rule(count, &[], &[rule % count]);
    }
    draft
}

/// Constraint facts that all can be chosen, and an odd loop that ends every
/// choice: the search looks at all of them and finds nothing.
fn pairs_with_odd_loop(pairs: usize) -> Draft {
    let mut draft = Draft::new(2 * pairs + 1);
    draft.rule(0, &[], &[0]);
    for pair in 0..pairs {
        draft.rule(2 * pair + 1, &[], &[2 * pair + 2]);
        draft.rule(2 * pair + 2, &[], &[2 * pair + 1]);
    }
    draft
}

/// Only rules numbered 256 and more are applied, or set aside.
fn late_rules() -> Draft {
    let mut draft = Draft::new(4);
    (0..300).for_each(|_| draft.rule(1, &[1], &[]));
    draft.rule(0, &[], &[2]);
    draft.rule(1, &[0], &[1]);
    draft.rule(3, &[0], &[]);
    draft
}

/// Rules as long as they may be, where each item matters: 24 waits for all of 0 to 23;
/// 25 has the constraints 26 to 49, and 50 has 27 to 49 and, as its last, 24.
fn rules_at_the_cap() -> Draft {
    let mut draft = Draft::new(51);
    let premises: Vec<usize> = (0..MOST_OWN_ITEMS).collect();
    let constraints: Vec<usize> = (26..26 + MOST_OWN_ITEMS).collect();
    draft.rule(24, &premises, &[]);
    premises.iter().for_each(|&fact| draft.rule(fact, &[], &[]));
    draft.rule(25, &[], &constraints);
    draft.rule(50, &[], &[&constraints[1..], &[24]].concat());
    draft
}

/// Files around the 25th item of a rule, and that item against other refusals. Before
/// it stands a rule with as many items as may be, by turns premises and constraints.
fn files_around_the_cap() -> Vec<Vec<u8>> {
    let full_rule = [&[kind::CONCLUSION, 0][..], &[2, 1, 3, 2].repeat(12)].concat();
    let after_full = |end: &[u8]| [&[0x10, 3][..], &full_rule, end].concat();
    let opened = |rules: usize| [&[0x10, 1][..], &[1, 0].repeat(rules)].concat();
    let ends: [&[u8]; 16] = [
        &[],
        &[5],
        &[2],
        &[2, 3],
        &[3, 3],
        &[2, 2],
        &[3, 2],
        &[2, 2, 2],
        &[2, 2, 2, 3],
        &[2, 2, 5],
        &[2, 1, 0x1F, 0, 1],
        &[3, 1, 0x1F, 0, 2],
        &[3, 1, 0x1F, 0, 1, 0],
        &[1, 1, 2, 2, 0x1F, 0, 2],
        &[0x1F, 0, 2],
        &[0x1F, 0, 1, 0],
    ];
    let mut files: Vec<Vec<u8>> = ends.iter().map(|end| after_full(end)).collect();
    files.push(after_full(&[&full_rule[..], &[0x1F, 0, 2]].concat()));
    files.push(after_full(&[&full_rule[..], &[3, 2, 0x1F, 0, 2]].concat()));
    files.push([&[0x10, 3][..], &full_rule[2..], &[2, 2]].concat());
    for (rules, end) in [(512, &[][..]), (512, &[1, 0]), (513, &[])] {
        files.push([&opened(rules)[..], &[2, 0].repeat(25), end].concat());
    }
    files
}

/// The files that are refused; many would get a no to a later question too.
fn refused_files() -> Vec<Vec<u8>> {
    let mut empty_and_more = Draft::new(0).bytes();
    empty_and_more.push(0);
    let full = &example(1, &[ALWAYS; 512]).bytes()[..2 + 2 * 512];
    vec![
        [full, &[1, 1]].concat(),
        [full, &[1]].concat(),
        [full, &[3, 1]].concat(),
        [full, &[0x1F, 2, 1]].concat(),
        vec![],
        vec![0x10],
        vec![0x1F, 0, 0],
        vec![0x10, 1],
        vec![0x10, 1, 5],
        vec![0x10, 1, 0x10, 1],
        vec![0x10, 1, 1],
        vec![0x10, 1, 0x1F, 0],
        vec![0x10, 1, 1, 1],
        vec![0x10, 1, 2, 1],
        vec![0x10, 1, 2, 0],
        vec![0x10, 1, 3, 0],
        example(1, &[ALWAYS; 513]).bytes(),
        vec![0x10, 0, 0x1F, 0, 1],
        vec![0x10, 0, 0x1F, 0, 1, 7],
        vec![0x10, 0, 0x1F, 1, 0],
        empty_and_more,
    ]
}

/// One call of each operation on a file, answered where the file is accepted: the run in
/// ascending order, its last set with the rules set aside judged and its whole
/// row of steps checked, which both say yes, the grounds of its last fact, the order by
/// ranks, which is refused where a cycle goes through a constraint, and the better of the
/// ascending order and the descending one.
pub fn all_operations(file: &[u8]) -> Vec<Case> {
    let run = ascending_run(file);
    let reply = run.expected(|_| 0);
    let steps = STEP_BYTES * reply.numbers[2] as usize;
    let proof = reply.buffers[2][..steps].to_vec();
    let set: Vec<u8> = reply.buffers[0].iter().map(|&mark| u8::from(mark == 1)).collect();
    let rule_marks = &reply.buffers[1];
    let set_aside: Vec<usize> =
        (0..rule_marks.len()).filter(|&rule| rule_marks[rule] == 2).collect();
    let asked = if proof.is_empty() { 0 } else { u32::from(proof[steps - STEP_BYTES + 1]) };
    let order_bytes = vec![run.rules.len()];
    let with_order = [&run.lent[..], &order_bytes].concat();
    let panel_bytes = vec![reference::panel(file).len()];
    let better = better_of(file, &run.rules, &descending(&run.rules));
    let bare = Case { rules: vec![], lent: vec![], ..run.clone() };
    vec![
        Case { operation: Operation::Accept, ..bare.clone() },
        run.clone(),
        Case {
            operation: Operation::Judge,
            rules: rule_numbers(&set_aside),
            set: set.clone(),
            ..bare.clone()
        },
        Case { operation: Operation::Check, set, asked, proof, ..bare.clone() },
        Case { operation: Operation::Search, lent: with_order, ..bare.clone() },
        Case { operation: Operation::Panel, lent: panel_bytes, ..bare.clone() },
        Case { operation: Operation::Grounds, asked, ..run },
        Case { operation: Operation::Layered, lent: order_bytes, ..bare },
        better,
    ]
}

/// The better of two orders.
pub fn better_of(file: &[u8], first: &[u8], second: &[u8]) -> Case {
    let (rules, second) = (first.to_vec(), second.to_vec());
    Case { rules, second, ..Case::new(Operation::Better, file) }
}

/// An order the other way round.
fn descending(order: &[u8]) -> Vec<u8> {
    order.rchunks(RULE_NUMBER_BYTES).flatten().copied().collect()
}

fn ascending_run(file: &[u8]) -> Case {
    let (facts, rules, exceptions) = match RuleFile::parse(file) {
        Ok(parsed) => (parsed.facts, parsed.rules.len(), parsed.exceptions().collect()),
        Err(_) => (0, 0, vec![]),
    };
    Case {
        rules: rule_numbers(&exceptions),
        lent: vec![facts, rules, STEP_BYTES * facts],
        ..Case::new(Operation::Run, file)
    }
}

fn call_of(operation: Operation, file: &[u8]) -> Case {
    let of_operation = |case: &Case| case.operation == operation;
    all_operations(file).into_iter().find(of_operation).expect("each operation has its call")
}

/// Orders and lists for example A, right and wrong.
fn rows_for_a() -> [Vec<u8>; 13] {
    [
        rule_numbers(&[1, 2]),
        rule_numbers(&[2, 1]),
        rule_numbers(&[0]),
        rule_numbers(&[1, 1]),
        rule_numbers(&[1]),
        rule_numbers(&[]),
        rule_numbers(&[1, 1, 0]),
        rule_numbers(&[0, 1, 1]),
        rule_numbers(&[1, 2, 4]),
        rule_numbers(&[257, 2]),
        vec![5],
        vec![5, 0, 0, 5, 0],
        vec![5, 0, 0, 6, 0, 1],
    ]
}

/// Runs, judges and grounds of example A with orders and lists.
fn rule_number_cases(a: &[u8]) -> Vec<Case> {
    let mut cases = Vec::new();
    for row in rows_for_a() {
        let right = call_of(Operation::Run, a);
        let short = vec![3, right.lent[1], right.lent[2]];
        cases.push(Case { rules: row.clone(), lent: short, ..right.clone() });
        cases.push(Case { rules: row.clone(), ..right });
        for asked in [0, 1, 2, 3, 4] {
            cases.push(Case { rules: row.clone(), asked, ..call_of(Operation::Grounds, a) });
        }
        for set in [vec![1, 1, 0, 0], vec![1, 0, 1, 1], vec![1, 0, 2], vec![1, 2, 0, 0]] {
            cases.push(Case { rules: row.clone(), set, ..call_of(Operation::Judge, a) });
        }
    }
    cases
}

/// Files of which orders set aside more rules or fewer.
pub fn rival_examples() -> Vec<Draft> {
    let mut withheld_by_one =
        example(6, &[(0, &[], &[1]), (1, &[], &[2]), (4, &[0], &[5]), (5, &[1], &[3])]);
    withheld_by_one.unread = vec![3];
    vec![
        // Example C beside B: one rule or two.
        example(4, &[(0, &[], &[1]), (1, &[], &[2]), (3, &[], &[3])]),
        // C twice: none, one or two, and one in two ways.
        example(6, &[(0, &[], &[1]), (1, &[], &[2]), (3, &[], &[4]), (4, &[], &[5])]),
        // Equal rules are set aside together, though they conclude one fact.
        example(5, &[(0, &[], &[1]), (1, &[], &[2]), (1, &[], &[2]), (3, &[], &[3])]),
        // More is derived, in more stages, where a rule is set aside; and where none is.
        example(5, &[(0, &[], &[1]), (1, &[], &[2]), (3, &[0], &[4]), (4, &[3], &[])]),
        example(5, &[(0, &[], &[1]), (1, &[], &[2]), (3, &[1], &[0]), (4, &[3], &[])]),
        // The body of a withheld rule holds under one order alone.
        withheld_by_one,
    ]
}

/// Every order of the exception rules of a file.
pub fn all_orders(file: &[u8]) -> Vec<Vec<u8>> {
    let mut orders = vec![vec![]];
    for item in ascending_run(file).rules.chunks(RULE_NUMBER_BYTES) {
        let at_each_place = |order: &Vec<u8>| {
            let order = order.clone();
            (0..=order.len()).step_by(RULE_NUMBER_BYTES).map(move |place| {
                let mut longer = order.clone();
                longer.splice(place..place, item.iter().copied());
                longer
            })
        };
        orders = orders.iter().flat_map(at_each_place).collect();
    }
    orders
}

/// Every order of a file and the ascending one, either way round.
pub fn better_cases(file: &[u8]) -> Vec<Case> {
    let ascending = ascending_run(file).rules;
    let with_ascending =
        |order: &Vec<u8>| [better_of(file, order, &ascending), better_of(file, &ascending, order)];
    all_orders(file).iter().flat_map(with_ascending).collect()
}

/// Every pair of these orders, right or wrong ones.
pub fn better_of_pairs(file: &[u8], orders: &[Vec<u8>]) -> Vec<Case> {
    let mut cases = Vec::new();
    for first in orders {
        cases.extend(orders.iter().map(|second| better_of(file, first, second)));
    }
    cases
}

/// Checks of example A, with one thing wrong or two.
fn check_cases(a: &[u8]) -> Vec<Case> {
    let proof = [6, 0, 0, 0, 6, 2, 0, 2, 6, 3, 0, 3];
    let sets = [vec![1, 0, 1, 1], vec![1, 1, 1, 1], vec![1, 0, 3], vec![1, 0, 1, 3], vec![0; 4]];
    let mut cases = Vec::new();
    for set in sets {
        for asked in [3, 2, 0, 4, 255, 256, 259, u32::MAX] {
            for row in [&proof[..], &proof[..8], &proof[4..], &proof[..11], &proof[1..], &[]] {
                let (set, proof) = (set.clone(), row.to_vec());
                cases.push(Case { set, asked, proof, ..call_of(Operation::Check, a) });
            }
        }
    }
    cases
}

/// Grounds of every fact and of numbers past the count, in buffers that just suffice,
/// in longer ones, and with each of them one byte too short.
fn grounds_cases(file: &[u8]) -> Vec<Case> {
    let right = call_of(Operation::Grounds, file);
    let facts = right.lent[0];
    let beyond = [255, 256, 65_536, u32::MAX - 255, u32::MAX];
    let mut cases = Vec::new();
    for asked in (0..=facts as u32).chain(beyond) {
        for more in [0, 3] {
            let lent = right.lent.iter().map(|length| length + more).collect();
            cases.push(Case { asked, lent, ..right.clone() });
        }
        for buffer in 0..right.lent.len() {
            let mut short = Case { asked, ..right.clone() };
            short.lent[buffer] = short.lent[buffer].saturating_sub(1);
            cases.push(short);
        }
    }
    cases
}

/// Steps that facts share: a diamond with an exception rule on one side, a rule of
/// repeated premises, and a fact whose lower rule would come too late.
fn shared_steps() -> Draft {
    example(
        9,
        &[
            (6, &[7], &[]),
            (3, &[2, 1], &[]),
            (2, &[0], &[]),
            ALWAYS,
            (1, &[0], &[8]),
            (4, &[1, 1, 0, 1], &[]),
            (5, &[4, 3], &[]),
            (6, &[3], &[]),
            (7, &[6], &[]),
        ],
    )
}

/// Files with several ranks, with facts that wait for each other, and with cycles
/// through a constraint, where it is easy to take one for another.
pub fn layered_examples() -> Vec<Draft> {
    vec![
        // Rank after rank, along the numbers and against them.
        example(5, &[(1, &[], &[0]), (2, &[], &[1]), (3, &[], &[2]), (4, &[], &[3])]),
        example(5, &[(0, &[], &[1]), (1, &[], &[2]), (2, &[], &[3]), (3, &[], &[4])]),
        // Two rules of one conclusion, one with a low body.
        example(4, &[(2, &[], &[0]), (1, &[], &[0]), (2, &[], &[1]), (3, &[1], &[0])]),
        // A premise asks for no higher rank.
        example(4, &[(2, &[1], &[3]), (1, &[0], &[3]), (0, &[], &[3])]),
        // Premises that wait for each other, with rules above them and below.
        example(5, &[(4, &[], &[1]), (0, &[1], &[]), (1, &[2], &[]), (2, &[0], &[3])]),
        // The same, with a constraint inside.
        example(5, &[(4, &[], &[1]), (0, &[1], &[]), (1, &[2], &[]), (2, &[0], &[1])]),
        // From 0 to 1 and back, then to 2, whose constraint is 1.
        example(3, &[(0, &[1], &[]), (1, &[0], &[]), (0, &[2], &[]), (2, &[], &[1])]),
        // The same without the way back from 1.
        example(3, &[(0, &[1], &[]), (0, &[2], &[]), (2, &[], &[1])]),
        // Two parts, of which the second has a cycle; and a fact that no other needs.
        example(4, &[(1, &[], &[0]), (2, &[3], &[]), (3, &[], &[2])]),
        example(3, &[(1, &[], &[0]), (2, &[], &[2])]),
        // Premises of itself, and items that stand twice.
        example(3, &[(0, &[0], &[1]), (1, &[1], &[2, 2]), (2, &[2, 2], &[])]),
        // Two ranks by turns, so that the rules of one are apart.
        example(3, &[(2, &[], &[1]), (1, &[], &[0]), (2, &[], &[1, 0]), (1, &[0], &[0])]),
    ]
}

/// Orders by ranks in buffers around the needed length.
fn layered_cases(file: &[u8]) -> Vec<Case> {
    let right = call_of(Operation::Layered, file);
    let needed = right.lent[0];
    let lengths = [0, needed.saturating_sub(3), needed.saturating_sub(1), needed, needed + 2];
    lengths.map(|length| Case { lent: vec![length], ..right.clone() }).to_vec()
}

/// Loads at the limits of their counts, in buffers that just suffice and one byte short;
/// and from starts where the first state is 0, a power of two or the highest.
fn load_cases() -> Vec<Case> {
    let mut cases = Vec::new();
    for facts in [0, 1, 255, 256, u32::MAX] {
        for rules in [0, 2, 513] {
            let needed = load_bytes(rules);
            for length in [needed - 1, needed] {
                cases.push(Case::load(7, facts, rules as u32, length));
            }
        }
    }
    for state in [0, 1, 1 << 16, 1 << 31, u32::MAX] {
        let start = state.wrapping_sub(LOAD_STEP);
        cases.push(Case::load(start, 7, 4, load_bytes(4)));
    }
    cases
}

/// Every choice of buffers one byte too short, each buffer one byte longer, and
/// all buffers empty.
fn buffer_cases(file: &[u8]) -> Vec<Case> {
    let operations = [
        Operation::Run,
        Operation::Search,
        Operation::Panel,
        Operation::Grounds,
        Operation::Layered,
    ];
    let mut cases = Vec::new();
    for operation in operations {
        let right = call_of(operation, file);
        let buffers = right.lent.len();
        for chosen in 1..1 << buffers {
            let mut short = right.clone();
            for buffer in (0..buffers).filter(|buffer| chosen >> buffer & 1 == 1) {
                short.lent[buffer] = short.lent[buffer].saturating_sub(1);
            }
            cases.push(short);
        }
        for buffer in 0..buffers {
            let mut long = right.clone();
            long.lent[buffer] += 1;
            cases.push(long);
        }
        cases.push(Case { lent: vec![0; buffers], ..right });
    }
    cases
}

pub fn directed_cases() -> Vec<Case> {
    let files: Vec<Vec<u8>> = examples().iter().map(Draft::bytes).collect();
    let a = &files[0];
    let sixteen = constraint_facts(16).bytes();
    let seventeen = constraint_facts(17).bytes();
    let mut cases = Vec::new();
    for file in &files {
        cases.extend(all_operations(file));
        cases.extend(buffer_cases(file));
        cases.extend(grounds_cases(file));
        cases.extend(better_cases(file));
    }
    cases.extend(grounds_cases(&shared_steps().bytes()));
    for draft in layered_examples() {
        cases.extend(layered_cases(&draft.bytes()));
    }
    for file in refused_files() {
        cases.extend(all_operations(&file));
    }
    for file in files_around_the_cap() {
        cases.extend(all_operations(&file));
    }
    for draft in unread_examples() {
        cases.extend(all_operations(&draft.bytes()));
    }
    cases.extend(buffer_cases(&unread_examples()[0].bytes()));
    for file in files_with_unread_misplaced() {
        cases.extend(all_operations(&file));
    }
    for draft in rival_examples() {
        cases.extend(better_cases(&draft.bytes()));
    }
    cases.extend(better_of_pairs(a, &rows_for_a()));
    cases.extend(load_cases());
    cases.extend(all_operations(&rules_at_the_cap().bytes()));
    cases.extend(all_operations(&late_rules().bytes()));
    cases.extend(rule_number_cases(a));
    cases.extend(check_cases(a));
    cases.extend(all_operations(&sixteen));
    cases.extend(buffer_cases(&seventeen));
    cases.push(call_of(Operation::Search, &seventeen));
    cases.push(call_of(Operation::Search, &pairs_with_odd_loop(4).bytes()));
    for set in [vec![0], vec![1]] {
        cases.push(Case { set: set.clone(), ..call_of(Operation::Judge, &files[5]) });
        // The rule of B against itself: its constraint is the step's own fact.
        cases.push(Case { set, proof: vec![6, 0, 0, 0], ..call_of(Operation::Check, &files[1]) });
    }
    cases
}
