//! The specification's examples, and a comparison with definitions copied
//! word by word from it, on small random files.

use super::*;

#[path = "random.rs"]
mod random;

use random::Random;

type PlainRule<'a> = (usize, &'a [usize], &'a [usize]);

/// Fact 0, from nothing.
const ALWAYS: PlainRule = (0, &[], &[]);

fn file_of(facts: u8, rules: &[PlainRule]) -> Vec<u8> {
    let mut bytes = vec![kind::FACT_COUNT, facts];
    for (conclusion, premises, constraints) in rules {
        bytes.extend([kind::CONCLUSION, *conclusion as u8]);
        bytes.extend(premises.iter().flat_map(|&fact| [kind::PREMISE, fact as u8]));
        bytes.extend(constraints.iter().flat_map(|&fact| [kind::CONSTRAINT, fact as u8]));
    }
    let [high, low] = (rules.len() as u16).to_be_bytes();
    bytes.extend([kind::RULE_COUNT, high, low]);
    bytes
}

/// The file with these facts named as unread, in this order.
fn with_unread(unread: &[u8], file: &[u8]) -> Vec<u8> {
    let items: Vec<u8> = unread.iter().flat_map(|&fact| [kind::UNREAD, fact]).collect();
    [&file[..2], &items, &file[2..]].concat()
}

fn example_a() -> Vec<u8> {
    file_of(4, &[(0, &[], &[]), (1, &[0], &[2]), (2, &[0], &[1]), (3, &[2], &[])])
}

fn example_c() -> Vec<u8> {
    file_of(3, &[(0, &[], &[1]), (1, &[], &[2])])
}

fn order_of(rules: &[usize]) -> Vec<u8> {
    let item = |&rule: &usize| [kind::RULE_NUMBER, (rule >> 8) as u8, rule as u8];
    rules.iter().flat_map(item).collect()
}

/// Everything that a run or a search writes, without the bytes past it.
#[derive(Debug, PartialEq, Eq)]
struct Written {
    fact_marks: Vec<u8>,
    rule_marks: Vec<u8>,
    steps: Vec<Step>,
    stages: usize,
    order: Vec<u8>,
}

fn written(
    file: &[u8],
    order: Vec<u8>,
    call: impl FnOnce(Lent, &mut [u8]) -> Result<Counts, Refusal>,
) -> Result<Written, Refusal> {
    let counts = accept(file)?;
    let mut fact_marks = vec![9; counts.facts];
    let mut rule_marks = vec![9; counts.rules];
    let mut steps = vec![9; STEP_BYTES * counts.facts];
    let mut order = order;
    let lent = Lent { fact_marks: &mut fact_marks, rule_marks: &mut rule_marks, steps: &mut steps };
    let Counts { stages, steps: step_count } = call(lent, &mut order)?;
    let steps = read_steps(&steps[..STEP_BYTES * step_count]).unwrap();
    Ok(Written { fact_marks, rule_marks, steps, stages, order })
}

fn run_of(file: &[u8], order: &[usize]) -> Result<Written, Refusal> {
    written(file, order_of(order), |lent, order| run(file, order, lent))
}

fn search_of(file: &[u8]) -> Result<Written, Refusal> {
    let exceptions = accept(file)?.exceptions;
    let order = vec![9; RULE_NUMBER_BYTES * exceptions];
    written(file, order, |lent, order| search(file, lent, order))
}

/// The marks of the run, and the kept steps only.
fn grounds_of(file: &[u8], order: &[usize], fact: u32) -> Result<Written, Refusal> {
    written(file, order_of(order), |lent, order| {
        grounds(file, order, fact, lent).map(|steps| Counts { stages: 0, steps })
    })
}

/// The reply, and the buffer after the call.
fn layered_in(file: &[u8], lent: usize) -> (Result<usize, Refusal>, Vec<u8>) {
    let mut order = vec![9; lent];
    (layered(file, &mut order), order)
}

/// The order, in a buffer that just takes it.
fn layered_of(file: &[u8]) -> Result<Vec<u8>, Refusal> {
    let exceptions = accept(file)?.exceptions;
    let (reply, order) = layered_in(file, RULE_NUMBER_BYTES * exceptions);
    reply.map(|count| {
        assert_eq!(count, exceptions);
        order
    })
}

fn step(fact: usize, rule: usize) -> Step {
    Step { fact, rule }
}

#[test]
fn example_a_under_both_orders_and_the_search() {
    let a = example_a();
    let first = run_of(&a, &[1, 2]).unwrap();
    assert_eq!(first.fact_marks, [1, 1, 2, 0]);
    assert_eq!(first.rule_marks, [0, 1, 3, 0]);
    let second = run_of(&a, &[2, 1]).unwrap();
    assert_eq!(second.fact_marks, [1, 2, 1, 1]);
    assert_eq!(second.rule_marks, [0, 3, 1, 0]);
    assert_eq!(second.steps, [step(0, 0), step(2, 2), step(3, 3)]);
    let found = search_of(&a).unwrap();
    assert_eq!(found.fact_marks, [1, 1, 2, 0]);
    assert_eq!(found.order, order_of(&[1, 2]));
}

#[test]
fn example_b_has_no_stable_set() {
    let b = file_of(1, &[(0, &[], &[0])]);
    let end = run_of(&b, &[0]).unwrap();
    assert_eq!((end.fact_marks, end.rule_marks, end.stages), (vec![0], vec![2], 0));
    assert_eq!(search_of(&b), Err(Refusal::NoStableSet));
}

#[test]
fn example_c_under_both_orders_and_the_search() {
    let c = example_c();
    let first = run_of(&c, &[0, 1]).unwrap();
    assert_eq!((first.fact_marks, first.rule_marks), (vec![1, 2, 0], vec![1, 2]));
    let second = run_of(&c, &[1, 0]).unwrap();
    assert_eq!((second.fact_marks, second.rule_marks), (vec![0, 1, 2], vec![3, 1]));
    assert_eq!(search_of(&c).unwrap().order, order_of(&[1, 0]));
    assert_eq!(panel(&c), "F 3 R 2 S 1\nD 0 0\nX 1\nA 1\nN\n");
    assert_eq!(panel(&[]), "E 2\n");
}

#[test]
fn examples_d_e_and_f() {
    let d = file_of(2, &[(1, &[0], &[]), (0, &[], &[1])]);
    assert_eq!(run_of(&d, &[1]).unwrap().rule_marks, [0, 2]);
    assert_eq!(search_of(&d), Err(Refusal::NoStableSet));
    let e = search_of(&[0x10, 0, 0x1F, 0, 0]).unwrap();
    assert_eq!((e.fact_marks, e.order), (vec![], vec![]));
    let f = file_of(1, &[(0, &[0], &[])]);
    assert_eq!(judge(&f, &[], &[1]), Ok(false));
    assert_eq!(judge(&f, &[], &[0]), Ok(true));
}

#[test]
fn orders_that_are_refused() {
    let a = example_a();
    assert_eq!(run_of(&a, &[0]), Err(Refusal::NotAnException));
    assert_eq!(run_of(&a, &[1, 1]), Err(Refusal::NamedBefore));
    assert_eq!(run_of(&a, &[1]), Err(Refusal::ExceptionNotNamed));
}

#[test]
fn files_that_are_refused() {
    let refusal = |bytes: &[u8]| accept(bytes).unwrap_err();
    assert_eq!(refusal(&[]), Refusal::NoFactCount);
    assert_eq!(refusal(&[0x10, 1]), Refusal::NoNextItem);
    assert_eq!(refusal(&[0x10, 1, 5]), Refusal::UnknownKind);
    assert_eq!(refusal(&[0x10, 1, 1]), Refusal::BodyCut);
    assert_eq!(refusal(&[0x10, 1, 1, 1]), Refusal::UnknownFact);
    assert_eq!(refusal(&[0x10, 1, 2, 0]), Refusal::NoRuleOpened);
    assert_eq!(refusal(&file_of(1, &[ALWAYS; 513])), Refusal::TooManyRules);
    assert_eq!(refusal(&[0x10, 0, 0x1F, 0, 1]), Refusal::WrongRuleCount);
    assert_eq!(refusal(&[0x10, 0, 0x1F, 0, 0, 0]), Refusal::BytesAfterEnd);
    assert_eq!(refusal(&[0; 32_768]), Refusal::FileTooLong);
    assert!(accept(&file_of(1, &[ALWAYS; 512])).is_ok());
}

/// A file of three facts whose rules have these items of their own, between the
/// first item and what ends it.
fn file_with_items(rules: &[&[(u8, u8)]], end: &[u8]) -> Vec<u8> {
    let mut bytes = vec![kind::FACT_COUNT, 3];
    for items in rules {
        bytes.extend([kind::CONCLUSION, 0]);
        bytes.extend(items.iter().flat_map(|&(kind, fact)| [kind, fact]));
    }
    bytes.extend(end);
    bytes
}

const PREMISE: (u8, u8) = (kind::PREMISE, 1);
const CONSTRAINT: (u8, u8) = (kind::CONSTRAINT, 2);

#[test]
fn twenty_four_items_of_a_rule_pass_and_twenty_five_do_not() {
    for constraints in 0..=25 {
        let rule_of = |length: usize| {
            let item = |place: usize| if place < constraints { CONSTRAINT } else { PREMISE };
            (0..length).map(item).collect::<Vec<_>>()
        };
        let accepted = accept(&file_with_items(&[&rule_of(24)], &[0x1F, 0, 1])).unwrap();
        assert_eq!((accepted.rules, accepted.exceptions), (1, usize::from(constraints > 0)));
        for length in [25, 26, 48, 300] {
            let too_long = file_with_items(&[&rule_of(length)], &[0x1F, 0, 1]);
            assert_eq!(accept(&too_long), Err(Refusal::RuleTooLong));
        }
    }
}

#[test]
fn the_cap_begins_anew_with_each_rule() {
    let (full, over) = ([PREMISE; 24], [CONSTRAINT; 25]);
    assert!(accept(&file_with_items(&[&full, &full, &[], &full], &[0x1F, 0, 4])).is_ok());
    assert!(accept(&file_with_items(&[&full[..]; 512], &[0x1F, 2, 0])).is_ok());
    for rules in [[&full[..], &over], [&over, &full], [&[], &over], [&over, &[]]] {
        assert_eq!(accept(&file_with_items(&rules, &[0x1F, 0, 2])), Err(Refusal::RuleTooLong));
    }
}

#[test]
fn the_cap_is_asked_after_seven_and_before_what_follows() {
    let after_full = |end: &[u8]| accept(&file_with_items(&[&[PREMISE; 24]], end)).unwrap_err();
    assert_eq!(after_full(&[]), Refusal::NoNextItem);
    assert_eq!(after_full(&[5]), Refusal::UnknownKind);
    assert_eq!(after_full(&[2]), Refusal::BodyCut);
    assert_eq!(after_full(&[2, 3]), Refusal::UnknownFact);
    assert_eq!(after_full(&[3, 3]), Refusal::UnknownFact);
    assert_eq!(after_full(&[0x1F, 0, 2]), Refusal::WrongRuleCount);
    assert_eq!(after_full(&[0x1F, 0, 1, 0]), Refusal::BytesAfterEnd);
    for after in [&[][..], &[5], &[2], &[2, 3], &[0x1F, 0, 2], &[0x1F, 0, 1, 0]] {
        assert_eq!(after_full(&[&[2, 2], after].concat()), Refusal::RuleTooLong);
        assert_eq!(after_full(&[&[3, 2], after].concat()), Refusal::RuleTooLong);
    }
    let unopened = [&[0x10, 3][..], &[2; 50]].concat();
    assert_eq!(accept(&unopened), Err(Refusal::NoRuleOpened));
}

#[test]
fn of_too_many_rules_and_too_long_a_rule_the_first_is_refused() {
    let over: &[(u8, u8)] = &[PREMISE; 25];
    let rules_with = |place: usize| {
        let mut rules = vec![&[][..]; 513];
        rules[place] = over;
        accept(&file_with_items(&rules, &[0x1F, 2, 1])).unwrap_err()
    };
    assert_eq!(rules_with(0), Refusal::RuleTooLong);
    assert_eq!(rules_with(511), Refusal::RuleTooLong);
    assert_eq!(rules_with(512), Refusal::TooManyRules);
}

/// Every operation that asks the file's questions refuses the file, and leaves its buffers.
fn refused_by_every_operation(file: &[u8], no: Refusal) {
    let mut lent = [vec![9; 8], vec![9; 8], vec![9; 28], vec![9; 8]];
    let [fact_marks, rule_marks, steps, order] = &mut lent;
    assert_eq!(accept(file), Err(no));
    let ran = run(file, &[], Lent { fact_marks, rule_marks, steps });
    assert_eq!(ran, Err(no));
    let found = search(file, Lent { fact_marks, rule_marks, steps }, order);
    assert_eq!(found, Err(no));
    let kept = grounds(file, &[], 0, Lent { fact_marks, rule_marks, steps });
    assert_eq!(kept, Err(no));
    assert_eq!(layered(file, order), Err(no));
    assert!(lent.iter().flatten().all(|&byte| byte == 9));
    assert_eq!(judge(file, &[], &[0; 3]), Err(no));
    assert_eq!(check(file, &[0; 3], 0, &[]), Err(no));
    assert_eq!(ask_order(file, &[]), Err(no));
    assert_eq!(ask_list(file, &[]), Err(no));
    assert_eq!(ask_set(file, &[0; 3]), Err(no));
    assert_eq!(ask_row(file, 0, &[]), Err(no));
    assert_eq!(choose(file, &[], &[]), Err(no));
    let told = format!("E {}\n", no as u32);
    assert_eq!(panel(file), told);
    assert_eq!(grounds_text(file, 0), told);
}

#[test]
fn every_operation_asks_the_cap_and_leaves_its_buffers() {
    let file = file_with_items(&[&[PREMISE; 25]], &[0x1F, 0, 1]);
    refused_by_every_operation(&file, Refusal::RuleTooLong);
}

#[test]
fn every_operation_asks_where_an_unread_fact_stands_and_leaves_its_buffers() {
    let file = file_with_items(&[&[(kind::UNREAD, 2)]], &[0x1F, 0, 1]);
    refused_by_every_operation(&file, Refusal::UnreadAfterRule);
}

#[test]
fn where_an_unread_fact_may_stand() {
    let refusal = |bytes: &[u8]| accept(bytes).unwrap_err();
    assert_eq!(refusal(&[7, 0]), Refusal::NoFactCount);
    assert_eq!(refusal(&[0x10, 1, 7]), Refusal::BodyCut);
    assert_eq!(refusal(&[0x10, 1, 7, 0]), Refusal::NoNextItem);
    assert_eq!(refusal(&[0x10, 1, 7, 1]), Refusal::UnknownFact);
    assert_eq!(refusal(&[0x10, 0, 7, 0]), Refusal::UnknownFact);
    assert_eq!(refusal(&[0x10, 1, 7, 0, 2, 0]), Refusal::NoRuleOpened);
    assert_eq!(refusal(&[0x10, 1, 1, 0, 7]), Refusal::BodyCut);
    assert_eq!(refusal(&[0x10, 1, 1, 0, 7, 1]), Refusal::UnknownFact);
    assert_eq!(refusal(&[0x10, 1, 1, 0, 7, 0]), Refusal::UnreadAfterRule);
    assert_eq!(refusal(&[0x10, 1, 1, 0, 2, 0, 7, 0, 2, 0]), Refusal::UnreadAfterRule);
    assert_eq!(refusal(&[0x10, 1, 0x1F, 0, 0, 7, 0]), Refusal::BytesAfterEnd);
    let counts = |file: &[u8]| {
        let counts = accept(file).unwrap();
        (counts.facts, counts.rules, counts.exceptions, counts.constraint_facts)
    };
    assert_eq!(counts(&with_unread(&[0], &file_of(1, &[]))), (1, 0, 0, 0));
    assert_eq!(counts(&with_unread(&[0; 16_381], &file_of(1, &[]))), (1, 0, 0, 0));
    assert_eq!(refusal(&with_unread(&[0; 16_382], &file_of(1, &[]))), Refusal::FileTooLong);
    // Rule 1 of C is withheld: its constraint does not count, and it is still a rule.
    assert_eq!(counts(&example_c()), (3, 2, 2, 2));
    assert_eq!(counts(&with_unread(&[2, 0, 2], &example_c())), (3, 2, 2, 1));
}

#[test]
fn a_withheld_rule_is_named_and_passed_over() {
    // Rule 1 of A is 1<0,!2, and rule 2 is 2<0,!1.
    let a = with_unread(&[2], &example_a());
    let end = run_of(&a, &[1, 2]).unwrap();
    assert_eq!((end.fact_marks, end.rule_marks), (vec![1, 2, 1, 1], vec![0, 4, 1, 0]));
    assert_eq!(end.steps, [step(0, 0), step(2, 2), step(3, 3)]);
    assert_eq!(run_of(&a, &[2]), Err(Refusal::ExceptionNotNamed));
    assert_eq!(run_of(&a, &[1, 2, 1]), Err(Refusal::NamedBefore));
    assert_eq!(search_of(&a).unwrap().order, order_of(&[2, 1]));
    assert_eq!(judge(&a, &[], &[1, 0, 1, 1]), Ok(true));
    assert_eq!(judge(&a, &order_of(&[1]), &[1, 0, 1, 1]), Ok(true));
    assert_eq!(judge(&a, &[], &[1, 1, 0, 0]), Ok(false));
    assert_eq!(check(&a, &[1, 1, 0, 0], 1, &[6, 0, 0, 0, 6, 1, 0, 1]), Ok(false));
    assert_eq!(check(&a, &[1, 0, 1, 1], 2, &[6, 0, 0, 0, 6, 2, 0, 2]), Ok(true));
    assert_eq!(layered_of(&a), Ok(order_of(&[2, 1])));
    assert_eq!(panel(&a), "F 4 R 4 S 1\nD 0 0\nD 2 2\nD 3 3\nX 1\nY\n");
    assert_eq!(grounds_of(&a, &[1, 2], 1), Err(Refusal::NotDerived));
    // B sets its rule aside, unless that is withheld.
    let b = with_unread(&[0], &file_of(1, &[(0, &[], &[0])]));
    assert_eq!(panel(&b), "F 1 R 1 S 0\nY\n");
    assert_eq!(search_of(&b).unwrap().rule_marks, [4]);
}

#[test]
fn sixteen_constraint_facts_pass_and_seventeen_do_not() {
    let pairs = |count: usize| {
        let constraints: Vec<[usize; 1]> = (0..count).map(|fact| [fact]).collect();
        let rule = |fact: usize| -> PlainRule { (count, &[], &constraints[fact]) };
        file_of(count as u8 + 1, &(0..512).map(|number| rule(number % count)).collect::<Vec<_>>())
    };
    assert!(search_of(&pairs(16)).is_ok());
    assert_eq!(search_of(&pairs(17)), Err(Refusal::TooManyConstraintFacts));
    assert!(search_of(&with_unread(&[16], &pairs(17))).is_ok());
    assert_eq!(search_of(&with_unread(&[17], &pairs(17))), Err(Refusal::TooManyConstraintFacts));
    assert_eq!(search_of(&with_unread(&[3], &pairs(18))), Err(Refusal::TooManyConstraintFacts));
}

#[test]
fn checks_that_say_yes_and_no() {
    let a = example_a();
    let proof = [6, 0, 0, 0, 6, 1, 0, 1];
    assert_eq!(check(&a, &[1, 1, 0, 0], 1, &proof), Ok(true));
    assert_eq!(check(&a, &[1, 1, 1, 0], 1, &proof), Ok(false));
    assert_eq!(check(&a, &[1, 1, 0, 0], 0, &proof), Ok(false));
    assert_eq!(check(&a, &[1, 1, 0, 0], 1, &proof[4..]), Ok(false));
    assert_eq!(check(&a, &[1, 1, 0, 0], 1, &[]), Ok(false));
    assert_eq!(check(&a, &[1, 1, 0, 0], 1, &[6, 0, 2, 0]), Ok(false));
    assert_eq!(check(&a, &[1, 1, 0, 0], 4, &[1]), Err(Refusal::AskedFactUnknown));
    assert_eq!(check(&a, &[1, 1, 0, 0], 1, &proof[..7]), Err(Refusal::NotSteps));
}

#[test]
fn questions_asked_by_themselves() {
    let a = example_a();
    assert_eq!(ask_order(&a, &order_of(&[2, 1])), Ok(()));
    assert_eq!(ask_order(&a, &order_of(&[1])), Err(Refusal::ExceptionNotNamed));
    assert_eq!(ask_list(&a, &order_of(&[1])), Ok(()));
    assert_eq!(ask_list(&a, &order_of(&[0])), Err(Refusal::NotAnException));
    assert_eq!(ask_set(&a, &[1, 0, 1, 1]), Ok(()));
    assert_eq!(ask_set(&a, &[2, 0, 0]), Err(Refusal::SetLength));
    assert_eq!(ask_set(&a, &[2, 0, 0, 0]), Err(Refusal::SetByte));
    assert_eq!(ask_row(&a, 3, &[6, 9, 9, 9]), Ok(()));
    assert_eq!(ask_row(&a, 4, &[6]), Err(Refusal::AskedFactUnknown));
    assert_eq!(ask_row(&a, 3, &[6]), Err(Refusal::NotSteps));
    assert_eq!(ask_row(&[], 4, &[6]), Err(Refusal::NoFactCount));
}

#[test]
fn grounds_of_the_examples() {
    let a = example_a();
    let of = |order: &[usize], fact: u32| grounds_of(&a, order, fact).map(|written| written.steps);
    assert_eq!(of(&[1, 2], 0), Ok(vec![step(0, 0)]));
    assert_eq!(of(&[1, 2], 1), Ok(vec![step(0, 0), step(1, 1)]));
    assert_eq!(of(&[2, 1], 2), Ok(vec![step(0, 0), step(2, 2)]));
    assert_eq!(of(&[2, 1], 3), Ok(vec![step(0, 0), step(2, 2), step(3, 3)]));
    let refused =
        [(&[1, 2], 2), (&[1, 2], 3), (&[2, 1], 1), (&[1, 2], 4), (&[1, 2], 256), (&[1, 2], 65_536)];
    for (order, fact) in refused {
        assert_eq!(of(order, fact), Err(Refusal::NotDerived));
    }
    assert_eq!(of(&[1, 2], u32::MAX), Err(Refusal::NotDerived));
    assert_eq!(of(&[1], 2), Err(Refusal::ExceptionNotNamed));
    let shorter = grounds_of(&a, &[2, 1], 0).unwrap();
    assert_eq!((shorter.fact_marks, shorter.rule_marks), (vec![1, 2, 1, 1], vec![0, 3, 1, 0]));
}

#[test]
fn grounds_keep_the_bytes_past_them_and_all_bytes_on_a_refusal() {
    let after = |fact: u32, lengths: [usize; 3]| {
        let [mut fact_marks, mut rule_marks, mut steps] = lengths.map(|length| vec![9; length]);
        let lent =
            Lent { fact_marks: &mut fact_marks, rule_marks: &mut rule_marks, steps: &mut steps };
        let reply = grounds(&example_a(), &order_of(&[2, 1]), fact, lent);
        (reply, [fact_marks, rule_marks, steps])
    };
    let kept =
        [vec![1, 2, 1, 1], vec![0, 3, 1, 0, 9], [[6, 0, 0, 0], [9; 4], [9; 4], [9; 4]].concat()];
    assert_eq!(after(0, [4, 5, 16]), (Ok(1), kept));
    for (fact, lengths, refusal) in [
        (1, [4, 4, 16], Refusal::NotDerived),
        (1, [3, 3, 15], Refusal::FactMarksShort),
        (1, [4, 3, 15], Refusal::RuleMarksShort),
        (u32::MAX, [4, 4, 15], Refusal::StepsShort),
    ] {
        let untouched = lengths.map(|length| vec![9; length]);
        assert_eq!(after(fact, lengths), (Err(refusal), untouched));
    }
}

#[test]
fn the_text_of_the_grounds() {
    let a = example_a();
    assert_eq!(grounds_text(&a, 1), "D 0 0\nD 1 1\n");
    assert_eq!(grounds_text(&a, 2), "E 50\n");
    assert_eq!(grounds_text(&example_c(), 0), "D 0 0\n");
    assert_eq!(grounds_text(&example_c(), u32::MAX), "E 50\n");
    assert_eq!(grounds_text(&[], 0), "E 2\n");
    assert_eq!(grounds_text(&[0; 32_768], 0), "E 1\n");
    assert_eq!(grounds_text(&file_of(0, &[]), 0), "E 50\n");
}

#[test]
fn words_that_name_a_fact_and_words_that_do_not() {
    let fact = |word: &str| numbers_in_words(&[word.as_bytes()]);
    assert_eq!(fact("0"), Some([0]));
    assert_eq!(fact("01"), Some([1]));
    assert_eq!(fact("0000000012"), Some([12]));
    assert_eq!(fact("4294967295"), Some([u32::MAX]));
    for word in ["", "00000000001", "4294967296", "9999999999", "+1", "-1", " 1", "1 ", "1a", "x"] {
        assert_eq!(fact(word), None, "{word:?}");
    }
    assert_eq!(numbers_in_words::<1>(&[]), None);
    assert_eq!(numbers_in_words::<1>(&[b"1", b"1"]), None);
    assert_eq!(numbers_in_words::<1>(&[b"1", b""]), None);
}

#[test]
fn words_that_name_a_load_and_words_that_do_not() {
    let numbers = |words: &[&str]| {
        numbers_in_words::<3>(&words.iter().map(|word| word.as_bytes()).collect::<Vec<_>>())
    };
    assert_eq!(numbers(&["0", "4", "1"]), Some([0, 4, 1]));
    assert_eq!(numbers(&["4294967295", "0000000255", "512"]), Some([u32::MAX, 255, 512]));
    for words in [&[][..], &["0"], &["0", "4"], &["0", "4", "1", "1"], &["0", "4", "1", ""]] {
        assert_eq!(numbers(words), None, "{words:?}");
    }
    for word in ["", "00000000001", "4294967296", "+1", "-1", "1 ", "x"] {
        for place in 0..3 {
            let mut words = ["1"; 3];
            words[place] = word;
            assert_eq!(numbers(&words), None, "{words:?}");
        }
    }
}

#[test]
fn layers_of_the_examples() {
    assert_eq!(layered_of(&example_a()), Err(Refusal::NotLayered));
    assert_eq!(layered_of(&file_of(1, &[(0, &[], &[0])])), Err(Refusal::NotLayered));
    assert_eq!(layered_of(&example_c()), Ok(order_of(&[1, 0])));
    let d = file_of(2, &[(1, &[0], &[]), (0, &[], &[1])]);
    assert_eq!(layered_of(&d), Err(Refusal::NotLayered));
    assert_eq!(layered_of(&file_of(0, &[])), Ok(vec![]));
    assert_eq!(layered_of(&file_of(1, &[(0, &[0], &[])])), Ok(vec![]));
}

#[test]
fn cycles_of_premises_alone_are_no_cycles() {
    // 0, 1 and 2 rest on each other and above 3; 4 is above them.
    let rules: [PlainRule; 5] =
        [(4, &[], &[1]), (0, &[1], &[]), (1, &[2], &[]), (2, &[0], &[3]), (0, &[3], &[5])];
    assert_eq!(layered_of(&file_of(6, &rules)), Ok(order_of(&[3, 4, 0])));
    for constraint in 0..3 {
        let within: PlainRule = (0, &[], &[constraint]);
        let file = file_of(6, &[&rules[..], &[within]].concat());
        assert_eq!(layered_of(&file), Err(Refusal::NotLayered));
    }
}

#[test]
fn a_constraint_across_two_branches_closes_a_cycle() {
    // From 0 a walk comes to 1 and back, then to 2, whose constraint is 1.
    let rules: [PlainRule; 4] = [(0, &[1], &[]), (1, &[0], &[]), (0, &[2], &[]), (2, &[], &[1])];
    assert_eq!(layered_of(&file_of(3, &rules)), Err(Refusal::NotLayered));
    assert_eq!(layered_of(&file_of(3, &rules[1..])), Err(Refusal::NotLayered));
    assert_eq!(layered_of(&file_of(3, &[rules[0], rules[2], rules[3]])), Ok(order_of(&[2])));
}

#[test]
fn the_rank_of_a_rule_is_that_of_its_conclusion() {
    // 2 is above 1 by another rule of its own; the body of rule 0 is as low as 1's.
    let file = file_of(4, &[(2, &[], &[0]), (1, &[], &[0]), (2, &[], &[1])]);
    assert_eq!(layered_of(&file), Ok(order_of(&[1, 0, 2])));
}

#[test]
fn layers_keep_the_bytes_past_them_and_all_bytes_on_a_refusal() {
    let c = example_c();
    assert_eq!(layered_in(&c, 6), (Ok(2), order_of(&[1, 0])));
    assert_eq!(layered_in(&c, 8), (Ok(2), [order_of(&[1, 0]), vec![9; 2]].concat()));
    assert_eq!(layered_in(&c, 5), (Err(Refusal::OrderShort), vec![9; 5]));
    assert_eq!(layered_in(&c, 0), (Err(Refusal::OrderShort), vec![]));
    assert_eq!(layered_in(&example_a(), 6), (Err(Refusal::NotLayered), vec![9; 6]));
    assert_eq!(layered_in(&example_a(), 5), (Err(Refusal::OrderShort), vec![9; 5]));
    assert_eq!(layered_in(&[], 0), (Err(Refusal::NoFactCount), vec![]));
    assert_eq!(layered_in(&file_of(1, &[]), 2), (Ok(0), vec![9; 2]));
}

#[test]
fn as_many_ranks_as_facts() {
    let constraints: Vec<[usize; 1]> = (0..255).map(|fact| [fact]).collect();
    let up: Vec<PlainRule> =
        (1..255).map(|fact| (fact, &[][..], &constraints[fact - 1][..])).collect();
    let down: Vec<PlainRule> =
        (0..254).map(|fact| (fact, &[][..], &constraints[fact + 1][..])).collect();
    let ascending: Vec<usize> = (0..254).collect();
    let descending: Vec<usize> = (0..254).rev().collect();
    assert_eq!(layered_of(&file_of(255, &up)), Ok(order_of(&ascending)));
    assert_eq!(layered_of(&file_of(255, &down)), Ok(order_of(&descending)));
    let ring = [&up[..], &[(0, &[254], &[])]].concat();
    assert_eq!(layered_of(&file_of(255, &ring)), Err(Refusal::NotLayered));
}

#[test]
fn the_better_order_of_the_examples() {
    let c = example_c();
    let of = |first: &[usize], second: &[usize]| choose(&c, &order_of(first), &order_of(second));
    // Under 0 1 rule 1 is set aside, under 1 0 none is.
    assert_eq!(of(&[0, 1], &[1, 0]), Ok(Choice::Second));
    assert_eq!(of(&[1, 0], &[0, 1]), Ok(Choice::First));
    assert_eq!(of(&[0, 1], &[0, 1]), Ok(Choice::First));
    assert_eq!(of(&[1, 0], &[1, 0]), Ok(Choice::First));
    // Neither order of A sets a rule aside, and B and D have one order.
    let a = example_a();
    assert_eq!(choose(&a, &order_of(&[1, 2]), &order_of(&[2, 1])), Ok(Choice::First));
    let b = file_of(1, &[(0, &[], &[0])]);
    assert_eq!(choose(&b, &order_of(&[0]), &order_of(&[0])), Ok(Choice::First));
    assert_eq!(choose(&file_of(0, &[]), &[], &[]), Ok(Choice::First));
    assert_eq!(choose(&file_of(2, &[ALWAYS, (1, &[0], &[])]), &[], &[]), Ok(Choice::First));
}

#[test]
fn both_orders_are_questioned_the_first_before_the_second() {
    let (a, good) = (example_a(), order_of(&[1, 2]));
    let refused = [
        (vec![5, 0], Refusal::NotRuleNumbers),
        (order_of(&[0, 1, 1]), Refusal::NotAnException),
        (order_of(&[1, 1]), Refusal::NamedBefore),
        (order_of(&[2]), Refusal::ExceptionNotNamed),
    ];
    for (row, refusal) in &refused {
        assert_eq!(choose(&a, row, &good), Err(*refusal));
        // Neither order of A sets a rule aside, and the second is questioned all the same.
        assert_eq!(choose(&a, &good, row), Err(*refusal));
        for (other, _) in &refused {
            assert_eq!(choose(&a, row, other), Err(*refusal));
            assert_eq!(choose(&a[..a.len() - 1], row, other), Err(Refusal::BodyCut));
        }
    }
}

#[test]
fn the_better_order_is_handed_back_as_it_was_lent() {
    let c = example_c();
    let lent = order_of(&[0, 1, 0]);
    let (first, second) = (&lent[..6], &lent[3..]);
    assert!(std::ptr::eq(better(&c, first, second), second));
    assert!(std::ptr::eq(better(&c, second, first), second));
    // Of two equal orders the first, wherever they are.
    let same = first.to_vec();
    assert!(std::ptr::eq(better(&c, first, &same), first));
    assert!(std::ptr::eq(better(&c, &same, first), &same[..]));
    assert_eq!(better_number(&c, first, second), 0);
    for (file, first, second, number) in
        [(&c[..4], first, second, 3), (&c, &lent[..], second, 13), (&c, first, &lent[..3], 14)]
    {
        assert!(std::ptr::eq(better(file, first, second), &first[..0]));
        assert_eq!(better_number(file, first, second), number);
    }
}

/// The reply, and the buffer after the call.
fn load_in(start: u32, facts: u32, rules: u32, lent: usize) -> (Result<usize, Refusal>, Vec<u8>) {
    let mut out = vec![9; lent];
    (load(start, facts, rules, &mut out), out)
}

#[test]
fn the_load_of_the_example() {
    // The states are 2,654,435,769, 1,013,904,242 and 3,668,339,987; over 65,536 these
    // are 40,503, 15,470 and 55,974, and modulo 4 they are 3, 2 and 2.
    let file = vec![0x10, 4, 1, 3, 3, 2, 3, 2, 0x1F, 0, 1];
    assert_eq!(load_in(0, 4, 1, 11), (Ok(11), file.clone()));
    assert_eq!(load_output(0, 4, 1), Ok(file.clone()));
    assert_eq!(load_in(0, 4, 1, 13), (Ok(11), [&file[..], &[9; 2]].concat()));
    let end = run_of(&file, &[0]).unwrap();
    assert_eq!((end.stages, end.steps), (1, vec![step(3, 0)]));
}

#[test]
fn a_load_without_rules_and_loads_of_one_fact() {
    assert_eq!(load_in(7, 255, 0, 5), (Ok(5), vec![0x10, 255, 0x1F, 0, 0]));
    let rules: [PlainRule; 4] =
        [(0, &[], &[0, 0]), (0, &[0, 0], &[]), (0, &[0], &[0]), (0, &[], &[0, 0])];
    assert_eq!(load_in(7, 1, 4, 29), (Ok(29), file_of(1, &rules)));
}

/// The state after so many draws, and what it gives: all at once, not one by one.
fn drawn(start: u32, draws: u64, facts: u32) -> usize {
    let state = (u64::from(start) + draws * 2_654_435_769) % (1 << 32);
    ((state >> 16) % u64::from(facts)) as usize
}

#[test]
fn a_load_is_accepted_and_has_the_rules_that_are_drawn() {
    let starts = [0, 1, 1_640_531_527, 1 << 31, u32::MAX];
    for (facts, rules) in [(1, 3), (2, 7), (4, 1), (64, 512), (254, 100), (255, 512)] {
        for start in starts {
            let file = load_output(start, facts, rules).unwrap();
            assert_eq!(file.len(), 5 + 6 * rules as usize);
            let read = RuleFile::parse(&file).unwrap();
            assert_eq!((read.facts, read.rules.len()), (facts as usize, rules as usize));
            for (number, rule) in read.rules.iter().enumerate() {
                let [conclusion, second, third] =
                    [1, 2, 3].map(|place| drawn(start, 3 * number as u64 + place, facts));
                let (premises, constraints) = match number % 3 {
                    0 => (vec![], vec![second, third]),
                    1 => (vec![second, third], vec![]),
                    _ => (vec![second], vec![third]),
                };
                assert_eq!(rule.conclusion, conclusion);
                assert_eq!(rule.premises, premises.into_iter().collect());
                assert_eq!(rule.constraints, constraints.into_iter().collect());
            }
        }
    }
}

#[test]
fn loads_that_are_refused_leave_all_bytes() {
    for (facts, rules, lent, refusal) in [
        (0, 513, 0, Refusal::LoadFacts),
        (0, 1, 11, Refusal::LoadFacts),
        (256, 0, 5, Refusal::LoadFacts),
        (u32::MAX, u32::MAX, 0, Refusal::LoadFacts),
        (1, 513, 4_000, Refusal::LoadRules),
        (255, 513, 0, Refusal::LoadRules),
        (255, u32::MAX, 4_000, Refusal::LoadRules),
        (255, 512, 3_076, Refusal::LoadShort),
        (4, 1, 10, Refusal::LoadShort),
        (4, 0, 4, Refusal::LoadShort),
        (4, 0, 0, Refusal::LoadShort),
    ] {
        assert_eq!(load_in(0, facts, rules, lent), (Err(refusal), vec![9; lent]));
    }
    assert_eq!(load_in(0, 255, 512, 3_077).0, Ok(3_077));
    assert_eq!(load_output(0, 0, 513), Err("E 53\n".to_string()));
    assert_eq!(load_output(0, 1, 513), Err("E 54\n".to_string()));
}

/// The definitions, without any care for time.
mod naive {
    use super::super::{FactSet, Rule, RuleFile, Step};

    /// "An exception rule with an unread constraint is withheld".
    pub fn is_withheld(file: &RuleFile, number: usize) -> bool {
        file.rules[number].constraints.iter().any(|constraint| file.unread.contains(constraint))
    }

    /// "the file without the withheld rules", by their numbers.
    fn remaining(file: &RuleFile) -> impl Iterator<Item = (usize, &Rule)> {
        let numbered = file.rules.iter().enumerate();
        numbered.filter(|&(number, _)| !is_withheld(file, number))
    }

    /// "A constraint fact is a fact that is a constraint of some rule".
    fn constraint_facts(file: &RuleFile) -> FactSet {
        let is_constraint =
            |&fact: &usize| remaining(file).any(|(_, rule)| rule.constraints.contains(fact));
        (0..file.facts).filter(is_constraint).collect()
    }

    fn close(file: &RuleFile, set: &mut FactSet, steps: &mut Vec<Step>) {
        let next = |set: &FactSet| {
            file.rules.iter().position(|rule| {
                !rule.is_exception()
                    && rule.premises.is_within(set)
                    && !set.contains(rule.conclusion)
            })
        };
        while let Some(rule) = next(set) {
            let fact = file.rules[rule].conclusion;
            set.insert(fact);
            steps.push(Step { fact, rule });
        }
    }

    pub struct End {
        pub derived: FactSet,
        pub ruled_out: FactSet,
        pub applied: Vec<usize>,
        pub steps: Vec<Step>,
    }

    pub fn run(file: &RuleFile, order: &[usize]) -> End {
        let mut end = End {
            derived: FactSet::EMPTY,
            ruled_out: FactSet::EMPTY,
            applied: Vec::new(),
            steps: Vec::new(),
        };
        close(file, &mut end.derived, &mut end.steps);
        while let Some(&number) = order.iter().find(|&&number| eligible(file, &end, number)) {
            let rule = &file.rules[number];
            end.derived.insert(rule.conclusion);
            end.steps.push(Step { fact: rule.conclusion, rule: number });
            close(file, &mut end.derived, &mut end.steps);
            end.ruled_out = end.ruled_out.union(&rule.constraints);
            end.applied.push(number);
        }
        end
    }

    /// "A rule is set aside if at the end its premises are in D, none of its constraints is,
    /// and its conclusion is not": how many are, of the file without the withheld rules.
    pub fn count_set_aside(file: &RuleFile, order: &[usize]) -> usize {
        let derived = run(file, order).derived;
        let set_aside = |rule: &Rule| {
            rule.premises.iter().all(|premise| derived.contains(premise))
                && !rule.constraints.iter().any(|constraint| derived.contains(constraint))
                && !derived.contains(rule.conclusion)
        };
        remaining(file).filter(|(_, rule)| set_aside(rule)).count()
    }

    fn eligible(file: &RuleFile, end: &End, number: usize) -> bool {
        let rule = &file.rules[number];
        let mut closure = end.derived;
        closure.insert(rule.conclusion);
        close(file, &mut closure, &mut Vec::new());
        rule.is_exception()
            && !is_withheld(file, number)
            && !end.derived.contains(rule.conclusion)
            && rule.premises.is_within(&end.derived)
            && !closure.meets(&rule.constraints)
            && !closure.meets(&end.ruled_out)
    }

    /// The least ranks, raised from 0 for as long as a rule asks for more. Each is
    /// below the count of facts where there are such ranks.
    pub fn ranks(file: &RuleFile) -> Option<Vec<usize>> {
        let mut ranks = vec![0; file.facts];
        loop {
            let before = ranks.clone();
            for (_, rule) in remaining(file) {
                let at_least = rule.premises.iter().map(|premise| ranks[premise]);
                let above = rule.constraints.iter().map(|constraint| ranks[constraint] + 1);
                let asked = at_least.chain(above).max().unwrap_or(0);
                ranks[rule.conclusion] = ranks[rule.conclusion].max(asked);
            }
            if ranks == before {
                return Some(ranks);
            }
            if ranks.iter().any(|&rank| rank > file.facts) {
                return None;
            }
        }
    }

    /// A row of dependencies, one of them by a constraint, ends where it began: from
    /// that constraint some row leads back to the conclusion.
    pub fn has_cycle_through_a_constraint(file: &RuleFile) -> bool {
        let leads_back = |constraint: usize, conclusion: usize| {
            let mut reached: FactSet = [constraint].into_iter().collect();
            loop {
                let before = reached;
                for (_, rule) in remaining(file) {
                    if before.contains(rule.conclusion) {
                        reached = reached.union(&rule.premises).union(&rule.constraints);
                    }
                }
                if reached == before {
                    return reached.contains(conclusion);
                }
            }
        };
        remaining(file).any(|(_, rule)| {
            rule.constraints.iter().any(|constraint| leads_back(constraint, rule.conclusion))
        })
    }

    /// The least set of step numbers that has the fact's own step and, with a
    /// step, the step of each premise of its rule: what all such sets share.
    pub fn grounds(file: &RuleFile, steps: &[Step], fact: usize) -> Vec<Step> {
        let has = |set: usize, number: usize| set >> number & 1 == 1;
        let has_steps_of = |set: usize, wanted: &dyn Fn(usize) -> bool| {
            (0..steps.len()).all(|number| !wanted(steps[number].fact) || has(set, number))
        };
        let with_premises = |set: usize, number: usize| {
            let premises = &file.rules[steps[number].rule].premises;
            has_steps_of(set, &|fact| premises.contains(fact))
        };
        let such = |&set: &usize| {
            has_steps_of(set, &|other| other == fact)
                && (0..steps.len()).all(|number| !has(set, number) || with_premises(set, number))
        };
        let least = (0..1 << steps.len()).filter(such).fold(usize::MAX, |least, set| least & set);
        (0..steps.len()).filter(|&number| has(least, number)).map(|number| steps[number]).collect()
    }

    /// The least set closed under the reduct by the set, listed rules dropped.
    pub fn least_of_reduct(file: &RuleFile, listed: &[usize], set: &FactSet) -> FactSet {
        let mut least = FactSet::EMPTY;
        loop {
            let before = least;
            for (number, rule) in remaining(file) {
                let kept = !listed.contains(&number) && !rule.constraints.meets(set);
                if kept && rule.premises.is_within(&least) {
                    least.insert(rule.conclusion);
                }
            }
            if least == before {
                return least;
            }
        }
    }

    /// Every subset of the constraint facts, the earliest first.
    pub fn earliest_stable_set(file: &RuleFile) -> Option<FactSet> {
        let constraint_facts = constraint_facts(file);
        let facts: Vec<usize> = constraint_facts.iter().collect();
        assert!(facts.len() <= 16);
        (0..1usize << facts.len()).find_map(|subset| {
            let chosen = |&place: &usize| subset >> place & 1 == 1;
            let guess = (0..facts.len()).filter(chosen).map(|place| facts[place]).collect();
            let set = least_of_reduct(file, &[], &guess);
            (least_of_reduct(file, &[], &set) == set
                && set.intersection(&constraint_facts) == guess)
                .then_some(set)
        })
    }
}

/// A file of these rules, one in two with unread facts.
fn file_with(random: &mut Random, facts: usize, rules: Vec<Rule>) -> RuleFile {
    let unread = if random.one_in(2) { random.within(1, 3) } else { 0 };
    let unread = (0..unread).map(|_| random.below(facts)).collect();
    let mut file = RuleFile { rules, unread, ..RuleFile::new(facts) };
    file.withhold();
    file
}

fn random_file(random: &mut Random) -> RuleFile {
    let facts = random.within(1, 8);
    let some = |random: &mut Random, most: usize| -> FactSet {
        (0..random.below(most + 1)).map(|_| random.below(facts)).collect()
    };
    let (most_premises, most_constraints) = (random.below(3), random.below(3));
    let rule = |random: &mut Random| Rule {
        conclusion: random.below(facts),
        premises: some(random, most_premises),
        constraints: some(random, most_constraints),
    };
    let rules = (0..random.within(1, 14)).map(|_| rule(random)).collect();
    file_with(random, facts, rules)
}

#[test]
fn the_run_agrees_with_its_definition() {
    for stream in 0..20_000 {
        let random = &mut Random::new(1, stream);
        let file = random_file(random);
        let mut order: Vec<usize> = file.exceptions().collect();
        random.shuffle(&mut order);
        let (run, end) = (Run::to_end(&file, &order), naive::run(&file, &order));
        assert_eq!(run.steps, end.steps);
        assert_eq!(run.derived.facts, end.derived);
        assert_eq!(run.ruled_out, end.ruled_out);
        assert_eq!(run.applied, end.applied.into_iter().collect());
        assert!(!run.ruled_out.meets(&run.derived.facts));
    }
}

/// The bytes of a file with these rules.
fn bytes_of(file: &RuleFile) -> Vec<u8> {
    let facts = |set: &FactSet| set.iter().collect::<Vec<_>>();
    let bodies: Vec<_> =
        file.rules.iter().map(|rule| (facts(&rule.premises), facts(&rule.constraints))).collect();
    let rules: Vec<PlainRule> = file
        .rules
        .iter()
        .zip(&bodies)
        .map(|(rule, (premises, constraints))| (rule.conclusion, &premises[..], &constraints[..]))
        .collect();
    let unread: Vec<u8> = file.unread.iter().map(|fact| fact as u8).collect();
    with_unread(&unread, &file_of(file.facts as u8, &rules))
}

/// A random file, three random orders of it, and how many rules each sets aside.
fn for_three_orders(seed: u64, streams: u64, mut tell: impl FnMut(&[u8], [&[u8]; 3], [usize; 3])) {
    for stream in 0..streams {
        let random = &mut Random::new(seed, stream);
        let file = random_file(random);
        let orders: [Vec<usize>; 3] = std::array::from_fn(|_| {
            let mut order: Vec<usize> = file.exceptions().collect();
            random.shuffle(&mut order);
            order
        });
        let counts = orders.each_ref().map(|order| naive::count_set_aside(&file, order));
        let rows = orders.each_ref().map(|order| order_of(order));
        tell(&bytes_of(&file), rows.each_ref().map(Vec::as_slice), counts);
    }
}

#[test]
fn the_choice_agrees_with_the_counts_of_rules_set_aside() {
    let (mut second, mut both, mut equal) = (0, 0, 0);
    for_three_orders(12, 40_000, |file, [first, other, _], [by_first, by_other, _]| {
        let expected = if by_other < by_first { Choice::Second } else { Choice::First };
        assert_eq!(choose(file, first, other), Ok(expected));
        second += usize::from(by_other < by_first);
        both += usize::from(by_first != by_other && by_first.min(by_other) > 0);
        equal += usize::from(first != other && by_first == by_other && by_first > 0);
    });
    assert!(second > 300 && both > 100 && equal > 1_000, "{second} {both} {equal}");
}

#[test]
fn choosing_among_three_by_pairs_gives_one_with_the_fewest() {
    let mut differ = 0;
    for_three_orders(13, 40_000, |file, orders @ [first, second, third], counts| {
        let place = |chosen: &[u8]| orders.iter().position(|order| std::ptr::eq(*order, chosen));
        let least = counts.into_iter().min();
        let by_left = better(file, better(file, first, second), third);
        let by_right = better(file, first, better(file, second, third));
        for chosen in [by_left, by_right] {
            assert_eq!(place(chosen).map(|place| counts[place]), least);
        }
        differ += usize::from(least != counts.into_iter().max());
    });
    assert!(differ > 500, "{differ} with different counts");
}

#[test]
fn the_run_ends_stable_for_the_file_less_the_rules_set_aside() {
    for stream in 0..5_000 {
        let file = random_file(&mut Random::new(2, stream));
        let run = Run::to_end(&file, &file.exceptions().collect::<Vec<_>>());
        let aside = (0..file.rules.len()).filter(|&number| run.rule_mark(number) == 2);
        assert!(file.is_stable(&aside.collect(), &run.derived.facts));
    }
}

/// A random file, its run under a random order, and each fact that this derives.
fn for_each_derived(seed: u64, streams: u64, mut tell: impl FnMut(&RuleFile, &Run, usize)) {
    for stream in 0..streams {
        let random = &mut Random::new(seed, stream);
        let file = random_file(random);
        let mut order: Vec<usize> = file.exceptions().collect();
        random.shuffle(&mut order);
        let run = Run::to_end(&file, &order);
        run.derived.facts.iter().for_each(|fact| tell(&file, &run, fact));
    }
}

#[test]
fn the_grounds_agree_with_their_definition() {
    let mut shorter = 0;
    for_each_derived(5, 10_000, |file, run, fact| {
        let kept = run.grounds(fact);
        assert_eq!(kept, naive::grounds(file, &run.steps, fact));
        shorter += usize::from(kept.len() < run.steps.len());
    });
    assert!(shorter > 1_000);
}

#[test]
fn the_grounds_are_a_proof_and_no_part_of_its_rules_gives_one() {
    for_each_derived(6, 10_000, |file, run, fact| {
        let kept = run.grounds(fact);
        assert!(file.proves(&kept, fact, &run.derived.facts));
        let rules: RuleSet = kept.iter().map(|step| step.rule).collect();
        for left_out in &kept {
            let mut others = rules;
            others.remove(left_out.rule);
            assert!(!run.network.least_set(&others).contains(fact));
        }
    });
}

/// Each fact has a level, and its rules have no premise of a higher level and no
/// constraint of its own level or a higher one.
fn random_levels(random: &mut Random) -> RuleFile {
    let facts = random.within(1, 8);
    let width = random.within(1, 2);
    let mut levels: Vec<usize> = (0..facts).map(|fact| fact / width).collect();
    random.shuffle(&mut levels);
    let some = |random: &mut Random, most: usize, below: usize| -> FactSet {
        let lower: Vec<usize> = (0..facts).filter(|&fact| levels[fact] < below).collect();
        let count = if lower.is_empty() { 0 } else { random.below(most + 1) };
        (0..count).map(|_| lower[random.below(lower.len())]).collect()
    };
    let rule = |random: &mut Random| {
        let conclusion = random.below(facts);
        let level = levels[conclusion];
        let premises = some(random, 1, level + 1);
        Rule { conclusion, premises, constraints: some(random, 3, level) }
    };
    let rules = (0..random.within(1, 14)).map(|_| rule(random)).collect();
    file_with(random, facts, rules)
}

#[test]
fn the_ranks_agree_with_plain_iteration() {
    let (mut cyclic, mut high) = (0, 0);
    for stream in 0..20_000 {
        let random = &mut Random::new(7, stream);
        let file = if random.one_in(2) { random_file(random) } else { random_levels(random) };
        let ranks = naive::ranks(&file);
        assert_eq!(ranks.is_none(), naive::has_cycle_through_a_constraint(&file));
        let found = Layers::ranks(&file).ok();
        let found = found.map(|ranks| ranks.into_iter().map(usize::from).collect::<Vec<_>>());
        assert_eq!(found, ranks);
        cyclic += usize::from(ranks.is_none());
        high += usize::from(ranks.is_some_and(|ranks| ranks.into_iter().max() > Some(2)));
    }
    assert!(cyclic > 1_000 && high > 500, "{cyclic} cyclic, {high} high");
}

#[test]
fn the_order_by_rank_names_each_exception_rule_in_its_place() {
    let mut rearranged = 0;
    for stream in 0..20_000 {
        let file = random_levels(&mut Random::new(8, stream));
        let ranks = naive::ranks(&file).expect("the levels are ranks");
        let order = order_by_rank(&file, &Layers::ranks(&file).expect("there are ranks"));
        let ascending: Vec<usize> = file.exceptions().collect();
        let mut named = order.clone();
        named.sort_unstable();
        assert_eq!(named, ascending);
        let key = |&number: &usize| {
            let withheld = naive::is_withheld(&file, number);
            let rank = if withheld { 0 } else { ranks[file.rules[number].conclusion] };
            (withheld, rank, number)
        };
        assert!(order.iter().map(key).is_sorted());
        rearranged += usize::from(order != ascending);
    }
    assert!(rearranged > 1_000, "{rearranged} rearranged");
}

/// Every set of facts.
fn all_sets(facts: usize) -> impl Iterator<Item = FactSet> {
    (0..1 << facts).map(move |set: usize| (0..facts).filter(|fact| set >> fact & 1 == 1).collect())
}

#[test]
fn under_the_order_by_rank_nothing_is_set_aside_and_one_set_is_stable() {
    let (mut layered, mut stages) = (0, 0);
    for stream in 0..4_000 {
        let random = &mut Random::new(9, stream);
        let file = if random.one_in(3) { random_file(random) } else { random_levels(random) };
        let Ok(ranks) = Layers::ranks(&file) else { continue };
        let run = Run::to_end(&file, &order_by_rank(&file, &ranks));
        assert!((0..file.rules.len()).all(|number| run.rule_mark(number) != 2));
        let is_stable = |set: &FactSet| file.is_stable(&RuleSet::EMPTY, set);
        let stable: Vec<FactSet> = all_sets(file.facts).filter(is_stable).collect();
        assert_eq!(stable, [run.derived.facts]);
        layered += 1;
        stages += run.counts().stages;
    }
    assert!(layered > 2_000 && stages > 1_000, "{layered} layered, {stages} stages");
}

#[test]
fn the_judge_agrees_with_its_definition() {
    let mut stable = 0;
    for stream in 0..20_000 {
        let random = &mut Random::new(3, stream);
        let file = random_file(random);
        let listed: Vec<usize> = file.exceptions().filter(|_| random.one_in(4)).collect();
        let set = (0..file.facts).filter(|_| random.one_in(2)).collect();
        let expected = naive::least_of_reduct(&file, &listed, &set) == set;
        assert_eq!(file.is_stable(&listed.into_iter().collect(), &set), expected);
        stable += usize::from(expected);
    }
    assert!(stable > 100);
}

#[test]
fn the_search_agrees_with_plain_enumeration() {
    let mut without = 0;
    for stream in 0..20_000 {
        let file = random_file(&mut Random::new(4, stream));
        let found = Search::new(&file).earliest_stable_set();
        assert_eq!(found, naive::earliest_stable_set(&file));
        match found {
            None => without += 1,
            Some(set) => assert_eq!(Run::to_end(&file, &order_for(&file, &set)).derived.facts, set),
        }
    }
    assert!(without > 100);
}

/// The rules in force as a file of its own, and for each rule of it its old number.
fn without_withheld(file: &RuleFile) -> (RuleFile, Vec<usize>) {
    let kept: Vec<usize> =
        (0..file.rules.len()).filter(|&number| !naive::is_withheld(file, number)).collect();
    let rules = kept.iter().map(|&number| file.rules[number].clone()).collect();
    (RuleFile { rules, ..RuleFile::new(file.facts) }, kept)
}

#[test]
fn every_operation_works_on_the_file_without_the_withheld_rules() {
    let (mut some, mut searched, mut layered) = (0, 0, 0);
    for stream in 0..20_000 {
        let random = &mut Random::new(10, stream);
        let file = if random.one_in(2) { random_file(random) } else { random_levels(random) };
        let (rest, numbers) = without_withheld(&file);
        let withheld: Vec<usize> =
            (0..file.rules.len()).filter(|number| !numbers.contains(number)).collect();
        let renumbered = |order: Vec<usize>| -> Vec<usize> {
            order.into_iter().map(|number| numbers[number]).collect()
        };
        let with_withheld_last = |order: Vec<usize>| [renumbered(order), withheld.clone()].concat();

        let mut order: Vec<usize> = file.exceptions().collect();
        random.shuffle(&mut order);
        let place = |number: &usize| numbers.iter().position(|old| old == number);
        let order_of_rest: Vec<usize> = order.iter().filter_map(place).collect();
        let (ran, expected) = (Run::to_end(&file, &order), Run::to_end(&rest, &order_of_rest));
        let steps = expected.steps.iter().map(|step| Step { rule: numbers[step.rule], ..*step });
        assert_eq!(ran.steps, steps.collect::<Vec<_>>());
        assert_eq!(ran.derived.facts, expected.derived.facts);
        assert_eq!(ran.ruled_out, expected.ruled_out);
        let mark = |number: usize| place(&number).map_or(4, |place| expected.rule_mark(place));
        assert!((0..file.rules.len()).all(|number| ran.rule_mark(number) == mark(number)));
        for set in all_sets(file.facts).step_by(7) {
            let none = &RuleSet::EMPTY;
            assert_eq!(file.is_stable(none, &set), rest.is_stable(none, &set));
        }
        assert_eq!(file.constraint_facts(), rest.constraint_facts());

        let found = Search::new(&file).earliest_stable_set();
        assert_eq!(found, Search::new(&rest).earliest_stable_set());
        if let Some(set) = found {
            assert_eq!(order_for(&file, &set), with_withheld_last(order_for(&rest, &set)));
        }
        let ranks = Layers::ranks(&file);
        assert_eq!(ranks, Layers::ranks(&rest));
        if let Ok(ranks) = &ranks {
            let order = with_withheld_last(order_by_rank(&rest, ranks));
            assert_eq!(order_by_rank(&file, ranks), order);
        }
        some += usize::from(!withheld.is_empty());
        searched += usize::from(!withheld.is_empty() && found.is_some());
        layered += usize::from(!withheld.is_empty() && ranks.is_ok());
    }
    assert!(some > 4_000 && searched > 2_000 && layered > 2_000, "{some} {searched} {layered}");
}

#[test]
fn a_row_with_a_step_by_a_withheld_rule_is_no_proof() {
    let mut by_withheld = 0;
    for stream in 0..10_000 {
        let random = &mut Random::new(11, stream);
        let file = random_file(random);
        let read = RuleFile { unread: FactSet::EMPTY, withheld: RuleSet::EMPTY, ..file.clone() };
        let order: Vec<usize> = file.exceptions().collect();
        let run = Run::to_end(&read, &order);
        for fact in run.derived.facts.iter() {
            let row = run.grounds(fact);
            assert!(read.proves(&row, fact, &run.derived.facts));
            let withheld = row.iter().any(|step| naive::is_withheld(&file, step.rule));
            assert_eq!(file.proves(&row, fact, &run.derived.facts), !withheld);
            by_withheld += usize::from(withheld);
        }
    }
    assert!(by_withheld > 500, "{by_withheld} by a withheld rule");
}
