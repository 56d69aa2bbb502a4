//! Rules that count how many facts are out, for files in which many refuted guesses say
//! little of one another.

use crate::draft::Draft;

/// For each of these facts one that says that it is out: the facts from `unused` on, which
/// goes up behind them.
pub fn absences(draft: &mut Draft, unused: &mut usize, facts: &[usize]) -> Vec<usize> {
    let absence = |&fact: &usize| {
        let absent = take(unused);
        draft.rule(absent, &[], &[fact]);
        absent
    };
    facts.iter().map(absence).collect()
}

/// A fact that is derived where at least so many of these are, by counters: so many are
/// derived of the first ones. Only those that can still matter are made, of the facts from
/// `unused` on.
pub fn count_to(draft: &mut Draft, unused: &mut usize, facts: &[usize], least: usize) -> usize {
    // The counters of the facts so far, from 1 up; those that no longer matter stay.
    let mut counters: Vec<usize> = Vec::new();
    for (place, &fact) in facts.iter().enumerate() {
        let still_needed = (least + place + 1).saturating_sub(facts.len()).max(1);
        for count in (still_needed..=least.min(place + 1)).rev() {
            let counter = take(unused);
            match count {
                1 => draft.rule(counter, &[fact], &[]),
                _ => draft.rule(counter, &[counters[count - 2], fact], &[]),
            }
            match counters.get_mut(count - 1) {
                Some(before) => {
                    draft.rule(counter, &[*before], &[]);
                    *before = counter;
                }
                None => counters.push(counter),
            }
        }
    }
    counters[least - 1]
}

/// The lowest fact that no rule has yet.
fn take(unused: &mut usize) -> usize {
    *unused += 1;
    *unused - 1
}
