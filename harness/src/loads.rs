//! Test loads as drafts, for files to try other operations on. Their bytes are the
//! reference's, which the comparison holds against the archive's.

use crate::draft::{Draft, DraftRule};
use reference::{load, load_bytes};

/// The file that a load writes from this start.
pub fn draft(start: u32, facts: usize, rules: usize) -> Draft {
    let mut file = vec![0; load_bytes(rules)];
    load(start, facts as u32, rules as u32, &mut file).expect("the counts are within their limits");
    let rule = |&[_, conclusion, second, fact, third, last]: &[u8; 6]| DraftRule {
        conclusion,
        items: vec![(second, fact), (third, last)],
    };
    let bodies = file[2..].as_chunks().0;
    let draft = Draft { rules: bodies.iter().map(rule).collect(), ..Draft::new(facts) };
    assert_eq!(draft.bytes(), file, "each rule has two items of its own");
    draft
}
