//! A rule file before it is written out.

use reference::kind;

/// The cap: the most premise and constraint items of one rule, repeats counted.
pub const MOST_OWN_ITEMS: usize = 24;

/// A rule as its items stand in the file.
#[derive(Clone)]
pub struct DraftRule {
    pub conclusion: u8,
    pub items: Vec<(u8, u8)>,
}

/// A rule file before it is written out.
#[derive(Clone, Default)]
pub struct Draft {
    pub facts: u8,
    /// The facts that are named as unread, in the order of their items.
    pub unread: Vec<u8>,
    pub rules: Vec<DraftRule>,
}

impl Draft {
    pub fn new(facts: usize) -> Draft {
        Draft { facts: facts as u8, unread: Vec::new(), rules: Vec::new() }
    }

    pub fn rule(&mut self, conclusion: usize, premises: &[usize], constraints: &[usize]) {
        let premises = premises.iter().map(|&fact| (kind::PREMISE, fact as u8));
        let constraints = constraints.iter().map(|&fact| (kind::CONSTRAINT, fact as u8));
        self.rules.push(DraftRule {
            conclusion: conclusion as u8,
            items: premises.chain(constraints).collect(),
        });
    }

    pub fn bytes(&self) -> Vec<u8> {
        let mut bytes = vec![kind::FACT_COUNT, self.facts];
        bytes.extend(self.unread.iter().flat_map(|&fact| [kind::UNREAD, fact]));
        for rule in &self.rules {
            bytes.extend([kind::CONCLUSION, rule.conclusion]);
            bytes.extend(rule.items.iter().flat_map(|&(kind, fact)| [kind, fact]));
        }
        let [high, low] = (self.rules.len() as u16).to_be_bytes();
        bytes.extend([kind::RULE_COUNT, high, low]);
        bytes
    }
}

/// Plain rules that lead from one fact to the next.
pub fn chain(draft: &mut Draft, facts: &[usize]) {
    for pair in facts.windows(2) {
        draft.rule(pair[1], &[pair[0]], &[]);
    }
}

/// A file whose steps go as deep as they can: fact 0 from nothing, and every other
/// from those before it, this many of them at most. The nearest stands first and
/// once more at the end, so that it is met first from either side; a rule then has
/// one premise item more than that.
pub fn stairs(facts: usize, premises: usize) -> Draft {
    let mut draft = Draft::new(facts);
    draft.rule(0, &[], &[]);
    for fact in 1..facts {
        let nearest_first = (fact.saturating_sub(premises)..fact).rev();
        draft.rule(fact, &nearest_first.chain([fact - 1]).collect::<Vec<_>>(), &[]);
    }
    draft
}
