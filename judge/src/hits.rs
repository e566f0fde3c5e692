//! How often each rule was applied: what a comparison reports at its end.

use crate::block::Formula;
use crate::rules::Rule;

/// The rules by name, Monotone by quantifier and Decide by who chose.
pub const NAMES: [&str; 9] = [
    "backtrack-exists",
    "fail",
    "unit",
    "monotone-existential",
    "monotone-universal",
    "decide-proposed",
    "decide-first",
    "backtrack-forall",
    "succeed",
];

/// The number of applications of each rule, in the order of [`NAMES`].
#[derive(Clone, Copy, Debug, Default, PartialEq, Eq)]
pub struct Hits(pub [u64; 9]);

impl Hits {
    pub fn note(&mut self, formula: &Formula, rule: Rule, proposal: i32) {
        let place = match rule {
            Rule::BacktrackExists(..) => 0,
            Rule::Fail(_) => 1,
            Rule::Unit(..) => 2,
            Rule::Monotone(literal) if formula.existential(literal) => 3,
            Rule::Monotone(_) => 4,
            Rule::Decide if proposal != 0 => 5,
            Rule::Decide => 6,
            Rule::BacktrackForall(_) => 7,
            Rule::Succeed => 8,
        };
        self.0[place] += 1;
    }

    pub fn add(&mut self, other: &Hits) {
        for (mine, theirs) in self.0.iter_mut().zip(other.0) {
            *mine += theirs;
        }
    }
}
