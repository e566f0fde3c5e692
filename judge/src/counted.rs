//! The counted run: a run that also leaves, of each clause, how many of its literals
//! are true and how many are existential and unassigned. Here it is a plain run,
//! after which they are counted anew.

use std::collections::HashSet;

use crate::block::Formula;
use crate::session::{Lent, Ran, Session};

/// The numbers by clause, and the index, as they are lent.
pub struct Numbers<'a> {
    pub trues: &'a mut [u32],
    pub opens: &'a mut [u32],
    /// Only its length is looked at: what a counted run leaves there is its own.
    pub index: &'a [u32],
}

/// Row 11 for each of the three: "number buffers shorter than C, or an index shorter
/// than V+T".
pub fn short(formula: &Formula, [trues, opens, index]: [usize; 3]) -> [bool; 3] {
    let literals: usize = formula.clauses.iter().map(|clause| clause.len()).sum();
    let clauses = formula.clauses.len();
    [
        trues < clauses,
        opens < clauses,
        index < formula.variables() + literals,
    ]
}

impl Numbers<'_> {
    fn lengths(&self) -> [usize; 3] {
        [self.trues.len(), self.opens.len(), self.index.len()]
    }
}

impl Session {
    /// A counted run, refusals 1 to 10, 23 and 11 to 15; 11 of the record's buffers
    /// comes from the run itself.
    pub fn counted(
        self,
        block: &[i32],
        lent: Lent,
        numbers: Numbers,
        seen: u64,
        budget: u32,
        preferred: &[i32],
    ) -> Result<Ran, u8> {
        let formula = Formula::read(block)?;
        if short(&formula, numbers.lengths()).contains(&true) {
            return Err(11);
        }
        let Lent {
            literals,
            kinds,
            reasons,
        } = lent;
        let lent = Lent {
            literals: &mut *literals,
            kinds,
            reasons,
        };
        let ran = self.run(block, lent, seen, budget, preferred)?;
        let record = &literals[..ran.session.length as usize];
        for (clause, (trues, opens)) in fresh(&formula, record).into_iter().enumerate() {
            numbers.trues[clause] = trues;
            numbers.opens[clause] = opens;
        }
        Ok(ran)
    }
}

/// Of each clause the true literals, and the existential ones that are unassigned,
/// when these literals are true.
pub fn fresh(formula: &Formula, record: &[i32]) -> Vec<(u32, u32)> {
    let record: HashSet<i32> = record.iter().copied().collect();
    let is_true = |literal: &&i32| record.contains(literal);
    let is_open = |literal: &&i32| {
        let assigned = record.contains(literal) || record.contains(&-**literal);
        formula.existential(**literal) && !assigned
    };
    let clauses = formula.clauses.iter().map(|clause| {
        let trues = clause.iter().filter(is_true).count();
        let opens = clause.iter().filter(is_open).count();
        (trues as u32, opens as u32)
    });
    clauses.collect()
}
