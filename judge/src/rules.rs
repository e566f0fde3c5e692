//! The due rule and what it does to a record. A yardstick of correctness, not
//! of speed: each question is asked of the record anew.

use std::collections::HashSet;

use crate::block::Formula;
use crate::record::{Entry, EXISTENTIAL_DECISION, FORCED, UNIVERSAL_DECISION};

/// A clause by its number, which is 0 for the first.
#[derive(Clone, Copy, Debug, PartialEq, Eq)]
pub struct Clause(pub usize);

/// "The due rule is the first that applies".
#[derive(Clone, Copy, Debug, PartialEq, Eq)]
pub enum Rule {
    /// The lowest clause in conflict, and the place of the last kind 1 entry.
    BacktrackExists(Clause, usize),
    /// The lowest clause in conflict, with no such entry.
    Fail(Clause),
    /// The lowest unit clause, and its literal.
    Unit(Clause, i32),
    /// The literal that a monotone variable takes.
    Monotone(i32),
    /// Some variable is unassigned, and nothing above applies.
    Decide,
    /// All assigned, with the place of the last kind 2 entry.
    BacktrackForall(usize),
    /// All assigned, with no such entry.
    Succeed,
}

impl Rule {
    /// [step.reason]: that of the unit clause or of the lowest clause in conflict,
    /// else 0.
    pub fn reason(self) -> u32 {
        match self {
            Rule::BacktrackExists(clause, _) | Rule::Fail(clause) | Rule::Unit(clause, _) => {
                clause.0 as u32 + 1
            }
            Rule::Monotone(_) | Rule::Decide | Rule::BacktrackForall(_) | Rule::Succeed => 0,
        }
    }
}

/// The due rule of a record.
pub fn due(formula: &Formula, record: &[Entry]) -> Rule {
    let values = Values::of(formula, record);
    if let Some(clause) = values.conflict() {
        return match last_of_kind(record, EXISTENTIAL_DECISION) {
            Some(place) => Rule::BacktrackExists(clause, place),
            None => Rule::Fail(clause),
        };
    }
    if let Some((clause, literal)) = values.unit() {
        return Rule::Unit(clause, literal);
    }
    if let Some(literal) = values.monotone() {
        return Rule::Monotone(literal);
    }
    if values.first_unassigned().is_some() {
        return Rule::Decide;
    }
    match last_of_kind(record, UNIVERSAL_DECISION) {
        Some(place) => Rule::BacktrackForall(place),
        None => Rule::Succeed,
    }
}

/// [conflict]: the lowest clause that is in conflict, if one is.
pub fn lowest_conflict(formula: &Formula, record: &[Entry]) -> Option<Clause> {
    Values::of(formula, record).conflict()
}

/// The record after the rule. "Fail and Succeed leave the record." The
/// proposal matters at Decide only: 0, or an open literal. [reasons.unit]: an
/// entry that Unit made has its reason, every other one 0.
pub fn apply(formula: &Formula, record: &[Entry], rule: Rule, proposal: i32) -> Vec<Entry> {
    match rule {
        Rule::BacktrackExists(_, place) | Rule::BacktrackForall(place) => turned(record, place),
        Rule::Unit(_, literal) => extended(record, literal, FORCED, rule.reason()),
        Rule::Monotone(literal) => extended(record, literal, FORCED, 0),
        Rule::Decide => decided(formula, record, proposal),
        Rule::Fail(_) | Rule::Succeed => record.to_vec(),
    }
}

/// "A literal is open if its variable is unassigned and no variable of a lower
/// level is." A word that is no literal of the formula is not open.
pub fn open(formula: &Formula, record: &[Entry], word: i32) -> bool {
    let values = Values::of(formula, record);
    formula.has_literal(word)
        && !values.assigned(word)
        && formula
            .order()
            .filter(|&variable| formula.level(variable) < formula.level(word))
            .all(|variable| values.assigned(variable))
}

/// "At Decide it proposes the first open one in the list, else 0."
pub fn proposal_of(formula: &Formula, record: &[Entry], preferred: &[i32]) -> i32 {
    let mut open_ones = preferred
        .iter()
        .filter(|&&word| open(formula, record, word));
    open_ones.next().copied().unwrap_or(0)
}

/// "Append the proposed literal, or for proposal 0 the first unassigned
/// variable in prefix order, true. Kind 1 or 2 by quantifier."
fn decided(formula: &Formula, record: &[Entry], proposal: i32) -> Vec<Entry> {
    let first = Values::of(formula, record).first_unassigned();
    let literal = match proposal {
        0 => first.expect("Decide is due when some variable is unassigned"),
        proposed => proposed,
    };
    let kind = if formula.existential(literal) {
        EXISTENTIAL_DECISION
    } else {
        UNIVERSAL_DECISION
    };
    extended(record, literal, kind, 0)
}

fn extended(record: &[Entry], literal: i32, kind: u8, reason: u32) -> Vec<Entry> {
    let mut next = record.to_vec();
    next.push(Entry {
        literal,
        kind,
        reason,
    });
    next
}

/// "Cut the record at its last kind 1 entry and put the opposite there, kind 0."
fn turned(record: &[Entry], place: usize) -> Vec<Entry> {
    extended(&record[..place], -record[place].literal, FORCED, 0)
}

fn last_of_kind(record: &[Entry], kind: u8) -> Option<usize> {
    record.iter().rposition(|entry| entry.kind == kind)
}

/// What a record makes true, by variable, beside its formula.
struct Values<'a> {
    formula: &'a Formula,
    by_variable: Vec<Option<bool>>,
}

impl<'a> Values<'a> {
    fn of(formula: &'a Formula, record: &[Entry]) -> Values<'a> {
        let mut by_variable = vec![None; formula.variables() + 1];
        for entry in record {
            by_variable[entry.literal.unsigned_abs() as usize] = Some(entry.literal > 0);
        }
        Values {
            formula,
            by_variable,
        }
    }

    fn assigned(&self, literal: i32) -> bool {
        self.by_variable[literal.unsigned_abs() as usize].is_some()
    }

    fn is_true(&self, literal: i32) -> bool {
        self.by_variable[literal.unsigned_abs() as usize] == Some(literal > 0)
    }

    fn first_unassigned(&self) -> Option<i32> {
        self.formula
            .order()
            .find(|&variable| !self.assigned(variable))
    }

    /// The unassigned literals of a clause, by quantifier; `None` if it has a true
    /// literal.
    fn left(&self, clause: usize) -> Option<Left> {
        let literals = &self.formula.clauses[clause];
        if literals.iter().any(|&literal| self.is_true(literal)) {
            return None;
        }
        let free = literals.iter().filter(|&&literal| !self.assigned(literal));
        let (existential, universal) = free
            .copied()
            .partition(|&literal| self.formula.existential(literal));
        Some(Left {
            existential,
            universal,
        })
    }

    /// The clauses with no true literal, from the lowest on.
    fn without_truth(&self) -> impl Iterator<Item = (Clause, Left)> + '_ {
        let all = 0..self.formula.clauses.len();
        all.filter_map(|clause| Some((Clause(clause), self.left(clause)?)))
    }

    /// "A clause is in conflict if it has no true literal and no unassigned
    /// existential literal." The lowest such one.
    fn conflict(&self) -> Option<Clause> {
        let mut clauses = self.without_truth();
        let found = clauses.find(|(_, left)| left.existential.is_empty());
        found.map(|(clause, _)| clause)
    }

    /// "the lowest clause with no true literal, exactly one unassigned
    /// existential literal l, and each unassigned universal literal at a higher
    /// level than l", and that l.
    fn unit(&self) -> Option<(Clause, i32)> {
        let mut clauses = self.without_truth();
        clauses.find_map(|(clause, left)| match left.existential[..] {
            [literal] if self.all_higher(&left.universal, literal) => Some((clause, literal)),
            _ => None,
        })
    }

    fn all_higher(&self, universal: &[i32], literal: i32) -> bool {
        let level = self.formula.level(literal);
        universal
            .iter()
            .all(|&other| self.formula.level(other) > level)
    }

    /// [monotone]: the first unassigned variable in prefix order with one sign in
    /// the clauses that have no true literal. An existential one takes that sign,
    /// a universal one the opposite. [monotone.absent]: one that stands in none of
    /// them has no sign to take.
    fn monotone(&self) -> Option<i32> {
        let is_true = |literal: &i32| self.is_true(*literal);
        let clauses = self.formula.clauses.iter();
        let counting = clauses.filter(|clause| !clause.iter().any(is_true));
        let occurring: HashSet<i32> = counting.flatten().copied().collect();
        let occurs = |literal| occurring.contains(&literal);
        let free = self.formula.order().filter(|&v| !self.assigned(v));
        free.filter_map(|variable| match (occurs(variable), occurs(-variable)) {
            (true, false) => Some(variable),
            (false, true) => Some(-variable),
            _ => None,
        })
        .map(|sign| {
            if self.formula.existential(sign) {
                sign
            } else {
                -sign
            }
        })
        .next()
    }
}

/// The unassigned literals of a clause with no true literal.
struct Left {
    existential: Vec<i32>,
    universal: Vec<i32>,
}
