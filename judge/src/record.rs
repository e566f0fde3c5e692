//! The record, and its check (refusals 11 and 12).

use std::collections::HashSet;

use crate::block::Formula;

/// "kinds: 0 forced, 1 existential decision, 2 universal decision".
pub const FORCED: u8 = 0;
pub const EXISTENTIAL_DECISION: u8 = 1;
pub const UNIVERSAL_DECISION: u8 = 2;

/// One place of the record: a literal that is true, and how it came there.
/// [reasons]: and the clause that forced it, by its number plus one, or 0.
#[derive(Clone, Copy, Debug, PartialEq, Eq)]
pub struct Entry {
    pub literal: i32,
    pub kind: u8,
    pub reason: u32,
}

/// Row 11, of buffers of these lengths: "a record buffer shorter than V".
pub fn buffers_short(formula: &Formula, lengths: &[usize]) -> bool {
    lengths.iter().any(|&length| length < formula.variables())
}

/// The record of this length in the three lent buffers, or its refusal: 11 or 12.
/// The length is a number from outside and can be any.
pub fn read(
    formula: &Formula,
    literals: &[i32],
    kinds: &[u8],
    reasons: &[u32],
    length: u64,
) -> Result<Vec<Entry>, u8> {
    if buffers_short(formula, &[literals.len(), kinds.len(), reasons.len()]) {
        return Err(11);
    }
    if length > formula.variables() as u64 {
        return Err(12);
    }
    let entry = |place| Entry {
        literal: literals[place],
        kind: kinds[place],
        reason: reasons[place],
    };
    let record: Vec<Entry> = (0..length as usize).map(entry).collect();
    let wrong = |entry: &Entry| entry_wrong(formula, entry) || reason_wrong(formula, entry);
    if record.iter().any(wrong) || variable_twice(&record) {
        return Err(12);
    }
    Ok(record)
}

/// The same where no reasons are lent: each is as if it were 0.
pub fn read_bare(
    formula: &Formula,
    literals: &[i32],
    kinds: &[u8],
    length: u64,
) -> Result<Vec<Entry>, u8> {
    let zeros = vec![0; formula.variables()];
    read(formula, literals, kinds, &zeros, length)
}

/// Row 12, of one entry's reason: [row.12.reason].
fn reason_wrong(formula: &Formula, entry: &Entry) -> bool {
    reason_over(formula, entry) || reason_beside(entry)
}

/// It names no clause.
pub fn reason_over(formula: &Formula, entry: &Entry) -> bool {
    entry.reason as usize > formula.clauses.len()
}

/// A decision has one.
pub fn reason_beside(entry: &Entry) -> bool {
    entry.reason != 0 && entry.kind != FORCED
}

/// Row 12, of one entry: "0, size over V, [...] kind above 2, kind 1 on a
/// universal or 2 on an existential variable".
fn entry_wrong(formula: &Formula, entry: &Entry) -> bool {
    if !formula.has_literal(entry.literal) {
        return true;
    }
    match entry.kind {
        FORCED => false,
        EXISTENTIAL_DECISION => !formula.existential(entry.literal),
        UNIVERSAL_DECISION => formula.existential(entry.literal),
        _ => true,
    }
}

/// Row 12, over the entries: "variable twice".
fn variable_twice(record: &[Entry]) -> bool {
    let mut seen = HashSet::new();
    let mut named = record.iter().map(|entry| entry.literal.unsigned_abs());
    named.any(|variable| !seen.insert(variable))
}
