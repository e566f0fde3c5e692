//! Where a call is refused with 11 or 12, whether one buffer alone is to blame,
//! the reasons or one of those that a counted run is lent: what a comparison reports
//! beside the refusals.

use crate::block::Formula;
use crate::console::Desk;
use crate::counted;
use crate::record::{self, reason_beside, reason_over, Entry};

/// Reasons shorter than V, a reason over C, a reason beside a kind that isn't 0;
/// number buffers shorter than C, an index shorter than V+T.
pub const NAMES: [&str; 6] = [
    "short-reasons",
    "reason-over",
    "reason-beside",
    "short-trues",
    "short-opens",
    "short-index",
];

/// The place in [`NAMES`] of what alone broke the row, if it was one of these. The
/// desk is as the refused call has left it, which is as it was before.
pub fn of(desk: &Desk, row: u8, is_counted: bool) -> Option<usize> {
    let formula = Formula::read(&desk.block).ok()?;
    match row {
        11 => of_lengths(&formula, desk, is_counted),
        12 => of_entries(&formula, &record_without_reasons(desk, &formula)?, desk),
        _ => None,
    }
}

/// The one buffer that is too short, if no other is.
fn of_lengths(formula: &Formula, desk: &Desk, is_counted: bool) -> Option<usize> {
    let numbers = [&desk.trues, &desk.opens, &desk.index].map(|buffer| buffer.len());
    let numbers = counted::short(formula, numbers).map(|short| short && is_counted);
    let short = |length| record::buffers_short(formula, &[length]);
    if short(desk.literals.len()) || short(desk.kinds.len()) {
        return None;
    }
    match (short(desk.reasons.len()), numbers) {
        (true, [false, false, false]) => Some(0),
        (false, [true, false, false]) => Some(3),
        (false, [false, true, false]) => Some(4),
        (false, [false, false, true]) => Some(5),
        _ => None,
    }
}

/// The record with every reason 0, if that makes it an accepted one.
fn record_without_reasons(desk: &Desk, formula: &Formula) -> Option<Vec<Entry>> {
    let (literals, kinds, length) = (&desk.literals, &desk.kinds, desk.session.length);
    record::read_bare(formula, literals, kinds, length).ok()
}

fn of_entries(formula: &Formula, record: &[Entry], desk: &Desk) -> Option<usize> {
    let with_reason = |(entry, &reason): (&Entry, &u32)| Entry { reason, ..*entry };
    let record = record.iter().zip(&desk.reasons).map(with_reason);
    let record: Vec<Entry> = record.collect();
    let over = record.iter().any(|entry| reason_over(formula, entry));
    let beside = record.iter().any(reason_beside);
    match (over, beside) {
        (true, false) => Some(1),
        (false, true) => Some(2),
        _ => None,
    }
}
