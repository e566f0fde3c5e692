//! What an ended session shows: values of the first group, with refusals 1 to 10, 23,
//! 11, 12, 32 and 30.

use crate::block::Formula;
use crate::record::{self, Entry};
use crate::rules;
use crate::session::{Session, State};

/// [shown.output]: "the value of each variable of the first group as a literal, in
/// prefix order, to the output's first places"; how many they are.
pub fn shown(
    session: Session,
    block: &[i32],
    literals: &[i32],
    kinds: &[u8],
    output: &mut [i32],
) -> Result<usize, u8> {
    let formula = Formula::read(block)?;
    let record = record::read_bare(&formula, literals, kinds, session.length)?;
    if nothing_to_show(&formula, session.state) {
        return Err(32);
    }
    if output.len() < formula.variables() {
        return Err(30);
    }
    let values = values(&formula, &record);
    output[..values.len()].copy_from_slice(&values);
    Ok(values.len())
}

/// Row 32: "the session is open; or it is Valid and the first group is universal; or
/// it is Unsat and the first group isn't universal".
fn nothing_to_show(formula: &Formula, state: State) -> bool {
    match state {
        State::Open => true,
        State::Valid => formula.first_group_universal(),
        State::Unsat => !formula.first_group_universal(),
    }
}

/// The first group's literals as the record shows them.
fn values(formula: &Formula, record: &[Entry]) -> Vec<i32> {
    let conflict = rules::lowest_conflict(formula, record);
    let against = |variable: &i32| match conflict {
        Some(clause) => formula.clauses[clause.0].contains(variable),
        None => false,
    };
    let group = formula.order().take(formula.first_group());
    group
        .map(|variable| shown_as(variable, record, against(&variable)))
        .collect()
}

/// [witness.values]: "A variable with an entry is shown as the entry says. One without
/// is shown as false if the lowest clause in conflict holds it unnegated, and else as
/// true."
fn shown_as(variable: i32, record: &[Entry], held_unnegated: bool) -> i32 {
    let entry = record.iter().find(|entry| entry.literal.abs() == variable);
    match entry {
        Some(entry) => entry.literal,
        None if held_unnegated => -variable,
        None => variable,
    }
}
