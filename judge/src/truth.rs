//! Truth by the recursive definition, and the winning openings by it. Nothing
//! here knows of records, rules or sessions.

use crate::block::Formula;

/// The truth of a formula, none of its variables having a value.
pub fn truth(formula: &Formula) -> bool {
    true_from(formula, &mut Vec::new())
}

/// The truth of the rest, when the outermost variables have these values, in prefix
/// order.
pub fn true_under(formula: &Formula, values: &[bool]) -> bool {
    true_from(formula, &mut values.to_vec())
}

/// "An opening is a number from 0 to 2^k - 1"; it wins if the rest of the
/// formula is true under its values. The winners, ascending.
pub fn winners(formula: &Formula) -> Vec<u32> {
    let k = formula.first_group();
    let wins = |&opening: &u32| true_from(formula, &mut opening_values(opening, k));
    (0..1u32 << k).filter(wins).collect()
}

/// "The group's first variable is the highest bit, 1 is true."
pub fn opening_values(opening: u32, k: usize) -> Vec<bool> {
    (0..k)
        .map(|place| opening >> (k - 1 - place) & 1 == 1)
        .collect()
}

/// The truth of what is left, when the outermost variables have these values,
/// in prefix order. "An existential outermost variable asks for one of its two
/// values, a universal one for both."
fn true_from(formula: &Formula, values: &mut Vec<bool>) -> bool {
    if values.len() == formula.variables() {
        return matrix_true(formula, values);
    }
    let existential = formula.prefix[values.len()] > 0;
    let mut with = |value| {
        values.push(value);
        let answer = true_from(formula, values);
        values.pop();
        answer
    };
    if existential {
        with(true) || with(false)
    } else {
        with(true) && with(false)
    }
}

/// "with no variables left, every clause holds a true literal".
fn matrix_true(formula: &Formula, values: &[bool]) -> bool {
    let true_literals: Vec<i32> = formula
        .order()
        .zip(values)
        .map(|(variable, &value)| if value { variable } else { -variable })
        .collect();
    let holds = |literal: &i32| true_literals.contains(literal);
    formula
        .clauses
        .iter()
        .all(|clause| clause.iter().any(holds))
}
