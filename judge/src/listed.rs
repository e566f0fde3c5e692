//! What a listing of a text is, by brute force.

use crate::block::{Formula, FIRST_GROUP, HEADER, LIMITS};
use crate::text::{self, Answer};
use crate::truth::{opening_values, winners};

/// One winner to a line: the literals of the outermost group in prefix order,
/// and 0. Or the number of the refusal, and what else is told of it.
pub fn lines(text: &[u8]) -> Result<Vec<String>, String> {
    let formula = read(text)?;
    if formula.first_group_universal() {
        return Err("18".to_string());
    }
    if formula.first_group() > FIRST_GROUP {
        return Err("19".to_string());
    }
    let line = |&opening: &u32| line_of(&formula, opening);
    Ok(winners(&formula).iter().map(line).collect())
}

fn read(text: &[u8]) -> Result<Formula, String> {
    let mut block = vec![0; HEADER + LIMITS.iter().sum::<i64>() as usize];
    match text::read(text, &mut block) {
        Answer::Block(length) => Formula::read(&block[..length]).map_err(|row| row.to_string()),
        refused => Err(refused.to_string()),
    }
}

fn line_of(formula: &Formula, opening: u32) -> String {
    let values = opening_values(opening, formula.first_group());
    let literal = |(variable, value): (i32, bool)| if value { variable } else { -variable };
    let literals = formula.order().zip(values).map(literal);
    literals.map(|word| format!("{word} ")).collect::<String>() + "0"
}
