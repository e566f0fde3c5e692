//! The second opinion: the truth of a block of few variables, with refusals 1 to 10,
//! 23 and 22.

use crate::block::Formula;
use crate::truth::truth;

/// "22 .. V is above 24"
pub const MOST: usize = 24;

/// The truth, by its definition alone.
pub fn solve(block: &[i32]) -> Result<bool, u8> {
    let formula = Formula::read(block)?;
    if formula.variables() > MOST {
        return Err(22);
    }
    Ok(truth(&formula))
}
