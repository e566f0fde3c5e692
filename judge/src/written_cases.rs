//! Blocks with the texts that must be written of them, all worked by hand: what
//! each line is like, the cases A, B, E, F and G of docs/SPEC.md, outputs that are
//! just long enough, longer and one byte short, and blocks that are refused.

use crate::block::{lay_out, LIMITS};
use crate::cases;

/// A block, the text buffer before, and what a writing must give.
pub struct WrittenCase {
    pub name: String,
    pub block: Vec<i32>,
    pub before: Vec<u8>,
    /// As the console tells it: `0 LENGTH`, or the number of the refusal.
    pub answer: String,
    /// The text buffer afterwards.
    pub after: Vec<u8>,
}

/// Stands in a buffer before it is written, and belongs to no text.
const OLD: u8 = 7;

/// All cases, in the order in which they are written out. Each accepted block is
/// written into a buffer of just the text's length, and into one that is longer;
/// into one that is a byte shorter it is refused.
pub fn written_cases() -> Vec<WrittenCase> {
    let mut cases = Vec::new();
    for (block, text) in texts() {
        cases.push(accepted(&block, text, 0));
        cases.push(accepted(&block, text, 3));
        cases.push(refused(&block, text.len() - 1, 30));
    }
    cases.push(refused(&cases::A, 0, 30));
    // A row of the check, with room for a text and with none: 30 comes after them all.
    for (row, block) in cases::neighbours() {
        cases.push(refused(&block, 80, row));
        cases.push(refused(&block, 0, row));
    }
    for room in [80, 0] {
        cases.push(refused(&cases::n(), room, 23));
    }
    cases.extend(largest());
    cases
}

fn accepted(block: &[i32], text: &[u8], more: usize) -> WrittenCase {
    WrittenCase {
        name: format!("{}, {more} bytes more", text.escape_ascii()),
        block: block.to_vec(),
        before: vec![OLD; text.len() + more],
        answer: format!("0 {}", text.len()),
        after: [text, &vec![OLD; more]].concat(),
    }
}

fn refused(block: &[i32], room: usize, number: u8) -> WrittenCase {
    WrittenCase {
        name: format!("{number} with a room of {room} bytes"),
        block: block.to_vec(),
        before: vec![OLD; room],
        answer: number.to_string(),
        after: vec![OLD; room],
    }
}

fn texts() -> Vec<(Vec<i32>, &'static [u8])> {
    vec![
        (
            cases::A.to_vec(),
            b"p cnf 4 5\ne 1 0\na 2 0\ne 3 4 0\n-1 -2 3 0\n-2 -3 0\n3 4 0\n1 -2 -4 0\n2 3 -4 0\n",
        ),
        (
            cases::b(),
            b"p cnf 2 2\na 1 0\ne 2 0\n2 -1 0\n-2 1 0\n",
        ),
        (cases::E.to_vec(), b"p cnf 0 0\n"),
        (cases::F.to_vec(), b"p cnf 0 1\n0\n"),
        (
            cases::G.to_vec(),
            b"p cnf 4 3\ne 1 2 0\na 3 0\ne 4 0\n1 2 0\n-3 4 0\n3 -4 0\n",
        ),
        // Groups and no clauses; an order that isn't ascending.
        (lay_out(&[1], &[]), b"p cnf 1 0\ne 1 0\n"),
        (lay_out(&[3, 1, 2], &[]), b"p cnf 3 0\ne 3 1 2 0\n"),
        (
            lay_out(&[-3, -1, 2], &[vec![]]),
            b"p cnf 3 1\na 3 1 0\ne 2 0\n0\n",
        ),
        // Clauses without literals before, between and after others.
        (
            lay_out(&[1], &[vec![], vec![1], vec![], vec![-1], vec![]]),
            b"p cnf 1 5\ne 1 0\n0\n1 0\n0\n-1 0\n0\n",
        ),
        // Numbers of two digits; ten clauses.
        (
            lay_out(
                &[10, -9, 1, 2, 3, 4, 5, 6, 7, 8],
                &[
                    vec![-10, 9],
                    vec![10],
                    vec![8],
                    vec![7],
                    vec![6],
                    vec![5],
                    vec![4],
                    vec![3],
                    vec![2],
                    vec![1],
                ],
            ),
            b"p cnf 10 10\ne 10 0\na 9 0\ne 1 2 3 4 5 6 7 8 0\n-10 9 0\n10 0\n8 0\n7 0\n6 0\n5 0\n4 0\n3 0\n2 0\n1 0\n",
        ),
    ]
}

/// The most bytes that a text can have: every variable in a group of its own, two
/// literals of four digits with a sign in each clause. The problem line has 16
/// bytes. A line of one variable has 5 besides the number's digits, of which there
/// are 9 + 180 + 2,700 + 100 for the numbers up to 1,024. A clause's line has 14.
/// That makes 16 + 8,109 + 57,344.
fn largest() -> Vec<WrittenCase> {
    let [v, c, _] = LIMITS.map(|most| most as i32);
    let bound = |variable: i32| {
        if variable % 2 == 1 {
            -variable
        } else {
            variable
        }
    };
    let prefix: Vec<i32> = (1..=v).map(bound).collect();
    let block = lay_out(&prefix, &vec![vec![-v, 1 - v]; c as usize]);
    let mut text = b"p cnf 1024 4096\n".to_vec();
    for pair in (1..=v).step_by(2) {
        text.extend(format!("a {pair} 0\ne {} 0\n", pair + 1).bytes());
    }
    text.extend(b"-1024 -1023 0\n".repeat(c as usize));
    let name = |case: WrittenCase| WrittenCase {
        name: format!("the longest text, {} bytes of room", case.before.len()),
        ..case
    };
    vec![
        name(accepted(&block, &text, 0)),
        name(refused(&block, 65_468, 30)),
    ]
}
