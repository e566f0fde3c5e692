//! Texts with the answers that they must get, all worked by hand: what the
//! grammar has and hasn't, each refusal, each row of 31, each two neighbours in
//! the order, and the cases A, B and G of docs/SPEC.md as texts.

use crate::block::LIMITS;
use crate::cases;

/// A text, how long the block buffer is, and what a reading must give.
pub struct TextCase {
    pub name: String,
    pub text: Vec<u8>,
    pub room: usize,
    /// As the console tells it: `0 LENGTH`, `27 PLACE` and so on.
    pub answer: String,
    /// The block, or none of a refused text; the rest of the buffer is 0.
    pub block: Vec<i32>,
}

impl TextCase {
    /// All of the block buffer after the reading.
    pub fn words(&self) -> Vec<i32> {
        let mut words = self.block.clone();
        words.resize(self.room, 0);
        words
    }
}

/// All cases, in the order in which they are written out.
pub fn text_cases() -> Vec<TextCase> {
    let stopping = STOPS
        .iter()
        .map(|&(text, place)| refused(text, 16, &format!("27 {place}")));
    let refusing = REFUSED
        .iter()
        .map(|&(text, room, answer)| refused(text, room, answer));
    let mut cases: Vec<TextCase> = stopping.chain(refusing).collect();
    cases.extend(
        ACCEPTED
            .iter()
            .map(|&(text, block)| accepted(text, block, 0)),
    );
    cases.extend(
        ACCEPTED[..4]
            .iter()
            .map(|&(text, block)| accepted(text, block, 3)),
    );
    cases.extend([
        accepted(A, &cases::A, 0),
        accepted(B, &[2, 2, 4, 6, 8, 10, -1, 2, 2, 4, 2, -1, -2, 1], 1),
    ]);
    cases.extend(G.iter().map(|text| accepted(text, &cases::G, 2)));
    cases.extend(at_the_limits());
    cases
}

fn accepted(text: &[u8], block: &[i32], more: usize) -> TextCase {
    TextCase {
        name: text.escape_ascii().to_string(),
        text: text.to_vec(),
        room: block.len() + more,
        answer: format!("0 {}", block.len()),
        block: block.to_vec(),
    }
}

fn refused(text: &[u8], room: usize, answer: &str) -> TextCase {
    TextCase {
        name: text.escape_ascii().to_string(),
        text: text.to_vec(),
        room,
        answer: answer.to_string(),
        block: Vec::new(),
    }
}

/// Texts that are not of the grammar, with the place of 27.
const STOPS: &[(&[u8], usize)] = &[
    (b"", 0),
    (b" ", 1),
    (b"\n", 0),
    (b"x", 0),
    (b"\0", 0),
    (b"\rp cnf 0 0\n", 0),
    (b"P cnf 0 0\n", 0),
    (b"1 0\n", 0),
    (b"e 1 0\n", 0),
    // The problem line begins at 0; behind its first number is place 7.
    (b"p\n", 1),
    (b"pcnf 0 0\n", 1),
    (b"p dnf 0 0\n", 2),
    (b"p cn 0 0\n", 4),
    (b"p cnf\n", 5),
    (b"p cnf0 0\n", 5),
    (b"p cnf -1 0\n", 6),
    (b"p cnf +1 0\n", 6),
    (b"p cnf 00 0\n", 7),
    (b"p cnf 01 0\n", 7),
    (b"p cnf 1\n", 7),
    (b"p cnf 1 \n", 8),
    (b"p cnf 0 x\n", 8),
    (b"p cnf 0 0", 9),
    (b"p cnf 0 0\r\n", 9),
    (b"p cnf 0 0 ", 10),
    (b"p cnf 0 0 0\n", 10),
    // The next line begins at 10.
    (b"p cnf 0 0\n  ", 12),
    (b"p cnf 0 0\np cnf 0 0\n", 10),
    (b"p cnf 0 0\nc late\n", 10),
    (b"p cnf 0 0\n\0", 10),
    (b"p cnf 0 0\n\x0b\n", 10),
    (b"p cnf 0 0\n\x0c\n", 10),
    (b"p cnf 0 0\nb 1 0\n", 10),
    (b"p cnf 0 0\nE 1 0\n", 10),
    // Lines without a word.
    (b"\np cnf 0 0\n", 0),
    (b" \np cnf 0 0\n", 1),
    (b"c\n\np cnf 0 0\n", 2),
    (b"p cnf 0 0\n\n", 10),
    (b"p cnf 0 0\n \t\n", 12),
    (b"p cnf 1 1\ne 1 0\n\n1 0\n", 16),
    (b"p cnf 1 1\n1 0\n\n", 14),
    // Comments.
    (b"c", 1),
    (b"c\r\n", 1),
    (b"c\x7f\np cnf 0 0\n", 1),
    (b"c\x80\np cnf 0 0\n", 1),
    (b"c all \xff\np cnf 0 0\n", 6),
    (b"c\x1f\np cnf 0 0\n", 1),
    (b"c\nc p cnf 0 0\n", 14),
    // Quantifier lines.
    (b"p cnf 1 0\na\n", 11),
    (b"p cnf 1 0\ne1 0\n", 11),
    (b"p cnf 1 0\ne 0\n", 12),
    (b"p cnf 1 0\na 0\n", 12),
    (b"p cnf 1 0\ne 01 0\n", 12),
    (b"p cnf 1 0\ne -1 0\n", 12),
    (b"p cnf 1 0\ne e 1 0\n", 12),
    (b"p cnf 1 0\ne 1\n", 13),
    (b"p cnf 1 0\ne 1 \n", 14),
    (b"p cnf 1 0\ne 1 -1 0\n", 14),
    (b"p cnf 1 0\ne 1 0", 15),
    (b"p cnf 1 0\ne 1 01 0\n", 15),
    (b"p cnf 1 0\ne 1 0 0\n", 16),
    (b"p cnf 1 0\ne 1 0\nc late\n", 16),
    (b"p cnf 1 1\n1 0\ne 1 0\n", 14),
    (b"p cnf 1 1\n1 0\na 1 0\n", 14),
    // Clause lines.
    (b"p cnf 1 1\n+1 0\n", 10),
    (b"p cnf 1 1\n-0 0\n", 11),
    (b"p cnf 1 1\n- 1 0\n", 11),
    (b"p cnf 1 1\n--1 0\n", 11),
    (b"p cnf 1 1\n00\n", 11),
    (b"p cnf 1 1\n01 0\n", 11),
    (b"p cnf 1 1\n0-1 0\n", 11),
    (b"p cnf 1 1\n1-1 0\n", 11),
    (b"p cnf 1 1\n1,0\n", 11),
    (b"p cnf 1 1\n1\n0\n", 11),
    (b"p cnf 1 1\n1\r0\n", 11),
    (b"p cnf 1 1\n1 \n", 12),
    (b"p cnf 1 1\n1 -", 13),
    (b"p cnf 1 1\n1 0 1 0\n", 14),
    (b"p cnf 1 1\n1 0 c\n", 14),
    // 27 and 28: too few clauses, then a stray byte; a number too large, the same.
    (b"p cnf 1 2\n1 0\nx", 14),
    (b"p cnf 99999999999 0\nx", 20),
];

/// 28 to 31, with the room that they are given.
const REFUSED: &[(&[u8], usize, &str)] = &[
    // Another number of clause lines than announced.
    (b"p cnf 1 2\n1 0\n", 20, "28"),
    (b"p cnf 1 0\n1 0\n", 20, "28"),
    (b"p cnf 0 1\n", 20, "28"),
    // A number beyond 32 signed bits, in each place; two of them are 1 in fewer bits.
    (b"p cnf 2147483648 0\n", 20, "28"),
    (b"p cnf 0 4294967296\n", 20, "28"),
    (b"p cnf 1 0\ne 2147483648 0\n", 20, "28"),
    (b"p cnf 1 0\na 1 4294967298 0\n", 20, "28"),
    (b"p cnf 1 1\n2147483648 0\n", 20, "28"),
    (b"p cnf 1 1\n-2147483649 0\n", 20, "28"),
    (b"p cnf 1 1\n4294967297 0\n", 20, "28"),
    (b"p cnf 1 1\n-18446744073709551617 0\n", 20, "28"),
    (
        b"p cnf 1 1\n1234567890123456789012345678901234567890 0\n",
        20,
        "28",
    ),
    (
        b"p cnf 1234567890123456789012345678901234567890 0\n",
        20,
        "28",
    ),
    // 29, and 29 and 30. The counts at their limits are below.
    (b"p cnf 2147483647 0\n", 20, "29"),
    (b"p cnf 2147483647 0\n", 0, "29"),
    (
        b"p cnf 2147483647 1\ne 2147483647 0\n-2147483648 0\n",
        20,
        "29",
    ),
    // 28 and 29: V over its limit, and one clause too few.
    (b"p cnf 2147483647 1\n", 20, "28"),
    (b"p cnf 2147483648 0\n", 0, "28"),
    // 30: one word too short, and much too short.
    (b"p cnf 0 0\n", 5, "30"),
    (b"p cnf 0 0\n", 0, "30"),
    (b"p cnf 2 1\na 1 0\n1 0\n", 9, "30"),
    (b"p cnf 7 0\n", 12, "30"),
    // 30 and 31.
    (b"p cnf 1 0\na 1 0\n", 6, "30"),
    (b"p cnf 1 1\n1 1 0\n", 9, "30"),
    // 31, each row alone.
    (b"p cnf 1 0\ne 2 0\n", 7, "31 5"),
    (b"p cnf 0 0\na 1 0\n", 9, "31 5"),
    (b"p cnf 1 0\ne 1 2147483647 0\n", 9, "31 5"),
    (b"p cnf 2 0\ne 1 1 0\n", 8, "31 6"),
    (b"p cnf 2 0\na 1 0\ne 2 1 0\n", 8, "31 6"),
    (b"p cnf 1 0\na 1 0\n", 7, "31 7"),
    (b"p cnf 2 0\na 1 2 0\n", 9, "31 7"),
    (b"p cnf 2 1\na 1 0\n2 0\n", 10, "31 7"),
    (b"p cnf 3 0\ne 1 0\na 2 0\na 3 0\n", 9, "31 7"),
    (b"p cnf 1 1\n2 0\n", 9, "31 9"),
    (b"p cnf 0 1\n-1 0\n", 9, "31 9"),
    (b"p cnf 1 1\n2147483647 0\n", 9, "31 9"),
    (b"p cnf 1 1\n-2147483648 0\n", 9, "31 9"),
    // 3 is no variable and 2 is idle, so the last group is existential.
    (b"p cnf 2 1\na 1 0\n3 0\n", 10, "31 9"),
    (b"p cnf 1 1\n1 -1 0\n", 10, "31 10"),
    (b"p cnf 2 1\n-2 1 2 0\n", 12, "31 10"),
    (b"p cnf 1 1\n1 1 0\n", 10, "31 23"),
    (b"p cnf 2 1\n-2 1 -2 0\n", 12, "31 23"),
    // 31, two rows that are neighbours.
    (b"p cnf 1 0\ne 2 2 0\n", 9, "31 5"),
    (b"p cnf 1 0\ne 1 1 2 0\n", 9, "31 5"),
    (b"p cnf 1 0\na 1 1 0\n", 9, "31 6"),
    (b"p cnf 1 1\na 1 0\n2 0\n", 9, "31 7"),
    (b"p cnf 2 1\na 1 0\n2 3 0\n", 11, "31 7"),
    (b"p cnf 1 1\n1 -1 2 0\n", 12, "31 9"),
    (b"p cnf 2 2\n1 1 0\n2 -2 0\n", 14, "31 10"),
    (b"p cnf 1 1\n1 1 -1 0\n", 12, "31 10"),
];

/// Accepted texts, with their blocks.
const ACCEPTED: &[(&[u8], &[i32])] = &[
    (b"p cnf 0 0\n", &cases::E),
    // One empty clause.
    (b"p cnf 0 1\n0\n", &cases::F),
    // 2 is in no line and in no clause: it makes a group after the universal 1.
    (b"p cnf 2 1\na 1 0\n1 0\n", &[2, 1, 1, 6, 8, 9, -1, 2, 1, 1]),
    (b"p cnf 1 0\n", &[1, 0, 0, 6, 7, 7, 1]),
    // Blanks and comments.
    (b" \tp\t cnf  0\t\t0 \t\n", &cases::E),
    (b"c\nc~ !\t}\n\tcnf -0\n cc\np cnf 0 0\n", &cases::E),
    (b"p cnf 0 2\n 0\n\t0 \n", &[0, 2, 0, 6, 6, 8, 0, 0]),
    (
        b"p cnf 1 2\n\te\t1  0\t\n  -1\t0\n0\n",
        &[1, 2, 1, 6, 7, 9, 1, 1, 1, -1],
    ),
    // 1 and 4 are free, and come first; 2 and 5 are idle, and come last.
    (
        b"p cnf 5 2\na 3 0\n4 -1 0\n-4 0\n",
        &[5, 2, 3, 6, 11, 13, 1, 4, -3, 2, 5, 2, 3, 4, -1, -4],
    ),
    // 1 is idle, and joins the last group, which is existential.
    (b"p cnf 3 0\na 2 0\ne 3 0\n", &[3, 0, 0, 6, 9, 9, -2, 3, 1]),
    // Neighbouring lines of one quantifier; the order is that of the lines.
    (
        b"p cnf 4 0\na 4 0\na 2 0\ne 3 0\ne 1 0\n",
        &[4, 0, 0, 6, 10, 10, -4, -2, 3, 1],
    ),
    // Two digits; a free variable after which the idle ones come.
    (
        b"p cnf 10 1\n-10 0\n",
        &[10, 1, 1, 6, 16, 17, 10, 1, 2, 3, 4, 5, 6, 7, 8, 9, 1, -10],
    ),
    // Both signs, and a literal again, in two clauses.
    (
        b"p cnf 1 3\n1 0\n-1 0\n1 0\n",
        &[1, 3, 3, 6, 7, 10, 1, 1, 2, 3, 1, -1, 1],
    ),
];

const A: &[u8] =
    b"p cnf 4 5\ne 1 0\na 2 0\ne 3 4 0\n-1 -2 3 0\n-2 -3 0\n3 4 0\n1 -2 -4 0\n2 3 -4 0\n";

const B: &[u8] = b"p cnf 2 2\na 1 0\ne 2 0\n2 -1 0\n-2 1 0\n";

/// G; its first group in two lines; in none; and in other blanks.
const G: [&[u8]; 4] = [
    b"p cnf 4 3\ne 1 2 0\na 3 0\ne 4 0\n1 2 0\n-3 4 0\n3 -4 0\n",
    b"p cnf 4 3\ne 1 0\ne 2 0\na 3 0\ne 4 0\n1 2 0\n-3 4 0\n3 -4 0\n",
    b"p cnf 4 3\na 3 0\ne 4 0\n1 2 0\n-3 4 0\n3 -4 0\n",
    b"c G\n p cnf 4 3 \n e 1\t2 0\na 3 0\n\te 4 0\n1  2 0\n-3 4 0\t\n3 -4 0\n",
];

/// V, C and T at their limits, and each of them one over it.
fn at_the_limits() -> Vec<TextCase> {
    let [v, c, t] = LIMITS.map(|most| most as usize);
    let of_counts = |v: usize, c: usize| format!("p cnf {v} {c}\n").into_bytes();
    let clauses = |c: usize| [of_counts(0, c), b"0\n".repeat(c)].concat();
    let literals = |t: usize| [of_counts(1, 1), b"1 ".repeat(t), b"0\n".to_vec()].concat();
    let prefix: Vec<i32> = (1..=v as i32).collect();
    let only_variables = [
        &[v as i32, 0, 0, 6, 6 + v as i32, 6 + v as i32],
        &prefix[..],
    ]
    .concat();
    let mut only_clauses = vec![0, c as i32, 0, 6, 6, 6 + c as i32];
    only_clauses.resize(6 + c, 0);
    let named = |name: &str, case: TextCase| TextCase {
        name: name.to_string(),
        ..case
    };
    vec![
        named(
            "V at its limit",
            accepted(&of_counts(v, 0), &only_variables, 0),
        ),
        named(
            "V over its limit",
            refused(&of_counts(v + 1, 0), v + 7, "29"),
        ),
        named(
            "V over its limit, 30 too",
            refused(&of_counts(v + 1, 0), v + 6, "29"),
        ),
        named(
            "V over its limit, 28 too",
            refused(&of_counts(v + 1, 1), v + 8, "28"),
        ),
        named("C at its limit", accepted(&clauses(c), &only_clauses, 0)),
        named("C over its limit", refused(&clauses(c + 1), c + 7, "29")),
        named(
            "T at its limit, in one clause",
            refused(&literals(t), t + 8, "31 23"),
        ),
        named(
            "T over its limit, in one clause",
            refused(&literals(t + 1), t + 9, "29"),
        ),
    ]
}
