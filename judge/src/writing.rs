//! The writer of a text: an accepted block as QDIMACS, with refusals 1 to 10, 23
//! and 30.
//!
//! Every line is made as a list of words, and the text of all lines at once: what
//! fits is the whole text or nothing.

use crate::block::{self, HEADER};

/// Writes the block's text and answers its length, or gives the first refusal:
/// the block's own rows come before 30. A refused output and the bytes behind a
/// text stay as they were.
pub fn write(block: &[i32], output: &mut [u8]) -> Result<usize, u8> {
    match block::check(block) {
        0 => {}
        number => return Err(number),
    }
    let text = text_of(block);
    let room = output.get_mut(..text.len()).ok_or(30)?;
    room.copy_from_slice(&text);
    Ok(text.len())
}

/// The text of an accepted block: its lines, the words parted by single spaces, a
/// line feed after each.
pub fn text_of(block: &[i32]) -> Vec<u8> {
    let lines = lines(block);
    let lines = lines.iter().map(|words| words.join(" ") + "\n");
    lines.collect::<String>().into_bytes()
}

/// The problem line, one line for each group, one for each clause.
fn lines(block: &[i32]) -> Vec<Vec<String>> {
    let (v, c) = (block[0] as usize, block[1] as usize);
    let (prefix, rest) = block[HEADER..].split_at(v);
    let (ends, literals) = rest.split_at(c);
    let mut lines = vec![vec!["p".into(), "cnf".into(), v.to_string(), c.to_string()]];
    lines.extend(quantifier_lines(prefix));
    let mut start = 0;
    for &end in ends {
        let clause = literals[start..end as usize].iter();
        lines.push(clause.chain(&[0]).map(i32::to_string).collect());
        start = end as usize;
    }
    lines
}

/// A line begins where the quantifier is another one than before.
fn quantifier_lines(prefix: &[i32]) -> Vec<Vec<String>> {
    let mut lines: Vec<Vec<String>> = Vec::new();
    let mut before = 0;
    for &word in prefix {
        if word.signum() != before {
            let letter = if word > 0 { "e" } else { "a" };
            lines.push(vec![letter.to_string()]);
        }
        let line = lines.last_mut().expect("the first word begins a line");
        line.push(word.abs().to_string());
        before = word.signum();
    }
    for line in &mut lines {
        line.push("0".to_string());
    }
    lines
}
