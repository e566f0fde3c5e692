//! The desk's lines about a text: `text`, `read`, `pieces`, `words`, `write` and
//! `bytes`.
//!
//! # Decided
//!
//! - `text B..` replaces the text, as other buffers are replaced: with `?` for a
//!   number over 255 or more bytes than the room, which leave the old one.
//! - `read`, `pieces` and `words` leave the text as it is. `read`, `words`,
//!   `write` and `bytes` have no numbers.
//! - `read` and `pieces` write the block buffer as it is lent, and keep its
//!   length: a refused text makes all of it 0, and so does an accepted one past
//!   its block.
//! - `pieces L..` takes 64-bit lengths, any number of them, none included. A
//!   piece that is longer than what is left of the text ends with the text, and
//!   the pieces after it are empty. The rest is a piece of its own, be it empty.
//! - `write` writes the text buffer as it is lent, and keeps its length: a refused
//!   block leaves all of it, and an accepted one all that is behind its text. The
//!   block and everything else stay as they are. `bytes` shows all of the text
//!   buffer, what is behind a text included.

use crate::console::{line, numbers, Desk};
use crate::text;
use crate::writing;

pub const TEXT_ROOM: usize = 65_536;

impl Desk {
    pub(crate) fn read(&mut self, words: &[&[u8]]) -> Option<String> {
        if !words.is_empty() {
            return None;
        }
        Some(format!("read {}", text::read(&self.text, &mut self.block)))
    }

    /// "Wherever it was cut, the answer and the output are what they are for the
    /// whole": so the pieces are read as the text that they make up.
    pub(crate) fn pieces(&mut self, words: &[&[u8]]) -> Option<String> {
        let lengths: Vec<u64> = numbers(words)?;
        let text = cut(&self.text, &lengths).concat();
        Some(format!("pieces {}", text::read(&text, &mut self.block)))
    }

    pub(crate) fn words(&self, words: &[&[u8]]) -> Option<String> {
        if !words.is_empty() {
            return None;
        }
        Some(line("words", &self.block))
    }

    pub(crate) fn write(&mut self, words: &[&[u8]]) -> Option<String> {
        if !words.is_empty() {
            return None;
        }
        Some(match writing::write(&self.block, &mut self.text) {
            Ok(length) => format!("write 0 {length}"),
            Err(number) => format!("write {number}"),
        })
    }

    pub(crate) fn bytes(&self, words: &[&[u8]]) -> Option<String> {
        if !words.is_empty() {
            return None;
        }
        Some(line("bytes", &self.text))
    }
}

/// The pieces of these lengths, as far as the text goes, and the rest.
fn cut<'a>(text: &'a [u8], lengths: &[u64]) -> Vec<&'a [u8]> {
    let mut rest = text;
    let mut pieces = Vec::new();
    for &length in lengths {
        let most = usize::try_from(length).unwrap_or(usize::MAX);
        let (piece, after) = rest.split_at(most.min(rest.len()));
        pieces.push(piece);
        rest = after;
    }
    pieces.push(rest);
    pieces
}
