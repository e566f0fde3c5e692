//! The console's lines: one desk, and one answer for each command line.
//!
//! # Decided
//!
//! Where the table of the lines is silent, this is what holds:
//!
//! - A line is what stands before its line feed. The last line needs none.
//! - A line of more than 262,144 bytes, its line feed not counted, is answered
//!   with one `?`, whatever is in it (a long comment or a long run of spaces
//!   included).
//! - Words are parted by one or more spaces; spaces before the first and after
//!   the last word are allowed. Nothing else parts words: a tab, a carriage
//!   return or any other byte belongs to its word, which is then no command and
//!   no number.
//! - A line with no word in it (empty, or spaces only) gets no answer. A line
//!   whose first byte is `#` gets none; after a space, `#` is a word like any
//!   other and the line is answered with `?`.
//! - Commands are in lower case. They have exactly their numbers: one too few
//!   or too many is `?`. Lists (`W..`, `B..`, `P..`) may be empty.
//! - A number is an optional `-` and one or more digits. Leading zeros are
//!   allowed, in any number. `-0` is 0 and fits every place, the unsigned ones
//!   too. `+5`, `-` and `5.0` are no numbers.
//! - The state of a session is 0, 1 or 2; other numbers don't fit their place.
//! - The room for the record is 2,048 places for each of its three buffers, that
//!   for the numbers by clause 8,192 for each of the two, and that for the index
//!   16,384.
//!   Preferences have no room of their own; their number is bounded by the
//!   line's length.
//! - `block W..` replaces the block also when the check refuses it, and a
//!   refused `read` or `pieces` makes it 0 (see [`crate::reading`]). All other
//!   refused calls, and all lines answered with `?`, change nothing.
//! - An empty buffer is shown as its name alone: `show 0 0 0 lits kinds reasons
//!   out`.
//! - `page` neither looks at the reasons buffer nor writes to it.
//! - `show` shows neither the numbers by clause nor the index; `numbers` shows all
//!   places of the numbers, and nothing shows the index.
//! - `shown` is lent an output of its own, as long as the room for the record, so
//!   row 30 never answers it.

use std::fmt::Display;

use crate::block;
use crate::counted::Numbers;
use crate::hits::Hits;
use crate::page::{self, Ask, Work};
use crate::plain;
use crate::reading::TEXT_ROOM;
use crate::session::{self, Lent, Session, State};
use crate::shown;

pub const BLOCK_ROOM: usize = 16_384;
pub const RECORD_ROOM: usize = 2_048;
pub const OUTPUT_ROOM: usize = 8_192;
pub const NUMBERS_ROOM: usize = 8_192;
pub const INDEX_ROOM: usize = 16_384;
pub const LINE_ROOM: usize = 262_144;

/// "The desk holds a block, a literals buffer, a kinds buffer, a reasons buffer, an
/// output buffer and a session". "At the start everything is empty and the session
/// is 0 0 0."
pub struct Desk {
    pub block: Vec<i32>,
    pub literals: Vec<i32>,
    pub kinds: Vec<u8>,
    pub reasons: Vec<u32>,
    pub output: Vec<u32>,
    pub text: Vec<u8>,
    pub trues: Vec<u32>,
    pub opens: Vec<u32>,
    pub index: Vec<u32>,
    pub session: Session,
    /// The rules that its steps, runs, pages and counted runs have applied so far.
    pub hits: [Hits; 4],
}

impl Default for Desk {
    fn default() -> Desk {
        Desk {
            block: Vec::new(),
            literals: Vec::new(),
            kinds: Vec::new(),
            reasons: Vec::new(),
            output: Vec::new(),
            text: Vec::new(),
            trues: Vec::new(),
            opens: Vec::new(),
            index: Vec::new(),
            session: Session {
                length: 0,
                revision: 0,
                state: State::Open,
            },
            hits: [Hits::default(); 4],
        }
    }
}

impl Desk {
    /// The answer to one line, given without its line feed.
    pub fn answer(&mut self, line: &[u8]) -> Option<String> {
        if line.len() > LINE_ROOM {
            return Some("?".to_string());
        }
        if line.first() == Some(&b'#') {
            return None;
        }
        let words = line.split(|&byte| byte == b' ');
        let words: Vec<&[u8]> = words.filter(|word| !word.is_empty()).collect();
        let (command, rest) = words.split_first()?;
        let answer = self.serve(command, rest);
        Some(answer.unwrap_or_else(|| "?".to_string()))
    }

    /// The answer to a command with its words, `None` for a `?`.
    fn serve(&mut self, command: &[u8], words: &[&[u8]]) -> Option<String> {
        match command {
            b"block" => self.set_block(words),
            b"lits" => set(&mut self.literals, "lits", words, RECORD_ROOM),
            b"kinds" => set(&mut self.kinds, "kinds", words, RECORD_ROOM),
            b"reasons" => set(&mut self.reasons, "reasons", words, RECORD_ROOM),
            b"out" => set(&mut self.output, "out", words, OUTPUT_ROOM),
            b"session" => self.set_session(words),
            b"open" => self.open(words),
            b"step" => self.step(words),
            b"run" => self.run(words),
            b"page" => self.page(words),
            b"plain" => self.plain(words),
            b"shown" => self.shown(words),
            b"show" => self.show(words),
            b"text" => set(&mut self.text, "text", words, TEXT_ROOM),
            b"read" => self.read(words),
            b"pieces" => self.pieces(words),
            b"words" => self.words(words),
            b"write" => self.write(words),
            b"bytes" => self.bytes(words),
            b"trues" => set(&mut self.trues, "trues", words, NUMBERS_ROOM),
            b"opens" => set(&mut self.opens, "opens", words, NUMBERS_ROOM),
            b"index" => set(&mut self.index, "index", words, INDEX_ROOM),
            b"counted" => self.counted(words),
            b"numbers" => self.numbers(words),
            b"help" => help(words),
            _ => None,
        }
    }

    fn set_block(&mut self, words: &[&[u8]]) -> Option<String> {
        set(&mut self.block, "block", words, BLOCK_ROOM)?;
        Some(format!("block {}", block::check(&self.block)))
    }

    fn set_session(&mut self, words: &[&[u8]]) -> Option<String> {
        let [length, revision, state] = <[_; 3]>::try_from(words).ok()?;
        self.session = Session {
            length: number(length)?,
            revision: number(revision)?,
            state: state_of(number(state)?)?,
        };
        Some("session".to_string())
    }

    fn open(&mut self, words: &[&[u8]]) -> Option<String> {
        let [revision] = <[_; 1]>::try_from(words).ok()?;
        let revision = number(revision)?;
        let (block, lent) = self.lend();
        Some(match session::open(block, lent, revision) {
            Ok(session) => format!("open 0 {}", self.taken(session)),
            Err(number) => format!("open {number}"),
        })
    }

    fn step(&mut self, words: &[&[u8]]) -> Option<String> {
        let [seen, proposal] = <[_; 2]>::try_from(words).ok()?;
        let (seen, proposal) = (number(seen)?, number(proposal)?);
        let session = self.session;
        let (block, lent) = self.lend();
        Some(match session.step(block, lent, seen, proposal) {
            Ok(done) => {
                self.hits[0].add(&done.hits);
                format!("step 0 {} {}", self.taken(done.session), done.reason)
            }
            Err(number) => format!("step {number}"),
        })
    }

    fn run(&mut self, words: &[&[u8]]) -> Option<String> {
        let (seen, words) = words.split_first()?;
        let (budget, words) = words.split_first()?;
        let (seen, budget, preferred) = (number(seen)?, number(budget)?, numbers(words)?);
        let session = self.session;
        let (block, lent) = self.lend();
        Some(match session.run(block, lent, seen, budget, &preferred) {
            Ok(done) => {
                self.hits[1].add(&done.hits);
                let session = self.taken(done.session);
                format!("run 0 {session} {} {}", done.count, done.reason)
            }
            Err(number) => format!("run {number}"),
        })
    }

    fn counted(&mut self, words: &[&[u8]]) -> Option<String> {
        let (seen, words) = words.split_first()?;
        let (budget, words) = words.split_first()?;
        let (seen, budget, preferred) = (number(seen)?, number(budget)?, numbers(words)?);
        let lent = Lent {
            literals: &mut self.literals,
            kinds: &mut self.kinds,
            reasons: &mut self.reasons,
        };
        let numbers = Numbers {
            trues: &mut self.trues,
            opens: &mut self.opens,
            index: &self.index,
        };
        let ran = self
            .session
            .counted(&self.block, lent, numbers, seen, budget, &preferred);
        Some(match ran {
            Ok(done) => {
                self.hits[3].add(&done.hits);
                let session = self.taken(done.session);
                format!("counted 0 {session} {} {}", done.count, done.reason)
            }
            Err(number) => format!("counted {number}"),
        })
    }

    fn numbers(&self, words: &[&[u8]]) -> Option<String> {
        if !words.is_empty() {
            return None;
        }
        let line = joined("numbers trues".to_string(), &self.trues);
        Some(joined(line + " opens", &self.opens))
    }

    fn page(&mut self, words: &[&[u8]]) -> Option<String> {
        let (start, words) = words.split_first()?;
        let (budget, words) = words.split_first()?;
        let preferred: Vec<i32> = numbers(words)?;
        let ask = Ask {
            start: number(start)?,
            budget: number(budget)?,
            preferred: &preferred,
        };
        let work = Work {
            literals: &mut self.literals,
            kinds: &mut self.kinds,
        };
        Some(match page::page(&self.block, work, ask, &mut self.output) {
            Ok(done) => {
                self.hits[2].add(&done.hits);
                let written = &self.output[..2 * done.entries as usize];
                let paused = u8::from(done.paused);
                let head = format!("page 0 {} {} {paused}", done.next, done.entries);
                joined(head, written)
            }
            Err(number) => format!("page {number}"),
        })
    }

    fn plain(&self, words: &[&[u8]]) -> Option<String> {
        if !words.is_empty() {
            return None;
        }
        Some(match plain::solve(&self.block) {
            Ok(true) => "plain 0 1".to_string(),
            Ok(false) => "plain 0 2".to_string(),
            Err(number) => format!("plain {number}"),
        })
    }

    fn shown(&self, words: &[&[u8]]) -> Option<String> {
        if !words.is_empty() {
            return None;
        }
        let mut output = [0; RECORD_ROOM];
        let (literals, kinds) = (&self.literals, &self.kinds);
        Some(
            match shown::shown(self.session, &self.block, literals, kinds, &mut output) {
                Ok(count) => joined("shown 0".to_string(), &output[..count]),
                Err(number) => format!("shown {number}"),
            },
        )
    }

    fn show(&self, words: &[&[u8]]) -> Option<String> {
        if !words.is_empty() {
            return None;
        }
        let line = format!("show {}", told(self.session));
        let line = joined(line + " lits", &self.literals);
        let line = joined(line + " kinds", &self.kinds);
        let line = joined(line + " reasons", &self.reasons);
        Some(joined(line + " out", &self.output))
    }

    /// The block and the record, "exactly as they are".
    fn lend(&mut self) -> (&[i32], Lent<'_>) {
        let lent = Lent {
            literals: &mut self.literals,
            kinds: &mut self.kinds,
            reasons: &mut self.reasons,
        };
        (&self.block, lent)
    }

    fn taken(&mut self, session: Session) -> String {
        self.session = session;
        told(session)
    }
}

/// `LENGTH REVISION STATE`.
fn told(session: Session) -> String {
    let state = match session.state {
        State::Open => 0,
        State::Valid => 1,
        State::Unsat => 2,
    };
    format!("{} {} {state}", session.length, session.revision)
}

/// "0 open, 1 Valid, 2 Unsat".
fn state_of(number: u8) -> Option<State> {
    match number {
        0 => Some(State::Open),
        1 => Some(State::Valid),
        2 => Some(State::Unsat),
        _ => None,
    }
}

/// Replaces a buffer, "its lent length being the count of words", if there is
/// room for them all.
fn set<T: TryFrom<i128>>(
    buffer: &mut Vec<T>,
    name: &str,
    words: &[&[u8]],
    room: usize,
) -> Option<String> {
    if words.len() > room {
        return None;
    }
    *buffer = numbers(words)?;
    Some(format!("{name} {}", buffer.len()))
}

pub(crate) fn numbers<T: TryFrom<i128>>(words: &[&[u8]]) -> Option<Vec<T>> {
    words.iter().map(|word| number(word)).collect()
}

/// The names of all lines, as docs/console.md has them.
fn help(words: &[&[u8]]) -> Option<String> {
    if !words.is_empty() {
        return None;
    }
    let desk = "block lits kinds reasons out session open step run page show";
    let texts = "text read pieces words write bytes";
    let others = "trues opens index counted numbers plain shown help";
    Some(format!("help {desk} {texts} {others}"))
}

/// "numbers are decimal with an optional `-`"; `None` if the word is no number
/// or doesn't fit its place.
fn number<T: TryFrom<i128>>(word: &[u8]) -> Option<T> {
    // Larger than any number that fits, so a longer one may stay there.
    const TOO_LARGE: i128 = 1 << 64;
    let (negative, digits) = match word.strip_prefix(b"-") {
        Some(digits) => (true, digits),
        None => (false, word),
    };
    if digits.is_empty() || !digits.iter().all(u8::is_ascii_digit) {
        return None;
    }
    let size = digits.iter().fold(0i128, |size, &digit| {
        (10 * size + i128::from(digit - b'0')).min(TOO_LARGE)
    });
    T::try_from(if negative { -size } else { size }).ok()
}

/// A command line of a word and numbers.
pub fn line<T: Display>(command: &str, words: &[T]) -> String {
    joined(command.to_string(), words)
}

fn joined<T: Display>(mut line: String, words: &[T]) -> String {
    for word in words {
        line.push(' ');
        line.push_str(&word.to_string());
    }
    line
}
