//! Mokihazureo for Rust: safe calls of the proved static library.
//!
//! docs/SPEC.md has the rules, the formula block and the table of refusals. Any
//! words may be handed in; a refused call changes nothing, but reading a text always
//! writes its whole output. The caller lends all memory: the record is two buffers, literals and kinds, and the reasons are a third
//! beside it, each of at least V places.

mod door;
mod refusals;

pub use door::{check, open, page, plain, read, write};

/// Counts the accepted steps of a session, from the number that it was opened at.
#[derive(Clone, Copy, Debug, PartialEq, Eq)]
pub struct Revision(pub u64);

/// +v or -v; 0 as a proposal leaves the choice to the solver.
#[derive(Clone, Copy, Debug, PartialEq, Eq)]
pub struct Literal(pub i32);

/// Why an entry was forced, or a step found a conflict. In a buffer of reasons it
/// stands as its number: that of a clause, counted from 0, plus one; 0 is none.
#[derive(Clone, Copy, Debug, PartialEq, Eq)]
pub struct Reason(pub u32);

impl Reason {
    /// The clause, counted from 0, if there is one.
    pub fn clause(self) -> Option<usize> {
        (self.0 as usize).checked_sub(1)
    }
}

/// Whether a session goes on, or has ended with the formula true (`Valid`) or false
/// (`Unsat`).
#[derive(Clone, Copy, Debug, PartialEq, Eq)]
pub enum State {
    Open,
    Valid,
    Unsat,
}

/// The number of the table's row that turned a call away.
#[derive(Clone, Copy, Debug, PartialEq, Eq)]
pub struct Refusal(pub u32);

impl Refusal {
    /// What the number means, in the table's words.
    pub fn words(self) -> &'static str {
        refusals::words(self.0)
    }
}

impl std::fmt::Display for Refusal {
    fn fmt(&self, to: &mut std::fmt::Formatter) -> std::fmt::Result {
        write!(to, "refused with {}: {}", self.0, self.words())
    }
}

impl std::error::Error for Refusal {}

/// The record's length, the revision and the state. It goes in by value, and the
/// next one comes back.
#[derive(Clone, Copy, Debug, PartialEq, Eq)]
pub struct Session {
    pub length: usize,
    pub revision: Revision,
    pub state: State,
}

/// Where a step leads, and its reason: the clause that forced its entry, or the lowest
/// one in conflict.
#[derive(Clone, Copy, Debug, PartialEq, Eq)]
pub struct Stepped {
    pub session: Session,
    pub reason: Reason,
}

/// Where a run leads, how many steps it took, and the last one's reason.
#[derive(Clone, Copy, Debug, PartialEq, Eq)]
pub struct Ran {
    pub session: Session,
    pub steps: u32,
    pub reason: Reason,
}

/// What a counted run is lent besides the record. Afterwards the first C places of
/// `trues` and `opens` hold how many literals of each clause are true, and how many are
/// existential and unassigned; their other places stay. What the first V+T places of
/// `index` hold is the library's own.
pub struct Numbers<'a> {
    pub trues: &'a mut [u32],
    pub opens: &'a mut [u32],
    pub index: &'a mut [u32],
}

/// Where the next page begins, how many openings this one wrote, and whether it
/// stopped because the search of the next one didn't end within the budget.
#[derive(Clone, Copy, Debug, PartialEq, Eq)]
pub struct Page {
    pub next: u32,
    pub entries: u32,
    pub paused: bool,
}

/// A text that is being read piece by piece.
#[derive(Clone, Debug, PartialEq, Eq)]
pub struct Reader {
    words: [u64; 12],
}

/// Why a text was not read. `number` is the table's.
#[derive(Clone, Copy, Debug, PartialEq, Eq)]
pub enum Unread {
    /// 27: the place of the byte that no text goes on with, or the text's length if it
    /// only ends too early.
    Misfit(u64),
    /// 28, 29 or 30.
    Refused(u32),
    /// 31: the row by which the block is refused.
    Row(u32),
}

impl Unread {
    pub fn number(self) -> u32 {
        match self {
            Unread::Misfit(_) => 27,
            Unread::Refused(number) => number,
            Unread::Row(_) => 31,
        }
    }
}

impl std::fmt::Display for Unread {
    fn fmt(&self, to: &mut std::fmt::Formatter) -> std::fmt::Result {
        write!(to, "{}", Refusal(self.number()))?;
        match *self {
            Unread::Misfit(place) => write!(to, ", at byte {place}"),
            Unread::Refused(_) => Ok(()),
            Unread::Row(row) => write!(to, ", row {row}: {}", Refusal(row).words()),
        }
    }
}

impl std::error::Error for Unread {}
