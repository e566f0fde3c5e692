//! The session: open, step and run, with refusals 1 to 17.
//!
//! "A session goes in by value and the next session comes back". A refused
//! call "returns its number alone and leaves all memory and the session as they
//! were": every refusal here comes before the first write.

use crate::block::Formula;
use crate::hits::Hits;
use crate::record::{self, Entry};
use crate::rules::{self, Rule};

/// "open, Valid or Unsat".
#[derive(Clone, Copy, Debug, PartialEq, Eq)]
pub enum State {
    Open,
    Valid,
    Unsat,
}

/// "record length, revision, and open, Valid or Unsat". Any words may be in it.
#[derive(Clone, Copy, Debug, PartialEq, Eq)]
pub struct Session {
    pub length: u64,
    pub revision: u64,
    pub state: State,
}

/// The record as it is lent: "two lent buffers, signed words for literals and
/// bytes for kinds"; and the [reasons], a third one beside them.
pub struct Lent<'a> {
    pub literals: &'a mut [i32],
    pub kinds: &'a mut [u8],
    pub reasons: &'a mut [u32],
}

/// An accepted step: the next session, the rule that was due and its reason.
#[derive(Clone, Copy, Debug, PartialEq, Eq)]
pub struct Stepped {
    pub session: Session,
    pub rule: Rule,
    pub reason: u32,
    pub hits: Hits,
}

/// An accepted run: "It answers the session and the count of accepted steps".
/// [run.reason]: and the last one's reason, 0 if there was none.
#[derive(Clone, Copy, Debug, PartialEq, Eq)]
pub struct Ran {
    pub session: Session,
    pub count: u32,
    pub reason: u32,
    pub hits: Hits,
}

/// Opening, refusals 1 to 10, 23 and 11. "Opening sets the first V places to 0."
pub fn open(block: &[i32], lent: Lent, first_revision: u64) -> Result<Session, u8> {
    let formula = Formula::read(block)?;
    if record::buffers_short(&formula, &lent.lengths()) {
        return Err(11);
    }
    lent.literals[..formula.variables()].fill(0);
    lent.kinds[..formula.variables()].fill(0);
    lent.reasons[..formula.variables()].fill(0);
    Ok(Session {
        length: 0,
        revision: first_revision,
        state: State::Open,
    })
}

impl Lent<'_> {
    fn lengths(&self) -> [usize; 3] {
        [self.literals.len(), self.kinds.len(), self.reasons.len()]
    }
}

impl Session {
    /// One step, refusals 1 to 10, 23 and 11 to 17.
    pub fn step(self, block: &[i32], lent: Lent, seen: u64, proposal: i32) -> Result<Stepped, u8> {
        let (formula, record) = self.guard(block, &lent, seen)?;
        if self.revision == u64::MAX {
            return Err(15);
        }
        let mut search = Search::from(&formula, record, lent);
        let rule = rules::due(&formula, &search.record);
        if proposal != 0 && rule != Rule::Decide {
            return Err(16);
        }
        if proposal != 0 && !rules::open(&formula, &search.record, proposal) {
            return Err(17);
        }
        search.apply(rule, proposal);
        Ok(Stepped {
            session: search.session(self.revision + 1),
            rule,
            reason: search.reason,
            hits: search.hits,
        })
    }

    /// A run, refusals 1 to 10, 23 and 11 to 15. "it pauses exactly if it isn't
    /// ended when the budget is used": the session that comes back is then still open.
    pub fn run(
        self,
        block: &[i32],
        lent: Lent,
        seen: u64,
        budget: u32,
        preferred: &[i32],
    ) -> Result<Ran, u8> {
        let (formula, record) = self.guard(block, &lent, seen)?;
        if u128::from(self.revision) + u128::from(budget) > u128::from(u64::MAX) {
            return Err(15);
        }
        let mut search = Search::from(&formula, record, lent);
        let count = search.go(budget, preferred);
        Ok(Ran {
            session: search.session(self.revision + u64::from(count)),
            count,
            reason: search.reason,
            hits: search.hits,
        })
    }

    /// What step and run refuse alike: rows 1 to 14, in the table's order.
    fn guard(&self, block: &[i32], lent: &Lent, seen: u64) -> Result<(Formula, Vec<Entry>), u8> {
        let formula = Formula::read(block)?;
        let Lent {
            literals,
            kinds,
            reasons,
        } = lent;
        let record = record::read(&formula, literals, kinds, reasons, self.length)?;
        if self.state != State::Open {
            return Err(13);
        }
        if seen != self.revision {
            return Err(14);
        }
        Ok((formula, record))
    }
}

/// A record under way, with the buffers that each step writes to.
pub struct Search<'a> {
    formula: &'a Formula,
    record: Vec<Entry>,
    lent: Lent<'a>,
    pub state: State,
    /// That of the last step, 0 before the first.
    reason: u32,
    pub hits: Hits,
}

impl<'a> Search<'a> {
    /// Begins with a record.
    pub fn from(formula: &'a Formula, record: Vec<Entry>, lent: Lent<'a>) -> Search<'a> {
        Search {
            formula,
            record,
            lent,
            state: State::Open,
            reason: 0,
            hits: Hits::default(),
        }
    }

    /// Applies due rules until the session ends or the budget is used; how many.
    pub fn go(&mut self, budget: u32, preferred: &[i32]) -> u32 {
        let mut count = 0;
        while self.state == State::Open && count < budget {
            let rule = rules::due(self.formula, &self.record);
            let proposal = match rule {
                Rule::Decide => rules::proposal_of(self.formula, &self.record, preferred),
                _ => 0,
            };
            self.apply(rule, proposal);
            count += 1;
        }
        count
    }

    fn apply(&mut self, rule: Rule, proposal: i32) {
        self.hits.note(self.formula, rule, proposal);
        let next = rules::apply(self.formula, &self.record, rule, proposal);
        self.show(&next);
        self.record = next;
        self.reason = rule.reason();
        self.state = match rule {
            Rule::Fail(_) => State::Unsat,
            Rule::Succeed => State::Valid,
            _ => State::Open,
        };
    }

    /// Writes the next record over the last one. "A cut sets the places from
    /// the new to the old length to 0 in both buffers. [...] No other place is
    /// written." [reasons.cut]: the same holds of the reasons.
    fn show(&mut self, next: &[Entry]) {
        for (place, entry) in next.iter().enumerate() {
            self.lent.literals[place] = entry.literal;
            self.lent.kinds[place] = entry.kind;
            self.lent.reasons[place] = entry.reason;
        }
        for place in next.len()..self.record.len() {
            self.lent.literals[place] = 0;
            self.lent.kinds[place] = 0;
            self.lent.reasons[place] = 0;
        }
    }

    fn session(&self, revision: u64) -> Session {
        Session {
            length: self.record.len() as u64,
            revision,
            state: self.state,
        }
    }
}
