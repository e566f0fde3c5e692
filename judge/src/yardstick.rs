//! The yardstick of speed: a plain solver for a run, with the same rules. It
//! looks at every clause anew in each step, in fixed tables on the stack, and
//! allocates nothing. It needs `core` alone and nothing of this package, so that
//! it can be compiled by itself.
//!
//! The tables by variable (level, quantifier, sign) are filled once for a run;
//! the values follow the record. A step looks for a conflict over all clauses
//! and then, if there is none, for the lowest unit clause.

/// The limits of V, C and T.
const LIMITS: [i64; 3] = [1024, 4096, 8192];

/// One place for each variable, place 0 unused.
const PLACES: usize = LIMITS[0] as usize + 1;

const OPEN: u8 = 0;
const VALID: u8 = 1;
const UNSAT: u8 = 2;

/// Record length, revision, and 0 open, 1 Valid or 2 Unsat.
#[derive(Clone, Copy, Debug, PartialEq, Eq)]
pub struct Session {
    pub length: u64,
    pub revision: u64,
    pub state: u8,
}

impl Session {
    /// Refusals 13 to 15.
    fn guard(&self, seen: u64, budget: u32) -> Result<(), u8> {
        if self.state != OPEN {
            return Err(13);
        }
        if seen != self.revision {
            return Err(14);
        }
        match self.revision.checked_add(u64::from(budget)) {
            Some(_) => Ok(()),
            None => Err(15),
        }
    }
}

/// The record's three buffers.
pub struct Lent<'a> {
    pub literals: &'a mut [i32],
    pub kinds: &'a mut [u8],
    pub reasons: &'a mut [u32],
}

/// A run: the next session, the count of accepted steps and the last one's
/// reason, or the number of its refusal (1 to 15), which leaves everything as it
/// was.
pub fn run(
    session: Session,
    block: &[i32],
    lent: Lent,
    seen: u64,
    budget: u32,
    preferred: &[i32],
) -> Result<(Session, u32, u32), u8> {
    let parts = Parts::of(block)?;
    let mut tables = Tables::of(&parts);
    tables.take_record(&parts, &lent, session.length)?;
    session.guard(seen, budget)?;
    let mut search = Search {
        parts,
        tables,
        lent,
        length: session.length as usize,
        state: OPEN,
        reason: 0,
    };
    let mut count = 0;
    while search.state == OPEN && count < budget {
        search.step(preferred);
        count += 1;
    }
    let next = Session {
        length: search.length as u64,
        revision: session.revision + u64::from(count),
        state: search.state,
    };
    Ok((next, count, search.reason))
}

/// The three parts of an accepted block.
pub(crate) struct Parts<'a> {
    pub(crate) prefix: &'a [i32],
    pub(crate) ends: &'a [i32],
    words: &'a [i32],
}

impl<'a> Parts<'a> {
    /// The check, refusals 1 to 10 and 23.
    pub(crate) fn of(block: &'a [i32]) -> Result<Parts<'a>, u8> {
        let ([v, c, t], offsets, rest) = match *block {
            [v, c, t, prefix, ends, words, ref rest @ ..] => {
                ([v, c, t], [prefix, ends, words], rest)
            }
            _ => return Err(1),
        };
        let counts = [v, c, t].map(i64::from);
        if (0..3).any(|i| counts[i] < 0 || counts[i] > LIMITS[i]) {
            return Err(2);
        }
        if offsets != [6, 6 + v, 6 + v + c] {
            return Err(3);
        }
        let (v, c, t) = (v as usize, c as usize, t as usize);
        if rest.len() != v + c + t {
            return Err(4);
        }
        let (prefix, rest) = rest.split_at(v);
        let (ends, words) = rest.split_at(c);
        let parts = Parts {
            prefix,
            ends,
            words,
        };
        parts.check_prefix()?;
        parts.check_clauses()?;
        parts.check_pairs()?;
        Ok(parts)
    }

    /// Refusals 5 to 7.
    fn check_prefix(&self) -> Result<(), u8> {
        if self.prefix.iter().any(|&word| !self.names(word)) {
            return Err(5);
        }
        let mut seen = [false; PLACES];
        for &word in self.prefix {
            if seen[size(word)] {
                return Err(6);
            }
            seen[size(word)] = true;
        }
        match self.prefix.last() {
            Some(&last) if last < 0 => Err(7),
            _ => Ok(()),
        }
    }

    /// Refusals 8 and 9.
    fn check_clauses(&self) -> Result<(), u8> {
        let mut start = 0;
        for &end in self.ends {
            if end < start || end as usize > self.words.len() {
                return Err(8);
            }
            start = end;
        }
        if start as usize != self.words.len() {
            return Err(8);
        }
        if self.words.iter().any(|&word| !self.names(word)) {
            return Err(9);
        }
        Ok(())
    }

    /// Refusals 10 and 23.
    fn check_pairs(&self) -> Result<(), u8> {
        // The clause that a literal was last met in, by sign and variable.
        let mut met = [[usize::MAX; PLACES]; 2];
        let mut repeated = false;
        for clause in 0..self.ends.len() {
            for &word in self.clause(clause) {
                let sign = usize::from(word > 0);
                if met[1 - sign][size(word)] == clause {
                    return Err(10);
                }
                repeated |= met[sign][size(word)] == clause;
                met[sign][size(word)] = clause;
            }
        }
        if repeated {
            return Err(23);
        }
        Ok(())
    }

    fn names(&self, word: i32) -> bool {
        word != 0 && size(word) <= self.prefix.len()
    }

    pub(crate) fn clause(&self, clause: usize) -> &'a [i32] {
        let start = match clause {
            0 => 0,
            _ => self.ends[clause - 1] as usize,
        };
        &self.words[start..self.ends[clause] as usize]
    }
}

fn size(word: i32) -> usize {
    word.unsigned_abs() as usize
}

/// What a run keeps by variable.
struct Tables {
    existential: [bool; PLACES],
    level: [u16; PLACES],
    /// 1 true, -1 false, 0 unassigned.
    value: [i8; PLACES],
}

impl Tables {
    fn of(parts: &Parts) -> Tables {
        let mut tables = Tables {
            existential: [false; PLACES],
            level: [0; PLACES],
            value: [0; PLACES],
        };
        let mut level = 0;
        let mut before = parts.prefix.first().copied().unwrap_or(0);
        for &word in parts.prefix {
            level += u16::from((word > 0) != (before > 0));
            before = word;
            tables.existential[size(word)] = word > 0;
            tables.level[size(word)] = level;
        }
        tables
    }

    /// Refusals 11 and 12; the values of an accepted record.
    fn take_record(&mut self, parts: &Parts, lent: &Lent, length: u64) -> Result<(), u8> {
        let v = parts.prefix.len();
        if lent.literals.len() < v || lent.kinds.len() < v || lent.reasons.len() < v {
            return Err(11);
        }
        if length > v as u64 {
            return Err(12);
        }
        for place in 0..length as usize {
            let (literal, kind) = (lent.literals[place], lent.kinds[place]);
            if !parts.names(literal) || self.value[size(literal)] != 0 {
                return Err(12);
            }
            let decision = if self.existential[size(literal)] {
                1
            } else {
                2
            };
            if kind != 0 && kind != decision {
                return Err(12);
            }
            let most = if kind == 0 { parts.ends.len() } else { 0 };
            if lent.reasons[place] as usize > most {
                return Err(12);
            }
            self.set(literal);
        }
        Ok(())
    }

    fn set(&mut self, literal: i32) {
        self.value[size(literal)] = if literal > 0 { 1 } else { -1 };
    }

    /// 1 if the literal is true, -1 if it is false, 0 if it is unassigned.
    fn truth(&self, literal: i32) -> i8 {
        let value = self.value[size(literal)];
        if literal > 0 {
            value
        } else {
            -value
        }
    }
}

struct Search<'a> {
    parts: Parts<'a>,
    tables: Tables,
    lent: Lent<'a>,
    length: usize,
    state: u8,
    /// The last step's: the number of a clause plus one, or 0.
    reason: u32,
}

impl Search<'_> {
    /// Applies the due rule.
    fn step(&mut self, preferred: &[i32]) {
        self.reason = self.conflict();
        if self.reason != 0 {
            return self.turn(1, UNSAT);
        }
        let (unit, reason) = self.unit();
        if unit != 0 {
            self.reason = reason;
            return self.append(unit, 0, reason);
        }
        let monotone = self.monotone();
        if monotone != 0 {
            return self.append(monotone, 0, 0);
        }
        if self.length == self.parts.prefix.len() {
            return self.turn(2, VALID);
        }
        let literal = self.choose(preferred);
        let existential = self.tables.existential[size(literal)];
        self.append(literal, if existential { 1 } else { 2 }, 0);
    }

    /// The reason of the lowest clause with no true and no unassigned existential
    /// literal, 0 if there is none.
    fn conflict(&self) -> u32 {
        let mut start = 0;
        'clauses: for (reason, &end) in (1..).zip(self.parts.ends) {
            let clause = &self.parts.words[start..end as usize];
            start = end as usize;
            for &literal in clause {
                let truth = self.tables.truth(literal);
                if truth > 0 || (truth == 0 && self.tables.existential[size(literal)]) {
                    continue 'clauses;
                }
            }
            return reason;
        }
        0
    }

    /// The literal of the lowest unit clause and its reason, 0 and 0 if there is
    /// none.
    fn unit(&self) -> (i32, u32) {
        let mut start = 0;
        'clauses: for (reason, &end) in (1..).zip(self.parts.ends) {
            let clause = &self.parts.words[start..end as usize];
            start = end as usize;
            let mut found = 0;
            let mut lowest_universal = u16::MAX;
            for &literal in clause {
                let truth = self.tables.truth(literal);
                if truth > 0 {
                    continue 'clauses;
                }
                if truth < 0 {
                    continue;
                }
                if !self.tables.existential[size(literal)] {
                    lowest_universal = lowest_universal.min(self.tables.level[size(literal)]);
                } else if found == 0 {
                    found = literal;
                } else {
                    continue 'clauses;
                }
            }
            if found != 0 && lowest_universal > self.tables.level[size(found)] {
                return (found, reason);
            }
        }
        (0, 0)
    }

    /// The signs of each variable in the clauses with no true literal: 1 plus, 2
    /// minus, 3 both, 0 none.
    fn signs(&self) -> [u8; PLACES] {
        let mut signs = [0; PLACES];
        let mut start = 0;
        for &end in self.parts.ends {
            let clause = &self.parts.words[start..end as usize];
            start = end as usize;
            if clause.iter().any(|&literal| self.tables.truth(literal) > 0) {
                continue;
            }
            for &literal in clause {
                signs[size(literal)] |= if literal > 0 { 1 } else { 2 };
            }
        }
        signs
    }

    /// The literal of the first monotone unassigned variable, 0 if there is none.
    fn monotone(&self) -> i32 {
        let signs = self.signs();
        for &word in self.parts.prefix {
            let variable = size(word);
            if self.tables.value[variable] != 0 {
                continue;
            }
            let existential = self.tables.existential[variable];
            if let sign @ 1..=2 = signs[variable] {
                let positive = (sign == 1) == existential;
                return variable as i32 * if positive { 1 } else { -1 };
            }
        }
        0
    }

    /// The first open literal that is preferred, else the first unassigned
    /// variable. Levels never fall along the prefix, so a literal is open if it
    /// is unassigned and at that variable's level.
    fn choose(&self, preferred: &[i32]) -> i32 {
        let mut first = 0;
        for &word in self.parts.prefix {
            if self.tables.value[size(word)] == 0 {
                first = size(word);
                break;
            }
        }
        for &word in preferred {
            if self.parts.names(word)
                && self.tables.value[size(word)] == 0
                && self.tables.level[size(word)] == self.tables.level[first]
            {
                return word;
            }
        }
        first as i32
    }

    fn append(&mut self, literal: i32, kind: u8, reason: u32) {
        self.lent.literals[self.length] = literal;
        self.lent.kinds[self.length] = kind;
        self.lent.reasons[self.length] = reason;
        self.length += 1;
        self.tables.set(literal);
    }

    /// Goes back to the last entry of a kind and puts its opposite there; with
    /// no such entry the session ends and the record stays.
    fn turn(&mut self, kind: u8, end: u8) {
        let record = &self.lent.kinds[..self.length];
        let place = match record.iter().rposition(|&other| other == kind) {
            Some(place) => place,
            None => {
                self.state = end;
                return;
            }
        };
        let opposite = -self.lent.literals[place];
        for cut in place..self.length {
            self.tables.value[size(self.lent.literals[cut])] = 0;
            self.lent.literals[cut] = 0;
            self.lent.kinds[cut] = 0;
            self.lent.reasons[cut] = 0;
        }
        self.length = place;
        self.append(opposite, 0, 0);
    }
}
