//! The formula block: its check (refusals 1 to 10 and 23) and what an accepted
//! block stands for.
//!
//! "A slice of signed 32-bit words with a header of counts and offsets". All
//! sums here are made in 64 bits, so that no word, the least 32-bit number
//! included, can overflow.

use std::collections::{BTreeSet, HashSet};

/// The most that V, C and T can be.
pub const LIMITS: [i64; 3] = [1024, 4096, 8192];

/// The most variables that a listing's first group can have.
pub const FIRST_GROUP: usize = 20;

/// The words before the prefix: V, C, T and the three offsets.
pub const HEADER: usize = 6;

/// The rows of the check, in the table's order: 23 comes "straight after 10".
pub const ROWS: [u8; 11] = [1, 2, 3, 4, 5, 6, 7, 8, 9, 10, 23];

/// The number of the first row of the table that refuses the block, 0 if none
/// does. "Checked in this order, each check over the whole input."
pub fn check(block: &[i32]) -> u8 {
    let words = Words::of(block);
    let broken = ROWS.into_iter().find(|&row| words.breaks(row));
    broken.unwrap_or(0)
}

/// Whether a block breaks one row of the table, whatever the other rows say.
/// A part that can't be read, because an earlier row is broken, breaks nothing.
pub fn breaks(block: &[i32], row: u8) -> bool {
    Words::of(block).breaks(row)
}

/// The block's words, widened.
struct Words(Vec<i64>);

impl Words {
    fn of(block: &[i32]) -> Words {
        Words(block.iter().map(|&word| i64::from(word)).collect())
    }

    /// The rows, in the table's order.
    fn breaks(&self, row: u8) -> bool {
        match row {
            1 => self.0.len() < HEADER,
            2 => self.counts_wrong(),
            3 => self.offsets_wrong(),
            4 => self.length_wrong(),
            5 => self.prefix().iter().any(|&word| self.no_literal(word)),
            6 => self.variable_twice(),
            7 => self.prefix().last().map_or(false, |&word| word < 0),
            8 => self.ends_wrong(),
            9 => self.literals().iter().any(|&word| self.no_literal(word)),
            10 => self.clauses().any(both_signs),
            23 => self.clauses().any(repeats),
            _ => false,
        }
    }

    /// V, C and T, where all three words are there.
    fn counts(&self) -> Option<(i64, i64, i64)> {
        match self.0[..] {
            [v, c, t, ..] => Some((v, c, t)),
            _ => None,
        }
    }

    /// Row 2: "V, C or T negative or over its limit".
    fn counts_wrong(&self) -> bool {
        let pairs = self.0.iter().zip(LIMITS);
        pairs.into_iter().any(|(&n, most)| n < 0 || n > most)
    }

    /// Row 3: "an offset is not as above", these being "6, 6+V, 6+V+C".
    fn offsets_wrong(&self) -> bool {
        match self.0[..] {
            [v, c, _, prefix, ends, literals, ..] => {
                prefix != 6 || ends != 6 + v || literals != 6 + v + c
            }
            _ => false,
        }
    }

    /// Row 4: "The block's length is exactly 6+V+C+T."
    fn length_wrong(&self) -> bool {
        self.counts()
            .map_or(false, |(v, c, t)| self.0.len() as i64 != 6 + v + c + t)
    }

    /// Prefix, clause ends or literals (0, 1 or 2): none of its words if they
    /// are not all there, or if a negative count leaves no place for them.
    fn part(&self, which: usize) -> &[i64] {
        match self.counts() {
            Some((v, c, t)) if v >= 0 && c >= 0 && t >= 0 => {
                let (start, count) = [(6, v), (6 + v, c), (6 + v + c, t)][which];
                let range = start as usize..(start + count) as usize;
                self.0.get(range).unwrap_or(&[])
            }
            _ => &[],
        }
    }

    /// "The prefix has V words, outermost first".
    fn prefix(&self) -> &[i64] {
        self.part(0)
    }

    /// "Clause ends are running totals of literal words."
    fn ends(&self) -> &[i64] {
        self.part(1)
    }

    fn literals(&self) -> &[i64] {
        self.part(2)
    }

    /// Rows 5 and 9: "0 or of size over V".
    fn no_literal(&self, word: i64) -> bool {
        word == 0 || self.counts().map_or(false, |(v, _, _)| word.abs() > v)
    }

    /// Row 6: "a variable twice in the prefix". The word 0 names no variable.
    fn variable_twice(&self) -> bool {
        let mut seen = HashSet::new();
        let mut named = self.prefix().iter().filter(|&&word| word != 0);
        named.any(|word| !seen.insert(word.abs()))
    }

    /// Row 8: "a clause end negative, falling or over T; the last not T; C = 0
    /// with T > 0".
    fn ends_wrong(&self) -> bool {
        let ends = self.ends();
        self.counts().map_or(false, |(_, c, t)| {
            ends.iter().any(|&end| end < 0 || end > t)
                || ends.windows(2).any(|pair| pair[1] < pair[0])
                || ends.last().map_or(false, |&last| last != t)
                || (c == 0 && t > 0)
        })
    }

    /// The clauses whose words are all there, in order.
    fn clauses(&self) -> impl Iterator<Item = &[i64]> {
        let starts = std::iter::once(0).chain(self.ends().iter().copied());
        let bounds = starts.zip(self.ends().iter().copied());
        bounds.filter_map(|(start, end)| {
            let range = usize::try_from(start).ok()?..usize::try_from(end).ok()?;
            self.literals().get(range)
        })
    }
}

/// Row 10: "a clause with both signs of a variable". The word 0 has no sign.
fn both_signs(clause: &[i64]) -> bool {
    let words: HashSet<i64> = clause.iter().copied().collect();
    words.iter().any(|&word| word > 0 && words.contains(&-word))
}

/// Row 23: "a clause that repeats a literal". The word 0 is none.
fn repeats(clause: &[i64]) -> bool {
    let mut seen = HashSet::new();
    let mut literals = clause.iter().filter(|&&word| word != 0);
    literals.any(|word| !seen.insert(word))
}

/// The block of a prefix and clauses, with nothing checked.
pub fn lay_out(prefix: &[i32], clauses: &[Vec<i32>]) -> Vec<i32> {
    let literals = clauses.concat();
    let (v, c) = (prefix.len() as i32, clauses.len() as i32);
    let mut block = vec![v, c, literals.len() as i32, 6, 6 + v, 6 + v + c];
    block.extend(prefix);
    block.extend(clauses.iter().scan(0, |end, clause| {
        *end += clause.len() as i32;
        Some(*end)
    }));
    block.extend(literals);
    block
}

/// What an accepted block stands for.
#[derive(Clone, Debug, PartialEq, Eq)]
pub struct Formula {
    /// "outermost first: +v binds variable v existentially, -v universally".
    pub prefix: Vec<i32>,
    /// None has a literal twice, so each is the set of its literals.
    pub clauses: Vec<BTreeSet<i32>>,
    /// By variable, place 0 unused.
    existential: Vec<bool>,
    /// By variable, place 0 unused.
    levels: Vec<usize>,
}

impl Formula {
    /// The formula of an accepted block, or the number that refuses it.
    pub fn read(block: &[i32]) -> Result<Formula, u8> {
        match check(block) {
            0 => Ok(Formula::of_words(&Words::of(block))),
            number => Err(number),
        }
    }

    fn of_words(words: &Words) -> Formula {
        let narrow = |&word: &i64| word as i32;
        let prefix: Vec<i32> = words.prefix().iter().map(narrow).collect();
        let set = |clause: &[i64]| clause.iter().map(narrow).collect();
        Formula {
            clauses: words.clauses().map(set).collect(),
            existential: by_variable(&prefix, |place| prefix[place] > 0),
            levels: by_variable(&prefix, |place| changes_before(&prefix, place)),
            prefix,
        }
    }

    /// V.
    pub fn variables(&self) -> usize {
        self.prefix.len()
    }

    /// The variables in prefix order.
    pub fn order(&self) -> impl Iterator<Item = i32> + '_ {
        self.prefix.iter().map(|word| word.abs())
    }

    /// Whether a word is a literal of this formula: "+v or -v" for a v of it.
    pub fn has_literal(&self, word: i32) -> bool {
        word != 0 && word.unsigned_abs() as usize <= self.variables()
    }

    /// Whether the literal's variable is bound existentially.
    pub fn existential(&self, literal: i32) -> bool {
        self.existential[literal.unsigned_abs() as usize]
    }

    /// The level of the literal's variable.
    pub fn level(&self, literal: i32) -> usize {
        self.levels[literal.unsigned_abs() as usize]
    }

    /// k, "the size of the first group (0 if V is 0)"; "A group is a longest
    /// run of one quantifier", so the first one is the variables of level 0.
    pub fn first_group(&self) -> usize {
        self.order().filter(|&v| self.level(v) == 0).count()
    }

    /// Whether there is a first group and it is universal.
    pub fn first_group_universal(&self) -> bool {
        self.prefix.first().map_or(false, |&word| word < 0)
    }
}

/// A table by variable of what holds at its place in the prefix.
fn by_variable<T: Clone + Default>(prefix: &[i32], at: impl Fn(usize) -> T) -> Vec<T> {
    let mut table = vec![T::default(); prefix.len() + 1];
    for (place, word) in prefix.iter().enumerate() {
        table[word.unsigned_abs() as usize] = at(place);
    }
    table
}

/// "a variable's level is the number of changes of quantifier before it", the
/// change that begins its own group being one of them.
fn changes_before(prefix: &[i32], place: usize) -> usize {
    let upto = &prefix[..=place];
    upto.windows(2)
        .filter(|pair| (pair[0] > 0) != (pair[1] > 0))
        .count()
}
