//! The reader of a text: QDIMACS as docs/SPEC.md widens it, read into a block,
//! with refusals 27 to 31.
//!
//! It goes by whole lines and their words: a line is one of the grammar's five
//! kinds or none, and the kinds must come in their order. Where a text that is
//! not of the grammar stops (27) is found by trying: a beginning can go on
//! exactly if one of a few endings makes a text of it.
//!
//! # Decided
//!
//! Every byte stands in a line that a line feed ends, and every line has a word:
//! blanks after the last line feed are no text of the grammar, nor is a text
//! with an empty line.

use std::collections::HashSet;
use std::fmt;
use std::hash::Hash;

use crate::block::{lay_out, HEADER, LIMITS};

/// What a reading answers.
#[derive(Clone, Copy, Debug, PartialEq, Eq)]
pub enum Answer {
    /// Accepted, with the length of the block.
    Block(usize),
    /// 27, with the place.
    Stops(usize),
    /// 28, 29 or 30.
    Refused(u8),
    /// 31, with the row of the check.
    Row(u8),
}

/// As the console tells it: `0 LENGTH`, `27 PLACE`, `28`, `29`, `30`, `31 ROW`.
impl fmt::Display for Answer {
    fn fmt(&self, f: &mut fmt::Formatter) -> fmt::Result {
        match self {
            Answer::Block(length) => write!(f, "0 {length}"),
            Answer::Stops(place) => write!(f, "27 {place}"),
            Answer::Refused(number) => write!(f, "{number}"),
            Answer::Row(row) => write!(f, "31 {row}"),
        }
    }
}

/// Reads a text. "Where a text is refused, all words of the output are 0
/// afterwards; where it is accepted, those behind the block are."
pub fn read(text: &[u8], output: &mut [i32]) -> Answer {
    let read = block_of(text, output.len());
    output.fill(0);
    match read {
        Ok(block) => {
            output[..block.len()].copy_from_slice(&block);
            Answer::Block(block.len())
        }
        Err(refused) => refused,
    }
}

/// The block of a text for an output with this much room, or the first refusal.
fn block_of(text: &[u8], room: usize) -> Result<Vec<i32>, Answer> {
    let tree = Tree::spelled(text).ok_or_else(|| Answer::Stops(stops_at(text)))?;
    let tree = tree.numbers().ok_or(Answer::Refused(28))?;
    if tree.clauses.len() as i64 != i64::from(tree.count) {
        return Err(Answer::Refused(28));
    }
    let counts = tree.counts();
    if counts.iter().zip(LIMITS).any(|(&n, most)| n > most) {
        return Err(Answer::Refused(29));
    }
    if HEADER as i64 + counts.iter().sum::<i64>() > room as i64 {
        return Err(Answer::Refused(30));
    }
    match tree.broken_row() {
        Some(row) => Err(Answer::Row(row)),
        None => Ok(lay_out(&tree.prefix(), &tree.clauses)),
    }
}

/// The place of 27: "the least i such that no text begins with the first i+1
/// bytes; if some text begins with all of the bytes, it is their number". What a
/// beginning that can go on begins with can go on too, so halving finds the
/// last one.
fn stops_at(text: &[u8]) -> usize {
    let (mut goes_on, mut stopped) = (0, text.len() + 1);
    while stopped - goes_on > 1 {
        let middle = (goes_on + stopped) / 2;
        if can_go_on(&text[..middle]) {
            goes_on = middle;
        } else {
            stopped = middle;
        }
    }
    goes_on
}

/// Whether some text of the grammar begins so.
pub fn can_go_on(beginning: &[u8]) -> bool {
    let text = |ending: &&str| [beginning, ending.as_bytes()].concat();
    ENDINGS
        .iter()
        .any(|ending| Tree::spelled(&text(ending)).is_some())
}

/// One of these ends every beginning that can go on. After the problem line:
/// before a line, behind blanks or a line's 0, behind a number, behind `a` or
/// `e`, behind a minus. Without it: before a line, in a comment, behind `p`,
/// `p c`, `p cn`, `p cnf`; behind its first number and its second the endings
/// of a clause line fit. A word may stand behind more blanks than it needs, so
/// that blanks behind a word change nothing.
const ENDINGS: [&str; 11] = [
    "",
    "\n",
    " 0\n",
    " 1 0\n",
    "1 0\n",
    "p cnf 0 0\n",
    "\np cnf 0 0\n",
    " cnf 0 0\n",
    "nf 0 0\n",
    "f 0 0\n",
    " 0 0\n",
];

/// A word of a line, without blanks.
type Word<'a> = &'a [u8];

/// What a text says, its numbers being words or what these stand for.
struct Tree<N> {
    /// The announced counts.
    variables: N,
    count: N,
    /// Of each quantifier line whether it is existential, and its numbers.
    groups: Vec<(bool, Vec<N>)>,
    clauses: Vec<Vec<N>>,
}

/// A line, if it is of the grammar.
enum Line<'a> {
    Comment,
    Problem(Word<'a>, Word<'a>),
    Group(bool, Vec<Word<'a>>),
    Clause(Vec<Word<'a>>),
}

impl<'a> Tree<Word<'a>> {
    /// The tree of a text that is of the grammar: comment lines, one problem
    /// line, quantifier lines, clause lines, in this order.
    fn spelled(text: &'a [u8]) -> Option<Tree<Word<'a>>> {
        let lines: Vec<Word> = text.split(|&byte| byte == b'\n').collect();
        let (rest, lines) = lines.split_last()?;
        if !rest.is_empty() {
            return None;
        }
        let lines = lines.iter().map(|line| line_of(line));
        let lines: Vec<Line> = lines.collect::<Option<_>>()?;
        if lines.windows(2).any(|pair| turn(&pair[0]) > turn(&pair[1])) {
            return None;
        }
        let mut problems = lines.iter().filter_map(|line| match *line {
            Line::Problem(variables, count) => Some((variables, count)),
            _ => None,
        });
        let (variables, count) = problems.next()?;
        if problems.next().is_some() {
            return None;
        }
        let mut tree = Tree {
            variables,
            count,
            groups: Vec::new(),
            clauses: Vec::new(),
        };
        for line in lines {
            match line {
                Line::Comment | Line::Problem(..) => {}
                Line::Group(existential, numbers) => tree.groups.push((existential, numbers)),
                Line::Clause(literals) => tree.clauses.push(literals),
            }
        }
        Some(tree)
    }

    /// The same with what its words stand for, unless one is "below -2^31 or
    /// above 2^31 - 1".
    fn numbers(&self) -> Option<Tree<i32>> {
        let all = |words: &Vec<Word>| words.iter().map(|word| value(word)).collect();
        let group = |(existential, words): &(bool, Vec<Word>)| Some((*existential, all(words)?));
        Some(Tree {
            variables: value(self.variables)?,
            count: value(self.count)?,
            groups: self.groups.iter().map(group).collect::<Option<_>>()?,
            clauses: self.clauses.iter().map(all).collect::<Option<_>>()?,
        })
    }
}

/// When a kind of line has its turn.
fn turn(line: &Line) -> u8 {
    match line {
        Line::Comment => 0,
        Line::Problem(..) => 1,
        Line::Group(..) => 2,
        Line::Clause(..) => 3,
    }
}

/// The kind of a line, given without its line feed. One without a word has none.
fn line_of(line: &[u8]) -> Option<Line<'_>> {
    let words = line.split(|byte| blank(byte));
    let words: Vec<Word> = words.filter(|word| !word.is_empty()).collect();
    match words[..] {
        [first, ..] if first.starts_with(b"c") => {
            line.iter().all(in_comment).then(|| Line::Comment)
        }
        [b"p", b"cnf", variables, count] if number(variables) && number(count) => {
            Some(Line::Problem(variables, count))
        }
        [letter @ (b"a" | b"e"), first, ref more @ .., b"0"] => {
            let numbers = [&[first], more].concat();
            let right = numbers.iter().all(|word| above_zero(word));
            right.then(|| Line::Group(letter == b"e", numbers))
        }
        [ref literals @ .., b"0"] if literals.iter().all(|word| literal(word)) => {
            Some(Line::Clause(literals.to_vec()))
        }
        _ => None,
    }
}

/// "Blanks are spaces and tabs."
fn blank(byte: &u8) -> bool {
    matches!(byte, b' ' | b'\t')
}

/// "any bytes from 32 to 126 and any tabs".
fn in_comment(byte: &u8) -> bool {
    matches!(byte, 32..=126 | b'\t')
}

/// "A number is 0, or a digit from 1 to 9 with any number of digits behind it."
fn number(word: Word) -> bool {
    word == b"0" || above_zero(word)
}

fn above_zero(word: Word) -> bool {
    word.iter().all(u8::is_ascii_digit) && !word.starts_with(b"0")
}

/// "A literal is a number above 0, or a minus sign with such a number directly
/// behind it."
fn literal(word: Word) -> bool {
    let size = word.strip_prefix(b"-").unwrap_or(word);
    !size.is_empty() && above_zero(size)
}

/// What a number or literal stands for, if 32 bits with a sign hold it.
fn value(word: Word) -> Option<i32> {
    std::str::from_utf8(word).ok()?.parse().ok()
}

impl Tree<i32> {
    /// V, C and T.
    fn counts(&self) -> [i64; 3] {
        let literals: usize = self.clauses.iter().map(Vec::len).sum();
        let [variables, count] = [self.variables, self.count].map(i64::from);
        [variables, count, literals as i64]
    }

    /// The numbers of the quantifier lines, in their order.
    fn bound(&self) -> Vec<i32> {
        let numbers = self.groups.iter().flat_map(|(_, numbers)| numbers);
        numbers.copied().collect()
    }

    /// "A variable from 1 to V is free if a clause names it and no line binds
    /// it", and idle "if no clause names it and no line binds it". The free ones
    /// come before what the lines bind, the idle ones after it.
    fn prefix(&self) -> Vec<i32> {
        let bound: HashSet<i32> = self.bound().into_iter().collect();
        let named = self
            .clauses
            .iter()
            .flatten()
            .map(|literal| literal.checked_abs());
        let named: HashSet<i32> = named.flatten().collect();
        let unbound = (1..=self.variables).filter(|variable| !bound.contains(variable));
        let (free, idle): (Vec<i32>, Vec<i32>) =
            unbound.partition(|variable| named.contains(variable));
        let words = self.groups.iter().flat_map(|(existential, numbers)| {
            let sign = if *existential { 1 } else { -1 };
            numbers.iter().map(move |number| sign * number)
        });
        free.into_iter().chain(words).chain(idle).collect()
    }

    /// "one of the block's rows .. the first of them in this order", 7 being
    /// about "the whole prefix".
    fn broken_row(&self) -> Option<u8> {
        let over = |number: &i32| i64::from(*number).abs() > i64::from(self.variables);
        let bound = self.bound();
        if bound.iter().any(over) {
            Some(5)
        } else if repeats(&bound) {
            Some(6)
        } else if self.prefix().last().map_or(false, |&word| word < 0) {
            Some(7)
        } else if self.clauses.iter().flatten().any(over) {
            Some(9)
        } else if self.clauses.iter().any(|clause| both_signs(clause)) {
            Some(10)
        } else if self.clauses.iter().any(|clause| repeats(clause)) {
            Some(23)
        } else {
            None
        }
    }
}

fn repeats<T: Eq + Hash>(list: &[T]) -> bool {
    list.iter().collect::<HashSet<_>>().len() < list.len()
}

/// Whether a clause, none of whose literals is the least word, has both
/// literals of a variable.
fn both_signs(clause: &[i32]) -> bool {
    let literals: HashSet<i32> = clause.iter().copied().collect();
    literals.iter().any(|literal| literals.contains(&-literal))
}
