//! Random formulas for an outside solver: each as a QDIMACS text, and as the
//! console lines that read this text, write the block as a text again, and ask for
//! the verdict.
//!
//! The standard's text has at least one variable and one clause, no empty
//! clause, and never two neighbouring lines of one quantifier, so formulas are
//! chosen that fit and each group is one line. Some variables are in no line.

use std::fmt::Write;

use crate::block::HEADER;
use crate::console::line;
use crate::dice::Dice;
use crate::shapes::{self, Shape};
use crate::text;
use crate::writing;

pub struct Asked {
    /// V.
    pub variables: usize,
    /// The words of the variables that are in a line; the last is existential.
    pub prefix: Vec<i32>,
    pub clauses: Vec<Vec<i32>>,
}

impl Asked {
    /// A formula that the standard's text can hold.
    pub fn random(dice: &mut Dice) -> Asked {
        loop {
            let shape = shape(dice);
            let mut prefix = shapes::prefix(dice, shape, None);
            let clauses = shapes::clauses(dice, shape, &prefix);
            let (rate, last) = (dice.pick(&[0, 0, 0, 10, 40]), prefix.last().copied());
            prefix.retain(|&word| Some(word) == last || !dice.chance(rate, 100));
            let asked = Asked {
                variables: shape.variables,
                prefix,
                clauses,
            };
            if asked.fits() {
                return asked;
            }
        }
    }

    fn fits(&self) -> bool {
        let no_empty = self.clauses.iter().all(|clause| !clause.is_empty());
        !self.prefix.is_empty() && !self.clauses.is_empty() && no_empty
    }

    /// The problem line, a line for each group, a line for each clause.
    pub fn text(&self) -> String {
        let mut text = format!("p cnf {} {}\n", self.variables, self.clauses.len());
        let mut rest = &self.prefix[..];
        while let Some(first) = rest.first() {
            let same = |word: &&i32| (**word > 0) == (*first > 0);
            let (group, others) = rest.split_at(rest.iter().take_while(same).count());
            text.push(if *first > 0 { 'e' } else { 'a' });
            end_line(&mut text, group.iter().map(|word| word.abs()));
            rest = others;
        }
        for clause in &self.clauses {
            let (first, rest) = clause.split_first().expect("no clause is empty");
            write!(text, "{first}").expect("a text takes everything");
            end_line(&mut text, rest.iter().copied());
        }
        text
    }

    /// The text read into a block buffer of the right length; the block written
    /// into a text buffer of the right length; a record of V places, a new session,
    /// and a run to its end.
    pub fn lines(&self) -> [String; 11] {
        let literals: usize = self.clauses.iter().map(Vec::len).sum();
        let length = HEADER + self.variables + self.clauses.len() + literals;
        let mut block = vec![0; length];
        text::read(self.text().as_bytes(), &mut block);
        let written = writing::text_of(&block).len();
        let zeros = vec![0; self.variables];
        [
            line("block", &vec![0; length]),
            line("text", self.text().as_bytes()),
            "read".to_string(),
            line("text", &vec![0; written]),
            "write".to_string(),
            "bytes".to_string(),
            line("lits", &zeros),
            line("kinds", &zeros),
            line("reasons", &zeros),
            "open 0".to_string(),
            format!("run 0 {}", u32::MAX),
        ]
    }
}

/// Mostly small shapes, where every turn of the rules is near; some whose
/// searches are longer.
fn shape(dice: &mut Dice) -> Shape {
    let some = 6 + dice.below(10);
    let more = 16 + dice.below(15);
    match dice.weighted(&[25, 55, 20]) {
        0 => shapes::small(dice, 8),
        1 => shapes::harder(dice, some),
        _ => shapes::harder(dice, more),
    }
}

fn end_line(text: &mut String, words: impl Iterator<Item = i32>) {
    for word in words {
        write!(text, " {word}").expect("a text takes everything");
    }
    text.push_str(" 0\n");
}
