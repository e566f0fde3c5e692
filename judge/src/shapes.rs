//! Random formulas of several shapes, and random records of a formula.

use crate::block::{lay_out, Formula, FIRST_GROUP, LIMITS};
use crate::dice::Dice;
use crate::record::Entry;

/// What a random formula is like.
#[derive(Clone, Copy, Debug)]
pub struct Shape {
    pub variables: usize,
    pub clauses: usize,
    /// The fewest and the most literals of a clause, as far as there are variables.
    pub widths: (usize, usize),
    /// How many of them are existential at least, in most clauses.
    pub existential: usize,
    /// How likely the quantifier changes from one variable to the next, in 100.
    pub changes: usize,
}

/// A prefix of a random order of the variables, its last word existential. The
/// first group is `k` existential variables where this is asked for.
pub fn prefix(dice: &mut Dice, shape: Shape, k: Option<usize>) -> Vec<i32> {
    let mut words: Vec<i32> = (1..=shape.variables as i32).collect();
    dice.shuffle(&mut words);
    let mut existential = k.is_some() || dice.chance(1, 2);
    for place in 0..words.len() {
        let fixed = k.map_or(false, |k| place < k);
        let ends_group = k == Some(place) && place > 0;
        if ends_group || (!fixed && dice.chance(shape.changes, 100)) {
            existential = !existential;
        }
        if !existential && place + 1 < words.len() {
            words[place] = -words[place];
        }
    }
    words
}

/// Random clauses over the prefix, no variable twice in one.
pub fn clauses(dice: &mut Dice, shape: Shape, prefix: &[i32]) -> Vec<Vec<i32>> {
    (0..shape.clauses)
        .map(|_| clause(dice, shape, prefix))
        .collect()
}

/// Most clauses hold their existential literals and hardly any is empty, so
/// that not every formula fails at once.
fn clause(dice: &mut Dice, shape: Shape, prefix: &[i32]) -> Vec<i32> {
    if prefix.is_empty() || dice.chance(1, 400) {
        return Vec::new();
    }
    let (least, most) = shape.widths;
    let wanted = (least + dice.below(most + 1 - least)).min(prefix.len());
    literals(dice, prefix, wanted, shape.existential)
}

/// That many literals of different variables, most times with some existential
/// ones.
fn literals(dice: &mut Dice, prefix: &[i32], wanted: usize, existential: usize) -> Vec<i32> {
    let mut variables: Vec<i32> = prefix.iter().map(|word| word.abs()).collect();
    dice.shuffle(&mut variables);
    if dice.chance(29, 30) {
        let mut first = prefix.iter().copied().filter(|&word| word > 0).collect();
        bring_forward(dice, &mut variables, &mut first, existential);
    }
    variables.truncate(wanted);
    let mut literals: Vec<i32> = variables.iter().map(|&v| v * dice.pick(&[1, -1])).collect();
    dice.shuffle(&mut literals);
    literals
}

/// Puts some of the `first` before all other variables.
fn bring_forward(dice: &mut Dice, variables: &mut Vec<i32>, first: &mut Vec<i32>, count: usize) {
    dice.shuffle(first);
    first.truncate(count);
    variables.retain(|variable| !first.contains(variable));
    variables.splice(0..0, first.iter().copied());
}

/// The block of a random formula.
pub fn block(dice: &mut Dice, shape: Shape, k: Option<usize>) -> Vec<i32> {
    let prefix = prefix(dice, shape, k);
    let clauses = clauses(dice, shape, &prefix);
    lay_out(&prefix, &clauses)
}

/// A small shape, of at most this many variables.
pub fn small(dice: &mut Dice, most: usize) -> Shape {
    let variables = dice.below(most + 1);
    let clauses = dice.below(3 * variables + 3);
    let least = dice.pick(&[1, 1, 2, 2, 3]);
    Shape {
        variables,
        clauses: dice.pick(&[clauses, clauses, variables]),
        widths: (least, least + dice.below(3)),
        existential: dice.pick(&[1, 1, 2]),
        changes: dice.pick(&[0, 20, 40, 60, 100]),
    }
}

/// A shape whose searches are longer: no short clauses, two existential literals
/// in each, and about as many clauses as make both verdicts likely.
pub fn harder(dice: &mut Dice, variables: usize) -> Shape {
    Shape {
        variables,
        clauses: 2 * variables + dice.below(2 * variables + 1),
        widths: (3, 3 + dice.below(2)),
        existential: 2,
        changes: dice.pick(&[5, 20, 50, 70]),
    }
}

/// A first group of about the size where a listing is refused.
pub fn wide(dice: &mut Dice) -> (Shape, Option<usize>) {
    let k = FIRST_GROUP + 3 - dice.pick(&[0, 2, 2, 3, 3, 4, 5, 7]);
    let shape = Shape {
        variables: k + dice.below(4),
        clauses: dice.below(30),
        widths: (3, 3),
        existential: 2,
        changes: 50,
    };
    (shape, Some(k))
}

pub fn large(dice: &mut Dice) -> Shape {
    let most = LIMITS[0] as usize;
    Shape {
        variables: dice.pick(&[30, 60, 128, 257, most - 1, most]),
        clauses: dice.below(120),
        widths: (2, 4),
        existential: 2,
        changes: dice.pick(&[0, 3, 50]),
    }
}

/// A block with one count, or all of them, at the limit.
pub fn full(dice: &mut Dice) -> Vec<i32> {
    let [v, c, t] = LIMITS.map(|most| most as usize);
    let counts = dice.pick(&[(v, 3, 9), (3, c, t), (v, 17, t), (v, c, t)]);
    of_counts(dice, counts)
}

/// A block with one count, or all of them, one over the limit, and right in all
/// else.
pub fn overfull(dice: &mut Dice) -> Vec<i32> {
    let [v, c, t] = LIMITS.map(|most| most as usize + 1);
    let counts = dice.pick(&[(v, 3, 9), (3, c, t - 1), (v - 1, 17, t), (v, c, t)]);
    of_counts(dice, counts)
}

/// A block with that many variables, clauses and literal words, these spread
/// evenly over the clauses; its first group is whole, or about the largest that
/// is listed, or any.
fn of_counts(dice: &mut Dice, (variables, count, words): (usize, usize, usize)) -> Vec<i32> {
    let shape = Shape {
        variables,
        clauses: count,
        widths: (0, 0),
        existential: 0,
        changes: dice.pick(&[1, 10]),
    };
    let listed = FIRST_GROUP;
    let k = dice.pick(&[Some(variables), Some(listed), Some(listed + 1), None]);
    let prefix = prefix(dice, shape, k);
    let clauses: Vec<Vec<i32>> = (0..count)
        .map(|clause| {
            let width = (clause + 1) * words / count - clause * words / count;
            literals(dice, &prefix, width, 1)
        })
        .collect();
    lay_out(&prefix, &clauses)
}

/// A record that the check accepts, though no search may lead to it. Any forced
/// entry may have a reason.
pub fn record(dice: &mut Dice, formula: &Formula) -> Vec<Entry> {
    let mut variables: Vec<i32> = formula.order().collect();
    if dice.chance(2, 3) {
        dice.shuffle(&mut variables);
    }
    variables.truncate(dice.below(variables.len() + 1));
    let entry = |&variable: &i32| {
        let decision = if formula.existential(variable) { 1 } else { 2 };
        let kind = dice.pick(&[0, decision]);
        let some = dice.below(formula.clauses.len() + 1) as u32;
        Entry {
            literal: variable * dice.pick(&[1, -1]),
            kind,
            reason: if kind == 0 { some } else { 0 },
        }
    };
    variables.iter().map(entry).collect()
}
