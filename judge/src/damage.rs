//! Damage to an accepted block, aimed at one row of the check each time, and to
//! an accepted record. Not every try lands (a block may lack the part that it
//! would break); the check says what came of it.

use crate::block::{Formula, LIMITS, ROWS};
use crate::dice::Dice;
use crate::record::Entry;

/// Words at the edges of 32 bits, and the small ones beside 0.
pub const EDGES: [i32; 8] = [0, 1, -1, i32::MIN, i32::MIN + 1, i32::MAX, i32::MAX - 1, -2];

/// One damage for a random row, now and then a second one on top.
pub fn damaged(dice: &mut Dice, block: &[i32]) -> Vec<i32> {
    let row = ROWS[dice.weighted(&[6, 7, 6, 6, 6, 9, 7, 12, 8, 15, 20])];
    let once = broken(dice, block, row);
    if row >= 10 && dice.chance(1, 4) {
        // A literal repeated and one beside its opposite, in any order.
        return broken(dice, &once, if row == 10 { 23 } else { 10 });
    }
    if once.len() >= 6 && dice.chance(1, 6) {
        // Laid over a sound header, so that the second damage finds its part.
        let again = dice.pick(&ROWS[2..]);
        return broken(dice, &once, again);
    }
    once
}

fn broken(dice: &mut Dice, block: &[i32], row: u8) -> Vec<i32> {
    let mut words = block.to_vec();
    match row {
        1 => words.truncate(dice.below(6)),
        2 => break_count(dice, &mut words),
        3 => break_word(dice, &mut words, 3..6),
        4 => break_length(dice, &mut words),
        5 => break_literal(dice, &mut words, 0),
        6 => repeat_variable(dice, &mut words),
        7 => negate_last(&mut words),
        8 => break_end(dice, &mut words),
        9 => break_literal(dice, &mut words, 2),
        10 => beside(dice, &mut words, -1),
        _ => beside(dice, &mut words, 1),
    }
    words
}

/// The places of prefix, clause ends or literals (0, 1 or 2), as far as the
/// block has them.
fn part(words: &[i32], which: usize) -> std::ops::Range<usize> {
    let most = words.len() as i32;
    let count = |place: usize| words.get(place).map_or(0, |&n| n.clamp(0, most) as usize);
    let start = 6 + (0..which).map(count).sum::<usize>();
    let end = (start + count(which)).min(words.len());
    start.min(end)..end
}

/// A count over its limit or negative, its offsets often in keeping with it.
fn break_count(dice: &mut Dice, words: &mut [i32]) {
    let which = dice.below(3);
    let over = LIMITS[which] as i32 + 1;
    words[which] = dice.pick(&[over, over, -1, i32::MIN, i32::MAX]);
    if dice.chance(1, 2) {
        words[4] = words[0].wrapping_add(6);
        words[5] = words[4].wrapping_add(words[1]);
    }
}

/// One word of a range, off by one or at an edge.
fn break_word(dice: &mut Dice, words: &mut [i32], places: std::ops::Range<usize>) {
    if !places.is_empty() {
        let place = places.start + dice.below(places.len());
        let near = words[place].wrapping_add(dice.pick(&[1, -1]));
        words[place] = dice.pick(&[near, near, near, far_edge(words[place])]);
    }
}

/// The word furthest away from this one.
fn far_edge(word: i32) -> i32 {
    if word < 0 {
        i32::MAX
    } else {
        i32::MIN
    }
}

fn break_length(dice: &mut Dice, words: &mut Vec<i32>) {
    if words.len() > 6 && dice.chance(1, 2) {
        words.truncate(words.len() - 1 - dice.below(words.len() - 6));
    } else {
        words.extend((0..1 + dice.below(3)).map(|_| dice.pick(&EDGES)));
    }
}

/// A word of the prefix or the literals that names no variable.
fn break_literal(dice: &mut Dice, words: &mut [i32], which: usize) {
    let places = part(words, which);
    if !places.is_empty() {
        let over = words[0].wrapping_add(1);
        let word = dice.pick(&[
            0,
            over,
            over.wrapping_neg(),
            i32::MIN,
            i32::MAX,
            i32::MIN + 1,
        ]);
        words[places.start + dice.below(places.len())] = word;
    }
}

fn repeat_variable(dice: &mut Dice, words: &mut [i32]) {
    let places = part(words, 0);
    if places.len() > 1 {
        let from = places.start + dice.below(places.len());
        let to = places.start + dice.below(places.len());
        words[to] = words[from].wrapping_mul(dice.pick(&[1, -1]));
    }
}

fn negate_last(words: &mut [i32]) {
    if let Some(place) = part(words, 0).last() {
        words[place] = words[place].wrapping_neg();
    }
}

/// An end (the last one more often) off by one, at an edge or changed with its
/// neighbour; or a clause count of 0 beside literals.
fn break_end(dice: &mut Dice, words: &mut Vec<i32>) {
    let places = part(words, 1);
    if dice.chance(1, 6) {
        words[1] = 0;
        words[5] = words[4];
        words.drain(places);
    } else if places.len() > 1 && dice.chance(1, 4) {
        let place = places.start + dice.below(places.len() - 1);
        words.swap(place, place + 1);
    } else if dice.chance(1, 3) {
        break_word(dice, words, places.end - places.len().min(1)..places.end);
    } else {
        break_word(dice, words, places);
    }
}

/// One literal of the matrix in the place beside it, as it is or its opposite.
fn beside(dice: &mut Dice, words: &mut [i32], sign: i32) {
    let places = part(words, 2);
    if places.len() > 1 {
        let place = places.start + dice.below(places.len() - 1);
        words[place + 1] = words[place].wrapping_mul(sign);
    }
}

/// One entry that row 12 refuses, if the record has any.
pub fn break_entry(dice: &mut Dice, record: &mut [Entry], formula: &Formula) {
    if record.is_empty() {
        return;
    }
    let v = formula.variables() as i32;
    let place = dice.below(record.len());
    let other = record[dice.below(record.len())].literal;
    match dice.weighted(&[2, 2, 2, 2, 4, 3]) {
        0 => record[place].literal = dice.pick(&[0, v + 1, -v - 1, i32::MIN, i32::MAX]),
        1 => record[place].literal = dice.pick(&[other, -other]),
        2 => record[place].kind = dice.pick(&[3, 4, 255]),
        3 => record[place].kind = dice.pick(&[1, 2]),
        4 => record[place].reason = reason_over(dice, formula),
        _ => explain_decision(dice, record, formula),
    }
}

fn reason_over(dice: &mut Dice, formula: &Formula) -> u32 {
    let over = formula.clauses.len() as u32 + 1;
    dice.pick(&[over, over, over + 1, 1 << 31, u32::MAX])
}

/// A reason beside a decision, if there is one.
fn explain_decision(dice: &mut Dice, record: &mut [Entry], formula: &Formula) {
    let most = formula.clauses.len().max(1);
    if let Some(entry) = record.iter_mut().rfind(|entry| entry.kind != 0) {
        entry.reason = 1 + dice.below(most) as u32;
    }
}
