//! Damage to the bytes of a text, aimed at refusal 27; and the lengths by which
//! a text is cut in pieces.

use crate::dice::Dice;

/// Bytes at the edges of what the grammar has, and of 8 bits.
const BYTES: [u8; 36] = [
    0, 8, 9, 10, 11, 12, 13, 31, 32, 33, 43, 45, 46, 47, 48, 49, 57, 58, 96, 97, 98, 99, 100, 101,
    102, 103, 110, 111, 112, 113, 126, 127, 128, 138, 160, 255,
];

/// Lines that belong nowhere, or not everywhere.
const LINES: [&[u8]; 31] = [
    b"\n",
    b" \n",
    b"\t \n",
    b"c late\n",
    b"c \x80\n",
    b"c \x7f\n",
    b"c\r\n",
    b"e 0\n",
    b"a 0\n",
    b"e\n",
    b"e 1\n",
    b"e1 0\n",
    b"e 1 0\n",
    b"a 1 0 0\n",
    b"a -1 0\n",
    b"e 01 0\n",
    b"p cnf 0 0\n",
    b"p cnf 1\n",
    b"p cnf 1 1 1\n",
    b"p cnf 01 1\n",
    b"p cnf -1 1\n",
    b"p dnf 1 1\n",
    b"pcnf 1 1\n",
    b"1\n",
    b"1 0 0\n",
    b"1 0 2 0\n",
    b"-0 0\n",
    b"- 1 0\n",
    b"+1 0\n",
    b"00\n",
    b"1-2 0\n",
];

/// The text with one change in its bytes.
pub fn scribbled(dice: &mut Dice, mut text: Vec<u8>) -> Vec<u8> {
    let place = dice.below(text.len() + 1);
    let byte = dice.pick(&BYTES);
    match dice.below(9) {
        0 => text.truncate(place),
        1 => {
            text.pop();
        }
        2 | 3 => drop(text.splice(one_at(place, text.len()), [byte])),
        4 => text.insert(place, byte),
        5 => drop(text.drain(one_at(place, text.len()))),
        6 => change_blank(dice, &mut text),
        7 => insert_before(dice, &mut text, b"\r"),
        _ => {
            let line = dice.pick(&LINES);
            let start = a_place(dice, &text, |byte| byte == b'\n').map_or(0, |feed| feed + 1);
            text.splice(start..start, line.iter().copied());
        }
    }
    text
}

/// The byte at a place, or none at the end.
fn one_at(place: usize, length: usize) -> std::ops::Range<usize> {
    place..(place + 1).min(length)
}

/// A place of such a byte, if there is any.
fn a_place(dice: &mut Dice, text: &[u8], is: impl Fn(u8) -> bool) -> Option<usize> {
    let places: Vec<usize> = (0..text.len()).filter(|&place| is(text[place])).collect();
    (!places.is_empty()).then(|| dice.pick(&places))
}

/// A line feed for a blank, or the other way round.
fn change_blank(dice: &mut Dice, text: &mut [u8]) {
    let is = |byte| matches!(byte, b' ' | b'\n');
    if let Some(place) = a_place(dice, text, is) {
        text[place] = if text[place] == b' ' { b'\n' } else { b' ' };
    }
}

/// These bytes before a line feed.
fn insert_before(dice: &mut Dice, text: &mut Vec<u8>, bytes: &[u8]) {
    if let Some(place) = a_place(dice, text, |byte| byte == b'\n') {
        text.splice(place..place, bytes.iter().copied());
    }
}

/// Lengths to cut a text of this length by: none, one, some, single bytes, or
/// more than the text has.
pub fn lengths(dice: &mut Dice, length: usize) -> Vec<u64> {
    let most = length as u64;
    let some = dice.below(length + 1) as u64;
    match dice.below(8) {
        0 => Vec::new(),
        1 => vec![some],
        2 => vec![1; length.min(300)],
        3 => vec![dice.pick(&[most, most + 1, u64::MAX, 1 << 32])],
        4 => vec![some, u64::MAX, 0, 1],
        5 => vec![0, some, 0, 0],
        _ => (0..1 + dice.below(9))
            .map(|_| dice.below(length / 4 + 3) as u64)
            .collect(),
    }
}
