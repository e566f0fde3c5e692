//! The reader by lines and words beside the plain one byte by byte: on random
//! texts both give the same answer and leave the same output.

use judge::dice::Dice;
use judge::sheets::Sheet;
use judge::text::{self, can_go_on, Answer};
use judge::textyard;

/// What both readers do with a text and this much room.
fn both(text: &[u8], room: usize) -> Answer {
    let (mut one, mut two) = (vec![7; room], vec![-9; room]);
    let answer = text::read(text, &mut one);
    let plain = match textyard::read(text, &mut two) {
        (0, length) => Answer::Block(length),
        (27, place) => Answer::Stops(place),
        (31, row) => Answer::Row(row as u8),
        (number, _) => Answer::Refused(number),
    };
    let shown = String::from_utf8_lossy(text);
    assert_eq!(answer, plain, "room {room}, {shown:?}");
    assert_eq!(one, two, "room {room}, {shown:?}");
    answer
}

#[test]
fn random_texts() {
    let mut dice = Dice::new(5);
    let mut accepted = 0;
    for _ in 0..20_000 {
        let sheet = Sheet::random(&mut dice);
        let room = (sheet.length() + dice.below(6)).saturating_sub(2);
        let text = sheet.spelled(&mut dice);
        accepted += u32::from(matches!(both(&text, room), Answer::Block(_)));
        let (text, length) = sheet.damaged(&mut dice);
        both(&text, (length + dice.below(6)).saturating_sub(2));
    }
    assert!(accepted > 8_000, "{accepted}");
}

/// Short texts of bytes that are near to the grammar, behind a good beginning.
#[test]
fn random_bytes() {
    const STARTS: [&str; 6] = [
        "",
        "c",
        "p cnf 2",
        "p cnf 3 2\n",
        "p cnf 3 2\ne",
        "p cnf 3 2\n-1 ",
    ];
    let mut dice = Dice::new(6);
    for _ in 0..100_000 {
        let mut text = dice.pick(&STARTS).as_bytes().to_vec();
        let count = dice.below(9);
        text.extend((0..count).map(|_| dice.pick(b"  \n\n001123-aecpnf\t\r~\x7f\x80\x00")));
        both(&text, 40);
    }
}

/// What a text of the grammar begins with can go on: the endings are enough.
#[test]
fn every_beginning_of_a_text_can_go_on() {
    let mut dice = Dice::new(7);
    for _ in 0..2_000 {
        let text = Sheet::random(&mut dice).spelled(&mut dice);
        if text.len() < 400 {
            let stuck = (0..=text.len()).find(|&end| !can_go_on(&text[..end]));
            assert_eq!(stuck, None, "{:?}", String::from_utf8_lossy(&text));
        }
    }
}

#[test]
fn the_largest_text() {
    let text = Sheet::largest(&mut Dice::new(8)).plain();
    let length = 6 + judge::block::LIMITS.iter().sum::<i64>() as usize;
    assert_eq!(both(&text, length), Answer::Block(length));
    assert_eq!(both(&text, length + 3), Answer::Block(length));
    assert_eq!(both(&text, length - 1), Answer::Refused(30));
}
