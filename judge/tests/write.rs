//! The writer of texts on its cases, beside the reader and beside the plain one.

use judge::block;
use judge::console::{line, Desk};
use judge::damage::damaged;
use judge::dice::Dice;
use judge::shapes;
use judge::text::{self, Answer};
use judge::written_cases::written_cases;
use judge::{writeyard, writing};

#[test]
fn every_case_gets_its_answer_and_its_bytes() {
    for case in written_cases() {
        let mut output = case.before.clone();
        let answer = match writing::write(&case.block, &mut output) {
            Ok(length) => format!("0 {length}"),
            Err(number) => number.to_string(),
        };
        assert_eq!(answer, case.answer, "{}", case.name);
        assert_eq!(output, case.after, "{}", case.name);
    }
}

/// Each number of a refusal is there, with room for the text and without.
#[test]
fn the_cases_have_every_answer() {
    let cases = written_cases();
    for number in block::ROWS.into_iter().chain([30]) {
        let of_number = cases
            .iter()
            .filter(|case| case.answer == number.to_string());
        assert!(of_number.count() >= 2, "{number}");
    }
}

/// The longest text that there is, by the count in the cases.
#[test]
fn the_longest_text_fits_the_desk() {
    let longest = written_cases().iter().map(|case| case.after.len()).max();
    assert_eq!(longest, Some(65_469));
}

fn random_block(dice: &mut Dice) -> Vec<i32> {
    let variables = 3 + dice.below(10);
    let shape = match dice.weighted(&[500, 300, 180, 20, 1]) {
        0 => shapes::small(dice, 4),
        1 => shapes::small(dice, 12),
        2 => shapes::harder(dice, variables),
        3 => shapes::large(dice),
        _ => return shapes::full(dice),
    };
    shapes::block(dice, shape, None)
}

/// What both writers do with a block and this much room.
fn both(block: &[i32], room: usize) -> Result<Vec<u8>, u8> {
    let mut one: Vec<u8> = (0..room).map(|place| place as u8).collect();
    let mut two = one.clone();
    let before = one.clone();
    let answer = writing::write(block, &mut one);
    let plain = match writeyard::write(block, &mut two) {
        (0, length) => Ok(length),
        (number, _) => Err(number),
    };
    assert_eq!(answer, plain, "room {room}, {block:?}");
    assert_eq!(one, two, "room {room}, {block:?}");
    let length = answer.unwrap_or(0);
    assert_eq!(one[length..], before[length..], "room {room}, {block:?}");
    answer.map(|length| one[..length].to_vec())
}

/// What is written is read back word for word; a text that just fits and one that
/// doesn't by a byte.
#[test]
fn random_blocks_go_to_text_and_back() {
    let mut dice = Dice::new(9);
    for _ in 0..10_000 {
        let block = random_block(&mut dice);
        let text = both(&block, 66_000).unwrap();
        assert_eq!(both(&block, text.len()).as_ref(), Ok(&text));
        assert_eq!(both(&block, text.len() - 1), Err(30));
        let mut back = vec![9; block.len()];
        let answer = text::read(&text, &mut back);
        assert_eq!(answer, Answer::Block(block.len()));
        assert_eq!(back, block);
    }
}

/// Refused with the check's number, whatever the room.
#[test]
fn refused_blocks_are_not_written() {
    let mut dice = Dice::new(10);
    let mut refused = 0;
    for _ in 0..10_000 {
        let good = random_block(&mut dice);
        let block = damaged(&mut dice, &good);
        let number = block::check(&block);
        if number != 0 {
            let room = dice.pick(&[0, 9, 60, 66_000]);
            assert_eq!(both(&block, room), Err(number));
            refused += 1;
        }
    }
    assert!(refused > 7_000, "{refused}");
}

/// The answers to some lines on a fresh desk.
#[test]
fn a_desk_with_writing() {
    let text = line("bytes", b"p cnf 0 1\n0\n");
    let longer = line("bytes", b"p cnf 0 1\n0\n\x09");
    let talk: [(&str, &str); 22] = [
        ("bytes", "bytes"),
        ("write", "write 1"),
        ("block 0 1 0 6 6 7 0", "block 0"),
        ("write", "write 30"),
        ("text 9 9 9 9 9 9 9 9 9 9 9", "text 11"),
        ("write", "write 30"),
        ("bytes", "bytes 9 9 9 9 9 9 9 9 9 9 9"),
        ("text 9 9 9 9 9 9 9 9 9 9 9 9", "text 12"),
        ("write", "write 0 12"),
        ("bytes", &text),
        ("words", "words 0 1 0 6 6 7 0"),
        ("read", "read 0 7"),
        ("text 9 9 9 9 9 9 9 9 9 9 9 9 9", "text 13"),
        ("write", "write 0 12"),
        ("bytes", &longer),
        // No line of these is a command, and nothing is changed.
        ("write 0", "?"),
        ("bytes 0", "?"),
        ("byte", "?"),
        ("Write", "?"),
        ("write\t", "?"),
        ("bytes", &longer),
        ("show", "show 0 0 0 lits kinds reasons out"),
    ];
    let mut desk = Desk::default();
    for (line, answer) in talk {
        let got = desk.answer(line.as_bytes());
        assert_eq!(got.as_deref(), Some(answer), "{line}");
    }
}
