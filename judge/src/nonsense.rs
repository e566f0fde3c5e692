//! Lines that are no command, whose numbers don't fit their place, or that ask
//! for more room than there is; and their neighbours that just fit.

use crate::console::{self, INDEX_ROOM, NUMBERS_ROOM, OUTPUT_ROOM, RECORD_ROOM};
use crate::dice::Dice;
use crate::reading::TEXT_ROOM;

/// One such line. The revision is one that would be right.
pub fn line(dice: &mut Dice, revision: u64) -> String {
    if dice.chance(1, 60) {
        return more_than_the_room(dice);
    }
    let bad = dice.pick(&BAD_NUMBERS);
    match dice.below(19) {
        0 => format!("open {bad}"),
        1 => format!("step {revision} {bad}"),
        2 => format!("step {bad} 0"),
        3 => format!("run {revision} {}", dice.pick(&BAD_BUDGETS)),
        4 => format!("run {revision} 1 1 {bad} 2"),
        5 => format!("page {bad} 1"),
        6 => format!("page 0 1 {bad}"),
        7 => format!("session {bad} 0 0"),
        8 => format!("block 0 0 0 6 6 {}", dice.pick(&BAD_WORDS)),
        9 => format!("kinds 0 {bad}"),
        10 => format!("out 1 {bad}"),
        11 => format!("reasons 1 {bad}"),
        12 => format!("counted {revision} {}", dice.pick(&BAD_BUDGETS)),
        13 => format!("counted {revision} 1 1 {bad} 2"),
        14 => format!("{} 0 {bad}", dice.pick(&["trues", "opens", "index"])),
        15 => format!("numbers {bad}"),
        16 => format!("plain {bad}"),
        17 => format!("shown {bad}"),
        _ => dice.pick(&BAD_LINES).to_string(),
    }
}

/// A buffer at the limit of its room, or one word over it.
fn more_than_the_room(dice: &mut Dice) -> String {
    let rooms = [
        ("lits", RECORD_ROOM),
        ("kinds", RECORD_ROOM),
        ("reasons", RECORD_ROOM),
        ("out", OUTPUT_ROOM),
        ("trues", NUMBERS_ROOM),
        ("opens", NUMBERS_ROOM),
        ("index", INDEX_ROOM),
    ];
    let (command, room) = dice.pick(&rooms);
    console::line(command, &vec![0; room + dice.below(2)])
}

/// The same about texts.
pub fn about_texts(dice: &mut Dice) -> String {
    if dice.chance(1, 40) {
        return console::line("text", &vec![0; TEXT_ROOM + dice.below(2)]);
    }
    let bad = dice.pick(&BAD_NUMBERS);
    match dice.below(7) {
        0 => format!("text 112 {bad}"),
        1 => format!("pieces 1 {bad}"),
        2 => format!("read {bad}"),
        3 => format!("words {bad}"),
        4 => format!("write {bad}"),
        5 => format!("bytes {bad}"),
        _ => dice.pick(&BAD_TEXT_LINES).to_string(),
    }
}

/// Numbers that fit no place, or one kind of place only.
const BAD_NUMBERS: [&str; 14] = [
    "-1",
    "-2147483648",
    "-2147483649",
    "2147483647",
    "2147483648",
    "4294967295",
    "4294967296",
    "18446744073709551616",
    "340282366920938463463374607431768211456",
    "256",
    "+1",
    "-",
    "0x1",
    "1,",
];

/// Numbers that are no budget. (A large one that fits could be a long search.)
const BAD_BUDGETS: [&str; 6] = ["-1", "4294967296", "18446744073709551615", "+1", "-", "1e3"];

/// Words that no block can hold.
const BAD_WORDS: [&str; 6] = ["2147483648", "-2147483649", "4294967302", "+6", "6.", "--6"];

const BAD_LINES: [&str; 20] = [
    "help",
    "Show",
    "show 1",
    "shows",
    "open",
    "open 1 1",
    "step 0",
    "step 0 0 0",
    "run 0",
    "run",
    "page 0",
    "session 0 0 3",
    "session 0 0",
    "session 1 1 1 1",
    "counted 0",
    "counted",
    "number",
    "true",
    "show\t",
    " #",
];

const BAD_TEXT_LINES: [&str; 12] = [
    "texts", "Text 112", "text p", "read\t", "pieces a", "piece 1", "word", "words -", "writes",
    "Write", "byte", "bytes\t",
];
