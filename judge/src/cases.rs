//! The worked cases of docs/SPEC.md, as blocks; the cases of the check:
//! for each row blocks that only this row refuses, and for each two neighbouring
//! rows a block that breaks both; and talks, which ask for more than a check.

use crate::block::{lay_out, ROWS};
use crate::console::line;

/// A block with the number that its check must give.
pub struct Case {
    pub name: String,
    pub block: Vec<i32>,
    pub number: u8,
}

/// "source example 1, a d b c as 1 2 3 4".
pub const A: [i32; 28] = [
    4, 5, 13, 6, 10, 15, 1, -2, 3, 4, 3, 5, 7, 10, 13, -1, -2, 3, -2, -3, 3, 4, 1, -2, -4, 2, 3, -4,
];

/// "0 0 0 6 6 6: Valid, 1 step."
pub const E: [i32; 6] = [0, 0, 0, 6, 6, 6];

/// "0 1 0 6 6 7 0: Unsat, 1 step."
pub const F: [i32; 7] = [0, 1, 0, 6, 6, 7, 0];

/// The block of the listing's cases G and H.
pub const G: [i32; 19] = [4, 3, 6, 6, 10, 13, 1, 2, -3, 4, 2, 4, 6, 1, 2, -3, 4, 3, -4];

/// "prefix -1 2, clauses {2,-1} {-2,1}".
pub fn b() -> Vec<i32> {
    lay_out(&[-1, 2], &[vec![2, -1], vec![-2, 1]])
}

/// "the same clauses, prefix 1 -2".
pub fn c() -> Vec<i32> {
    lay_out(&[1, -2], &[vec![2, -1], vec![-2, 1]])
}

/// "prefix 1 -2 3, clauses {1,-2} {-1,2}".
pub fn d() -> Vec<i32> {
    lay_out(&[1, -2, 3], &[vec![1, -2], vec![-1, 2]])
}

/// "prefix -1 2, clauses {2,1} {-2,-1}".
pub fn i() -> Vec<i32> {
    lay_out(&[-1, 2], &[vec![2, 1], vec![-2, -1]])
}

/// "prefix -1 2, clause {1}".
pub fn j() -> Vec<i32> {
    lay_out(&[-1, 2], &[vec![1]])
}

/// "word -2147483648 as a clause literal".
pub fn l() -> Vec<i32> {
    lay_out(&[1], &[vec![1], vec![i32::MIN]])
}

/// Prefix 1 2, the clauses 1 1 and 2 -1: only row 23 refuses.
pub fn n() -> Vec<i32> {
    lay_out(&[1, 2], &[vec![1, 1], vec![2, -1]])
}

/// Prefix 1 2, the clauses 1 1 and 2 -2: 23 in the first, 10 in the second.
pub fn o() -> Vec<i32> {
    lay_out(&[1, 2], &[vec![1, 1], vec![2, -2]])
}

/// A block with these counts that is right in all else, as far as no clause has
/// more literals than there are variables: the variables in turn, all positive,
/// spread evenly over the clauses.
pub fn of_counts(v: usize, c: usize, t: usize) -> Vec<i32> {
    let prefix: Vec<i32> = (1..=v as i32).collect();
    let mut clauses = vec![Vec::new(); c];
    for word in 0..t {
        clauses[(word * c / t).min(c - 1)].push((word % v) as i32 + 1);
    }
    lay_out(&prefix, &clauses)
}

/// All cases of the check, in the order in which they are written out.
pub fn check_cases() -> Vec<Case> {
    let mut cases = by_hand();
    cases.extend(at_the_limits());
    cases.extend(accepted());
    cases.extend(alone().into_iter().map(|(row, block)| Case {
        name: format!("only row {row} refuses"),
        block,
        number: row,
    }));
    cases.extend(neighbours().into_iter().map(|(row, block)| Case {
        name: format!("rows {row} and {} both refuse", after(row)),
        block,
        number: row,
    }));
    cases
}

/// The row that is looked at next.
pub fn after(row: u8) -> u8 {
    let mut later = ROWS.into_iter().skip_while(|&other| other != row).skip(1);
    later.next().expect("a row that is not the last")
}

fn case(name: &str, number: u8, block: &[i32]) -> Case {
    Case {
        name: name.to_string(),
        block: block.to_vec(),
        number,
    }
}

fn by_hand() -> Vec<Case> {
    vec![
        case("A", 0, &A),
        case("B", 0, &b()),
        case("C", 7, &c()),
        case("D", 0, &d()),
        case("E", 0, &E),
        case("F", 0, &F),
        case("G", 0, &G),
        case("I", 0, &i()),
        case("J", 0, &j()),
        case("L", 9, &l()),
        case("N", 23, &n()),
        case("O", 10, &o()),
    ]
}

/// Each count at its limit is in range, and one more of any is refused with 2.
fn at_the_limits() -> Vec<Case> {
    vec![
        case(
            "M: all three at their limits",
            0,
            &of_counts(1024, 4096, 8192),
        ),
        case("M: V 1025", 2, &of_counts(1025, 4096, 8192)),
        case("M: C 4097", 2, &of_counts(1024, 4097, 8192)),
        case("M: T 8193", 2, &of_counts(1024, 4096, 8193)),
        case("M: V 1024 alone", 0, &of_counts(1024, 1, 1)),
        case("M: C 4096 alone", 0, &of_counts(1, 4096, 1)),
        case("M: T 8192 in full clauses", 0, &of_counts(1024, 8, 8192)),
        case("M: V 1025 alone", 2, &of_counts(1025, 1, 1)),
        case("M: C 4097 alone", 2, &of_counts(1, 4097, 1)),
        case("M: T 8193 in full clauses", 2, &of_counts(1024, 9, 8193)),
    ]
}

/// What comes near to a refusal and gets none.
fn accepted() -> Vec<Case> {
    let both = lay_out(&[1], &[vec![1], vec![-1]]);
    let again = lay_out(&[2, -1, 3], &[vec![-1, 3], vec![3, -1], vec![3]]);
    let empty = lay_out(&[1], &[vec![], vec![1], vec![], vec![]]);
    vec![
        case("both signs, in two clauses", 0, &both),
        case("a literal again, in other clauses", 0, &again),
        case("clauses without literals", 0, &empty),
        case("no clauses", 0, &lay_out(&[-2, 1], &[])),
    ]
}

/// Blocks that only the named row refuses.
pub fn alone() -> Vec<(u8, Vec<i32>)> {
    let mut cases = alone_in_header();
    cases.extend(alone_in_prefix());
    cases.extend(alone_in_clauses());
    cases
}

fn alone_in_header() -> Vec<(u8, Vec<i32>)> {
    vec![
        (1, vec![]),
        (1, vec![0, 0]),
        (2, lay_out(&(1..=1025).collect::<Vec<i32>>(), &[])),
        (2, vec![-1, 1, 0, 6, 5, 6]),
        (2, vec![1, -1, 0, 6, 7, 6]),
        (2, vec![0, 1, -1, 6, 6, 7]),
        (3, vec![0, 0, 0, 7, 6, 6]),
        (3, vec![1, 0, 0, 6, 6, 7, 1]),
        (3, vec![0, 0, 0, 6, 6, 7]),
        (3, vec![1, 1, 1, i32::MIN, i32::MIN, i32::MIN, 1, 1, 1]),
        (4, vec![0, 0, 0, 6, 6, 6, 0]),
        (4, vec![1, 1, 1, 6, 7, 8, 1, 1]),
        (4, vec![1024, 4096, 8192, 6, 1030, 5126]),
    ]
}

fn alone_in_prefix() -> Vec<(u8, Vec<i32>)> {
    vec![
        (5, lay_out(&[0], &[])),
        (5, lay_out(&[2], &[])),
        (5, lay_out(&[-3, 1], &[])),
        (5, lay_out(&[i32::MIN, 1], &[])),
        (5, lay_out(&[i32::MAX, 1], &[])),
        (6, lay_out(&[1, 1], &[])),
        (6, lay_out(&[-2, 2], &[vec![2]])),
        (6, lay_out(&[3, -1, 3], &[])),
        (7, lay_out(&[-1], &[])),
        (7, lay_out(&[1, -2], &[vec![1, -2]])),
    ]
}

fn alone_in_clauses() -> Vec<(u8, Vec<i32>)> {
    vec![
        (8, vec![1, 2, 1, 6, 7, 9, 1, -1, 1, 1]),
        (8, vec![1, 3, 1, 6, 7, 10, 1, 1, 0, 1, 1]),
        (8, vec![1, 2, 1, 6, 7, 9, 1, 2, 1, 1]),
        (8, vec![1, 1, 1, 6, 7, 8, 1, 2, 1]),
        (8, vec![1, 1, 1, 6, 7, 8, 1, 0, 1]),
        (8, vec![1, 0, 1, 6, 7, 7, 1, 1]),
        (8, vec![1, 2, 1, 6, 7, 9, 1, i32::MIN, 1, 1]),
        (9, lay_out(&[1], &[vec![0]])),
        (9, lay_out(&[1], &[vec![1], vec![2]])),
        (9, lay_out(&[1], &[vec![-2]])),
        (9, lay_out(&[1], &[vec![i32::MIN]])),
        (9, lay_out(&[], &[vec![1]])),
        (10, lay_out(&[1], &[vec![1, -1]])),
        (10, lay_out(&[2, -3, 1], &[vec![1], vec![-3, 2, 3]])),
        (10, lay_out(&[1, 2], &[vec![-2, -1, 2]])),
        (23, lay_out(&[1], &[vec![1, 1]])),
        (23, lay_out(&[1], &[vec![1], vec![-1, -1]])),
        (23, lay_out(&[2, -1, 3], &[vec![3, -1, 2, 3], vec![2]])),
        (23, lay_out(&[2, -1, 3], &[vec![-1, 3, -1, 3, 3]])),
    ]
}

/// For each two neighbouring rows, by the lower one, a block that breaks both.
pub fn neighbours() -> Vec<(u8, Vec<i32>)> {
    vec![
        (1, vec![-1]),
        (2, vec![1025, 0, 0, 6, 6, 6]),
        (3, vec![0, 0, 0, 6, 6, 7, 0]),
        (4, vec![1, 0, 0, 6, 7, 7, 0, 9]),
        (5, lay_out(&[1, 1, 0], &[])),
        (6, lay_out(&[1, -1], &[])),
        (7, vec![1, 0, 1, 6, 7, 7, -1, 1]),
        (8, vec![1, 0, 1, 6, 7, 7, 1, 0]),
        (9, lay_out(&[1], &[vec![0, 1, -1]])),
        (10, lay_out(&[1, 2], &[vec![-2, -1, -2, 2]])),
        (10, lay_out(&[1, 2], &[vec![1, -1], vec![2, 2]])),
        (10, o()),
    ]
}

/// Lines with the answers that they must get, on one desk.
pub struct Talk {
    pub name: &'static str,
    pub lines: Vec<(String, String)>,
}

impl Talk {
    /// A desk with this block, the first session, a record of V places and this
    /// much output, none of them 0 before.
    fn at(name: &'static str, block: &[i32], room: usize) -> Talk {
        let v = block[0] as usize;
        let mut talk = Talk {
            name,
            lines: Vec::new(),
        };
        talk.say(&line("block", block), "block 0");
        talk.say("session 0 0 0", "session");
        talk.say(&line("lits", &vec![9; v]), &format!("lits {v}"));
        talk.say(&line("kinds", &vec![9; v]), &format!("kinds {v}"));
        talk.say(&line("reasons", &vec![9; v]), &format!("reasons {v}"));
        talk.say(&line("out", &vec![7; room]), &format!("out {room}"));
        talk
    }

    fn say(&mut self, line: &str, answer: &str) {
        self.lines.push((line.to_string(), answer.to_string()));
    }
}

pub fn talks() -> Vec<Talk> {
    vec![
        eight_steps(),
        eight_steps_counted(),
        numbers_of_row_11(),
        reasons_of_rows_11_and_12(),
        lowest_clauses(),
        least_word(),
        largest_first_group(),
        first_group_too_large(),
        largest_block(),
        most_levels(),
        paused_after_entries(),
        repeated_on_short_buffers(),
        small_second_opinions(),
        large_second_opinions(),
        shown_at_ends(),
        shown_of_any_record(),
        names_of_all_lines(),
    ]
}

/// A's eight steps, each with its reason. What 3 was put for goes with it when the
/// record is cut, and a run answers its last step's reason.
fn eight_steps() -> Talk {
    let mut talk = Talk::at("A: why", &A, 0);
    talk.say("open 0", "open 0 0 0 0");
    talk.say("run 0 0", "run 0 0 0 0 0 0");
    talk.say("step 0 0", "step 0 1 1 0 0");
    talk.say("step 1 0", "step 0 2 2 0 0");
    talk.say("step 2 0", "step 0 3 3 0 1");
    let unit = "show 3 3 0 lits 1 2 3 0 kinds 1 2 0 0 reasons 0 0 1 0 out";
    talk.say("show", unit);
    talk.say("step 3 0", "step 0 1 4 0 2");
    let cut = "show 1 4 0 lits -1 0 0 0 kinds 0 0 0 0 reasons 0 0 0 0 out";
    talk.say("show", cut);
    talk.say("step 4 0", "step 0 2 5 0 0");
    talk.say("step 5 0", "step 0 3 6 0 2");
    talk.say("step 6 0", "step 0 4 7 0 3");
    talk.say("step 7 0", "step 0 4 8 2 4");
    let ended = "show 4 8 2 lits -1 2 -3 4 kinds 0 2 0 0 reasons 0 0 2 3 out";
    talk.say("show", ended);
    talk.say("open 8", "open 0 0 8 0");
    talk.say("run 8 3", "run 0 3 11 0 3 1");
    talk.say("run 11 2", "run 0 2 13 0 2 0");
    talk.say("run 13 9", "run 0 4 16 2 3 4");
    talk
}

/// A's eight steps, counted: after each the true literals of each clause, and its
/// existential literals that are unassigned. Past the five clauses nothing is written.
/// A step between two counted runs, and a run, change no number.
fn eight_steps_counted() -> Talk {
    let mut talk = Talk::at("A: counted", &A, 0);
    talk.say("trues 9 9 9 9 9 8 7", "trues 7");
    talk.say("opens 9 9 9 9 9 6", "opens 6");
    talk.say(&line("index", &[5; 17]), "index 17");
    talk.say("open 0", "open 0 0 0 0");
    for (ask, answer, trues, opens) in [
        ("0 0", "0 0 0 0 0", "0 0 0 0 0", "2 1 2 2 2"),
        ("0 1", "1 1 0 1 0", "0 0 0 1 0", "1 1 2 1 2"),
        ("1 1", "2 2 0 1 0", "0 0 0 1 1", "1 1 2 1 2"),
        ("2 1", "3 3 0 1 1", "1 0 1 1 2", "0 0 1 1 1"),
        ("3 1", "1 4 0 1 2", "1 0 0 0 0", "1 1 2 1 2"),
        ("4 1", "2 5 0 1 0", "1 0 0 0 1", "1 1 2 1 2"),
        ("5 1", "3 6 0 1 2", "1 1 0 0 1", "0 0 1 1 1"),
        ("6 1", "4 7 0 1 3", "1 1 1 0 1", "0 0 0 0 0"),
        ("7 1", "4 8 2 1 4", "1 1 1 0 1", "0 0 0 0 0"),
    ] {
        talk.say(&format!("counted {ask}"), &format!("counted 0 {answer}"));
        let numbers = format!("numbers trues {trues} 8 7 opens {opens} 6");
        talk.say("numbers", &numbers);
    }
    let ended = "show 4 8 2 lits -1 2 -3 4 kinds 0 2 0 0 reasons 0 0 2 3 out";
    talk.say("show", ended);
    talk.say("counted 8 1", "counted 13");
    talk.say("open 0", "open 0 0 0 0");
    talk.say("counted 0 1 -1", "counted 0 1 1 0 1 0");
    let turned = "numbers trues 1 0 0 0 0 8 7 opens 1 1 2 1 2 6";
    talk.say("numbers", turned);
    talk.say("step 1 0", "step 0 2 2 0 0");
    talk.say("run 2 1", "run 0 3 3 0 1 2");
    talk.say("numbers", turned);
    talk.say("counted 3 0", "counted 0 3 3 0 0 0");
    talk.say("numbers", "numbers trues 1 1 0 0 1 8 7 opens 0 0 1 1 1 6");
    // 4 is forced; the choice of -1 is turned; 2, 3, and the second clause fails.
    talk.say("counted 3 4294967295", "counted 0 3 8 2 5 2");
    talk.say("numbers", "numbers trues 1 0 1 1 2 8 7 opens 0 0 1 1 1 6");
    talk
}

/// A has 5 clauses, and 4 variables and 13 literal words: numbers of 4 places and an
/// index of 16 are too short. What is refused leaves them. A run asks for none of them.
fn numbers_of_row_11() -> Talk {
    let mut talk = Talk::at("A: numbers that are too short", &A, 0);
    talk.say("open 0", "open 0 0 0 0");
    for (trues, opens, index) in [(4, 5, 17), (5, 4, 17), (5, 5, 16), (0, 0, 0)] {
        talk.say(&line("trues", &vec![7; trues]), &format!("trues {trues}"));
        talk.say(&line("opens", &vec![8; opens]), &format!("opens {opens}"));
        talk.say(&line("index", &vec![9; index]), &format!("index {index}"));
        talk.say("counted 0 1", "counted 11");
        // 11 comes before 14.
        talk.say("counted 1 1", "counted 11");
        let trues = line("numbers trues", &vec![7; trues]);
        talk.say(
            "numbers",
            &format!("{trues}{}", line(" opens", &vec![8; opens])),
        );
    }
    talk.say("run 0 0", "run 0 0 0 0 0 0");
    talk.say("session 5 0 0", "session");
    // 11 before 12, and 12 where there is room.
    talk.say("counted 0 1", "counted 11");
    talk.say(&line("trues", &[7; 5]), "trues 5");
    talk.say(&line("opens", &[8; 5]), "opens 5");
    talk.say(&line("index", &[9; 17]), "index 17");
    talk.say("counted 0 1", "counted 12");
    talk.say("session 0 0 0", "session");
    talk.say("counted 1 1", "counted 14");
    talk.say("numbers", "numbers trues 7 7 7 7 7 opens 8 8 8 8 8");
    talk.say("counted 0 0", "counted 0 0 0 0 0 0");
    talk.say("numbers", "numbers trues 0 0 0 0 0 opens 2 1 2 2 2");
    // 23 before 11.
    talk.say("trues", "trues 0");
    talk.say(&line("block", &n()), "block 23");
    talk.say("counted 0 1", "counted 23");
    talk
}

/// A's record after its third step, and what may stand beside it: five clauses, so
/// 5 is a reason and 6 is none, and a decision has none. Past the record anything
/// may stand. A page asks for no reasons, and leaves them.
fn reasons_of_rows_11_and_12() -> Talk {
    let mut talk = Talk::at("A: reasons that are no reasons", &A, 2);
    talk.say("lits 1 2 3 0", "lits 4");
    talk.say("kinds 1 2 0 0", "kinds 4");
    talk.say("session 3 3 0", "session");
    for (reasons, count, number) in [
        ("0 0 1", 3, 11),
        ("", 0, 11),
        ("0 0 6 0", 4, 12),
        ("0 0 4294967295 0", 4, 12),
        ("1 0 1 0", 4, 12),
        ("0 5 1 0", 4, 12),
        ("6 0 0 0", 4, 12),
    ] {
        let line = format!("reasons {reasons}");
        talk.say(line.trim_end(), &format!("reasons {count}"));
        talk.say("step 3 0", &format!("step {number}"));
        talk.say("run 3 1", &format!("run {number}"));
    }
    talk.say("reasons 0 0 5 6 7", "reasons 5");
    talk.say("run 3 0", "run 0 3 3 0 0 0");
    talk.say("step 3 0", "step 0 1 4 0 2");
    let cut = "show 1 4 0 lits -1 0 0 0 kinds 0 0 0 0 reasons 0 0 0 6 7 out 7 7";
    talk.say("show", cut);
    talk.say("reasons 6 6 6", "reasons 3");
    talk.say("open 0", "open 11");
    talk.say("page 0 100", "page 0 2 0 0");
    let paged = "show 1 4 0 lits 0 0 0 0 kinds 0 0 0 0 reasons 6 6 6 out 7 7";
    talk.say("show", paged);
    talk
}

/// The clauses {1,2} {-1} {-1} {-2}: the second is the first unit, then the first;
/// then the fourth is in conflict. Of two empty clauses the lower one is named.
fn lowest_clauses() -> Talk {
    let clauses = [vec![1, 2], vec![-1], vec![-1], vec![-2]];
    let block = lay_out(&[1, 2], &clauses);
    let mut talk = Talk::at("the lowest clause is the reason", &block, 0);
    talk.say("open 0", "open 0 0 0 0");
    talk.say("step 0 0", "step 0 1 1 0 2");
    talk.say("step 1 0", "step 0 2 2 0 1");
    talk.say("step 2 0", "step 0 2 3 2 4");
    let ended = "show 2 3 2 lits -1 2 kinds 0 0 reasons 2 1 out";
    talk.say("show", ended);
    let empty = lay_out(&[1, 2], &[vec![1], vec![], vec![2], vec![]]);
    talk.say(&line("block", &empty), "block 0");
    talk.say("open 0", "open 0 0 0 0");
    talk.say("run 0 5", "run 0 0 1 2 1 2");
    talk
}

/// "word -2147483648 as a clause literal gives 9, as a proposal at Decide 17, as
/// a preference it is skipped."
fn least_word() -> Talk {
    let mut talk = Talk::at("L: the least word in all three places", &A, 0);
    talk.say("open 0", "open 0 0 0 0");
    talk.say("step 0 -2147483648", "step 17");
    let fresh = "show 0 0 0 lits 0 0 0 0 kinds 0 0 0 0 reasons 0 0 0 0 out";
    talk.say("show", fresh);
    talk.say("run 0 1 -2147483648 -1", "run 0 1 1 0 1 0");
    let decided = "show 1 1 0 lits -1 0 0 0 kinds 1 0 0 0 reasons 0 0 0 0 out";
    talk.say("show", decided);
    talk.say(&line("block", &l()), "block 9");
    talk
}

/// G's clauses with as many variables in the first group as there can be, listed
/// near the end, 2^20 = 1048576. The openings win whose last two bits are not both
/// 0. 1048568 is 1111 1111 1111 1111 1000 in bits, so it has 17 ones and loses, as
/// does 1048572; the other six up to 1048575 win.
fn largest_first_group() -> Talk {
    let block = with_first_group(20);
    let mut talk = Talk::at("a first group of 20 variables", &block, 13);
    talk.say(
        "page 1048568 100",
        "page 0 1048576 6 0 1048569 18 1048570 18 1048571 19 1048573 19 1048574 19 1048575 20",
    );
    talk.say("out 7 7 7 7 7", "out 5");
    talk.say(
        "page 1048568 100",
        "page 0 1048571 2 0 1048569 18 1048570 18",
    );
    talk.say("page 1048571 4", "page 0 1048571 0 1");
    talk.say("page 1048576 0", "page 0 1048576 0 0");
    talk.say("page 1048577 0", "page 20");
    talk
}

/// One variable more in the first group: no page, but a session as ever.
fn first_group_too_large() -> Talk {
    let block = with_first_group(21);
    let mut talk = Talk::at("a first group of 21 variables", &block, 2);
    talk.say("page 0 100", "page 19");
    talk.say("page 4294967295 0", "page 19");
    talk.say("open 0", "open 0 0 0 0");
    talk.say("page 0 100", "page 19");
    talk
}

/// G with k variables in the first group: the clause of 1 and 2 is that of its
/// last two, and the universal variable and its copy come after it.
fn with_first_group(k: i32) -> Vec<i32> {
    let (universal, copy) = (k + 1, k + 2);
    let mut prefix: Vec<i32> = (1..=k).collect();
    prefix.extend([-universal, copy]);
    let copied = [vec![-universal, copy], vec![universal, -copy]];
    lay_out(&prefix, &[vec![vec![k - 1, k]], copied.to_vec()].concat())
}

/// All counts at their limits: the clauses {1, 2}, {3, 4} and so on to {1023, 1024},
/// eight times over. Monotone appends the odd variables, after which no clause
/// counts; the even ones are decided, the last of them first and as false. Then
/// Succeed.
fn largest_block() -> Talk {
    let mut talk = Talk::at("the largest block", &of_counts(1024, 4096, 8192), 2);
    talk.say("open 0", "open 0 0 0 0");
    talk.say("run 0 511", "run 0 511 511 0 511 0");
    talk.say("step 511 1024", "step 16");
    talk.say("step 511 0", "step 0 512 512 0 0");
    talk.say("step 512 1025", "step 17");
    talk.say("step 512 -1024", "step 0 513 513 0 0");
    talk.say("step 513 1024", "step 17");
    talk.say("run 513 4294967295", "run 0 1024 1025 1 512 0");
    let odd = (1..1024).step_by(2);
    let even = (2..1024).step_by(2);
    let literals: Vec<i32> = odd.chain([-1024]).chain(even).collect();
    let kinds = [[0; 512], [1; 512]].concat();
    talk.say(
        "show",
        &shown("show 1024 1025 1", &literals, &kinds, &[0; 1024], " 7 7"),
    );
    talk.say("page 0 1", "page 19");
    talk
}

/// As many levels as there can be, 0 to 1023: the odd variables are universal, and
/// v has level v - 1. So {1023, 1024} is no unit, {-1023, 1022} is one, and so is
/// {1024} after it. All others are decided then, in order, and 1023 is the first
/// to be turned and 1021 the second.
fn most_levels() -> Talk {
    let prefix: Vec<i32> = (1..=1024)
        .map(|v| if v % 2 == 1 { -v } else { v })
        .collect();
    let clauses = [vec![1023, 1024], vec![-1023, 1022], vec![1024]];
    let mut talk = Talk::at(
        "as many levels as there can be",
        &lay_out(&prefix, &clauses),
        0,
    );
    talk.say("open 0", "open 0 0 0 0");
    talk.say("step 0 0", "step 0 1 1 0 2");
    talk.say("step 1 0", "step 0 2 2 0 3");
    talk.say("step 2 2", "step 17");
    talk.say("run 2 1022", "run 0 1024 1024 0 1022 0");
    let mut literals: Vec<i32> = [1022, 1024].into_iter().chain(1..=1021).collect();
    literals.push(1023);
    let decided = |literal: &i32| if literal % 2 == 1 { 2 } else { 1 };
    let mut kinds: Vec<i32> = literals.iter().map(decided).collect();
    kinds[..2].fill(0);
    let mut reasons = [0; 1024];
    reasons[..2].copy_from_slice(&[2, 3]);
    talk.say(
        "show",
        &shown("show 1024 1024 0", &literals, &kinds, &reasons, ""),
    );
    talk.say("step 1024 0", "step 0 1024 1025 0 0");
    talk.say("step 1025 0", "step 0 1023 1026 0 0");
    literals[1022..].copy_from_slice(&[-1021, 0]);
    kinds[1022..].fill(0);
    talk.say(
        "show",
        &shown("show 1023 1026 0", &literals, &kinds, &reasons, ""),
    );
    talk
}

/// What `show` answers.
fn shown(session: &str, literals: &[i32], kinds: &[i32], reasons: &[u32], output: &str) -> String {
    let literals = line(" lits", literals);
    let kinds = line(" kinds", kinds);
    let reasons = line(" reasons", reasons);
    format!("{session}{literals}{kinds}{reasons} out{output}")
}

/// G with two more variables: where 1 is true, the first choice for 5 leads to
/// conflict, so the openings 2 and 3 ask for 13 steps, and opening 1 for 9.
fn paused_after_entries() -> Talk {
    let g = [vec![1, 2], vec![-3, 4], vec![3, -4]];
    let more = [vec![-1, -5, 6], vec![-1, -5, -6], vec![-1, 5, 6]];
    let block = lay_out(&[1, 2, -3, 4, 5, 6], &[g, more].concat());
    let mut talk = Talk::at("a page that pauses after an entry", &block, 6);
    talk.say("page 0 8", "page 0 1 0 1");
    talk.say("page 0 12", "page 0 2 1 1 1 1");
    talk.say(
        "show",
        "show 0 0 0 lits 0 0 0 0 0 0 kinds 0 0 0 0 0 0 reasons 9 9 9 9 9 9 out 1 1 7 7 7 7",
    );
    talk.say("page 2 12", "page 0 2 0 1");
    talk.say("page 2 13", "page 0 4 2 0 2 1 3 2");
    talk
}

/// 23 "before 11": a record of no places, and a block with a repeated literal.
fn repeated_on_short_buffers() -> Talk {
    let name = "N: a repeated literal, and record buffers that are too short";
    let lines = Vec::new();
    let mut talk = Talk { name, lines };
    talk.say(&line("block", &n()), "block 23");
    talk.say("session 0 0 0", "session");
    talk.say("lits", "lits 0");
    talk.say("kinds", "kinds 0");
    talk.say("reasons", "reasons 0");
    talk.say("open 0", "open 23");
    talk.say("step 0 0", "step 23");
    talk.say("run 0 1", "run 23");
    talk.say("page 0 1", "page 23");
    talk.say(&line("block", &b()), "block 0");
    talk.say("open 0", "open 11");
    talk
}

/// What `help` lists, and that the desk is as it was.
fn names_of_all_lines() -> Talk {
    let mut talk = Talk::at("the names of all lines", &A, 1);
    let names = "help block lits kinds reasons out session open step run page show text read pieces words write bytes trues opens index counted numbers plain shown help";
    talk.say("help", names);
    talk.say("help 1", "?");
    let desk = "show 0 0 0 lits 9 9 9 9 kinds 9 9 9 9 reasons 9 9 9 9 out 7";
    talk.say("show", desk);
    talk
}

/// The worked cases once more, by the truth alone. Nothing else on the desk is looked at
/// or written.
fn small_second_opinions() -> Talk {
    let mut talk = Talk::at("the worked cases, a second opinion", &A, 1);
    talk.say("session 9 9 2", "session");
    talk.say("plain", "plain 0 2");
    let desk = "show 9 9 2 lits 9 9 9 9 kinds 9 9 9 9 reasons 9 9 9 9 out 7";
    talk.say("show", desk);
    for (block, answer) in [
        (b(), "plain 0 1"),
        (d(), "plain 0 2"),
        (E.to_vec(), "plain 0 1"),
        (F.to_vec(), "plain 0 2"),
        (G.to_vec(), "plain 0 1"),
        (i(), "plain 0 1"),
        (j(), "plain 0 2"),
    ] {
        talk.say(&line("block", &block), "block 0");
        talk.say("plain", answer);
    }
    talk.say(&line("block", &c()), "block 7");
    talk.say("plain", "plain 7");
    talk.say(&line("block", &n()), "block 23");
    talk.say("plain", "plain 23");
    talk.say("show", desk);
    talk
}

/// J's counter-example, an opening that wins, and ends that show none: A's, and a Valid
/// one behind a universal group. The desk is as it was, its output too.
fn shown_at_ends() -> Talk {
    let mut talk = Talk::at("J: its counter-example, and other ends", &j(), 1);
    talk.say("open 0", "open 0 0 0 0");
    talk.say("shown", "shown 32");
    talk.say("run 0 9", "run 0 0 1 2 1 1");
    talk.say("shown", "shown 0 -1");
    talk.say("shown 1", "?");
    talk.say("show", "show 0 1 2 lits 0 0 kinds 0 0 reasons 0 0 out 7");
    let opening = lay_out(&[2, 1, -3, 4], &[vec![-2, 3], vec![-3, 4]]);
    talk.say(&line("block", &opening), "block 0");
    talk.say("shown", "shown 11");
    talk.say("lits 9 9 9 9", "lits 4");
    talk.say("kinds 9 9 9 9 9", "kinds 5");
    // Row 11 doesn't ask for reasons here; an opening does.
    talk.say("session 0 0 1", "session");
    talk.say("shown", "shown 0 2 1");
    talk.say("reasons 9 9 9 9", "reasons 4");
    talk.say("open 0", "open 0 0 0 0");
    talk.say("run 0 9 -1", "run 0 4 5 1 5 0");
    talk.say("shown", "shown 0 -2 -1");
    talk.say(&line("block", &A), "block 0");
    talk.say("open 0", "open 0 0 0 0");
    talk.say("run 0 99", "run 0 4 8 2 8 4");
    talk.say("shown", "shown 32");
    talk.say(&line("block", &lay_out(&[-1, 2], &[vec![2]])), "block 0");
    talk.say("session 0 0 1", "session");
    talk.say("shown", "shown 32");
    talk.say(&line("block", &lay_out(&[], &[])), "block 0");
    talk.say("shown", "shown 0");
    talk.say("session 0 0 2", "session");
    talk.say("shown", "shown 32");
    talk
}

/// Records that no call has led to: an entry counts, a variable without one is held
/// against the lowest clause in conflict, and is true with none. Row 12 comes before
/// row 32, and looks at no reason.
fn shown_of_any_record() -> Talk {
    let prefix = [-2, -1, -4, 3];
    let two = [vec![1, -2], vec![4, 2]];
    let mut talk = Talk::at("what any record shows", &lay_out(&prefix, &two), 0);
    talk.say("session 0 0 2", "session");
    talk.say("shown", "shown 0 2 -1 4");
    let turned = [vec![4, 2], vec![1, -2]];
    talk.say(&line("block", &lay_out(&prefix, &turned)), "block 0");
    talk.say("shown", "shown 0 -2 1 -4");
    // The first clause has a true literal now, so the second is the lowest.
    talk.say("lits 4 0 0 0", "lits 4");
    talk.say("kinds 2 9 9 9", "kinds 4");
    talk.say("session 1 0 2", "session");
    talk.say("shown", "shown 0 2 -1 4");
    talk.say("lits 4 -2 0 0", "lits 4");
    talk.say("kinds 2 0 9 9", "kinds 4");
    talk.say("session 2 0 2", "session");
    talk.say("shown", "shown 0 -2 1 4");
    talk.say("session 3 0 2", "session");
    talk.say("shown", "shown 12");
    talk.say("session 3 0 0", "session");
    talk.say("shown", "shown 12");
    talk.say("session 5 0 2", "session");
    talk.say("shown", "shown 12");
    talk
}

/// As many variables as a second opinion takes, and one more: that row comes after
/// all rows of the block, 23 among them.
fn large_second_opinions() -> Talk {
    let existential = |v| (1..=v).collect::<Vec<i32>>();
    let universal: Vec<i32> = (1..24).map(|v| -v).chain([24]).collect();
    let block = lay_out(&existential(24), &[vec![24, 1]]);
    let mut talk = Talk::at("24 variables, and 25", &block, 0);
    talk.say("plain", "plain 0 1");
    talk.say(&line("block", &lay_out(&universal, &[vec![]])), "block 0");
    talk.say("plain", "plain 0 2");
    for (clause, check, answer) in [
        (vec![25, 1], 0, 22),
        (vec![25, 25], 23, 23),
        (vec![25, -25], 10, 10),
    ] {
        let block = lay_out(&existential(25), &[clause]);
        talk.say(&line("block", &block), &format!("block {check}"));
        talk.say("plain", &format!("plain {answer}"));
    }
    talk
}
