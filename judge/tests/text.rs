//! The reader of texts on its cases, and what its console lines decide where
//! their table is silent.

use std::collections::BTreeSet;

use judge::block;
use judge::console::{line, Desk};
use judge::dice::Dice;
use judge::reading::TEXT_ROOM;
use judge::sheets::Sheet;
use judge::text::{self, Answer};
use judge::text_cases::text_cases;
use judge::truth::truth;

#[test]
fn every_case_gets_its_answer_and_its_words() {
    for case in text_cases() {
        let mut output = vec![-7; case.room];
        let answer = text::read(&case.text, &mut output).to_string();
        assert_eq!(answer, case.answer, "{}", case.name);
        assert_eq!(output, case.words(), "{}", case.name);
    }
}

/// Each answer, each row of 31 and each two neighbours in the order are there.
#[test]
fn the_cases_have_every_answer() {
    let cases = text_cases();
    let answers = [
        "0 ", "27 ", "28", "29", "30", "31 5", "31 6", "31 7", "31 9", "31 10", "31 23",
    ];
    for answer in answers {
        let count = cases
            .iter()
            .filter(|case| case.answer.starts_with(answer))
            .count();
        assert!(count >= 2, "{answer}");
    }
}

/// "check accepts this block", word for word.
#[test]
fn accepted_blocks_pass_the_check() {
    let mut dice = Dice::new(3);
    let mut accepted = 0;
    for _ in 0..5_000 {
        let sheet = Sheet::random(&mut dice);
        let mut output = vec![9; sheet.length()];
        let answer = text::read(&sheet.spelled(&mut dice), &mut output);
        if let Answer::Block(length) = answer {
            assert_eq!(length, output.len());
            assert_eq!(block::check(&output), 0, "{output:?}");
            accepted += 1;
        }
    }
    assert!(accepted > 3_000, "{accepted}");
}

/// The truth of a text's own formula: free variables existential and outermost,
/// then the lines; variables that nothing names not at all.
fn truth_of(sheet: &Sheet) -> bool {
    let number = |word: &String| word.parse::<i32>().unwrap();
    let clause = |words: &Vec<String>| words.iter().map(number).collect();
    let clauses: Vec<Vec<i32>> = sheet.clauses.iter().map(clause).collect();
    let line = |(letter, words): &(u8, Vec<String>)| {
        let existential = *letter == b'e';
        let bind = |word| (existential, number(word));
        words.iter().map(bind).collect::<Vec<_>>()
    };
    let lines: Vec<(bool, i32)> = sheet.groups.iter().flat_map(line).collect();
    let named = clauses.iter().flatten().map(|literal| literal.abs());
    let free: BTreeSet<i32> = named
        .filter(|&variable| lines.iter().all(|word| word.1 != variable))
        .collect();
    let free = free.into_iter().map(|variable| (true, variable));
    let order: Vec<(bool, i32)> = free.chain(lines.iter().copied()).collect();
    holds(&order, &clauses, &mut Vec::new())
}

fn holds(order: &[(bool, i32)], clauses: &[Vec<i32>], made_true: &mut Vec<i32>) -> bool {
    match order.split_first() {
        None => {
            let is_true = |literal: &i32| made_true.contains(literal);
            clauses.iter().all(|clause| clause.iter().any(is_true))
        }
        Some((&(existential, variable), inner)) => {
            let values = [variable, -variable].map(|literal| {
                made_true.push(literal);
                let value = holds(inner, clauses, made_true);
                made_true.pop();
                value
            });
            if existential {
                values[0] || values[1]
            } else {
                values[0] && values[1]
            }
        }
    }
}

/// "The block's formula is true exactly if the text's own formula is".
#[test]
fn a_block_is_true_as_its_text_is() {
    let mut dice = Dice::new(4);
    let mut judged = [0, 0];
    for _ in 0..4_000 {
        let sheet = Sheet::random(&mut dice);
        let mut output = vec![9; sheet.length()];
        let answer = text::read(&sheet.spelled(&mut dice), &mut output);
        let small = output[0] <= 9;
        if small && matches!(answer, Answer::Block(_)) {
            let formula = block::Formula::read(&output).unwrap();
            let holds = truth_of(&sheet);
            assert_eq!(truth(&formula), holds, "{sheet:?}");
            judged[usize::from(holds)] += 1;
        }
    }
    assert!(judged.iter().all(|&count| count > 300), "{judged:?}");
}

/// The answers to some lines on a fresh desk.
fn check(talk: &[(&str, &str)]) {
    let mut desk = Desk::default();
    for (line, answer) in talk {
        let got = desk.answer(line.as_bytes());
        assert_eq!(got.as_deref(), Some(*answer), "{line}");
    }
}

#[test]
fn a_desk_with_texts() {
    check(&[
        ("words", "words"),
        ("read", "read 27 0"),
        ("pieces", "pieces 27 0"),
        // p cnf 0 0 and a line feed.
        ("text 112 32 99 110 102 32 48 32 48 10", "text 10"),
        ("read", "read 30"),
        ("block 7 7 7 7 7 7 7 7", "block 3"),
        ("read", "read 0 6"),
        ("words", "words 0 0 0 6 6 6 0 0"),
        ("open 0", "open 4"),
        ("block 7 7 7 7 7 7", "block 3"),
        ("pieces 3 0 2 1", "pieces 0 6"),
        ("words", "words 0 0 0 6 6 6"),
        ("open 0", "open 0 0 0 0"),
        ("run 0 9", "run 0 0 1 1 1 0"),
        // Without its line feed: the block is 0, and the session stays.
        ("text 112 32 99 110 102 32 48 32 48", "text 9"),
        ("pieces 8 18446744073709551615 1", "pieces 27 9"),
        ("words", "words 0 0 0 0 0 0"),
        ("show", "show 0 1 1 lits kinds reasons out"),
        // No line of these is a command, and nothing is changed.
        ("text 256", "?"),
        ("text -1", "?"),
        ("text p", "?"),
        ("read 0", "?"),
        ("words 0", "?"),
        ("pieces -1", "?"),
        ("pieces 18446744073709551616", "?"),
        ("pieces 1 x", "?"),
        ("Read", "?"),
        ("read\t", "?"),
        ("read", "read 27 9"),
        ("text -0 007", "text 2"),
        ("  read ", "read 27 0"),
        ("text", "text 0"),
        ("read", "read 27 0"),
    ]);
}

#[test]
fn room() {
    let full = line("text", &vec![32; TEXT_ROOM]);
    let over = line("text", &vec![32; TEXT_ROOM + 1]);
    check(&[
        (&full, "text 65536"),
        (&over, "?"),
        ("read", "read 27 65536"),
    ]);
}
