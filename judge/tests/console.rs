//! The console's lines: its answers, what it decides where the table is silent,
//! and refusals 11 to 21 in their order.

use judge::cases;
use judge::console::{line, Desk, LINE_ROOM};

/// The answers to some lines on a fresh desk, `-` standing for none.
fn answers(lines: &[&str]) -> Vec<String> {
    let mut desk = Desk::default();
    let of = |line: &&str| desk.answer(line.as_bytes());
    lines
        .iter()
        .map(of)
        .map(|answer| answer.unwrap_or("-".to_string()))
        .collect()
}

fn asked(block: &[i32], lines: &[&str]) -> Vec<String> {
    let block = line("block", block);
    let mut all = vec![block.as_str()];
    all.extend(lines);
    answers(&all).split_off(1)
}

/// Lines with their answers, on one desk.
type Talk<'a> = &'a [(&'a str, &'a str)];

fn check(talk: Talk) {
    let lines: Vec<&str> = talk.iter().map(|pair| pair.0).collect();
    for (pair, got) in talk.iter().zip(answers(&lines)) {
        assert_eq!(got, pair.1, "{}", pair.0);
    }
}

const A_WHOLE_DESK: Talk = &[
    ("show", "show 0 0 0 lits kinds reasons out"),
    (
        "block 4 5 13 6 10 15 1 -2 3 4 3 5 7 10 13 -1 -2 3 -2 -3 3 4 1 -2 -4 2 3 -4",
        "block 0",
    ),
    ("lits 7 7 7 7 7", "lits 5"),
    ("kinds 7 7 7 7", "kinds 4"),
    ("reasons 8 8 8 8 8 8", "reasons 6"),
    ("out 9 9", "out 2"),
    ("open 0", "open 0 0 0 0"),
    ("step 0 3", "step 17"),
    ("step 0 1", "step 0 1 1 0 0"),
    ("step 0 -2", "step 14"),
    ("step 1 -2", "step 0 2 2 0 0"),
    (
        "show",
        "show 2 2 0 lits 1 -2 0 0 7 kinds 1 2 0 0 reasons 0 0 0 0 8 8 out 9 9",
    ),
    ("run 2 1 -3", "run 0 3 3 0 1 0"),
    (
        "show",
        "show 3 3 0 lits 1 -2 3 0 7 kinds 1 2 0 0 reasons 0 0 0 0 8 8 out 9 9",
    ),
    ("run 3 4294967295 -3", "run 0 4 11 2 8 4"),
    ("step 11 0", "step 13"),
    (
        "show",
        "show 4 11 2 lits -1 2 -3 4 7 kinds 0 2 0 0 reasons 0 0 2 3 8 8 out 9 9",
    ),
    ("page 0 100", "page 0 2 0 0"),
    ("page 0 0", "page 0 0 0 1"),
    ("page 2 0", "page 0 2 0 0"),
    ("page 3 0", "page 20"),
    (
        "show",
        "show 4 11 2 lits 0 0 0 0 7 kinds 0 0 0 0 reasons 0 0 2 3 8 8 out 9 9",
    ),
];

#[test]
fn a_whole_desk() {
    check(A_WHOLE_DESK);
}

#[test]
fn listing_as_in_g() {
    let lines = [
        "lits 0 0 0 0",
        "kinds 0 0 0 0",
        "out 5 5 5 5 5 5 5 5",
        "page 0 100",
    ];
    assert_eq!(asked(&cases::G, &lines)[3], "page 0 4 3 0 1 1 2 1 3 2");
    let lines = ["lits 0 0 0 0", "kinds 0 0 0 0", "out 5 5 5 5", "page 0 100"];
    assert_eq!(asked(&cases::G, &lines)[3], "page 0 3 2 0 1 1 2 1");
}

#[test]
fn every_talk_gets_its_answers() {
    for talk in cases::talks() {
        let mut desk = Desk::default();
        for (line, answer) in &talk.lines {
            let got = desk.answer(line.as_bytes());
            assert_eq!(got.as_ref(), Some(answer), "{}: {line}", talk.name);
        }
    }
}

const WORDS_AND_NUMBERS: Talk = &[
    ("", "-"),
    ("   ", "-"),
    ("#", "-"),
    ("# show", "-"),
    (" # show", "?"),
    ("  show  ", "show 0 0 0 lits kinds reasons out"),
    ("Show", "?"),
    ("show 0", "?"),
    ("lits +5", "?"),
    ("lits -", "?"),
    ("lits --5", "?"),
    ("lits 5\t", "?"),
    ("show\r", "?"),
    ("lits -0 007 -007", "lits 3"),
    ("kinds -0 255", "kinds 2"),
    ("kinds 256", "?"),
    ("kinds -1", "?"),
    ("reasons 0 4294967295", "reasons 2"),
    ("reasons 4294967296", "?"),
    ("reasons -1", "?"),
    ("lits 2147483647 -2147483648", "lits 2"),
    ("lits 2147483648", "?"),
    ("lits -2147483649", "?"),
    ("out 4294967295", "out 1"),
    ("out 4294967296", "?"),
    (
        "session 18446744073709551615 18446744073709551615 2",
        "session",
    ),
    ("session 18446744073709551616 0 0", "?"),
    ("session 0 0 3", "?"),
    ("session 0 0", "?"),
    ("session 0 0 0 0", "?"),
    (
        "lits 99999999999999999999999999999999999999999999999999999999999999999999999999",
        "?",
    ),
    (
        "lits 00000000000000000000000000000000000000000000000000000000000000000000000005",
        "lits 1",
    ),
    ("block", "block 1"),
    ("open", "?"),
    ("open 0 0", "?"),
    ("step 0", "?"),
    ("run 0", "?"),
    ("page 0", "?"),
    (
        "show",
        "show 18446744073709551615 18446744073709551615 2 lits 5 kinds 0 255 reasons 0 4294967295 out 4294967295",
    ),
];

#[test]
fn words_and_numbers() {
    check(WORDS_AND_NUMBERS);
}

#[test]
fn room() {
    for (command, most) in [
        ("block", 16_384),
        ("lits", 2_048),
        ("kinds", 2_048),
        ("reasons", 2_048),
        ("out", 8_192),
    ] {
        let full = line(command, &vec![0; most]);
        let over = line(command, &vec![0; most + 1]);
        let got = answers(&[&full, &over]);
        assert_ne!(got[0], "?", "{command}");
        assert_eq!(got[1], "?", "{command}");
    }
    let long = format!("show{}", " ".repeat(LINE_ROOM - 4));
    let comment = format!("#{}", " ".repeat(LINE_ROOM));
    let got = answers(&[&long, &(long.clone() + " "), &comment]);
    assert_eq!(got, ["show 0 0 0 lits kinds reasons out", "?", "?"]);
}

/// On case B with the kinds 2 0: literals, session and call, everything after
/// the wanted row broken too where it can be; and the answer.
const TRIES: &[[&str; 4]] = &[
    ["lits 0", "session 3 5 1", "step 0 1", "step 11"],
    ["lits 0 0", "session 3 5 1", "step 0 1", "step 12"],
    ["lits 0 0", "session 1 5 1", "run 0 1", "run 12"],
    ["lits 1 1", "session 2 5 1", "step 0 1", "step 12"],
    ["lits 3 0", "session 1 5 1", "step 0 1", "step 12"],
    ["lits -2147483648 0", "session 1 5 1", "step 0 1", "step 12"],
    ["lits 2 0", "session 1 5 1", "step 0 1", "step 12"],
    ["lits 1 0", "session 1 5 1", "step 0 1", "step 13"],
    ["lits 1 0", "session 1 5 2", "run 0 1", "run 13"],
    ["lits 1 0", "session 1 LAST 0", "step 0 1", "step 14"],
    ["lits 1 0", "session 1 LAST 0", "step LAST 1", "step 15"],
    ["lits 1 0", "session 1 LAST 0", "run LAST 1", "run 15"],
    [
        "lits 1 0",
        "session 1 LAST 0",
        "run LAST 0",
        "run 0 1 LAST 0 0 0",
    ],
    ["lits 1 0", "session 1 5 0", "step 5 9", "step 16"],
    ["lits 1 0", "session 0 5 0", "step 5 2", "step 17"],
    ["lits 1 0", "session 0 5 0", "step 5 -2147483648", "step 17"],
    ["lits 1 0", "session 0 5 0", "step 5 -1", "step 0 1 6 0 0"],
];

#[test]
fn refusals_11_to_17_in_order() {
    for tried in TRIES {
        let [lits, session, call, answer] =
            tried.map(|line| line.replace("LAST", &u64::MAX.to_string()));
        let record = ["kinds 2 0", "reasons 0 0", &lits];
        let lines = [&record[..], &[&session, "show", &call, "show"]].concat();
        let got = asked(&cases::b(), &lines);
        assert_eq!(got[5], answer, "{tried:?}");
        assert!(got[4] == got[6] || answer.contains(" 0 "), "{tried:?}");
    }
}

/// On case B with the literals 1 2, the kinds 2 0 and revision 5: reasons, session
/// and call, rows 13 and 14 broken too; and the answer. C is 2.
const REASONS: &[[&str; 4]] = &[
    ["reasons 0", "session 3 5 1", "step 0 1", "step 11"],
    ["reasons", "session 0 5 1", "run 0 1", "run 11"],
    ["reasons 0 3", "session 2 5 1", "step 0 1", "step 12"],
    ["reasons 0 4294967295", "session 2 5 1", "run 0 1", "run 12"],
    ["reasons 1 0", "session 1 5 1", "step 0 1", "step 12"],
    ["reasons 2 1", "session 2 5 1", "run 0 1", "run 12"],
    ["reasons 0 2", "session 2 5 1", "step 0 1", "step 13"],
    ["reasons 0 3", "session 1 5 1", "step 0 1", "step 13"],
    ["reasons 3 3", "session 0 5 0", "step 4 1", "step 14"],
    [
        "reasons 0 2 9",
        "session 2 5 0",
        "step 5 0",
        "step 0 1 6 0 0",
    ],
    ["reasons 0 9", "session 1 5 0", "step 5 0", "step 0 2 6 0 1"],
    ["reasons 9 9", "session 0 5 0", "run 5 2", "run 0 2 7 0 2 1"],
];

#[test]
fn reasons_are_looked_at_in_rows_11_and_12() {
    let record = ["lits 1 2", "kinds 2 0"];
    for &[reasons, session, call, answer] in REASONS {
        let lines = [&record[..], &[reasons, session, "show", call, "show"]].concat();
        let got = asked(&cases::b(), &lines);
        assert_eq!(got[5], answer, "{reasons}, {session}");
        assert!(
            got[4] == got[6] || answer.contains(" 0 "),
            "{reasons}, {session}"
        );
    }
    let short = ["lits 0 0", "kinds 0 0", "reasons 0", "open 0"];
    assert_eq!(asked(&cases::b(), &short)[3], "open 11");
}

#[test]
fn refusals_18_to_21_in_order() {
    let block = |existential: i32, universal: bool| {
        let mut prefix: Vec<i32> = (2..=existential + 1).collect();
        prefix.insert(0, if universal { -1 } else { 1 });
        judge::block::lay_out(&prefix, &[])
    };
    let record = vec![0; 22];
    let record = [line("lits", &record), line("kinds", &record)];
    let refused = |block: &[i32], call: &str, out: &str| {
        asked(block, &[&record[0], &record[1], out, call])[3].clone()
    };
    assert_eq!(asked(&block(20, true), &["page 9 0"]), ["page 11"]);
    assert_eq!(
        refused(&block(21, true), "page 4294967295 0", "out"),
        "page 18"
    );
    assert_eq!(
        refused(&block(20, false), "page 4294967295 0", "out"),
        "page 19"
    );
    assert_eq!(
        refused(&block(19, false), "page 1048577 0", "out 1"),
        "page 20"
    );
    assert_eq!(
        refused(&block(19, false), "page 1048576 0", "out 1"),
        "page 21"
    );
    assert_eq!(
        refused(&block(19, false), "page 1048576 0", "out 1 1"),
        "page 0 1048576 0 0"
    );
    assert_eq!(
        refused(&block(19, false), "page 1048575 2", "out 1 1"),
        "page 0 1048576 1 0 1048575 20"
    );
}
