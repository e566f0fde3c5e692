//! What ended sessions show is a witness, by brute force; its rows; and how the tally
//! comes to check it.

use judge::block::{lay_out, Formula};
use judge::console::{line, Desk};
use judge::dice::Dice;
use judge::session::{open, Lent, Session, State};
use judge::shapes;
use judge::shown::shown;
use judge::tally::Tally;
use judge::witness::{is_witness, Witnesses};

fn lent<'a>(literals: &'a mut [i32], kinds: &'a mut [u8], reasons: &'a mut [u32]) -> Lent<'a> {
    Lent {
        literals,
        kinds,
        reasons,
    }
}

/// A whole run from a fresh session, and its record.
fn ended(block: &[i32], preferred: &[i32]) -> (Session, Vec<i32>, Vec<u8>) {
    let v = block[0] as usize;
    let (mut literals, mut kinds, mut reasons) = (vec![7; v], vec![7; v], vec![7; v]);
    let session = open(block, lent(&mut literals, &mut kinds, &mut reasons), 0);
    let lent = lent(&mut literals, &mut kinds, &mut reasons);
    let ran = session
        .expect("accepted")
        .run(block, lent, 0, u32::MAX, preferred);
    (ran.expect("accepted").session, literals, kinds)
}

/// On random formulas, whatever is preferred: where there is something to show, it is a
/// witness. Many ends leave variables of the first group without an entry.
#[test]
fn every_end_shows_a_witness() {
    let mut dice = Dice::new(15);
    let (mut openings, mut counters, mut gaps, mut neither) = (0, 0, 0, 0);
    for _ in 0..8_000 {
        let variables = 3 + dice.below(6);
        let shape = if dice.chance(1, 2) {
            shapes::small(&mut dice, 8)
        } else {
            shapes::harder(&mut dice, variables)
        };
        let block = shapes::block(&mut dice, shape, None);
        let formula = Formula::read(&block).expect("accepted");
        let preferred: Vec<i32> = (0..6).map(|_| dice.between(-9, 9) as i32).collect();
        let (session, literals, kinds) = ended(&block, &preferred);
        let mut output = vec![77; formula.variables() + 1];
        let universal = formula.first_group_universal();
        match shown(session, &block, &literals, &kinds, &mut output) {
            Ok(count) => {
                assert_eq!(count, formula.first_group());
                assert!(is_witness(&formula, session.state, &output[..count]));
                assert!(output[count..].iter().all(|&word| word == 77));
                let entries = &literals[..session.length as usize];
                let gap = |word: &i32| !entries.contains(word) && !entries.contains(&-word);
                gaps += u32::from(output[..count].iter().any(gap));
                assert_eq!(universal, session.state == State::Unsat);
                *(if universal {
                    &mut counters
                } else {
                    &mut openings
                }) += 1;
            }
            Err(number) => {
                assert_eq!(number, 32);
                assert_eq!(universal, session.state == State::Valid);
                assert!(output.iter().all(|&word| word == 77));
                neither += 1;
            }
        }
    }
    let counts = [openings, counters, gaps, neither];
    assert!(counts.iter().all(|&count| count > 300), "{counts:?}");
}

/// Row 32 comes before row 30, which asks for V words and not for k.
#[test]
fn room_is_looked_at_last() {
    let block = lay_out(&[1, -2, 3], &[]);
    let mut session = Session {
        length: 0,
        revision: 0,
        state: State::Valid,
    };
    let of = |session, room| shown(session, &block, &[0; 3], &[0; 3], &mut vec![0; room]);
    assert_eq!(of(session, 3), Ok(1));
    assert_eq!(of(session, 2), Err(30));
    session.state = State::Open;
    assert_eq!(of(session, 2), Err(32));
    session.length = 1;
    assert_eq!(of(session, 2), Err(12));
}

/// J's formula has the one counter-example -1.
#[test]
fn a_wrong_value_is_no_witness() {
    let formula = Formula::read(&lay_out(&[-1, 2], &[vec![1]])).expect("accepted");
    assert!(is_witness(&formula, State::Unsat, &[-1]));
    for wrong in [&[1][..], &[], &[-2], &[-1, 2]] {
        assert!(!is_witness(&formula, State::Unsat, wrong), "{wrong:?}");
    }
    assert!(!is_witness(&formula, State::Valid, &[-1]));
    assert!(is_witness(&formula, State::Valid, &[1]));
}

/// J's desk, run to its end.
const J: [&str; 6] = [
    "block 2 1 1 6 8 9 -1 2 1 1",
    "lits 9 9",
    "kinds 9 9",
    "reasons 9 9",
    "open 0",
    "run 0 9",
];

/// The two counts of witnesses after these lines.
fn witnesses(lines: &[&str]) -> Vec<u64> {
    let mut tally = Tally::default();
    lines.iter().for_each(|line| tally.note(line.as_bytes()));
    let told = tally.to_string();
    let counts = told.lines().filter(|line| line.starts_with("witnesses "));
    let count = |line: &str| line.split(' ').nth(2).unwrap().parse().unwrap();
    counts.map(count).collect()
}

/// Checked is what calls alone have led to: a session that was set, another block or
/// another record under it, and a run from any of these, are not.
#[test]
fn disturbed_sessions_are_not_checked() {
    let after = |more: &[&str]| witnesses(&[&J[..], more].concat());
    assert_eq!(after(&["shown"]), [1, 0]);
    assert_eq!(after(&["shown", "show", "out 1", "shown"]), [2, 0]);
    assert_eq!(after(&["reasons 4 4", "page 0 1", "shown"]), [1, 0]);
    assert_eq!(after(&["session 0 1 2", "shown"]), [1, 0]);
    assert_eq!(after(&["session 0 2 2", "shown"]), [0, 0]);
    let other = "block 2 1 1 6 8 9 -1 2 1 -1";
    assert_eq!(after(&[other, "shown"]), [0, 0]);
    assert_eq!(after(&[other, "shown", J[0], "shown"]), [1, 0]);
    let set = ["lits -1 2", "kinds 0 0", "session 2 1 0", "run 1 9", "shown"];
    assert_eq!(after(&set), [0, 0]);
    assert_eq!(after(&["open 5", "shown", "run 5 9", "shown"]), [1, 0]);
}

/// Formulas of more than twelve variables are left alone.
#[test]
fn large_formulas_are_not_checked() {
    for v in [12, 13] {
        let prefix: Vec<i32> = (1..=v).collect();
        let block = line("block", &lay_out(&prefix, &[]));
        let buffer = |name| line(name, &vec![0; v as usize]);
        let buffers = [buffer("lits"), buffer("kinds"), buffer("reasons")];
        let [lits, kinds, reasons] = &buffers;
        let lines = [&block, lits, kinds, reasons, "open 0", "run 0 99", "shown"];
        assert_eq!(witnesses(&lines), [u64::from(v == 12), 0]);
    }
}

/// An answer that both sides may give, and that is no witness.
#[test]
fn wrong_answers_are_counted() {
    let (mut desk, mut witnesses) = (Desk::default(), Witnesses::default());
    for line in J {
        let undisturbed = witnesses.undisturbed(&desk);
        let answer = desk.answer(line.as_bytes()).expect("an answer");
        witnesses.note(&answer, undisturbed, &desk);
    }
    assert!(witnesses.undisturbed(&desk));
    witnesses.note("shown 0 -1", true, &desk);
    witnesses.note("shown 0 1", true, &desk);
    witnesses.note("shown 0 1", false, &desk);
    assert_eq!((witnesses.checked, witnesses.wrong), (2, 1));
}
