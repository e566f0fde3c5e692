//! The texts and lines for an outside solver.

use judge::block::Formula;
use judge::console::{line, Desk};
use judge::dice::Dice;
use judge::qdimacs::Asked;
use judge::truth;

#[test]
fn a_group_is_one_line() {
    let asked = Asked {
        variables: 5,
        prefix: vec![2, 1, -4, -3, 5],
        clauses: vec![vec![2, -4], vec![-5], vec![5, 3, 5]],
    };
    let text = "p cnf 5 3\ne 2 1 0\na 4 3 0\ne 5 0\n2 -4 0\n-5 0\n5 3 5 0\n";
    assert_eq!(asked.text(), text);
}

/// 3 is free and 4 idle: the text that is written has both in its lines.
#[test]
fn what_is_read_is_written_again() {
    let asked = Asked {
        variables: 4,
        prefix: vec![-2, 1],
        clauses: vec![vec![2, -3], vec![1]],
    };
    assert_eq!(asked.text(), "p cnf 4 2\na 2 0\ne 1 0\n2 -3 0\n1 0\n");
    let written = b"p cnf 4 2\ne 3 0\na 2 0\ne 1 4 0\n2 -3 0\n1 0\n";
    let mut desk = Desk::default();
    let answers = asked.lines().map(|line| desk.answer(line.as_bytes()));
    assert_eq!(answers[4].as_deref(), Some("write 0 41"));
    assert_eq!(answers[5], Some(line("bytes", written)));
}

/// Every text is one that the standard holds, and the lines run to the verdict
/// of the recursive definition, where that is not too long to ask.
#[test]
fn generated_formulas() {
    let mut dice = Dice::new(11);
    let mut judged = [0, 0];
    for _ in 0..600 {
        let asked = Asked::random(&mut dice);
        assert!(!asked.prefix.is_empty() && !asked.clauses.is_empty());
        assert!(asked.clauses.iter().all(|clause| !clause.is_empty()));
        let mut desk = Desk::default();
        let answers = asked.lines().map(|line| desk.answer(line.as_bytes()));
        let read = format!("read 0 {}", desk.block.len());
        assert_eq!(answers[2].as_ref(), Some(&read));
        let written = format!("write 0 {}", desk.text.len());
        assert_eq!(answers[4].as_ref(), Some(&written));
        let formula = Formula::read(&desk.block).expect("accepted");
        if formula.variables() <= 8 {
            let holds = truth::truth(&formula);
            let ran = answers[10].as_ref().expect("a run is answered");
            let state = if holds { "1" } else { "2" };
            assert_eq!(ran.split(' ').nth(4), Some(state), "{ran}");
            judged[usize::from(holds)] += 1;
        }
    }
    assert!(judged.iter().all(|&count| count > 20), "{judged:?}");
}
