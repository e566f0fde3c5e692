//! The benchmark's formulas are what they should be.

use judge::bench::{trials, Trial, CLAUSES};
use judge::block::{Formula, LIMITS};
use judge::yardstick::{run, Lent, Session};

/// How many steps its run takes.
fn steps(trial: &Trial) -> u32 {
    let v = trial.block[0] as usize;
    let lent = Lent {
        literals: &mut vec![0; v],
        kinds: &mut vec![0; v],
        reasons: &mut vec![0; v],
    };
    let fresh = Session {
        length: 0,
        revision: 0,
        state: 0,
    };
    let ran = run(fresh, &trial.block, lent, 0, trial.budget, &[]);
    ran.expect("accepted").1
}

#[test]
fn twenty_of_a_thousand_clauses() {
    let trials = trials();
    assert_eq!(trials.len(), 29);
    for trial in &trials[..20] {
        let formula = Formula::read(&trial.block).expect("accepted");
        assert_eq!(formula.clauses.len(), CLAUSES, "{}", trial.name);
        let count = steps(trial);
        assert!(count > 1000, "{}: {count} steps", trial.name);
    }
}

/// They use their whole budget.
#[test]
fn four_at_the_limits() {
    for trial in &trials()[20..24] {
        let counts = [0, 1, 2].map(|place| i64::from(trial.block[place]));
        assert_eq!(counts, LIMITS, "{}", trial.name);
        assert_eq!(steps(trial), trial.budget, "{}", trial.name);
    }
}

/// They end, A and B after their steps in docs/SPEC.md.
#[test]
fn five_tiny_ones() {
    let trials = trials();
    let tiny = &trials[24..];
    let counts: Vec<u32> = tiny.iter().map(steps).collect();
    assert_eq!(counts[..2], [8, 5]);
    for (trial, count) in tiny.iter().zip(counts) {
        assert!(trial.name.starts_with("tiny-"), "{}", trial.name);
        assert!(count < 100, "{}: {count} steps", trial.name);
    }
}
