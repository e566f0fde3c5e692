//! The judge's sessions against brute-force truth, on small random formulas.

use judge::block::Formula;
use judge::dice::Dice;
use judge::page::{page, Ask, Work};
use judge::session::{open, Lent, Session, State};
use judge::shapes::{self, Shape};
use judge::truth;

const FORMULAS: usize = 12_000;

/// Half of the formulas are easy ones.
fn shape(dice: &mut Dice, most: usize) -> Shape {
    let variables = dice.between(3, most as i64) as usize;
    if dice.chance(1, 2) {
        shapes::small(dice, most)
    } else {
        shapes::harder(dice, variables)
    }
}

fn preferences(dice: &mut Dice, variables: usize) -> Vec<i32> {
    let most = variables as i64 + 1;
    let count = dice.below(2 * variables + 1);
    (0..count)
        .map(|_| dice.between(-most, most) as i32)
        .collect()
}

/// The record's three buffers.
#[derive(Clone, Debug, PartialEq, Eq)]
struct Memory {
    literals: Vec<i32>,
    kinds: Vec<u8>,
    reasons: Vec<u32>,
}

impl Memory {
    /// Of V places, none of them 0.
    fn of(v: usize) -> Memory {
        Memory {
            literals: vec![3; v],
            kinds: vec![3; v],
            reasons: vec![3; v],
        }
    }

    fn lend(&mut self) -> Lent<'_> {
        Lent {
            literals: &mut self.literals,
            kinds: &mut self.kinds,
            reasons: &mut self.reasons,
        }
    }
}

/// A whole run from a fresh session: how it ended, and after how many steps.
fn run_of(block: &[i32], preferred: &[i32]) -> (Session, u32) {
    let mut memory = Memory::of(block[0] as usize);
    let session = open(block, memory.lend(), 40).unwrap();
    let ran = session.run(block, memory.lend(), 40, u32::MAX, preferred);
    let ran = ran.unwrap();
    assert_eq!(ran.session.revision, 40 + u64::from(ran.count));
    (ran.session, ran.count)
}

/// "Valid exactly with truth", within 2^(V+1) - 1 steps, whatever is preferred.
#[test]
fn runs_end_with_the_truth() {
    let mut dice = Dice::new(1);
    let mut verdicts = [0, 0];
    for _ in 0..FORMULAS {
        let shape = shape(&mut dice, 8);
        let block = shapes::block(&mut dice, shape, None);
        let truth = truth::truth(&Formula::read(&block).unwrap());
        let preferred = preferences(&mut dice, shape.variables);
        let (session, count) = run_of(&block, &preferred);
        let expected = if truth { State::Valid } else { State::Unsat };
        assert_eq!(session.state, expected, "{block:?}");
        assert!(count < 1 << (shape.variables + 1), "{block:?}");
        verdicts[usize::from(truth)] += 1;
    }
    assert!(verdicts.iter().all(|&count| count > FORMULAS / 10));
}

/// Steps one by one, with the proposals that a run's preferences give, do what
/// the run does; a run in pieces does what a run at once does.
#[test]
fn runs_are_their_steps() {
    let mut dice = Dice::new(2);
    for _ in 0..FORMULAS / 3 {
        let shape = shape(&mut dice, 7);
        let block = shapes::block(&mut dice, shape, None);
        let mut memory = Memory::of(shape.variables);
        let mut session = open(&block, memory.lend(), 0).unwrap();
        while session.state == State::Open {
            let mut by_run = memory.clone();
            let seen = session.revision;
            let ran = session.run(&block, by_run.lend(), seen, 1, &[]).unwrap();
            let done = session.step(&block, memory.lend(), seen, 0).unwrap();
            session = done.session;
            assert_eq!((session, 1), (ran.session, ran.count));
            assert_eq!((&memory, done.reason), (&by_run, ran.reason));
        }
        assert_eq!((session, session.revision as u32), with_revision_0(&block));
    }
}

/// After each step of a history from a fresh session: an entry's reason that is
/// not 0 names a clause with its literal, in which every other literal is false
/// under the entries before it, or universal, unassigned and at a higher level.
#[test]
fn reasons_name_what_forced_the_entry() {
    let mut dice = Dice::new(4);
    let mut named = 0;
    for _ in 0..FORMULAS / 6 {
        let shape = shape(&mut dice, 7);
        let block = shapes::block(&mut dice, shape, None);
        let formula = Formula::read(&block).unwrap();
        let mut memory = Memory::of(shape.variables);
        let mut session = open(&block, memory.lend(), 0).unwrap();
        while session.state == State::Open {
            let preferred = preferences(&mut dice, shape.variables);
            let seen = session.revision;
            let ran = session.run(&block, memory.lend(), seen, 1, &preferred);
            session = ran.unwrap().session;
            let length = session.length as usize;
            named += (0..length)
                .filter(|&place| forced(&formula, &memory, place))
                .count();
            assert_eq!(memory.reasons[length..], vec![0; shape.variables - length]);
        }
    }
    assert!(named > FORMULAS / 2, "{named}");
}

/// Whether an entry has a reason, which must then be a right one.
fn forced(formula: &Formula, memory: &Memory, place: usize) -> bool {
    let (before, literal) = (&memory.literals[..place], memory.literals[place]);
    let clause = match memory.reasons[place] as usize {
        0 => return false,
        reason => &formula.clauses[reason - 1],
    };
    let harmless = |&other: &i32| {
        let unassigned = !before.contains(&other) && !before.contains(&-other);
        let higher = formula.level(other) > formula.level(literal);
        before.contains(&-other) || (!formula.existential(other) && unassigned && higher)
    };
    let mut others = clause.iter().filter(|&&other| other != literal);
    assert!(clause.contains(&literal) && others.all(harmless));
    assert_eq!(memory.kinds[place], 0);
    true
}

fn with_revision_0(block: &[i32]) -> (Session, u32) {
    let (session, count) = run_of(block, &[]);
    let revision = session.revision - 40;
    (
        Session {
            revision,
            ..session
        },
        count,
    )
}

/// Pages begun where the last one stopped, of any room and budget, list the
/// winners of the recursive definition.
#[test]
fn pages_list_the_winners() {
    let mut dice = Dice::new(3);
    let mut some_winners = 0;
    for _ in 0..FORMULAS / 3 {
        let shape = shape(&mut dice, 8);
        let k = dice.below(shape.variables.min(5) + 1);
        let block = shapes::block(&mut dice, shape, Some(k));
        let formula = Formula::read(&block).unwrap();
        if formula.first_group_universal() {
            continue;
        }
        let expected: Vec<(u32, u32)> = truth::winners(&formula)
            .into_iter()
            .map(|opening| (opening, opening.count_ones()))
            .collect();
        assert_eq!(listing(&mut dice, &block, &formula), expected, "{block:?}");
        some_winners += usize::from(!expected.is_empty());
    }
    assert!(some_winners > FORMULAS / 30);
}

fn listing(dice: &mut Dice, block: &[i32], formula: &Formula) -> Vec<(u32, u32)> {
    let mut found = Vec::new();
    let (mut start, mut least_budget) = (0, 0);
    let v = formula.variables();
    while start < 1 << formula.first_group() {
        let preferred = preferences(dice, v);
        let ask = Ask {
            start,
            budget: dice
                .pick(&[least_budget, 3, 20, u32::MAX])
                .max(least_budget),
            preferred: &preferred,
        };
        let work = Work {
            literals: &mut vec![8; v],
            kinds: &mut vec![8; v + 1],
        };
        let mut output = vec![77; 2 + dice.below(6)];
        let page = page(block, work, ask, &mut output).unwrap();
        let (written, rest) = output.split_at(2 * page.entries as usize);
        found.extend(written.chunks(2).map(|entry| (entry[0], entry[1])));
        assert!(rest.iter().all(|&word| word == 77));
        least_budget = if page.paused {
            2 * ask.budget.min(1 << 20) + 1
        } else {
            0
        };
        start = page.next;
    }
    found
}
