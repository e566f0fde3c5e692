//! The yardstick of speed does what the judge's run does.

use judge::block::Formula;
use judge::console::Desk;
use judge::desks;
use judge::dice::Dice;
use judge::session::{Lent, Session, State};
use judge::shapes::{self, Shape};
use judge::yardstick;

/// What a run takes beside the block and the record.
struct Ask<'a> {
    session: Session,
    seen: u64,
    budget: u32,
    preferred: &'a [i32],
}

/// The record's three buffers.
#[derive(Clone, Debug, PartialEq, Eq)]
struct Memory(Vec<i32>, Vec<u8>, Vec<u32>);

/// Runs both on copies of the same memory; how many steps they accepted.
fn agree(block: &[i32], memory: &Memory, ask: Ask) -> Result<u32, u8> {
    let (mut judged, mut measured) = (memory.clone(), memory.clone());
    let lent = Lent {
        literals: &mut judged.0,
        kinds: &mut judged.1,
        reasons: &mut judged.2,
    };
    let Ask {
        session,
        seen,
        budget,
        preferred,
    } = ask;
    let ran = session.run(block, lent, seen, budget, preferred);
    let expected = ran.map(|ran| (plain(ran.session), ran.count, ran.reason));
    let lent = yardstick::Lent {
        literals: &mut measured.0,
        kinds: &mut measured.1,
        reasons: &mut measured.2,
    };
    let got = yardstick::run(plain(session), block, lent, seen, budget, preferred);
    assert_eq!(got, expected, "{block:?}");
    assert_eq!(measured, judged, "{block:?}");
    got.map(|(_, count, _)| count)
}

fn plain(session: Session) -> yardstick::Session {
    yardstick::Session {
        length: session.length,
        revision: session.revision,
        state: match session.state {
            State::Open => 0,
            State::Valid => 1,
            State::Unsat => 2,
        },
    }
}

/// On every desk that the generator makes, refused ones too.
#[test]
fn on_generated_desks() {
    let mut lines = Vec::new();
    desks::write(5, 30_000, &mut lines).unwrap();
    let mut desk = Desk::default();
    let mut accepted = 0;
    for line in lines.split(|&byte| byte == b'\n') {
        let preferred = [1, -2, 3, i32::MIN, -4];
        for (seen, budget) in [(desk.session.revision, 7), (0, u32::MAX)] {
            let ask = Ask {
                session: desk.session,
                seen,
                budget: if desk.block.len() > 150 { 9 } else { budget },
                preferred: &preferred,
            };
            let (literals, kinds) = (desk.literals.clone(), desk.kinds.clone());
            let memory = Memory(literals, kinds, desk.reasons.clone());
            let steps = agree(&desk.block, &memory, ask);
            accepted += steps.unwrap_or(0);
        }
        desk.answer(line);
    }
    assert!(accepted > 10_000);
}

/// On formulas of more variables and clauses, with a budget.
#[test]
fn on_larger_formulas() {
    let mut dice = Dice::new(6);
    let mut steps = 0;
    for _ in 0..60 {
        let shape = Shape {
            variables: 20 + dice.below(60),
            clauses: 100 + dice.below(100),
            widths: (3, 4),
            existential: 2,
            changes: dice.pick(&[2, 10, 30]),
        };
        let block = shapes::block(&mut dice, shape, None);
        assert!(Formula::read(&block).is_ok());
        let ask = Ask {
            session: Session {
                length: 0,
                revision: 3,
                state: State::Open,
            },
            seen: 3,
            budget: 400,
            preferred: &[-3, 2, -1],
        };
        let v = shape.variables;
        let memory = Memory(vec![0; v], vec![0; v + 1], vec![9; v + 2]);
        steps += agree(&block, &memory, ask).unwrap();
    }
    assert!(steps > 2_000, "{steps}");
}
