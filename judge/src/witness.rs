//! Whether what a session shows is a witness, by brute force: [shown.true]. It is
//! asked of sessions that a desk has reached from an accepted opening, on one block
//! and a record that nothing but its calls has written.

use crate::block::Formula;
use crate::console::Desk;
use crate::session::{Session, State};
use crate::truth;

/// Formulas of more variables are not tried.
const MOST: usize = 12;

/// What an accepted call has left. Reasons have no part in where calls lead.
#[derive(PartialEq, Eq)]
struct Reached {
    block: Vec<i32>,
    literals: Vec<i32>,
    kinds: Vec<u8>,
    session: Session,
}

impl Reached {
    /// A desk's session, if its record is there at all.
    fn on(desk: &Desk) -> Option<Reached> {
        let length = usize::try_from(desk.session.length).ok()?;
        Some(Reached {
            block: desk.block.clone(),
            literals: desk.literals.get(..length)?.to_vec(),
            kinds: desk.kinds.get(..length)?.to_vec(),
            session: desk.session,
        })
    }
}

/// The calls since an opening, as far as they have led, and the witnesses so far.
#[derive(Default)]
pub struct Witnesses {
    reached: Option<Reached>,
    pub checked: u64,
    pub wrong: u64,
}

impl Witnesses {
    /// Whether the desk, as it is before a line, is where its calls have led.
    pub fn undisturbed(&self, desk: &Desk) -> bool {
        self.reached.is_some() && self.reached == Reached::on(desk)
    }

    /// Takes in an answer and the desk behind it. Before the line it was undisturbed,
    /// or not.
    pub fn note(&mut self, answer: &str, undisturbed: bool, desk: &Desk) {
        let mut words = answer.split(' ');
        match (words.next(), words.next()) {
            (Some("open"), Some("0")) => self.reached = Reached::on(desk),
            (Some("step" | "run" | "counted"), Some("0")) => {
                self.reached = Reached::on(desk).filter(|_| undisturbed);
            }
            (Some("shown"), Some("0")) if undisturbed => {
                let literals: Vec<i32> = words.filter_map(|word| word.parse().ok()).collect();
                self.check(&literals, desk);
            }
            _ => {}
        }
    }

    fn check(&mut self, literals: &[i32], desk: &Desk) {
        let formula = match Formula::read(&desk.block) {
            Ok(formula) if formula.variables() <= MOST => formula,
            _ => return,
        };
        self.checked += 1;
        self.wrong += u64::from(!is_witness(&formula, desk.session.state, literals));
    }
}

/// Whether these are values of the first group, in prefix order, under which the rest
/// of the formula is true if the session is Valid, and false if it is Unsat.
pub fn is_witness(formula: &Formula, state: State, literals: &[i32]) -> bool {
    let group = formula.order().take(formula.first_group());
    let told = literals.iter().map(|literal| literal.abs());
    let values: Vec<bool> = literals.iter().map(|&literal| literal > 0).collect();
    group.eq(told)
        && match state {
            State::Open => false,
            State::Valid => truth::true_under(formula, &values),
            State::Unsat => !truth::true_under(formula, &values),
        }
}
