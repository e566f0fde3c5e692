//! The worked cases of docs/SPEC.md, A to L (M is in the check's cases).

use judge::block::lay_out;
use judge::cases;
use judge::page::{page, Ask, Page, Work};
use judge::rules::{Clause, Rule};
use judge::session::{open, Lent, Session, State};

/// A desk of its own for each case: block, record with room to spare, session.
struct Table {
    block: Vec<i32>,
    literals: Vec<i32>,
    kinds: Vec<u8>,
    reasons: Vec<u32>,
    session: Session,
}

impl Table {
    fn open(block: &[i32]) -> Table {
        let mut table = Table {
            block: block.to_vec(),
            literals: vec![7; block[0] as usize + 2],
            kinds: vec![7; block[0] as usize + 1],
            reasons: vec![7; block[0] as usize + 3],
            session: Session {
                length: 9,
                revision: 9,
                state: State::Unsat,
            },
        };
        let lent = Lent {
            literals: &mut table.literals,
            kinds: &mut table.kinds,
            reasons: &mut table.reasons,
        };
        table.session = open(&table.block, lent, 0).unwrap();
        table
    }

    fn step(&mut self, seen: u64, proposal: i32) -> Result<(Rule, u32), u8> {
        let lent = Lent {
            literals: &mut self.literals,
            kinds: &mut self.kinds,
            reasons: &mut self.reasons,
        };
        let done = self.session.step(&self.block, lent, seen, proposal)?;
        self.session = done.session;
        Ok((done.rule, done.reason))
    }

    /// The count of steps, and the last one's reason.
    fn run(&mut self, budget: u32, preferred: &[i32]) -> Result<(u32, u32), u8> {
        let seen = self.session.revision;
        let lent = Lent {
            literals: &mut self.literals,
            kinds: &mut self.kinds,
            reasons: &mut self.reasons,
        };
        let done = self
            .session
            .run(&self.block, lent, seen, budget, preferred)?;
        self.session = done.session;
        Ok((done.count, done.reason))
    }
}

/// The rules of a whole search with proposals 0, with the literal that each put
/// last, and how the session ended.
fn story(block: &[i32]) -> (Vec<(Rule, i32)>, State) {
    let mut table = Table::open(block);
    let mut rules = Vec::new();
    while table.session.state == State::Open {
        let (rule, _) = table.step(table.session.revision, 0).unwrap();
        let last = (table.session.length as usize).checked_sub(1);
        rules.push((rule, last.map_or(0, |place| table.literals[place])));
    }
    assert_eq!(table.session.revision, rules.len() as u64);
    let v = block[0] as usize;
    assert_eq!((table.literals[v], table.kinds[v]), (7, 7));
    assert_eq!(table.reasons[v..], [7; 3]);
    (rules, table.session.state)
}

/// The verdict and the count of steps, by a run with room for it.
fn verdict(block: &[i32]) -> (State, u32) {
    let mut table = Table::open(block);
    let (count, _) = table.run(1000, &[]).unwrap();
    (table.session.state, count)
}

#[test]
fn a() {
    let (rules, state) = story(&cases::A);
    let expected = [
        (Rule::Decide, 1),
        (Rule::Decide, 2),
        (Rule::Unit(Clause(0), 3), 3),
        (Rule::BacktrackExists(Clause(1), 0), -1),
        (Rule::Decide, 2),
        (Rule::Unit(Clause(1), -3), -3),
        (Rule::Unit(Clause(2), 4), 4),
        (Rule::Fail(Clause(3)), 4),
    ];
    assert_eq!(rules, expected);
    assert_eq!(state, State::Unsat);
    assert_eq!(verdict(&cases::A), (State::Unsat, 8));
}

/// What A's eight steps answer and leave: 3 is put by the first clause and gone
/// when the second is in conflict; -3 is put by the second and 4 by the third, when
/// the fourth is in conflict.
#[test]
fn a_with_its_reasons() {
    let expected = [
        (0, [0, 0, 0, 0]),
        (0, [0, 0, 0, 0]),
        (1, [0, 0, 1, 0]),
        (2, [0, 0, 0, 0]),
        (0, [0, 0, 0, 0]),
        (2, [0, 0, 2, 0]),
        (3, [0, 0, 2, 3]),
        (4, [0, 0, 2, 3]),
    ];
    let mut table = Table::open(&cases::A);
    for (seen, (reason, reasons)) in (0..).zip(expected) {
        assert_eq!(table.step(seen, 0).unwrap().1, reason, "step {seen}");
        assert_eq!(table.reasons[..4], reasons, "step {seen}");
    }
    // A run that stops after so many steps answers the last one's.
    for (budget, reason) in [(0, 0), (1, 0), (3, 1), (4, 2), (5, 0), (7, 3), (100, 4)] {
        let (steps, last) = Table::open(&cases::A).run(budget, &[]).unwrap();
        assert_eq!((steps, last), (budget.min(8), reason));
    }
}

/// Of two clauses in conflict, and of two units, the lower one is named.
#[test]
fn the_lowest_clause_is_the_reason() {
    let block = lay_out(&[1, 2], &[vec![1, 2], vec![-1], vec![-1], vec![-2]]);
    let mut table = Table::open(&block);
    assert_eq!(table.step(0, 0), Ok((Rule::Unit(Clause(1), -1), 2)));
    assert_eq!(table.step(1, 0), Ok((Rule::Unit(Clause(0), 2), 1)));
    assert_eq!(table.step(2, 0), Ok((Rule::Fail(Clause(3)), 4)));
    assert_eq!(table.reasons[..2], [2, 1]);
    let empty = lay_out(&[1], &[vec![1], vec![], vec![]]);
    let failed = Table::open(&empty).step(0, 0);
    assert_eq!(failed, Ok((Rule::Fail(Clause(1)), 2)));
}

#[test]
fn b() {
    let (rules, state) = story(&cases::b());
    let expected = [
        (Rule::Decide, 1),
        (Rule::Unit(Clause(0), 2), 2),
        (Rule::BacktrackForall(0), -1),
        (Rule::Unit(Clause(1), -2), -2),
        (Rule::Succeed, -2),
    ];
    assert_eq!((rules.as_slice(), state), (&expected[..], State::Valid));
    assert_eq!(verdict(&cases::b()), (State::Valid, 5));
}

#[test]
fn c() {
    let lent = Lent {
        literals: &mut [0; 2],
        kinds: &mut [0; 2],
        reasons: &mut [0; 2],
    };
    assert_eq!(open(&cases::c(), lent, 0), Err(7));
}

#[test]
fn d() {
    let (rules, state) = story(&cases::d());
    let expected = [(Rule::Unit(Clause(0), 1), 1), (Rule::Fail(Clause(1)), 1)];
    assert_eq!(rules, expected);
    assert_eq!(state, State::Unsat);
}

#[test]
fn e_and_f() {
    assert_eq!(story(&cases::E), (vec![(Rule::Succeed, 0)], State::Valid));
    let failed = (Rule::Fail(Clause(0)), 0);
    assert_eq!(story(&cases::F), (vec![failed], State::Unsat));
}

/// A page of G with this much room: its answer without the rules, and all of
/// its output, where 99 is what was there before.
fn page_of_g(start: u32, budget: u32, room: usize) -> ((u32, u32, bool), Vec<u32>) {
    let (mut literals, mut kinds) = (vec![5; 5], vec![5; 6]);
    let mut output = vec![99; room];
    let work = Work {
        literals: &mut literals,
        kinds: &mut kinds,
    };
    let ask = Ask {
        start,
        budget,
        preferred: &[],
    };
    let Page {
        next,
        entries,
        paused,
        ..
    } = page(&cases::G, work, ask, &mut output).unwrap();
    assert_eq!(literals, [0, 0, 0, 0, 5]);
    assert_eq!(kinds, [0, 0, 0, 0, 5, 5]);
    ((next, entries, paused), output)
}

#[test]
fn g() {
    let whole = ((4, 3, false), vec![1, 1, 2, 1, 3, 2, 99, 99]);
    assert_eq!(page_of_g(0, 100, 8), whole);
    assert_eq!(page_of_g(0, 100, 4), ((3, 2, false), vec![1, 1, 2, 1]));
    assert_eq!(page_of_g(0, 100, 5), ((3, 2, false), vec![1, 1, 2, 1, 99]));
}

#[test]
fn h() {
    assert_eq!(page_of_g(0, 0, 2), ((0, 0, true), vec![99, 99]));
    assert_eq!(page_of_g(4, 0, 2), ((4, 0, false), vec![99, 99]));
}

#[test]
fn i_and_j() {
    assert_eq!(verdict(&cases::i()).0, State::Valid);
    assert_eq!(verdict(&cases::j()), (State::Unsat, 1));
}

#[test]
fn k() {
    let mut table = Table::open(&cases::A);
    assert_eq!(table.step(0, 3), Err(17));
    assert_eq!(table.step(0, 1), Ok((Rule::Decide, 0)));
    assert_eq!(table.step(0, -2), Err(14));
    assert_eq!(table.step(1, -2), Ok((Rule::Decide, 0)));
    assert_eq!(table.literals[..4], [1, -2, 0, 0]);
    assert_eq!(table.kinds[..4], [1, 2, 0, 0]);
}

#[test]
fn l() {
    assert_eq!(judge::block::check(&cases::l()), 9);
    let mut table = Table::open(&cases::A);
    assert_eq!(table.step(0, i32::MIN), Err(17));
    assert_eq!(table.run(1, &[i32::MIN, 0, 5, 3, -1]), Ok((1, 0)));
    assert_eq!(table.literals[0], -1);
}
