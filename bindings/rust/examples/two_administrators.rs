//! Two administrators at one session, why its formula is false, a listing page by
//! page, and what happens to bad input.

use mokihazureo::{check, open, page, Literal, Page, Reason, Refusal, Revision, Session, State};
use mokihazureo::{Ran, Stepped};

/// Case A of docs/SPEC.md: a is 1, d is 2 (universal), b is 3, c is 4.
const BLOCK: [i32; 28] = [
    4, 5, 13, 6, 10, 15, 1, -2, 3, 4, 3, 5, 7, 10, 13, -1, -2, 3, -2, -3, 3, 4, 1, -2, -4, 2, 3, -4,
];

/// Case G of docs/SPEC.md: the openings are of the variables 1 and 2.
const OPENINGS: [i32; 19] = [4, 3, 6, 6, 10, 13, 1, 2, -3, 4, 2, 4, 6, 1, 2, -3, 4, 3, -4];

fn main() -> Result<(), Refusal> {
    two_administrators()?;
    a_listing()?;
    bad_input();
    println!("the Rust program: all as it should be");
    Ok(())
}

/// The record that is lent to each call.
#[derive(Debug, PartialEq, Eq)]
struct Record {
    lits: [i32; 4],
    kinds: [u8; 4],
    reasons: [u32; 4],
}

impl Record {
    fn open(&mut self) -> Result<Session, Refusal> {
        let Record {
            lits,
            kinds,
            reasons,
        } = self;
        open(&BLOCK, lits, kinds, reasons, Revision(0))
    }

    fn step(&mut self, from: Session, seen: Revision, proposal: i32) -> Result<Stepped, Refusal> {
        let Record {
            lits,
            kinds,
            reasons,
        } = self;
        from.step(&BLOCK, lits, kinds, reasons, seen, Literal(proposal))
    }

    fn run(&mut self, from: Session, preferred: &[i32]) -> Result<Ran, Refusal> {
        let Record {
            lits,
            kinds,
            reasons,
        } = self;
        from.run(&BLOCK, lits, kinds, reasons, from.revision, 100, preferred)
    }
}

fn two_administrators() -> Result<(), Refusal> {
    let mut record = Record {
        lits: [9; 4],
        kinds: [9; 4],
        reasons: [9; 4],
    };
    check(&BLOCK)?;
    let fresh = record.open()?;
    assert_eq!((record.lits, record.kinds), ([0; 4], [0; 4]));
    // Ada puts variable 1 to true, as seen at revision 0.
    let after = record.step(fresh, fresh.revision, 1)?.session;
    assert_eq!((after.length, after.revision), (1, Revision(1)));
    assert_eq!((record.lits[0], record.kinds[0]), (1, 1));
    // Ben still has the page of revision 0.
    let stale = record.step(after, fresh.revision, -1);
    assert_eq!(stale, Err(Refusal(14)));
    assert_eq!(record.lits, [1, 0, 0, 0]);
    // He looks again, and goes on from revision 1.
    let next = record.step(after, after.revision, -2)?.session;
    let ran = record.run(next, &[3, i32::MIN])?;
    assert_eq!(ran.session.state, State::Unsat);
    assert_eq!(ran.session.revision, Revision(2 + u64::from(ran.steps)));
    // Why? The clauses 1 and 2 forced -3 and 4, and so clause 3 can't be met.
    assert_eq!(record.lits, [-1, 2, -3, 4]);
    let clauses = record.reasons.map(|reason| Reason(reason).clause());
    assert_eq!(clauses, [None, None, Some(1), Some(2)]);
    assert_eq!(ran.reason.clause(), Some(3));
    Ok(())
}

fn a_listing() -> Result<(), Refusal> {
    let (mut lits, mut kinds, mut output) = ([9; 4], [9; 4], [7; 8]);
    let mut list = |start, budget, output: &mut [u32]| {
        page(&OPENINGS, &mut lits, &mut kinds, start, &[], budget, output)
    };
    // Case H: with no budget the first search doesn't end; at the end there is none.
    assert_eq!(list(0, 0, &mut output)?, told(0, 0, true));
    assert_eq!(list(4, 0, &mut output)?, told(4, 0, false));
    assert_eq!(output, [7; 8]);
    // Case G, on two pages: 1, 2 and 3 win, each with its count of ones.
    let first = list(0, 100, &mut output[..4])?;
    assert_eq!(first, told(3, 2, false));
    assert_eq!(output, [1, 1, 2, 1, 7, 7, 7, 7]);
    let second = list(first.next, 100, &mut output[4..])?;
    assert_eq!(second, told(4, 1, false));
    assert_eq!(output, [1, 1, 2, 1, 3, 2, 7, 7]);
    // Eight words hold it whole.
    let mut whole = [7; 8];
    assert_eq!(list(0, 100, &mut whole)?, told(4, 3, false));
    assert_eq!(whole, output);
    assert_eq!(list(5, 100, &mut whole), Err(Refusal(20)));
    assert_eq!(list(0, 100, &mut whole[..1]), Err(Refusal(21)));
    assert_eq!(whole, output);
    assert_eq!((lits, kinds), ([0; 4], [0; 4]));
    Ok(())
}

fn told(next: u32, entries: u32, paused: bool) -> Page {
    Page {
        next,
        entries,
        paused,
    }
}

fn bad_input() {
    let (mut lits, mut kinds, mut reasons) = ([7; 4], [7; 4], [7; 4]);
    let mut wrong = BLOCK;
    wrong[9] = i32::MIN;
    assert_eq!(check(&wrong), Err(Refusal(5)));
    assert_eq!(check(&[]), Err(Refusal(1)));
    let short = open(
        &BLOCK,
        &mut lits[..3],
        &mut kinds,
        &mut reasons,
        Revision(0),
    );
    assert_eq!(short, Err(Refusal(11)));
    let short = open(
        &BLOCK,
        &mut lits,
        &mut kinds,
        &mut reasons[..3],
        Revision(0),
    );
    assert_eq!(short, Err(Refusal(11)));
    assert_eq!((lits, kinds, reasons), ([7; 4], [7; 4], [7; 4]));
}
