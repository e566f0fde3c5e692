//! Cases A, G and K of docs/SPEC.md, the texts of A and G, second opinions, and refusals in words.

use mokihazureo::{
    open, page, plain, read, write, Literal, Page, Reason, Refusal, Revision, Session,
};
use mokihazureo::{Numbers, Reader, State, Unread};

const A: [i32; 28] = [
    4, 5, 13, 6, 10, 15, 1, -2, 3, 4, 3, 5, 7, 10, 13, -1, -2, 3, -2, -3, 3, 4, 1, -2, -4, 2, 3, -4,
];

const G: [i32; 19] = [4, 3, 6, 6, 10, 13, 1, 2, -3, 4, 2, 4, 6, 1, 2, -3, 4, 3, -4];

/// A's record and where its session is.
struct Desk {
    lits: [i32; 4],
    kinds: [u8; 4],
    reasons: [u32; 4],
    session: Session,
}

impl Desk {
    fn opened() -> Desk {
        let (mut lits, mut kinds, mut reasons) = ([9; 4], [9; 4], [9; 4]);
        let session = open(&A, &mut lits, &mut kinds, &mut reasons, Revision(0));
        Desk {
            lits,
            kinds,
            reasons,
            session: session.unwrap(),
        }
    }

    fn step(&mut self, seen: u64, proposal: i32) -> Result<Reason, Refusal> {
        let (lits, kinds, reasons) = (&mut self.lits, &mut self.kinds, &mut self.reasons);
        let (seen, proposal) = (Revision(seen), Literal(proposal));
        let done = self
            .session
            .step(&A, lits, kinds, reasons, seen, proposal)?;
        self.session = done.session;
        Ok(done.reason)
    }
}

#[test]
fn a_step_by_step() {
    let mut desk = Desk::opened();
    let records = [
        [1, 0, 0, 0],
        [1, 2, 0, 0],
        [1, 2, 3, 0],
        [-1, 0, 0, 0],
        [-1, 2, 0, 0],
        [-1, 2, -3, 0],
        [-1, 2, -3, 4],
        [-1, 2, -3, 4],
    ];
    // What each step answers as its reason, and the record's reasons after it.
    let reasons = [
        (0, [0, 0, 0, 0]),
        (0, [0, 0, 0, 0]),
        (1, [0, 0, 1, 0]),
        (2, [0, 0, 0, 0]),
        (0, [0, 0, 0, 0]),
        (2, [0, 0, 2, 0]),
        (3, [0, 0, 2, 3]),
        (4, [0, 0, 2, 3]),
    ];
    for (seen, (record, (reason, reasons))) in (0..).zip(records.into_iter().zip(reasons)) {
        assert_eq!(desk.session.state, State::Open);
        assert_eq!(desk.step(seen, 0), Ok(Reason(reason)));
        assert_eq!((desk.lits, desk.reasons), (record, reasons));
    }
    assert_eq!(desk.kinds, [0, 2, 0, 0]);
    assert_eq!(desk.session.state, State::Unsat);
    assert_eq!(desk.session.revision, Revision(8));
    assert_eq!(desk.step(8, 0), Err(Refusal(13)));
}

#[test]
fn a_in_one_run() {
    // A run answers its last step's reason, and one of no steps none.
    for (budget, state, clause) in [
        (0, State::Open, None),
        (3, State::Open, Some(0)),
        (5, State::Open, None),
        (100, State::Unsat, Some(3)),
    ] {
        let Desk {
            mut lits,
            mut kinds,
            mut reasons,
            session,
        } = Desk::opened();
        let (lits, kinds, reasons) = (&mut lits, &mut kinds, &mut reasons);
        let ran = session.run(&A, lits, kinds, reasons, Revision(0), budget, &[]);
        let ran = ran.unwrap();
        assert_eq!((ran.steps, ran.session.state), (budget.min(8), state));
        assert_eq!(ran.reason.clause(), clause);
    }
}

/// A's counted run of so many steps, with buffers of these lengths: its count of steps,
/// and the numbers.
fn counted(budget: u32, lengths: [usize; 3]) -> Result<(u32, Vec<u32>, Vec<u32>), Refusal> {
    let Desk {
        mut lits,
        mut kinds,
        mut reasons,
        session,
    } = Desk::opened();
    let [mut trues, mut opens, mut index] = lengths.map(|length| vec![9; length]);
    let numbers = Numbers {
        trues: &mut trues,
        opens: &mut opens,
        index: &mut index,
    };
    let (lits, kinds, reasons) = (&mut lits, &mut kinds, &mut reasons);
    let ran = session.counted(&A, lits, kinds, reasons, numbers, Revision(0), budget, &[])?;
    Ok((ran.steps, trues, opens))
}

/// 5 clauses, and 4 + 13 places of index.
#[test]
fn a_counted() {
    let fresh = (0, vec![0, 0, 0, 0, 0], vec![2, 1, 2, 2, 2]);
    assert_eq!(counted(0, [5, 5, 17]), Ok(fresh));
    let third = (3, vec![1, 0, 1, 1, 2, 9], vec![0, 0, 1, 1, 1, 9, 9]);
    assert_eq!(counted(3, [6, 7, 20]), Ok(third));
    let ended = (8, vec![1, 1, 1, 0, 1], vec![0; 5]);
    assert_eq!(counted(100, [5, 5, 17]), Ok(ended));
    for lengths in [[4, 5, 17], [5, 4, 17], [5, 5, 16]] {
        assert_eq!(counted(100, lengths), Err(Refusal(11)));
    }
}

/// 5 clauses, so 6 is no reason; a decision has none; past the record any word may
/// stand.
#[test]
fn reasons_in_a_record() {
    let tried = |kind, reason, past| {
        let session = Session {
            length: 1,
            ..Desk::opened().session
        };
        let (mut lits, mut kinds, mut reasons) = ([1, 0, 0, 0], [kind, 0, 0, 0], [past; 4]);
        reasons[0] = reason;
        let (lits, kinds, reasons) = (&mut lits, &mut kinds, &mut reasons);
        let ran = session.run(&A, lits, kinds, reasons, Revision(0), 0, &[]);
        ran.map(|ran| ran.reason)
    };
    assert_eq!(tried(0, 5, u32::MAX), Ok(Reason(0)));
    assert_eq!(tried(1, 0, 1), Ok(Reason(0)));
    assert_eq!(tried(0, 6, 0), Err(Refusal(12)));
    assert_eq!(tried(1, 1, 0), Err(Refusal(12)));
}

fn list(start: u32, output: &mut [u32]) -> Result<Page, Refusal> {
    page(&G, &mut [9; 4], &mut [9; 4], start, &[], 100, output)
}

#[test]
fn g_on_one_page() {
    let mut output = [7; 8];
    let whole = Page {
        next: 4,
        entries: 3,
        paused: false,
    };
    assert_eq!(list(0, &mut output), Ok(whole));
    assert_eq!(output, [1, 1, 2, 1, 3, 2, 7, 7]);
}

#[test]
fn g_page_by_page() {
    let mut output = [7; 4];
    let first = list(0, &mut output).unwrap();
    assert_eq!((first.next, first.entries), (3, 2));
    assert_eq!(output, [1, 1, 2, 1]);
    let second = list(first.next, &mut output).unwrap();
    assert_eq!((second.next, second.entries), (4, 1));
    assert_eq!(output, [3, 2, 2, 1]);
}

#[test]
fn k_is_refused_and_changes_nothing() {
    let mut desk = Desk::opened();
    let fresh = desk.session;
    assert_eq!(desk.step(0, 3), Err(Refusal(17)));
    assert_eq!((desk.session, desk.lits), (fresh, [0; 4]));
    assert_eq!(desk.step(0, 1), Ok(Reason(0)));
    let taken = desk.session;
    assert_eq!(desk.step(0, -2), Err(Refusal(14)));
    assert_eq!((desk.session, desk.lits), (taken, [1, 0, 0, 0]));
    assert_eq!(desk.step(1, -2), Ok(Reason(0)));
    assert_eq!(desk.lits, [1, -2, 0, 0]);
    assert_eq!(desk.kinds, [1, 2, 0, 0]);
}

const TEXT: &[u8] =
    b"c case A\np cnf 4 5\ne 1 0\na 2 0\ne 3 4 0\n-1 -2 3 0\n-2 -3 0\n3 4 0\n1 -2 -4 0\n2 3 -4 0\n";

#[test]
fn a_text_is_read() {
    let mut output = [7; 30];
    assert_eq!(read(TEXT, &mut output), Ok(28));
    assert_eq!((&output[..28], &output[28..]), (&A[..], &[0, 0][..]));
}

/// Cut anywhere, twice, it is read as the whole is; and so is each of its beginnings.
#[test]
fn a_text_in_pieces() {
    for end in 0..=TEXT.len() {
        let (mut whole, text) = ([7; 30], &TEXT[..end]);
        let answer = read(text, &mut whole);
        for cut in 0..=end {
            let (mut output, mut reader) = ([9; 30], Reader::begin());
            let (first, second) = text.split_at(cut);
            for piece in [
                first,
                &second[..second.len() / 2],
                &second[second.len() / 2..],
            ] {
                reader.piece(piece, &mut output);
            }
            assert_eq!(reader.end(&mut output), answer);
            assert_eq!(output, whole);
        }
    }
}

#[test]
fn a_text_is_refused_and_the_output_wiped() {
    let refused: [(&[u8], usize, Unread); 9] = [
        (b"", 30, Unread::Misfit(0)),
        (b"p cnf 0 0\r\n", 30, Unread::Misfit(9)),
        (b"p cnf 0 0", 30, Unread::Misfit(9)),
        (b"p cnf 1 0\n1 0\n", 30, Unread::Refused(28)),
        (b"p cnf 1025 0\n", 30, Unread::Refused(29)),
        (TEXT, 27, Unread::Refused(30)),
        (b"p cnf 1 0\na 1 0\n", 30, Unread::Row(7)),
        (b"p cnf 1 1\n2 0\n", 30, Unread::Row(9)),
        (b"p cnf 1 1\n1 1 0\n", 30, Unread::Row(23)),
    ];
    for (text, words, unread) in refused {
        let mut output = vec![7; words];
        assert_eq!(read(text, &mut output), Err(unread));
        assert_eq!(output, vec![0; words]);
    }
}

/// Refusals speak in the table's words.
#[test]
fn refusals_in_words() {
    for (said, wanted) in [
        (
            Refusal(14).to_string(),
            "refused with 14: seen at another revision",
        ),
        (
            Refusal(24).to_string(),
            "refused with 24: no number of the table",
        ),
        (
            Unread::Misfit(9).to_string(),
            "refused with 27: not a text, at byte 9",
        ),
        (
            Unread::Refused(30).to_string(),
            "refused with 30: output too short",
        ),
        (
            Unread::Row(7).to_string(),
            "refused with 31: formula that no block may have, row 7: innermost variable is universal",
        ),
    ] {
        assert_eq!(said, wanted);
    }
}

/// What is written, and the bytes behind it; and it is read back.
#[test]
fn a_block_is_written() {
    let g: &[u8] = b"p cnf 4 3\ne 1 2 0\na 3 0\ne 4 0\n1 2 0\n-3 4 0\n3 -4 0\n";
    // A's text without its comment, which has nine bytes.
    for (block, text) in [(&A[..], &TEXT[9..]), (&G[..], g)] {
        let mut output = vec![7; text.len() + 2];
        assert_eq!(write(block, &mut output), Ok(text.len()));
        assert_eq!(output, [text, &[7, 7][..]].concat());
        let mut exactly = vec![7; text.len()];
        assert_eq!(write(block, &mut exactly), Ok(text.len()));
        assert_eq!(exactly, text);
        let mut back = vec![9; block.len()];
        assert_eq!(read(&exactly, &mut back), Ok(block.len()));
        assert_eq!(back, block);
    }
}

/// A text that doesn't fit by a byte, and a block that is refused, whatever the room.
#[test]
fn a_block_is_not_written() {
    let mut universal = G;
    universal[9] = -4;
    for (block, room, number) in [
        (&A[..], TEXT.len() - 10, 30),
        (&A[..], 0, 30),
        (&A[..27], 100, 4),
        (&universal[..], 100, 7),
        (&universal[..], 0, 7),
        (&[], 0, 1),
    ] {
        let mut output = vec![7; room];
        assert_eq!(write(block, &mut output), Err(Refusal(number)));
        assert_eq!(output, vec![7; room]);
    }
}

/// G is Valid, and what its record shows wins: 1 or 2 is true. With 32 there is nothing
/// to show, and with 30 no room.
#[test]
fn a_witness() {
    let (mut lits, mut kinds, mut reasons) = ([0; 4], [0; 4], [0; 4]);
    let fresh = open(&G, &mut lits, &mut kinds, &mut reasons, Revision(0)).unwrap();
    let mut output = [7; 5];
    assert_eq!(
        fresh.shown(&G, &lits, &kinds, &mut output),
        Err(Refusal(32))
    );
    let ran = fresh.run(&G, &mut lits, &mut kinds, &mut reasons, Revision(0), 99, &[]);
    let ended = ran.unwrap().session;
    assert_eq!(
        ended.shown(&G, &lits, &kinds, &mut output[..3]),
        Err(Refusal(30))
    );
    assert_eq!(output, [7; 5]);
    assert_eq!(ended.shown(&G, &lits, &kinds, &mut output), Ok(2));
    assert_eq!(output.map(i32::abs), [1, 2, 7, 7, 7]);
    assert!(output[0] == 1 || output[1] == 2);
}

/// A is false, and G has winners. 25 variables are one more than plain takes.
#[test]
fn second_opinions() {
    assert_eq!(plain(&A), Ok(false));
    assert_eq!(plain(&G), Ok(true));
    let mut many = vec![25, 0, 0, 6, 31, 31];
    many.extend(1..=25);
    assert_eq!(plain(&many), Err(Refusal(22)));
    assert_eq!(plain(&A[..27]), Err(Refusal(4)));
}
