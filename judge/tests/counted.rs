//! The counted run is the run, and its numbers are a fresh count.

use judge::block::Formula;
use judge::counted::{fresh, Numbers};
use judge::dice::Dice;
use judge::record::Entry;
use judge::session::{Lent, Session, State};
use judge::shapes;

/// The three buffers of a record, with something behind it.
#[derive(Clone, Debug, PartialEq, Eq)]
struct Memory(Vec<i32>, Vec<u8>, Vec<u32>);

impl Memory {
    fn of(record: &[Entry], places: usize) -> Memory {
        let mut memory = Memory(vec![7; places], vec![7; places], vec![7; places]);
        for (place, entry) in record.iter().enumerate() {
            memory.0[place] = entry.literal;
            memory.1[place] = entry.kind;
            memory.2[place] = entry.reason;
        }
        memory
    }

    fn lent(&mut self) -> Lent<'_> {
        Lent {
            literals: &mut self.0,
            kinds: &mut self.1,
            reasons: &mut self.2,
        }
    }
}

/// By the definition, literal by literal: what is true, and what has no value and
/// stands in the prefix as it is.
fn counts_of(block: &[i32], record: &[i32]) -> Vec<(u32, u32)> {
    let (v, c) = (block[0] as usize, block[1] as usize);
    let (prefix, ends) = (&block[6..6 + v], &block[6 + v..6 + v + c]);
    let words = &block[6 + v + c..];
    let mut counts = vec![(0, 0); c];
    for (place, &word) in words.iter().enumerate() {
        let clause = ends.iter().filter(|&&end| end as usize <= place).count();
        let value = record.iter().find(|literal| literal.abs() == word.abs());
        match value {
            Some(&literal) if literal == word => counts[clause].0 += 1,
            Some(_) => {}
            None if prefix.contains(&word.abs()) => counts[clause].1 += 1,
            None => {}
        }
    }
    counts
}

/// From any record that row 12 lets through, with any budget.
#[test]
fn from_any_record() {
    let mut dice = Dice::new(12);
    let (mut steps, mut ended) = (0, 0);
    for _ in 0..4_000 {
        let shape = shapes::small(&mut dice, 8);
        let block = shapes::block(&mut dice, shape, None);
        let formula = Formula::read(&block).expect("accepted");
        let record = shapes::record(&mut dice, &formula);
        let session = Session {
            length: record.len() as u64,
            revision: 3,
            state: State::Open,
        };
        let budget = dice.below(20) as u32;
        let mut judged = Memory::of(&record, formula.variables() + 1);
        let mut counted = judged.clone();
        let ran = session.run(&block, judged.lent(), 3, budget, &[2, -1]);
        let clauses = formula.clauses.len();
        let (mut trues, mut opens) = (vec![9; clauses + 1], vec![9; clauses + 2]);
        let needed = block.len() - 6 - clauses;
        let numbers = Numbers {
            trues: &mut trues,
            opens: &mut opens,
            index: &vec![9; needed],
        };
        let got = session.counted(&block, counted.lent(), numbers, 3, budget, &[2, -1]);
        assert_eq!(got, ran);
        assert_eq!(counted, judged);
        let ran = ran.expect("accepted");
        let left = &judged.0[..ran.session.length as usize];
        let wanted = counts_of(&block, left);
        assert_eq!(fresh(&formula, left), wanted);
        let found: Vec<(u32, u32)> = trues.iter().copied().zip(opens.iter().copied()).collect();
        assert_eq!(found[..clauses], wanted);
        assert_eq!((trues[clauses], &opens[clauses..]), (9, &[9, 9][..]));
        steps += ran.count;
        ended += u32::from(ran.session.state != State::Open);
    }
    assert!(steps > 5_000 && ended > 500, "{steps} {ended}");
}
