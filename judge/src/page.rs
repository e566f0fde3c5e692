//! The listing of openings by pages, with refusals 1 to 10, 23, 11 and 18 to 21.

use crate::block::{Formula, FIRST_GROUP};
use crate::hits::Hits;
use crate::record::{self, Entry, FORCED};
use crate::session::{Lent, Search, State};
use crate::truth::opening_values;

/// "It answers next, entries written, and paused or not".
#[derive(Clone, Copy, Debug, PartialEq, Eq)]
pub struct Page {
    pub next: u32,
    pub entries: u32,
    pub paused: bool,
    pub hits: Hits,
}

/// What a page takes beside the block and the buffers: "a start, preferences, a
/// budget of steps for each opening".
#[derive(Clone, Copy, Debug)]
pub struct Ask<'a> {
    pub start: u32,
    pub budget: u32,
    pub preferred: &'a [i32],
}

/// The work record. A page is lent no reasons.
pub struct Work<'a> {
    pub literals: &'a mut [i32],
    pub kinds: &'a mut [u8],
}

/// A page. "Output past the entries is untouched; the first V places of the
/// work record are 0 after it."
pub fn page(block: &[i32], work: Work, ask: Ask, output: &mut [u32]) -> Result<Page, u8> {
    let formula = guard(block, &work, ask.start, output)?;
    let answer = list(&formula, ask, output);
    work.literals[..formula.variables()].fill(0);
    work.kinds[..formula.variables()].fill(0);
    Ok(answer)
}

/// The refusals of a page, in the table's order.
fn guard(block: &[i32], work: &Work, start: u32, output: &[u32]) -> Result<Formula, u8> {
    let formula = Formula::read(block)?;
    if record::buffers_short(&formula, &[work.literals.len(), work.kinds.len()]) {
        return Err(11);
    }
    if formula.first_group_universal() {
        return Err(18);
    }
    if formula.first_group() > FIRST_GROUP {
        return Err(19);
    }
    if start > 1 << formula.first_group() {
        return Err(20);
    }
    if output.len() < 2 {
        return Err(21);
    }
    Ok(formula)
}

/// The openings from the start on, one search for each. "room is looked at
/// before the next search begins".
fn list(formula: &Formula, ask: Ask, output: &mut [u32]) -> Page {
    let end = 1u32 << formula.first_group();
    let mut page = Page {
        next: ask.start,
        entries: 0,
        paused: false,
        hits: Hits::default(),
    };
    while page.next < end {
        let place = 2 * page.entries as usize;
        if output.len() - place < 2 {
            break;
        }
        match search(formula, page.next, ask, &mut page.hits) {
            State::Open => {
                page.paused = true;
                break;
            }
            State::Valid => {
                output[place] = page.next;
                output[place + 1] = ones(page.next);
                page.entries += 1;
            }
            State::Unsat => {}
        }
        page.next += 1;
    }
    page
}

/// "Its search starts from a record of these k values in prefix order, kind 0,
/// at revision 0." It works on buffers of its own: of the work record nothing
/// but its zeros is seen after a page.
fn search(formula: &Formula, opening: u32, ask: Ask, hits: &mut Hits) -> State {
    let values = opening_values(opening, formula.first_group());
    let start: Vec<Entry> = formula
        .order()
        .zip(values)
        .map(|(variable, value)| Entry {
            literal: if value { variable } else { -variable },
            kind: FORCED,
            reason: 0,
        })
        .collect();
    let mut literals = vec![0; formula.variables()];
    let mut kinds = vec![0; formula.variables()];
    let mut reasons = vec![0; formula.variables()];
    let lent = Lent {
        literals: &mut literals,
        kinds: &mut kinds,
        reasons: &mut reasons,
    };
    let mut search = Search::from(formula, start, lent);
    search.go(ask.budget, ask.preferred);
    hits.add(&search.hits);
    search.state
}

/// "how many ones its number has".
fn ones(opening: u32) -> u32 {
    (0..32).filter(|bit| opening >> bit & 1 == 1).count() as u32
}
