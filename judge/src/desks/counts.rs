//! Counted runs: from any record, with number buffers and an index that are just long
//! enough, longer, or one place too short.

use super::Play;
use crate::console::line;

impl Play {
    /// C, C and V+T, or what may be so where there is no formula.
    fn number_lengths(&self) -> [usize; 3] {
        self.formula.as_ref().map_or([2, 2, 6], |of| {
            let literals: usize = of.clauses.iter().map(|clause| clause.len()).sum();
            let clauses = of.clauses.len();
            [clauses, clauses, of.variables() + literals]
        })
    }

    /// All three, long enough and with anything in them.
    pub(super) fn lend_numbers(&mut self) {
        let lengths = self.number_lengths();
        for which in 0..3 {
            let more = self.dice.pick(&[0, 0, 1, 4]);
            self.say_numbers(which, lengths[which] + more);
        }
    }

    /// One of them a place too short, or empty.
    fn short_numbers(&mut self) {
        let which = self.dice.below(3);
        let length = self.number_lengths()[which];
        let short = if self.dice.chance(1, 12) {
            0
        } else {
            length.saturating_sub(1)
        };
        self.say_numbers(which, short);
    }

    fn say_numbers(&mut self, which: usize, count: usize) {
        let dice = &mut self.dice;
        let words: Vec<u32> = (0..count)
            .map(|_| dice.pick(&[0, 1, 2, 7, u32::MAX]))
            .collect();
        self.say(line(["trues", "opens", "index"][which], &words));
    }

    /// A counted run, and mostly its numbers.
    pub(super) fn counted(&mut self) {
        if self.dice.chance(1, 8) {
            self.short_numbers();
        }
        let (seen, budget) = (self.desk.session.revision, self.budget());
        self.asked("counted", seen, budget);
        if self.dice.chance(2, 3) {
            self.say("numbers".to_string());
        }
        if self.dice.chance(1, 6) {
            self.lend_numbers();
        }
    }

    pub(super) fn counted_stale(&mut self) {
        let (seen, budget) = (self.stale(), self.budget());
        self.asked("counted", seen, budget);
    }
}
