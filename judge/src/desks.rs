//! Random desks as console lines: valid, damaged, stale, and at the edges of 32
//! and 64 bits. The generator plays on a desk of its own, so that it knows what
//! a right line would be, and departs from it on purpose.

use std::io::{self, Write};

use crate::block::{Formula, FIRST_GROUP};
use crate::console::{line, Desk};
use crate::damage::{break_entry, damaged, EDGES};
use crate::dice::Dice;
use crate::nonsense;
use crate::plain::MOST;
use crate::record::{self, Entry};
use crate::rules;
use crate::session::State;
use crate::shapes;

mod counts;
mod shows;
mod texts;
mod writes;

/// Revisions at the edges of 32 and 64 bits.
const REVISIONS: [u64; 8] = [
    u64::MAX,
    u64::MAX,
    u64::MAX - 1,
    u64::MAX - 3,
    u64::MAX - u32::MAX as u64,
    1 << 63,
    1 << 32,
    u32::MAX as u64,
];

/// Writes this many lines.
pub fn write(seed: u64, lines: usize, to: &mut impl Write) -> io::Result<()> {
    let mut play = Play {
        dice: Dice::new(seed),
        desk: Desk::default(),
        formula: None,
        lines: Vec::new(),
    };
    let mut written = 0;
    while written < lines {
        match play.dice.weighted(&[12, 7, 3]) {
            0 => play.scene(),
            1 => play.text_scene(),
            _ => play.writing_scene(),
        }
        for line in play.lines.drain(..).take(lines - written) {
            writeln!(to, "{line}")?;
            written += 1;
        }
    }
    Ok(())
}

struct Play {
    dice: Dice,
    /// The desk as it is after the lines so far.
    desk: Desk,
    /// The formula of its block, if the check accepts it.
    formula: Option<Formula>,
    /// The lines of this scene.
    lines: Vec<String>,
}

impl Play {
    fn say(&mut self, line: String) {
        let line = if self.dice.chance(1, 40) {
            self.respaced(&line)
        } else {
            line
        };
        self.desk.answer(line.as_bytes());
        self.lines.push(line);
    }

    /// The same line with more spaces than it needs, or other zeros.
    fn respaced(&mut self, line: &str) -> String {
        match self.dice.below(4) {
            0 => format!("  {line}"),
            1 => format!("{line} "),
            2 => line.replace(' ', "   "),
            _ => line.replace(" 0", " -00"),
        }
    }

    /// One formula and what is done with it.
    fn scene(&mut self) {
        let block = self.new_block();
        for _ in 0..self.dice.below(4) {
            let wrong = damaged(&mut self.dice, &block);
            self.say_block(&wrong);
            self.calls_of_each_kind();
        }
        self.say_block(&block);
        self.plain();
        self.lend_buffers(self.variables());
        self.lend_numbers();
        self.say_output();
        self.say_open();
        for _ in 0..4 + self.dice.below(24) {
            self.act();
        }
    }

    /// Mostly small formulas, with now and then a large count, or one at its limit
    /// or over it, the limit of a second opinion being one of them.
    fn new_block(&mut self) -> Vec<i32> {
        let dice = &mut self.dice;
        let variables = 3 + dice.below(10);
        let (shape, k) = match dice.weighted(&[160, 160, 340, 280, 140, 14, 14, 9, 70]) {
            0 => (shapes::small(dice, 4), None),
            1 => (shapes::small(dice, 8), None),
            2 => (shapes::harder(dice, variables), None),
            3 => {
                let k = 1 + dice.below(variables.min(4));
                (shapes::harder(dice, variables), Some(k))
            }
            4 => shapes::wide(dice),
            5 => (shapes::large(dice), None),
            6 => return shapes::full(dice),
            7 => return shapes::overfull(dice),
            _ => {
                let many = MOST + 1 + dice.below(3);
                (shapes::harder(dice, many), None)
            }
        };
        shapes::block(dice, shape, k)
    }

    /// Buffers of V places or somewhat more, with anything in them.
    fn lend_buffers(&mut self, variables: usize) {
        let lengths = [0, 0, 1, 3].map(|more| variables + more);
        let (lits, kinds) = (self.dice.pick(&lengths), self.dice.pick(&lengths));
        let reasons = self.dice.pick(&lengths);
        self.say_literals(lits);
        self.say_kinds(kinds);
        self.say_reasons(reasons);
    }

    fn say_literals(&mut self, count: usize) {
        let words = self.preferences(count);
        self.say(line("lits", &words));
    }

    fn say_kinds(&mut self, count: usize) {
        let dice = &mut self.dice;
        let kinds: Vec<u8> = (0..count).map(|_| dice.pick(&[0, 1, 2, 3, 255])).collect();
        self.say(line("kinds", &kinds));
    }

    fn say_reasons(&mut self, count: usize) {
        let words: Vec<u32> = (0..count).map(|_| self.any_reason()).collect();
        self.say(line("reasons", &words));
    }

    /// None, a clause's, the number just over C, or one at an edge.
    fn any_reason(&mut self) -> u32 {
        let clauses = self.formula.as_ref().map_or(3, |of| of.clauses.len());
        let some = self.dice.below(clauses + 2) as u32;
        self.dice
            .pick(&[0, 0, some, some, clauses as u32 + 1, u32::MAX])
    }

    fn say_output(&mut self) {
        let dice = &mut self.dice;
        let count = dice.pick(&[0, 1, 2, 3, 4, 5, 6, 8, 8, 9, 16]);
        let words: Vec<u32> = (0..count)
            .map(|_| dice.pick(&[0, 7, 1 << FIRST_GROUP, u32::MAX]))
            .collect();
        self.say(line("out", &words));
    }

    fn say_open(&mut self) {
        let small = self.dice.below(9) as u64;
        let revision = if self.dice.chance(1, 5) {
            self.dice.pick(&REVISIONS)
        } else {
            small
        };
        self.say(format!("open {revision}"));
    }

    fn say_block(&mut self, block: &[i32]) {
        self.say(line("block", block));
        self.formula = Formula::read(&self.desk.block).ok();
    }

    fn variables(&self) -> usize {
        self.formula.as_ref().map_or(3, Formula::variables)
    }

    /// The record on the desk, or its refusal.
    fn record(&self, formula: &Formula) -> Result<Vec<Entry>, u8> {
        let desk = &self.desk;
        let (literals, kinds, reasons) = (&desk.literals, &desk.kinds, &desk.reasons);
        record::read(formula, literals, kinds, reasons, desk.session.length)
    }

    fn act(&mut self) {
        if self.stuck() && self.dice.chance(1, 2) {
            self.say_open();
        }
        match self.dice.weighted(&[
            20, 14, 12, 6, 12, 2, 14, 6, 4, 6, 5, 3, 3, 1, 3, 6, 12, 2, 3, 3,
        ]) {
            0 => self.step_with(0),
            1 => self.step_open(),
            2 => self.step_any(),
            3 => self.step_stale(),
            4 => self.run(),
            5 => self.run_stale(),
            6 => self.page(),
            7 => self.show(),
            8 => self.say_session(),
            9 => self.damaged_record(),
            10 => self.made_record(),
            11 => self.no_command(),
            12 => self.say_open(),
            13 => self.no_answer(),
            14 => self.say_output(),
            15 => self.walk(),
            16 => self.counted(),
            17 => self.counted_stale(),
            18 => self.shown(),
            _ => self.shown_of_record(),
        }
        self.shown_if_ended();
        if self.dice.chance(1, 5) {
            self.show();
        }
    }

    fn show(&mut self) {
        self.say("show".to_string());
    }

    /// Whether no step can be accepted as the desk is.
    fn stuck(&self) -> bool {
        let session = self.desk.session;
        let formula = self.formula.as_ref();
        let accepted = formula.map_or(false, |formula| self.record(formula).is_ok());
        !accepted || session.state != State::Open || session.revision == u64::MAX
    }

    /// Some steps in a row.
    fn walk(&mut self) {
        for _ in 0..4 + self.dice.below(20) {
            if !self.stuck() {
                self.step_with(0);
            }
        }
    }

    fn step_with(&mut self, proposal: i32) {
        let revision = self.desk.session.revision;
        self.say(format!("step {revision} {proposal}"));
    }

    /// A step with a literal that is open, where there is one.
    fn step_open(&mut self) {
        let formula = match self.formula.clone() {
            Some(formula) => formula,
            None => return self.step_with(0),
        };
        let record = self.record(&formula).unwrap_or_default();
        let literals = formula.order().flat_map(|variable| [variable, -variable]);
        let open: Vec<i32> = literals
            .filter(|&literal| rules::open(&formula, &record, literal))
            .collect();
        let wanted = self.decide_due() || self.dice.chance(1, 4);
        let proposal = if wanted && !open.is_empty() {
            self.dice.pick(&open)
        } else {
            0
        };
        self.step_with(proposal);
    }

    fn step_any(&mut self) {
        let proposal = self.any_literal();
        let proposal = if self.decide_due() || self.dice.chance(1, 3) {
            proposal
        } else {
            0
        };
        self.step_with(proposal);
    }

    fn decide_due(&self) -> bool {
        self.formula.as_ref().map_or(false, |formula| {
            let record = self.record(formula).unwrap_or_default();
            rules::due(formula, &record) == rules::Rule::Decide
        })
    }

    /// A literal, a word just over V, or a word at an edge.
    fn any_literal(&mut self) -> i32 {
        let most = self.variables() as i64 + 1;
        if self.dice.chance(1, 5) {
            self.dice.pick(&EDGES)
        } else {
            self.dice.between(-most, most) as i32
        }
    }

    /// A revision that is not the session's, but may be so in fewer bits.
    fn stale(&mut self) -> u64 {
        let now = self.desk.session.revision;
        let others = [
            now.wrapping_sub(1),
            now.wrapping_add(1),
            now ^ 1 << 32,
            now ^ 1 << 63,
            0,
            u64::MAX,
        ];
        self.dice.pick(&others)
    }

    fn step_stale(&mut self) {
        let (seen, proposal) = (self.stale(), self.any_literal());
        let proposal = self.dice.pick(&[0, proposal]);
        self.say(format!("step {seen} {proposal}"));
    }

    /// A budget that keeps every search short.
    fn budget(&mut self) -> u32 {
        let small = self.variables() <= 10;
        let all = if small { u32::MAX } else { 50 };
        let some = self.dice.below(if small { 200 } else { 40 }) as u32;
        let few = self.dice.below(12) as u32;
        self.dice.pick(&[0, 1, 2, 3, few, few, some, all])
    }

    fn preferences(&mut self, count: usize) -> Vec<i32> {
        (0..count).map(|_| self.any_literal()).collect()
    }

    /// `SEEN BUDGET P..` or `START BUDGET P..`.
    fn asked(&mut self, command: &str, first: u64, budget: u32) {
        let count = self.dice.pick(&[0, 0, 1, 3, 6, 12]);
        let preferred = self.preferences(count);
        self.say(line(&format!("{command} {first} {budget}"), &preferred));
    }

    fn run(&mut self) {
        let budget = self.budget();
        self.asked("run", self.desk.session.revision, budget);
    }

    fn run_stale(&mut self) {
        let (seen, budget) = (self.stale(), self.budget());
        self.asked("run", seen, budget);
    }

    /// A page, near the end of the openings where these are many.
    fn page(&mut self) {
        if self.dice.chance(1, 3) {
            self.say_output();
        }
        let k = self.formula.as_ref().map_or(0, Formula::first_group);
        let end = 1u64 << k.min(FIRST_GROUP + 4);
        let first = if k > 6 {
            end.saturating_sub(self.dice.below(30) as u64)
        } else {
            self.dice.below(end as usize) as u64
        };
        let early = if k > 6 { first } else { 0 };
        let edges = [end, end + 1, u32::MAX as u64];
        let start = match self.dice.below(8) {
            0 => self.dice.pick(&edges),
            1..=3 => first,
            _ => early,
        };
        let budget = self.budget();
        self.asked("page", start.min(u32::MAX as u64), budget);
    }

    /// The second opinion, where it is soon told: it is refused, or there are few
    /// values to try.
    fn plain(&mut self) {
        let v = self.variables();
        if self.formula.is_none() || v <= 10 || v > MOST {
            self.say("plain".to_string());
        }
    }

    fn say_session(&mut self) {
        let v = self.variables() as u64;
        let now = self.desk.session;
        let lengths = [now.length, now.length, v, v + 1, 0, u64::MAX, 1 << 32];
        let length = self.dice.pick(&lengths);
        let revisions = [now.revision, now.revision, self.dice.pick(&REVISIONS)];
        let revision = self.dice.pick(&revisions);
        let state = self.dice.pick(&[0, 0, 0, 1, 2]);
        self.say(format!("session {length} {revision} {state}"));
    }

    /// Lends buffers with this record, and anything past it.
    fn say_record(&mut self, record: &[Entry], variables: usize) {
        let more = self.dice.pick(&[0, 0, 2]);
        let mut literals: Vec<i32> = record.iter().map(|entry| entry.literal).collect();
        let mut kinds: Vec<u8> = record.iter().map(|entry| entry.kind).collect();
        let mut reasons: Vec<u32> = record.iter().map(|entry| entry.reason).collect();
        while literals.len() < variables + more {
            literals.push(self.any_literal());
            kinds.push(self.dice.pick(&[0, 2, 9]));
            reasons.push(self.any_reason());
        }
        self.say(line("lits", &literals));
        self.say(line("kinds", &kinds));
        self.say(line("reasons", &reasons));
    }

    /// Steps, or runs counted, from a session of this length.
    fn step_at(&mut self, length: usize, state: u8) {
        let revision = self.desk.session.revision;
        self.say(format!("session {length} {revision} {state}"));
        if self.dice.chance(1, 2) {
            self.step_with(0);
        } else {
            self.counted();
        }
    }

    fn made_record(&mut self) {
        let formula = match self.formula.clone() {
            Some(formula) => formula,
            None => return self.calls_of_each_kind(),
        };
        let record = shapes::record(&mut self.dice, &formula);
        self.say_record(&record, formula.variables());
        self.step_at(record.len(), 0);
    }

    /// A record with one thing wrong, a call or two on it, and a new start.
    fn damaged_record(&mut self) {
        let formula = match self.formula.clone() {
            Some(formula) => formula,
            None => return self.calls_of_each_kind(),
        };
        let v = formula.variables();
        if v > 0 && self.dice.chance(1, 3) {
            self.short_buffers(v);
        } else {
            let mut record = shapes::record(&mut self.dice, &formula);
            break_entry(&mut self.dice, &mut record, &formula);
            self.say_record(&record, v);
            let state = self.dice.pick(&[0, 0, 0, 1]);
            self.step_at(record.len(), state);
            self.run();
            if self.dice.chance(1, 2) {
                self.shown();
            }
        }
        if self.dice.chance(1, 4) {
            self.show();
        }
        self.lend_buffers(v);
        self.say_open();
    }

    /// One of the three record buffers shorter than V.
    fn short_buffers(&mut self, v: usize) {
        let short = self.dice.pick(&[v - 1, v - 1, 0]);
        match self.dice.below(3) {
            0 => self.say_literals(short),
            1 => self.say_kinds(short),
            _ => self.say_reasons(short),
        }
        self.calls_of_each_kind();
    }

    fn calls_of_each_kind(&mut self) {
        if self.dice.chance(1, 2) {
            self.say_open();
        }
        if self.dice.chance(1, 2) {
            self.step_any();
        }
        if self.dice.chance(1, 2) {
            self.run();
        }
        if self.dice.chance(1, 2) {
            self.page();
        }
        if self.dice.chance(1, 8) {
            self.write_block();
        }
        if self.dice.chance(1, 2) {
            self.counted();
        }
        if self.dice.chance(1, 2) {
            self.plain();
        }
        if self.dice.chance(1, 2) {
            self.shown();
        }
    }

    fn no_answer(&mut self) {
        let line = self.dice.pick(&["", " ", "#", "# show", "#show"]);
        self.say(line.to_string());
    }

    fn no_command(&mut self) {
        let line = nonsense::line(&mut self.dice, self.desk.session.revision);
        self.say(line);
    }
}
