//! What a list of console lines tries: how often each command, refusal number
//! and rule comes up, by the judge's own answers.

use std::collections::BTreeMap;
use std::fmt;

use crate::blame;
use crate::console::Desk;
use crate::hits::NAMES;
use crate::witness::Witnesses;

/// The commands whose answer begins with a number of the table.
const CALLS: [&str; 11] = [
    "block", "open", "step", "run", "page", "read", "pieces", "write", "counted", "plain", "shown",
];

const COMMANDS: [&str; 24] = [
    "block", "lits", "kinds", "reasons", "out", "session", "open", "step", "run", "page", "show",
    "text", "read", "pieces", "words", "write", "bytes", "trues", "opens", "index", "counted",
    "numbers", "plain", "shown",
];

/// The refusals of a reading, 31 with its rows.
const READINGS: [&str; 10] = [
    "27", "28", "29", "30", "31-5", "31-6", "31-7", "31-9", "31-10", "31-23",
];

#[derive(Default)]
pub struct Tally {
    desk: Desk,
    lines: u64,
    /// Answers by their first word, `?` being one.
    answers: BTreeMap<String, u64>,
    /// Answers to calls by number, 0 being an accepted one, and command.
    numbers: BTreeMap<(String, String), u64>,
    /// Refusals that one buffer alone is to blame for, by what it was.
    blames: [u64; 6],
    witnesses: Witnesses,
}

impl Tally {
    /// Counts a line, given without its line feed.
    pub fn note(&mut self, line: &[u8]) {
        self.lines += 1;
        let undisturbed = self.witnesses.undisturbed(&self.desk);
        if let Some(answer) = self.desk.answer(line) {
            self.note_answer(&answer);
            self.note_blame(&answer);
            self.witnesses.note(&answer, undisturbed, &self.desk);
        }
    }

    fn note_blame(&mut self, answer: &str) {
        let row = match answer {
            "open 11" | "step 11" | "run 11" | "counted 11" => 11,
            "step 12" | "run 12" | "counted 12" => 12,
            _ => return,
        };
        let is_counted = answer.starts_with("counted");
        if let Some(place) = blame::of(&self.desk, row, is_counted) {
            self.blames[place] += 1;
        }
    }

    fn note_answer(&mut self, answer: &str) {
        let mut words = answer.split(' ');
        let command = words.next().unwrap_or("").to_string();
        let number = words.next().map(|number| with_row(number, words.next()));
        *self.answers.entry(command.clone()).or_default() += 1;
        if let (Some(number), true) = (number, CALLS.contains(&command.as_str())) {
            *self.numbers.entry((number, command)).or_default() += 1;
        }
    }

    fn answered(&self, first_word: &str) -> u64 {
        self.answers.get(first_word).copied().unwrap_or(0)
    }

    fn given(&self, number: &str, command: &str) -> u64 {
        let key = (number.to_string(), command.to_string());
        self.numbers.get(&key).copied().unwrap_or(0)
    }

    fn number_row(&self, f: &mut fmt::Formatter, name: &str, number: &str) -> fmt::Result {
        let counts = CALLS.map(|command| (command, self.given(number, command)));
        row(f, name, &counts)
    }

    fn rule_row(&self, f: &mut fmt::Formatter, rule: usize) -> fmt::Result {
        let [step, run, page, counted] = self.desk.hits.map(|hits| hits.0[rule]);
        let counts = [
            ("step", step),
            ("run", run),
            ("page", page),
            ("counted", counted),
        ];
        row(f, &format!("rule {}", NAMES[rule]), &counts)
    }
}

/// The number of a refusal; of 31 with its row, as 31-5.
fn with_row(number: &str, next: Option<&str>) -> String {
    match (number, next) {
        ("31", Some(row)) => format!("31-{row}"),
        _ => number.to_string(),
    }
}

/// A count and its parts, those that are 0 left out.
fn row(f: &mut fmt::Formatter, name: &str, parts: &[(&str, u64)]) -> fmt::Result {
    write!(f, "{name} {}", parts.iter().map(|part| part.1).sum::<u64>())?;
    for (command, count) in parts.iter().filter(|part| part.1 > 0) {
        write!(f, " {command} {count}")?;
    }
    writeln!(f)
}

/// One count to a line: `lines N`, `answers N`, `no-command N` (the answer `?`),
/// `command NAME N`, `blame NAME N`, `witnesses checked N`, `witnesses wrong N`,
/// `accepted N`, `refusal NUMBER N` and `rule NAME N`, the last three with the share of
/// each command behind.
impl fmt::Display for Tally {
    fn fmt(&self, f: &mut fmt::Formatter) -> fmt::Result {
        writeln!(f, "lines {}", self.lines)?;
        writeln!(f, "answers {}", self.answers.values().sum::<u64>())?;
        writeln!(f, "no-command {}", self.answered("?"))?;
        for command in COMMANDS {
            writeln!(f, "command {command} {}", self.answered(command))?;
        }
        for (name, count) in blame::NAMES.iter().zip(self.blames) {
            writeln!(f, "blame {name} {count}")?;
        }
        writeln!(f, "witnesses checked {}", self.witnesses.checked)?;
        writeln!(f, "witnesses wrong {}", self.witnesses.wrong)?;
        self.number_row(f, "accepted", "0")?;
        let table = (1..=23).chain([32]).map(|number| number.to_string());
        for number in table.chain(READINGS.map(String::from)) {
            self.number_row(f, &format!("refusal {number}"), &number)?;
        }
        (0..NAMES.len()).try_for_each(|rule| self.rule_row(f, rule))
    }
}
