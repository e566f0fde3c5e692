//! Random texts: what a text says, word by word, written in the layouts that
//! the grammar allows; and damage to the words, aimed at one refusal each time,
//! or to the bytes. Not every try lands; the reader says what came of it.

use crate::block::{HEADER, LIMITS};
use crate::dice::Dice;
use crate::scribbles::scribbled;
use crate::shapes::{self, Shape};

/// What a text says, in the words of its lines.
#[derive(Clone, Debug)]
pub struct Sheet {
    pub variables: String,
    pub count: String,
    /// The letter of each quantifier line, and its numbers.
    pub groups: Vec<(u8, Vec<String>)>,
    pub clauses: Vec<Vec<String>>,
}

/// What damage is aimed at: 28, 29, and the rows of 31.
const TARGETS: [u8; 8] = [28, 29, 5, 6, 7, 9, 10, 23];

/// Numbers over 2^31 - 1, of which some are small in 32 or 64 bits.
const LARGE: [&str; 7] = [
    "2147483648",
    "4294967295",
    "4294967297",
    "9223372036854775808",
    "18446744073709551617",
    "99999999999999999999",
    "1000000000000000000000000000000000000001",
];

impl Sheet {
    /// Mostly a small formula, some of its variables in no quantifier line.
    pub fn random(dice: &mut Dice) -> Sheet {
        let variables = 3 + dice.below(10);
        let shape = match dice.weighted(&[500, 300, 180, 10, 1]) {
            0 => shapes::small(dice, 4),
            1 => shapes::small(dice, 8),
            2 => shapes::harder(dice, variables),
            3 => shapes::large(dice),
            _ => return Sheet::largest(dice),
        };
        Sheet::of_shape(dice, shape)
    }

    fn of_shape(dice: &mut Dice, shape: Shape) -> Sheet {
        let mut prefix = shapes::prefix(dice, shape, None);
        let mut clauses = shapes::clauses(dice, shape, &prefix);
        if !clauses.is_empty() && dice.chance(1, 8) {
            let place = dice.below(clauses.len());
            clauses[place].clear();
        }
        let left_out = dice.pick(&[0, 0, 0, 20, 50, 100]);
        prefix.retain(|_| !dice.chance(left_out, 100));
        let more = dice.pick(&[0, 0, 0, 0, 1, 2, 9]);
        let split = dice.pick(&[0, 0, 40, 100]);
        Sheet {
            variables: (shape.variables + more).to_string(),
            count: clauses.len().to_string(),
            groups: groups(dice, &prefix, split),
            clauses: clauses.iter().map(|clause| words(clause)).collect(),
        }
    }

    /// All counts at their limits, no clause with a variable twice.
    pub fn largest(dice: &mut Dice) -> Sheet {
        let [v, c, t] = LIMITS.map(|most| most as usize);
        let shape = Shape {
            variables: v,
            clauses: c,
            widths: (t / c, t / c),
            existential: 0,
            changes: 10,
        };
        let prefix = shapes::prefix(dice, shape, None);
        let mut variables: Vec<i32> = (1..=v as i32).collect();
        let mut clause = || {
            dice.shuffle(&mut variables);
            let literals = variables[..t / c].iter();
            let literals: Vec<i32> = literals.map(|v| v * dice.pick(&[1, -1])).collect();
            words(&literals)
        };
        let clauses = (0..c).map(|_| clause()).collect();
        Sheet {
            variables: v.to_string(),
            count: c.to_string(),
            groups: groups(dice, &prefix, 0),
            clauses,
        }
    }

    /// 6+V+C+T, as far as the sheet's words are right.
    pub fn length(&self) -> usize {
        let literals: usize = self.clauses.iter().map(Vec::len).sum();
        HEADER + self.v() + self.clauses.len() + literals
    }

    /// V, where it is within its limit, and a little over it.
    fn v(&self) -> usize {
        let most = LIMITS[0] as usize + 9;
        self.variables.parse().map_or(most, |v: usize| v.min(most))
    }

    /// A text of this sheet with one thing wrong, or a second one on top; and the
    /// room that it asks for.
    pub fn damaged(&self, dice: &mut Dice) -> (Vec<u8>, usize) {
        let mut sheet = self.clone();
        if dice.chance(7, 10) {
            let first = dice.weighted(&[14, 10, 8, 10, 14, 10, 10, 12]);
            sheet.break_words(dice, TARGETS[first]);
            if dice.chance(1, 3) {
                // Often the next one in the order.
                let next = TARGETS[(first + 1).min(TARGETS.len() - 1)];
                let any = dice.pick(&TARGETS);
                let second = dice.pick(&[next, next, any]);
                sheet.break_words(dice, second);
            }
            if dice.chance(7, 8) {
                return (sheet.spelled(dice), sheet.length());
            }
        }
        let text = sheet.spelled(dice);
        (scribbled(dice, text), sheet.length())
    }

    fn break_words(&mut self, dice: &mut Dice, target: u8) {
        match target {
            28 => self.miscount_or_enlarge(dice),
            29 => self.pass_a_limit(dice),
            5 => self.bind_over(dice),
            6 => self.bind_again(dice),
            7 => self.end_universal(dice),
            9 => self.literal_over(dice),
            10 => self.beside(dice, true),
            _ => self.beside(dice, false),
        }
    }

    /// Another count of clauses, or a number beyond 32 bits.
    fn miscount_or_enlarge(&mut self, dice: &mut Dice) {
        let large = dice.pick(&LARGE).to_string();
        match dice.below(7) {
            0 => self.count = (self.clauses.len() + 1).to_string(),
            1 => self.clauses.push(Vec::new()),
            2 => {
                self.clauses.pop();
            }
            3 => self.variables = large,
            4 => self.count = large,
            5 => self.change_bound(dice, large),
            _ => {
                let minus = dice.pick(&["-2147483649", "-4294967295"]);
                let word = dice.pick(&[large.as_str(), minus]).to_string();
                self.change_literal(dice, word);
            }
        }
    }

    /// V over its limit, or C, or T; the latter make long texts, and are rare.
    /// Now and then a count is just at its limit.
    fn pass_a_limit(&mut self, dice: &mut Dice) {
        let over = usize::from(dice.chance(7, 8));
        let [v, c, t] = LIMITS.map(|most| most as usize + over);
        match dice.weighted(&[20, 1, 1]) {
            0 => self.variables = dice.pick(&[v, v, v + 999, i32::MAX as usize]).to_string(),
            1 => {
                self.clauses.resize(c, Vec::new());
                self.count = c.to_string();
            }
            _ => {
                self.clauses = vec![vec!["1".to_string(); t]];
                self.count = "1".to_string();
            }
        }
    }

    fn bind_over(&mut self, dice: &mut Dice) {
        let over = dice.pick(&[self.v() + 1, self.v() + 1, i32::MAX as usize]);
        self.change_bound(dice, over.to_string());
    }

    /// One of the bound numbers once more, in its own line or in another one.
    fn bind_again(&mut self, dice: &mut Dice) {
        if self.groups.is_empty() {
            let more = vec!["1".to_string(); 2];
            self.groups.push((dice.pick(b"ae"), more));
            return;
        }
        let (_, from) = &self.groups[dice.below(self.groups.len())];
        let word = from[dice.below(from.len())].clone();
        let place = dice.below(self.groups.len());
        let (_, to) = &mut self.groups[place];
        to.insert(dice.below(to.len() + 1), word);
    }

    /// A last line that is universal, and often no idle variable behind it.
    fn end_universal(&mut self, dice: &mut Dice) {
        match self.groups.last_mut() {
            Some(group) => group.0 = b'a',
            None => self.groups.push((b'a', vec!["1".to_string()])),
        }
        if self.v() == 0 {
            self.variables = "1".to_string();
        }
        if dice.chance(5, 6) {
            let literals = self.clauses.iter().flatten();
            let named = literals.map(|literal| literal.trim_start_matches('-'));
            let bound = self.groups.iter().flat_map(|group| &group.1);
            let used: Vec<&str> = named.chain(bound.map(String::as_str)).collect();
            let all = (1..=self.v()).map(|variable| variable.to_string());
            let idle: Vec<String> = all.filter(|word| !used.contains(&word.as_str())).collect();
            self.groups[0].1.splice(0..0, idle);
        }
    }

    fn literal_over(&mut self, dice: &mut Dice) {
        let over = self.v() as i64 + 1;
        let most = i64::from(i32::MAX);
        let word = dice.pick(&[over, -over, over, -over, most, -most, -most - 1]);
        self.change_literal(dice, word.to_string());
    }

    /// One literal of a clause beside itself, as it is or as its opposite.
    fn beside(&mut self, dice: &mut Dice, opposite: bool) {
        self.a_literal(dice);
        let clause = self.a_clause(dice);
        let from = dice.below(clause.len());
        let word = clause[from].clone();
        let other = match word.strip_prefix('-') {
            Some(size) => size.to_string(),
            None => format!("-{word}"),
        };
        let word = if opposite { other } else { word };
        clause.insert(dice.below(clause.len() + 1), word);
    }

    fn change_bound(&mut self, dice: &mut Dice, word: String) {
        if self.groups.is_empty() {
            self.groups.push((dice.pick(b"ae"), vec![word]));
            return;
        }
        let place = dice.below(self.groups.len());
        let numbers = &mut self.groups[place].1;
        let place = dice.below(numbers.len());
        numbers[place] = word;
    }

    fn change_literal(&mut self, dice: &mut Dice, word: String) {
        self.a_literal(dice);
        let clause = self.a_clause(dice);
        let place = dice.below(clause.len());
        clause[place] = word;
    }

    /// Sees to it that some clause has a literal.
    fn a_literal(&mut self, dice: &mut Dice) {
        if self.clauses.iter().all(Vec::is_empty) {
            if self.v() == 0 {
                self.variables = "1".to_string();
            }
            self.clauses.push(vec![dice.pick(&["1", "-1"]).to_string()]);
            self.count = self.clauses.len().to_string();
        }
    }

    /// A clause that has a literal, where there is one.
    fn a_clause(&mut self, dice: &mut Dice) -> &mut Vec<String> {
        let places = 0..self.clauses.len();
        let full: Vec<usize> = places.filter(|&n| !self.clauses[n].is_empty()).collect();
        &mut self.clauses[dice.pick(&full)]
    }

    /// The text with single spaces and no line more than needed.
    pub fn plain(&self) -> Vec<u8> {
        self.laid_out(&mut Dice::new(0), 0)
    }

    /// The text, plain or in a layout of many blanks and comments.
    pub fn spelled(&self, dice: &mut Dice) -> Vec<u8> {
        let loose = dice.pick(&[0, 5, 30, 60]);
        self.laid_out(dice, loose)
    }

    fn laid_out(&self, dice: &mut Dice, loose: usize) -> Vec<u8> {
        let mut page = Page {
            loose,
            text: Vec::new(),
        };
        while dice.chance(page.loose, 80) {
            page.comment(dice);
        }
        page.line(dice, &["p", "cnf", &self.variables, &self.count]);
        for (letter, numbers) in &self.groups {
            let letter = if *letter == b'a' { "a" } else { "e" };
            page.line_to_zero(dice, Some(letter), numbers);
        }
        for literals in &self.clauses {
            page.line_to_zero(dice, None, literals);
        }
        page.text
    }
}

/// The lines of a prefix: a new one wherever the quantifier changes, and more.
fn groups(dice: &mut Dice, prefix: &[i32], split: usize) -> Vec<(u8, Vec<String>)> {
    let mut groups: Vec<(u8, Vec<String>)> = Vec::new();
    for word in prefix {
        let letter = if *word > 0 { b'e' } else { b'a' };
        let number = word.abs().to_string();
        match groups.last_mut() {
            Some((last, numbers)) if *last == letter && !dice.chance(split, 100) => {
                numbers.push(number);
            }
            _ => groups.push((letter, vec![number])),
        }
    }
    groups
}

fn words(literals: &[i32]) -> Vec<String> {
    literals.iter().map(i32::to_string).collect()
}

/// A text under way.
struct Page {
    /// How likely there are more blanks than needed, and comments, in 100.
    loose: usize,
    text: Vec<u8>,
}

impl Page {
    /// Blanks at a line's begin or end.
    fn margin(&mut self, dice: &mut Dice) {
        if dice.chance(self.loose, 100) {
            self.gap(dice);
        }
    }

    fn gap(&mut self, dice: &mut Dice) {
        let loose = dice.chance(self.loose, 100);
        let wide = dice.pick(&["  ", "\t", " \t", "\t\t ", "     "]);
        self.text.extend(if loose { wide } else { " " }.bytes());
    }

    fn comment(&mut self, dice: &mut Dice) {
        self.margin(dice);
        self.text.extend(dice.pick(&COMMENTS).bytes());
        self.text.push(b'\n');
    }

    fn line(&mut self, dice: &mut Dice, words: &[&str]) {
        self.margin(dice);
        for (place, word) in words.iter().enumerate() {
            if place > 0 {
                self.gap(dice);
            }
            self.text.extend(word.bytes());
        }
        self.margin(dice);
        self.text.push(b'\n');
    }

    fn line_to_zero(&mut self, dice: &mut Dice, first: Option<&str>, words: &[String]) {
        let words = words.iter().map(String::as_str);
        let all: Vec<&str> = first.into_iter().chain(words).chain(["0"]).collect();
        self.line(dice, &all);
    }
}

const COMMENTS: [&str; 10] = [
    "c",
    "c ",
    "c a plan",
    "comment",
    "cnf 2 2",
    "c p cnf 3 2",
    "c\t0\t~ ! \"",
    "c -1 0",
    "cc",
    "c-0",
];
