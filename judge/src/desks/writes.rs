//! Desks whose blocks go to text and back: written into text buffers that just fit,
//! are a byte too short or longer, and hold anything before.

use super::Play;
use crate::console::line;
use crate::damage::damaged;
use crate::nonsense;
use crate::writing;

/// What a text buffer holds before it is written. Behind a text these may go on
/// with it, or with nothing.
const BEFORE: [u8; 7] = [0, 32, 48, 10, 49, 97, 255];

impl Play {
    /// One block and some that it is damaged to, written and read back.
    pub(super) fn writing_scene(&mut self) {
        let block = self.new_block();
        for _ in 0..1 + self.dice.below(4) {
            let wrong = damaged(&mut self.dice, &block);
            self.say_block(&wrong);
            self.write_block();
        }
        self.say_block(&block);
        for _ in 0..1 + self.dice.below(3) {
            self.write_block();
        }
        if self.dice.chance(1, 20) {
            let line = nonsense::about_texts(&mut self.dice);
            self.say(line);
        }
        if self.formula.is_some() {
            self.back(block.len());
        }
    }

    /// The block on the desk, written once or twice.
    pub(super) fn write_block(&mut self) {
        if self.dice.chance(7, 8) {
            self.lend_text();
        }
        self.say_writing();
        if self.dice.chance(1, 10) {
            self.say_writing();
        }
    }

    fn say_writing(&mut self) {
        self.say("write".to_string());
        if self.dice.chance(4, 5) {
            self.say("bytes".to_string());
        }
    }

    /// A text buffer, mostly of the length that a writing asks for.
    fn lend_text(&mut self) {
        let length = match self.formula {
            Some(_) => writing::text_of(&self.desk.block).len(),
            None => 10,
        };
        let dice = &mut self.dice;
        let fewer = dice.below(length);
        let count = match dice.weighted(&[50, 25, 20, 4, 2]) {
            0 => length,
            1 => length - 1,
            2 => length + 1 + dice.below(9),
            3 => fewer,
            _ => 0,
        };
        self.say_text(count);
    }

    fn say_text(&mut self, count: usize) {
        let dice = &mut self.dice;
        let bytes: Vec<u8> = (0..count).map(|_| dice.pick(&BEFORE)).collect();
        self.say(line("text", &bytes));
    }

    /// The block's text, read into a block buffer of this length, or nearly so;
    /// and written once more.
    fn back(&mut self, length: usize) {
        if self.dice.chance(4, 5) {
            let exactly = writing::text_of(&self.desk.block).len();
            self.say_text(exactly);
            self.say_writing();
        }
        self.lend_block(length);
        self.say_reading(self.desk.text.len());
        self.note_block();
        if self.dice.chance(1, 2) {
            self.write_block();
        }
    }
}
