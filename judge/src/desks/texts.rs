//! Desks with texts: read whole and in pieces, into block buffers that fit, are
//! longer or too short, and hold anything before.

use super::Play;
use crate::block::Formula;
use crate::console::line;
use crate::damage::EDGES;
use crate::nonsense;
use crate::scribbles::lengths;
use crate::sheets::Sheet;

impl Play {
    /// One sheet: some texts that are damaged, one that isn't, and what is done
    /// with its block.
    pub(super) fn text_scene(&mut self) {
        let sheet = Sheet::random(&mut self.dice);
        for _ in 0..1 + self.dice.below(6) {
            let (text, length) = sheet.damaged(&mut self.dice);
            self.read_text(&text, length);
            if self.dice.chance(1, 10) {
                self.calls_of_each_kind();
            }
        }
        let text = sheet.spelled(&mut self.dice);
        self.read_text(&text, sheet.length());
        if self.formula.is_some() && self.dice.chance(1, 2) {
            self.lend_buffers(self.variables());
            self.lend_numbers();
            self.say_output();
            self.say_open();
            for _ in 0..1 + self.dice.below(6) {
                self.act();
            }
        }
    }

    /// The text on the desk, and read once or twice.
    fn read_text(&mut self, text: &[u8], length: usize) {
        if self.dice.chance(5, 6) {
            self.lend_block(length);
        }
        self.say(line("text", text));
        self.say_reading(text.len());
        if self.dice.chance(1, 4) {
            if self.dice.chance(1, 2) {
                self.lend_block(length);
            }
            self.say_reading(text.len());
        }
        if self.dice.chance(1, 20) {
            let line = nonsense::about_texts(&mut self.dice);
            self.say(line);
        }
        self.note_block();
    }

    /// What the block buffer holds after a reading.
    pub(super) fn note_block(&mut self) {
        self.formula = Formula::read(&self.desk.block).ok();
    }

    pub(super) fn say_reading(&mut self, length: usize) {
        if self.dice.chance(3, 5) {
            self.say("read".to_string());
        } else {
            let lengths = lengths(&mut self.dice, length);
            self.say(line("pieces", &lengths));
        }
        if self.dice.chance(4, 5) {
            self.say("words".to_string());
        }
    }

    /// A block buffer, mostly of the length that a reading asks for.
    pub(super) fn lend_block(&mut self, length: usize) {
        let dice = &mut self.dice;
        let fewer = dice.below(length);
        let count = match dice.weighted(&[60, 15, 15, 4]) {
            0 => length,
            1 => length + 1 + dice.below(9),
            2 => length - 1,
            _ => fewer,
        };
        let words: Vec<i32> = (0..count).map(|_| dice.pick(&EDGES)).collect();
        self.say(line("block", &words));
    }
}
