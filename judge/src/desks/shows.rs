//! What sessions show: ended ones as they were reached, and any record under a state
//! that somebody has set.

use super::Play;
use crate::session::State;
use crate::shapes;

impl Play {
    pub(super) fn shown(&mut self) {
        self.say("shown".to_string());
    }

    /// Now and then, where the session has ended.
    pub(super) fn shown_if_ended(&mut self) {
        if self.desk.session.state != State::Open && self.dice.chance(1, 3) {
            self.shown();
        }
    }

    /// A record that no call has led to: its gaps are held against a clause, if one is
    /// in conflict.
    pub(super) fn shown_of_record(&mut self) {
        if let Some(formula) = self.formula.clone() {
            let record = shapes::record(&mut self.dice, &formula);
            self.say_record(&record, formula.variables());
            let fits = if formula.first_group_universal() {
                2
            } else {
                1
            };
            let state = self.dice.pick(&[fits, fits, fits, 0, 1, 2]);
            let (length, revision) = (record.len(), self.desk.session.revision);
            self.say(format!("session {length} {revision} {state}"));
        }
        self.shown();
    }
}
