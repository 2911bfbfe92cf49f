//! What an accepted command comes to.

use super::answers::{plain_error, Answer};
use super::killing::kill;
use super::locking::lock;
use super::reading::read;
use super::selection::{self, Fault};
use super::writing::write;
use super::{Bench, NONE_TO_HAND_OUT};

impl Bench {
    pub(super) fn execute(&mut self, code: u8, parameters: &[u8]) -> Answer {
        // A command is taken when nothing is left to hand out, and a tag that comes to match later
        // was not meant by the inventory before it.
        self.next = NONE_TO_HAND_OUT;
        match code {
            0x22 => self.inventory(parameters),
            0x0C => self.set_select(parameters),
            0x39 => read(self.aim().map(|tag| self.image(tag)), parameters),
            0x49 => write(self.target(), parameters),
            0x82 => lock(self.target(), parameters),
            0x65 => kill(self.target(), parameters),
            _ => {
                // "Any code not listed: plain 17."
                hit!(CODE_UNKNOWN);
                plain_error(0x17)
            }
        }
    }

    fn inventory(&mut self, parameters: &[u8]) -> Answer {
        // "PL not 0: plain 17."
        if !parameters.is_empty() {
            hit!(INVENTORY_PL);
            return plain_error(0x17);
        }
        // "with none it answers plain 15"
        let Some(tag) = self.aim() else {
            hit!(INVENTORY_NO_TAG);
            return plain_error(0x15);
        };
        hit!(INVENTORY_GOOD);
        self.hand_out(tag)
    }

    /// "anything else, or the Reserved bank, is plain 17. It answers 00"
    fn set_select(&mut self, parameters: &[u8]) -> Answer {
        let Some(fault) = selection::fault(parameters) else {
            hit!(SELECT_TAKEN);
            self.selection = parameters.to_vec();
            return Answer::new(1, 0x0C).byte(0);
        };
        match fault {
            Fault::TooShort => hit!(SELECT_TOO_SHORT),
            Fault::Target => hit!(SELECT_TARGET),
            Fault::Action => hit!(SELECT_ACTION),
            Fault::Reserved => hit!(SELECT_RESERVED),
            Fault::Truncate => hit!(SELECT_TRUNCATE),
            Fault::MaskTooShort => hit!(SELECT_MASK_SHORT),
            Fault::MaskTooLong => hit!(SELECT_MASK_LONG),
        }
        plain_error(0x17)
    }
}
