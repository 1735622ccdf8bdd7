//! The paper's "Protocol rules": MessageIDs, acknowledgements and retries. What
//! follows from an end of a send is for the states to say.

use crate::message::Message;
use crate::offer::Object;

const MOST_RETRIES: u8 = 2;

#[derive(Clone, Copy, Debug, PartialEq, Eq)]
pub struct Pending {
    pub message_id: u8,
    pub message: Message,
    /// How often it went out again.
    pub retries: u8,
}

#[derive(Clone, Debug, Default, PartialEq, Eq)]
pub struct Channel {
    pub counter: u8,
    pub stored: Option<u8>,
    pub pending: Option<Pending>,
}

/// What becomes of the pending message.
#[derive(Debug, PartialEq, Eq)]
pub enum Outcome {
    NothingPending,
    Acknowledged,
    /// The same bytes are to go out again.
    Again(Message),
    Failed,
}

impl Channel {
    /// The message to transmit, which is then pending.
    pub fn send(&mut self, message_type: u8, objects: &[Object]) -> Message {
        debug_assert_eq!(self.pending, None, "a message would be forgotten");
        let message = Message::new(message_type, self.counter, objects);
        self.pending = Some(Pending {
            message_id: self.counter,
            message,
            retries: 0,
        });
        message
    }

    pub fn hear_good_crc(&mut self, message_id: u8) -> Outcome {
        match &self.pending {
            Some(pending) if pending.message_id == message_id => {
                self.end_pending();
                Outcome::Acknowledged
            }
            _ => self.not_acknowledged(),
        }
    }

    /// The acknowledgement timer, or a GoodCRC with another MessageID.
    pub fn not_acknowledged(&mut self) -> Outcome {
        let Some(pending) = &mut self.pending else {
            return Outcome::NothingPending;
        };
        if pending.retries < MOST_RETRIES {
            pending.retries += 1;
            return Outcome::Again(pending.message);
        }
        self.end_pending();
        Outcome::Failed
    }

    /// Any packet but a GoodCRC. Whether it is new, so that the state acts; a
    /// Soft_Reset always is, for its sender may have begun again at our stored one.
    pub fn hear(&mut self, message_id: u8, is_soft_reset: bool) -> bool {
        if self.stored == Some(message_id) && !is_soft_reset {
            return false;
        }
        if self.pending.is_some() {
            self.end_pending();
        }
        self.stored = Some(message_id);
        if is_soft_reset {
            self.counter = 0;
        }
        true
    }

    /// Acknowledged, failed or dropped: the counter goes on in each case.
    fn end_pending(&mut self) {
        self.pending = None;
        self.counter = (self.counter + 1) % 8;
    }

    /// As Soft and Hard begin.
    pub fn reset(&mut self) {
        *self = Channel::default();
    }
}

#[cfg(test)]
#[path = "channel_tests.rs"]
mod tests;
