//! The paper's "The Source states": what a state does as it is entered, and where
//! the end of a send, a packet, a timer or an answer leads from it.

use crate::meaning::Meaning;
use crate::offer::{asked, honours, Object};
use crate::port::{Answer, Held, Port, State, Supply, Timer};

const SOURCE_CAPABILITIES: u8 = 1;
const ACCEPT: u8 = 3;
const REJECT: u8 = 4;
const PS_RDY: u8 = 6;
const SOFT_RESET: u8 = 13;
const NOT_SUPPORTED: u8 = 16;

const MOST_OFFERS: u8 = 50;

impl Port {
    pub fn enter(&mut self, state: State, answer: &mut Answer) {
        if let Some(timer) = self.running.take() {
            debug_assert_eq!(answer.stop, None, "two timers stopped");
            answer.stop = Some(timer);
        }
        self.state = state;
        match state {
            State::Offer => self.make_offer(answer),
            State::Discovery => self.start(Timer::SourceCapability, answer),
            State::Accepting | State::Answering => self.transmit(ACCEPT, &[], answer),
            State::Moving => answer.supply = Some(Supply::Position(self.accepted.position)),
            State::Telling => self.transmit(PS_RDY, &[], answer),
            State::Declining => self.transmit(NOT_SUPPORTED, &[], answer),
            State::Refusing => self.transmit(REJECT, &[], answer),
            State::Soft => {
                self.channel.reset();
                self.transmit(SOFT_RESET, &[], answer);
            }
            State::Hard => {
                self.channel.reset();
                self.start(Timer::PsHardReset, answer);
            }
            State::Default => answer.supply = Some(Supply::Default),
            State::Ready | State::Waiting if !self.gone_out => self.enter(State::Offer, answer),
            State::Ready | State::Waiting | State::Judge => {}
            State::Detached | State::Disabled => {}
        }
    }

    /// Hard for a fault of ours or theirs; a heard Hard Reset enters it silently.
    fn enter_hard(&mut self, answer: &mut Answer) {
        answer.signal = true;
        self.enter(State::Hard, answer);
    }

    fn make_offer(&mut self, answer: &mut Answer) {
        self.last = self.newest;
        self.gone_out = true;
        self.count = MOST_OFFERS.min(self.count + 1);
        let offer = self.last;
        self.transmit(SOURCE_CAPABILITIES, &offer, answer);
    }

    fn transmit(&mut self, message_type: u8, objects: &[Object], answer: &mut Answer) {
        debug_assert_eq!(answer.transmit, None, "two messages at once");
        answer.transmit = Some(self.channel.send(message_type, objects));
    }

    fn start(&mut self, timer: Timer, answer: &mut Answer) {
        debug_assert_eq!(self.running, None, "two timers at once");
        self.running = Some(timer);
        answer.start = Some(timer);
    }

    pub fn detach(&mut self, answer: &mut Answer) {
        self.enter(State::Detached, answer);
        *self = Port::new(self.newest);
        answer.held = Held::GivenUp;
    }

    pub fn expired(&mut self, timer: Timer, answer: &mut Answer) {
        match timer {
            Timer::SenderResponse => self.enter_hard(answer),
            Timer::SourceCapability if self.count == MOST_OFFERS => {
                self.enter(State::Disabled, answer);
            }
            Timer::SourceCapability => self.enter(State::Offer, answer),
            Timer::PsHardReset => self.enter(State::Default, answer),
        }
    }

    pub fn default_ready(&mut self, answer: &mut Answer) {
        self.contract = None;
        self.held = 0;
        self.count = 0;
        self.connected = false;
        answer.held = Held::GivenUp;
        self.enter(State::Offer, answer);
    }

    pub fn power_answer(&mut self, yes: bool, answer: &mut Answer) {
        if yes {
            // The output has not moved yet, so the old power is not let go.
            self.held = self.held.max(self.accepted.worth);
            answer.held = Held::Accepted;
            self.enter(State::Accepting, answer);
        } else {
            self.enter(State::Refusing, answer);
        }
    }

    pub fn acknowledged(&mut self, answer: &mut Answer) {
        match self.state {
            State::Offer => {
                self.count = 0;
                self.connected = true;
                self.start(Timer::SenderResponse, answer);
            }
            State::Soft => self.start(Timer::SenderResponse, answer),
            State::Accepting => self.enter(State::Moving, answer),
            State::Telling => {
                self.contract = Some(self.accepted);
                self.held = self.accepted.worth;
                answer.held = Held::InForce;
                self.enter(State::Ready, answer);
            }
            State::Declining => self.enter(State::Ready, answer),
            State::Refusing => self.refused(answer),
            State::Answering => self.enter(State::Offer, answer),
            other => unreachable!("nothing is sent in {other:?}"),
        }
    }

    /// The Reject has arrived. A contract stays only if what was last offered
    /// still has it.
    fn refused(&mut self, answer: &mut Answer) {
        match &self.contract {
            None => self.enter(State::Waiting, answer),
            Some(contract) if honours(&self.last, contract) => self.enter(State::Ready, answer),
            Some(_) => self.enter_hard(answer),
        }
    }

    pub fn failed(&mut self, answer: &mut Answer) {
        match self.state {
            State::Offer if !self.connected => self.enter(State::Discovery, answer),
            State::Offer | State::Refusing | State::Declining => self.enter(State::Soft, answer),
            State::Accepting | State::Telling | State::Soft | State::Answering => {
                self.enter_hard(answer);
            }
            other => unreachable!("nothing is sent in {other:?}"),
        }
    }

    /// A new packet, not a GoodCRC, in a listening state.
    pub fn act(&mut self, heard: Meaning, message_type: u8, objects: &[u8], answer: &mut Answer) {
        use State::*;
        match (self.state, heard) {
            // Soft_Reset too: the paper's stricter rule.
            (Accepting | Moving | Telling, _) => self.enter_hard(answer),
            (_, Meaning::SoftReset) => self.enter(Answering, answer),
            (Offer | Discovery | Ready, Meaning::Request) => self.request(objects, answer),
            (Ready | Waiting, Meaning::GetSourceCap) => self.enter(Offer, answer),
            (Ready, Meaning::Quiet) => {}
            (Ready, Meaning::Unsupported) => self.enter(Declining, answer),
            (Soft, Meaning::Reply) if message_type == ACCEPT => self.enter(Offer, answer),
            (Soft | Answering, _) => self.enter_hard(answer),
            // Also a reply in Ready.
            (Offer | Discovery | Judge | Ready | Declining | Refusing | Waiting, _) => {
                self.enter(Soft, answer);
            }
            (Detached | Hard | Default | Disabled, _) => unreachable!("these do not listen"),
        }
    }

    /// Judged by the last offer on the wire, not by the newest.
    fn request(&mut self, objects: &[u8], answer: &mut Answer) {
        match asked(objects, &self.last) {
            Some(asked) => {
                self.accepted = asked;
                self.enter(State::Judge, answer);
            }
            None => self.enter(State::Refusing, answer),
        }
    }
}

#[cfg(test)]
#[path = "states_tests.rs"]
mod tests;
