//! The paper's "The port's memory and its actions": the memory, the events, and
//! which event is awaited. What the states then do stands in states.rs.

use crate::channel::{Channel, Outcome};
use crate::meaning::{kind, meaning, Meaning};
use crate::message::Message;
use crate::offer::{is_good, Deal, Object, ObjectBytes, Offer};
use crate::packet::{good_crc, read};

#[derive(Clone, Copy, Debug, PartialEq, Eq, PartialOrd, Ord)]
pub enum State {
    Detached,
    Offer,
    Discovery,
    Judge,
    Accepting,
    Moving,
    Telling,
    Ready,
    Declining,
    Refusing,
    Waiting,
    Soft,
    Answering,
    Hard,
    Default,
    Disabled,
}

#[derive(Clone, Copy, Debug, PartialEq, Eq)]
pub enum Timer {
    SenderResponse,
    SourceCapability,
    PsHardReset,
}

/// Borrows its bytes, so that they stay where they were read.
#[derive(Clone, Copy, Debug, PartialEq, Eq)]
pub enum Event<'a> {
    Attach,
    Detach,
    Packet(&'a [u8]),
    HardReset,
    /// The acknowledgement timer, which goes with transmit.
    NotAcknowledged,
    Expired(Timer),
    SupplyReady,
    /// Any number of objects, so that one of too many can be refused.
    NewOffer(&'a [ObjectBytes]),
    /// The power answer: yes or no.
    Power(bool),
}

#[derive(Clone, Copy, Debug, PartialEq, Eq)]
pub enum Supply {
    Position(u8),
    Default,
}

/// What happened to held power; "demand 3" of the paper names these three.
#[derive(Clone, Copy, Debug, Default, PartialEq, Eq)]
pub enum Held {
    #[default]
    Nothing,
    Accepted,
    InForce,
    GivenUp,
}

/// At most one action of each kind, in the paper's order, and what became of held
/// power.
#[derive(Clone, Debug, Default, PartialEq, Eq)]
pub struct Answer {
    pub good_crc: Option<[u8; 2]>,
    pub stop: Option<Timer>,
    pub transmit: Option<Message>,
    pub signal: bool,
    pub supply: Option<Supply>,
    pub start: Option<Timer>,
    pub held: Held,
}

#[derive(Clone, Debug, PartialEq, Eq)]
pub struct Port {
    pub state: State,
    pub channel: Channel,
    pub newest: Offer,
    pub gone_out: bool,
    /// Without objects while there is none.
    pub last: Offer,
    /// Written as soon as a Request is to be judged: there is no other place for
    /// it until the power answer comes.
    pub accepted: Deal,
    pub contract: Option<Deal>,
    pub held: u32,
    pub count: u8,
    pub connected: bool,
    /// Not in the paper's list, for the rest of the memory tells it.
    pub running: Option<Timer>,
}

pub const NOT_AWAITED: u8 = 8;
const BAD_OFFER: u8 = 7;

impl Port {
    /// Detached. A bad first offer is the caller's to refuse.
    pub fn new(newest: Offer) -> Port {
        Port {
            state: State::Detached,
            channel: Channel::default(),
            newest,
            gone_out: false,
            last: Offer::default(),
            accepted: Deal::default(),
            contract: None,
            held: 0,
            count: 0,
            connected: false,
            running: None,
        }
    }

    /// Takes an event, or refuses it with a number and changes nothing. A new
    /// offer is judged by this limit.
    pub fn step(&mut self, event: &Event, limit: u32) -> Result<Answer, u8> {
        let mut answer = Answer::default();
        self.take(event, limit, &mut answer)?;
        Ok(answer)
    }

    /// What is refused is refused before anything changes.
    fn take(&mut self, event: &Event, limit: u32, answer: &mut Answer) -> Result<(), u8> {
        match (event, self.state) {
            (Event::Packet(bytes), _) => return self.packet(bytes, answer),
            (Event::NewOffer(offer), _) => return self.new_offer(offer, limit, answer),
            (Event::Attach, State::Detached) => self.enter(State::Offer, answer),
            (Event::Detach, state) if state != State::Detached => self.detach(answer),
            (Event::HardReset, _) if self.listens() => self.enter(State::Hard, answer),
            (Event::NotAcknowledged, _) if self.channel.pending.is_some() => {
                let outcome = self.channel.not_acknowledged();
                self.follow(outcome, answer);
            }
            (Event::Expired(timer), _) if self.running == Some(*timer) => {
                // It no longer runs, so leaving its state does not stop it.
                self.running = None;
                self.expired(*timer, answer);
            }
            (Event::SupplyReady, State::Moving) => self.enter(State::Telling, answer),
            (Event::SupplyReady, State::Default) => self.default_ready(answer),
            (Event::Power(yes), State::Judge) => self.power_answer(*yes, answer),
            _ => return Err(NOT_AWAITED),
        }
        Ok(())
    }

    fn listens(&self) -> bool {
        use State::*;
        !matches!(self.state, Detached | Hard | Default | Disabled)
    }

    fn packet(&mut self, bytes: &[u8], answer: &mut Answer) -> Result<(), u8> {
        let (fields, objects) = read(bytes);
        let fields = fields?;
        if !self.listens() {
            return Err(NOT_AWAITED);
        }
        let heard = meaning(kind(fields.extended, objects), fields.message_type);
        if heard == Meaning::GoodCrc {
            let outcome = self.channel.hear_good_crc(fields.message_id);
            self.follow(outcome, answer);
            return Ok(());
        }
        answer.good_crc = Some(good_crc(&fields));
        let is_soft_reset = heard == Meaning::SoftReset;
        if self.channel.hear(fields.message_id, is_soft_reset) {
            self.connected = true;
            self.act(heard, fields.message_type, objects, answer);
        }
        Ok(())
    }

    fn follow(&mut self, outcome: Outcome, answer: &mut Answer) {
        match outcome {
            Outcome::NothingPending => {}
            Outcome::Acknowledged => self.acknowledged(answer),
            Outcome::Again(message) => answer.transmit = Some(message),
            Outcome::Failed => self.failed(answer),
        }
    }

    fn new_offer(
        &mut self,
        offer: &[ObjectBytes],
        limit: u32,
        answer: &mut Answer,
    ) -> Result<(), u8> {
        let offer = Offer::of(offer.iter().copied().map(Object::from_bytes));
        let good = offer.filter(|offer| is_good(offer, limit));
        self.newest = good.ok_or(BAD_OFFER)?;
        self.gone_out = false;
        if matches!(self.state, State::Ready | State::Waiting) {
            self.enter(State::Offer, answer);
        }
        Ok(())
    }
}

#[cfg(test)]
#[path = "port_tests.rs"]
mod tests;
