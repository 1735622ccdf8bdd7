//! Receivers for the nights of a rack. Most behave well, some are on a bad line,
//! restless, hostile, or hardly there. One that was refused asks for the same
//! again, so that it gets it once a neighbour has given up.

use crate::chance::Chance;
use crate::port::State;
use crate::rack_requests::{could_have, little, some_request, strong_offer};
use crate::step_random::{anything, good_offer, some_offer};
use crate::step_walk::{
    message, new_id, offer_line, Walk, ACCEPT, GET_SOURCE_CAP, REQUEST, SOFT_RESET,
};

/// How many moves of a hundred are by chance, miss what there is to hear, send the
/// last packet again, or do what the port does not wait for.
#[derive(Clone, Copy)]
pub struct Manner {
    hostile: usize,
    deaf: usize,
    again: usize,
    restless: usize,
}

pub const fn manner(hostile: usize, deaf: usize, again: usize, restless: usize) -> Manner {
    Manner {
        hostile,
        deaf,
        again,
        restless,
    }
}

const MANNERS: [Manner; 9] = [
    // well-behaved; these are the most, for otherwise nobody comes to much power
    manner(0, 0, 0, 1),
    manner(0, 0, 0, 1),
    manner(0, 0, 0, 2),
    manner(0, 2, 2, 3),
    manner(0, 2, 2, 3),
    // on a bad line, restless, hostile, hardly there
    manner(0, 20, 15, 3),
    manner(1, 5, 5, 25),
    manner(60, 20, 10, 10),
    manner(0, 90, 2, 1),
];

pub struct Receiver {
    manner: Manner,
    /// The packet that it sent last.
    said: Vec<u8>,
    /// What it asked for and did not get.
    wish: Option<[u8; 4]>,
    /// It has had much, and wants little for a while, so that others get some.
    sated: bool,
}

impl Receiver {
    pub fn new(chance: &mut Chance) -> Receiver {
        Receiver::with(chance.one_of(&MANNERS))
    }

    pub fn with(manner: Manner) -> Receiver {
        Receiver {
            manner,
            said: Vec::new(),
            wish: None,
            sated: false,
        }
    }

    pub fn act(&mut self, walk: &mut Walk, chance: &mut Chance) {
        let manner = self.manner;
        let mut happens = |percent: usize| chance.below(100) < percent;
        if happens(manner.hostile) {
            anything(walk, chance);
        } else if happens(manner.again) && !self.said.is_empty() {
            walk.packet(&self.said);
        } else if happens(manner.restless) {
            self.stir(walk, chance);
        } else {
            self.hear(happens(manner.deaf), walk, chance);
        }
    }

    /// If it misses what the port said, then a timer expires.
    fn hear(&mut self, misses: bool, walk: &mut Walk, chance: &mut Chance) {
        let pending = walk.port().channel.pending.is_some();
        match walk.port().state {
            _ if pending && misses => walk.say("acknowledgement"),
            _ if pending => walk.acknowledge(),
            State::Offer | State::Soft if misses => walk.say("senderresponse"),
            _ => self.go_on(walk, chance),
        }
    }

    fn tell(&mut self, walk: &mut Walk, message_type: u8, objects: &[u8]) {
        self.said = message(message_type, new_id(walk.port()), objects);
        walk.packet(&self.said);
    }

    fn ask(&mut self, walk: &mut Walk, chance: &mut Chance) {
        let object = match self.wish {
            _ if self.sated => little(walk.port()),
            Some(wish) if chance.below(5) > 0 => wish,
            _ => some_request(walk, chance),
        };
        self.sated = self.sated && chance.below(3) > 0;
        let can_come_true = could_have(walk, &object);
        self.tell(walk, REQUEST, &object);
        let refused = walk.port().state == State::Refusing;
        self.wish = (can_come_true && refused).then_some(object);
    }

    /// What the port waits for, so that it comes far.
    fn go_on(&mut self, walk: &mut Walk, chance: &mut Chance) {
        match walk.port().state {
            State::Detached => walk.say("attach"),
            State::Offer => self.ask(walk, chance),
            State::Discovery => walk.say("sourcecapability"),
            State::Moving | State::Default => walk.say("supplyready"),
            State::Ready => self.in_ready(walk, chance),
            State::Waiting => self.tell(walk, GET_SOURCE_CAP, &[]),
            State::Soft => self.tell(walk, ACCEPT, &[]),
            State::Hard => walk.say("pshardreset"),
            State::Disabled => walk.say("detach"),
            other => unreachable!("{other:?} has a message pending, or is no state of a rack"),
        }
    }

    fn in_ready(&mut self, walk: &mut Walk, chance: &mut Chance) {
        let much = walk.port().held > walk.bay().share;
        match chance.below(10) {
            0..=3 if much => {
                self.sated = true;
                self.ask(walk, chance);
            }
            4 if much => walk.say("detach"),
            0..=5 => self.ask(walk, chance),
            6 => self.tell(walk, GET_SOURCE_CAP, &[]),
            7 => new_offer(walk, chance),
            // Get_Sink_Cap and others that are unsupported, and Not_Supported
            8 => self.tell(walk, chance.one_of(&[5, 8, 16, 17]), &[]),
            _ => self.stir(walk, chance),
        }
    }

    /// At any time, so also in the middle of a negotiation.
    fn stir(&mut self, walk: &mut Walk, chance: &mut Chance) {
        match chance.below(8) {
            0 => self.tell(walk, SOFT_RESET, &[]),
            1 => walk.say("hardreset"),
            2 => walk.say("detach"),
            3 => new_offer(walk, chance),
            4 => some_offer(walk, chance),
            5 => self.tell(walk, chance.one_of(&[ACCEPT, 4, 6, 12]), &[]),
            6 => self.tell(walk, GET_SOURCE_CAP, &[]),
            _ if walk.port().last.is_empty() => walk.say("attach"),
            _ => self.ask(walk, chance),
        }
    }
}

/// By the port's own limit, so that it is good.
fn new_offer(walk: &mut Walk, chance: &mut Chance) {
    let limit = walk.bay().limit;
    let objects = match chance.below(3) {
        0 => good_offer(chance, limit),
        _ => strong_offer(chance, limit),
    };
    walk.say(&offer_line(&objects));
}
