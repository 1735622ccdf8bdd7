//! Sequences by chance, from a fixed seed: receivers that behave well, badly, or
//! not at all, on boards that report what the port awaits or anything else.

use crate::chance::Chance;
use crate::offer::Object;
use crate::port::State;
use crate::request_objects::{request, some_mixture};
use crate::step_events::LONE_WORDS;
use crate::step_situations::go;
use crate::step_walk::{
    message, new_id, offer_line, pending_id, Walk, ACCEPT, GET_SOURCE_CAP, GOOD_CRC, REQUEST,
    SOFT_RESET,
};

/// How many lines of a hundred are not what the port awaits, and how many of the
/// others leave a pending message unacknowledged.
const MANNERS: [(usize, usize); 8] = [
    (0, 0),
    (3, 5),
    (10, 10),
    (25, 20),
    (50, 40),
    (90, 50),
    (2, 80),
    (0, 100),
];

pub fn add_all(walk: &mut Walk) {
    let mut chance = Chance::new(7);
    for _ in 0..12 {
        for (odd, mute) in MANNERS {
            new_port(walk, &mut chance);
            for _ in 0..230 {
                if chance.below(100) < odd {
                    anything(walk, &mut chance);
                } else {
                    awaited(walk, &mut chance, mute);
                }
            }
        }
    }
}

fn new_port(walk: &mut Walk, chance: &mut Chance) {
    let limit = chance.one_of(&[30_000, 54_000, 120_000, 200_000]);
    let objects = good_offer(chance, limit);
    walk.new_port(limit, &objects);
}

/// One to seven objects, each as large as it may be or smaller.
pub fn good_offer(chance: &mut Chance, limit: u32) -> Vec<Object> {
    const VOLTAGES: [u32; 7] = [100, 140, 180, 200, 240, 300, 400];
    let mut objects = Vec::new();
    for &voltage in &VOLTAGES[..1 + chance.below(7)] {
        let most = 500.min(limit / voltage) as usize;
        let any = chance.below(most + 1);
        let current = chance.one_of(&[most, most, most / 2, any]);
        objects.push(Object::new(voltage, current as u32));
    }
    objects
}

/// What the port waits for, so that it comes far.
fn awaited(walk: &mut Walk, chance: &mut Chance, mute: usize) {
    if walk.port().channel.pending.is_some() {
        match (chance.below(100) < mute, chance.below(2)) {
            (false, _) => walk.acknowledge(),
            (true, 0) if mute < 100 => go(walk, "wrong"),
            (true, _) => walk.say("acknowledgement"),
        }
        return;
    }
    match walk.port().state {
        State::Detached => walk.say("attach"),
        State::Offer => ask(walk, chance),
        State::Discovery => walk.say("sourcecapability"),
        State::Judge => walk.say(chance.one_of(&["yes", "yes", "yes", "no"])),
        State::Moving | State::Default => walk.say("supplyready"),
        State::Ready => in_ready(walk, chance),
        State::Waiting => wake(walk, chance),
        State::Soft => walk.hear(ACCEPT, &[]),
        State::Hard => walk.say("pshardreset"),
        State::Disabled => walk.say("detach"),
        other => unreachable!("{other:?} always has a message pending"),
    }
}

/// Mostly a Request that fits.
fn ask(walk: &mut Walk, chance: &mut Chance) {
    let port = walk.port();
    // A detached port has no last offer; it refuses what is asked of the newest.
    let offer = if port.last.is_empty() {
        &port.newest
    } else {
        &port.last
    };
    let place = chance.below(offer.len());
    let current = offer[place].current();
    let less = chance.below(current as usize + 1) as u32;
    let position = place as u32 + 1;
    let object = match chance.below(12) {
        0 => request(position, current + 1, current),
        1 => request(chance.below(16) as u32, less, less),
        2..=5 => request(position, less, current),
        6..=7 => some_mixture(position, less, current, chance),
        _ => request(position, current, current),
    };
    walk.hear(REQUEST, &object);
}

fn in_ready(walk: &mut Walk, chance: &mut Chance) {
    match chance.below(12) {
        0..=3 => ask(walk, chance),
        4..=5 => wake(walk, chance),
        6 => walk.hear(chance.one_of(&[5, 8, 17, 22]), &[]),
        7 => walk.hear(16, &[]),
        8 => walk.hear(SOFT_RESET, &[]),
        9 => walk.hear(chance.one_of(&[ACCEPT, 4, 6, 12]), &[]),
        10 => walk.say("hardreset"),
        _ => walk.say(chance.one_of(&["detach", "hardreset"])),
    }
}

fn wake(walk: &mut Walk, chance: &mut Chance) {
    match chance.below(2) {
        0 => walk.hear(GET_SOURCE_CAP, &[]),
        _ => some_offer(walk, chance),
    }
}

/// By a limit that may not be the port's, so that some are bad.
pub fn some_offer(walk: &mut Walk, chance: &mut Chance) {
    let limit = chance.one_of(&[30_000, 30_000, 54_000, 120_000]);
    let mut objects = good_offer(chance, limit);
    if chance.below(6) == 0 {
        let place = chance.below(objects.len());
        objects[place].0 ^= 1 << chance.below(32);
    }
    walk.say(&offer_line(&objects));
}

pub fn anything(walk: &mut Walk, chance: &mut Chance) {
    match chance.below(10) {
        0..=1 => walk.say(chance.one_of(&LONE_WORDS)),
        2 => some_offer(walk, chance),
        3 => ask(walk, chance),
        4 => {
            let bytes = chance.below(35);
            let bytes = chance.bytes(bytes);
            walk.packet(&bytes);
        }
        5 => go(walk, chance.one_of(&["wrong", "acked"])),
        _ => any_message(walk, chance),
    }
}

/// Any type, as often a repeat as not, with a header of any revision and roles.
fn any_message(walk: &mut Walk, chance: &mut Chance) {
    let id = new_id(walk.port());
    let ids = [
        id,
        id,
        (id + 7) % 8,
        pending_id(walk.port()),
        chance.below(8) as u8,
    ];
    let often = [GOOD_CRC, ACCEPT, GET_SOURCE_CAP, SOFT_RESET, 16];
    let message_type = match chance.below(2) {
        0 => chance.one_of(&often),
        _ => chance.below(32) as u8,
    };
    let count = chance.one_of(&[0, 0, 0, 0, 1, 2, 7]);
    let objects = chance.bytes(4 * count);
    let mut packet = message(message_type, chance.one_of(&ids), &objects);
    if chance.below(4) == 0 {
        packet[0] ^= chance.one_of(&[0x20, 0x40, 0x80, 0xC0]);
        packet[1] ^= chance.one_of(&[0x01, 0x80, 0x00, 0x00]);
    }
    walk.packet(&packet);
}
