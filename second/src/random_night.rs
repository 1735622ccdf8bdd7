//! A night by chance, docs/NIGHT.md: one rack, and exactly so many events. Most
//! come from receivers that want power, and the supply does for some of them only;
//! the others come from receivers that are hostile.

use crate::chance::Chance;
use crate::hostile_events;
use crate::night_lines::write_night;
use crate::port::State;
use crate::rack::{Place, SetUp};
use crate::rack_nights::some_place;
use crate::rack_receivers::{manner, Manner, Receiver};
use crate::step_walk::Walk;
use std::io::{self, Write};

/// So many bytes of lines are turned into the file at a time.
const BATCH: usize = 1 << 20;

/// How many events of a hundred are hostile, and how the receiver behaves apart
/// from that. Some 15 of a hundred are hostile on the whole.
const GUESTS: [(usize, Manner); 12] = [
    // well-behaved
    (0, manner(0, 0, 0, 1)),
    (0, manner(0, 1, 1, 1)),
    (0, manner(0, 2, 2, 2)),
    (2, manner(0, 2, 2, 3)),
    (3, manner(0, 4, 4, 3)),
    (5, manner(0, 3, 3, 3)),
    // on a bad line, restless
    (3, manner(0, 20, 10, 3)),
    (3, manner(0, 5, 15, 8)),
    (5, manner(0, 5, 5, 25)),
    // hostile
    (70, manner(0, 5, 5, 5)),
    (95, manner(0, 0, 0, 0)),
    // nobody at the other end of the cable
    (0, manner(0, 100, 0, 0)),
];

/// How long a guest stays; a port that hears nobody takes 200 events to give up.
const SHORTEST_STAY: usize = 100;
const LONGEST_STAY: usize = 500;

pub fn print(seed: u64, events: u64, ports: usize, mut output: impl Write) -> io::Result<()> {
    let mut chance = Chance::new(seed);
    let mut walk = Walk::new();
    walk.set_up(&some_set_up(&mut chance, ports));
    let mut guests: Vec<Guest> = (0..ports).map(|_| Guest::new(&mut chance)).collect();
    for _ in 0..events {
        let index = chance.below(ports);
        walk.turn_to(index + 1);
        guests[index].act(&mut walk, &mut chance);
        if walk.lines.len() > BATCH {
            write_night(&walk.lines[..], &mut output)?;
            walk.lines.clear();
        }
    }
    write_night(&walk.lines[..], output)
}

/// Beyond the shares the supply has full power for one or two ports, but never for
/// more than half of them.
fn some_set_up(chance: &mut Chance, ports: usize) -> SetUp {
    let usual = chance.one_of(&[90_000, 120_000, 200_000]);
    let places: Vec<Place> = (0..ports).map(|_| some_place(chance, usual)).collect();
    let shares: u32 = places.iter().map(|place| place.share).sum();
    let limits: u32 = places.iter().map(|place| place.limit).sum();
    let full = usual - 30_000;
    let spare = chance.one_of(&[full, full + full / 3, full * 2]);
    let supply = shares + spare.min((limits - shares) / 2);
    SetUp { supply, places }
}

struct Guest {
    receiver: Receiver,
    hostile: usize,
    /// How many events it stays.
    stays: usize,
}

impl Guest {
    fn new(chance: &mut Chance) -> Guest {
        let (hostile, manner) = chance.one_of(&GUESTS);
        Guest {
            receiver: Receiver::with(manner),
            hostile,
            stays: SHORTEST_STAY + chance.below(LONGEST_STAY - SHORTEST_STAY),
        }
    }

    /// One event at the port that the walk has turned to.
    fn act(&mut self, walk: &mut Walk, chance: &mut Chance) {
        if self.stays == 0 {
            *self = Guest::new(chance);
            if walk.port().state != State::Detached {
                walk.say("detach");
                return;
            }
        }
        self.stays -= 1;
        if chance.below(100) < self.hostile {
            hostile_events::one(walk, chance);
        } else {
            self.receiver.act(walk, chance);
        }
    }
}

#[cfg(test)]
#[path = "random_night_tests.rs"]
mod tests;
