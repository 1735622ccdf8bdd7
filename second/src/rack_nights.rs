//! Nights by chance, from fixed seeds: racks of one to 32 ports whose supply does
//! not do for all, with receivers that want more than their share.

use crate::chance::Chance;
use crate::rack::{Place, SetUp, MOST_PORTS};
use crate::rack_receivers::Receiver;
use crate::rack_requests::strong_offer;
use crate::step_walk::Walk;

const SEEDS: [u64; 4] = [101, 102, 103, 105];

/// A port that is alone has nobody to wait for, but has to come everywhere too. The
/// nights of large racks are many, and so they are short.
fn moves(ports: usize) -> usize {
    match ports {
        1..=8 => 150 * (ports + 1),
        _ => 300,
    }
}

pub fn add_all(walk: &mut Walk) {
    for seed in SEEDS {
        let mut chance = Chance::new(seed);
        for ports in 1..=MOST_PORTS {
            night(walk, &mut chance, ports);
        }
    }
}

fn night(walk: &mut Walk, chance: &mut Chance, ports: usize) {
    walk.set_up(&some_set_up(chance, ports));
    let mut receivers: Vec<Receiver> = (0..ports).map(|_| Receiver::new(chance)).collect();
    for _ in 0..moves(ports) {
        let index = chance.below(ports);
        walk.turn_to(index + 1);
        match chance.below(100) {
            0 => aside(walk, chance, ports),
            _ => receivers[index].act(walk, chance),
        }
    }
}

/// A number that the rack does not have: 9 is past the small ones, and 33 past all.
pub fn far_past(ports: usize) -> usize {
    match ports {
        1..=8 => 9,
        _ => MOST_PORTS + 1,
    }
}

/// Beyond the shares the supply has power for one port at a time, or not even for
/// that one; now and then it is just one unit short.
fn some_set_up(chance: &mut Chance, ports: usize) -> SetUp {
    let usual = chance.one_of(&[60_000, 90_000, 120_000, 200_000]);
    let places: Vec<Place> = (0..ports).map(|_| some_place(chance, usual)).collect();
    let shares: u32 = places.iter().map(|place| place.share).sum();
    let beyond = usual - 30_000;
    let spare = chance.one_of(&[beyond / 2, beyond, beyond, beyond + beyond / 4]);
    let short = chance.one_of(&[0, 0, 1]);
    SetUp {
        supply: shares + spare - short,
        places,
    }
}

pub fn some_place(chance: &mut Chance, usual: u32) -> Place {
    let limit = chance.one_of(&[usual, usual, usual, usual, 54_000, 200_000]);
    let share = chance.one_of(&[30_000, 30_000, 30_000, 30_000, 40_000, limit]);
    let offer = strong_offer(chance, limit);
    Place {
        share,
        limit,
        offer,
    }
}

/// What has nothing to do with any port of the rack, and a set-up that is refused.
fn aside(walk: &mut Walk, chance: &mut Chance, ports: usize) {
    const WORDS: [&str; 5] = ["attach", "packet 81 00", "acknowledgement", "yes", "detach"];
    let word = chance.one_of(&WORDS);
    match chance.below(3) {
        0 => walk.raw(word.as_bytes()),
        1 => {
            let number = chance.one_of(&[0, ports + 1, far_past(ports), 256 + ports, 999]);
            walk.raw(format!("{number} {word}").as_bytes());
        }
        _ => {
            let line = chance.one_of(&["supply 29999", "supply 240000", "place 1 1"]);
            walk.raw(line.as_bytes());
            walk.raw(b"place 29999 120000 2C 91 01 00");
            walk.raw(b"setup");
        }
    }
}
