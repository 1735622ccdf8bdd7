//! Set-ups, good and bad: each of the paper's bounds met and just passed.

use crate::offer::Object;
use crate::rack::{Place, SetUp, LARGEST_SUPPLY, MOST_PORTS};
use crate::rack_situations::alike;
use crate::step_events::bad_offers;
use crate::step_walk::{Walk, FIVE_VOLT, NINE_VOLT};

pub fn add_all(walk: &mut Walk) {
    before_any_supply(walk);
    for set_up in all() {
        // a rack that shows whether it stayed as it was
        walk.set_up(&paper_rack(3));
        walk.raw(b"2 attach");
        walk.set_up(&set_up);
        show(walk, set_up.places.len());
    }
    one_by_one(walk);
}

fn paper_rack(ports: usize) -> SetUp {
    alike(240_000, ports, &[FIVE_VOLT, NINE_VOLT])
}

fn show(walk: &mut Walk, ports: usize) {
    let numbers = [1, 2, 3, ports, ports + 1];
    for number in numbers {
        walk.raw(format!("{number} acknowledgement").as_bytes());
        walk.raw(format!("{number} attach").as_bytes());
    }
}

/// The set-up in hand then has supply 0 and no port; only `supply` changes that.
fn before_any_supply(walk: &mut Walk) {
    for line in [
        "1 attach",
        "0 attach",
        "1 packet",
        "setup",
        "place 30000 120000 2C 91 01 00",
        "1 attach",
        "setup",
        "1 attach",
        "supply 240000",
        "setup",
        "1 attach",
    ] {
        walk.raw(line.as_bytes());
    }
}

pub fn all() -> Vec<SetUp> {
    let mut set_ups = numbers_of_ports();
    set_ups.extend(supplies());
    set_ups.extend(shares_and_limits());
    set_ups.extend(sums_of_shares());
    set_ups.extend(first_offers());
    set_ups.extend(largest());
    set_ups
}

/// The first supply has enough for 20 shares and the largest for 213, so that up to
/// there the number alone is good or bad. If it were kept in eight bits, 257 would be
/// one port, 264 eight, and 288 all 32.
fn numbers_of_ports() -> Vec<SetUp> {
    let rack = |supply| move |ports| alike(supply, ports, &[FIVE_VOLT, NINE_VOLT]);
    let few = (0..=10).chain([16, 257]).map(rack(600_000));
    let many = (MOST_PORTS - 1..=MOST_PORTS + 2).chain([9, 40, 64, 213]);
    let far = [254, 255, 256, 257, 264, 288, 300];
    few.chain(many.chain(far).map(rack(LARGEST_SUPPLY)))
        .collect()
}

fn supplies() -> Vec<SetUp> {
    let few = [0, 1, 29_999, 30_000, 30_001, 65_536];
    // the largest while a rack had at most eight ports, which is one of many now
    let before = [1_599_999, 1_600_000, 1_600_001, 1_665_536];
    let many = [LARGEST_SUPPLY - 1, LARGEST_SUPPLY, LARGEST_SUPPLY + 1];
    let far = [LARGEST_SUPPLY + 65_536, 9_999_999];
    let supplies = few.iter().chain(&before).chain(&many).chain(&far);
    let racks = supplies.flat_map(|&supply| {
        [1, 2, 8, MOST_PORTS].map(|ports| alike(supply, ports, &[FIVE_VOLT, NINE_VOLT]))
    });
    racks.collect()
}

/// One place that is different, the first or the last, in a rack that has enough.
fn with_place(place: &Place) -> Vec<SetUp> {
    let different = |index: usize, ports: usize| {
        let mut set_up = alike(1_200_000, ports, &[FIVE_VOLT, NINE_VOLT]);
        set_up.places[index] = place.clone();
        set_up
    };
    vec![
        different(0, 1),
        different(0, 4),
        different(3, 4),
        different(7, 8),
        different(MOST_PORTS - 1, MOST_PORTS),
    ]
}

fn shares_and_limits() -> Vec<SetUp> {
    let pairs = [
        (0, 120_000),
        (29_999, 120_000),
        (30_000, 120_000),
        (30_001, 120_000),
        (30_000, 30_000),
        (30_000, 29_999),
        (29_999, 29_999),
        (119_999, 120_000),
        (120_000, 120_000),
        (120_001, 120_000),
        (30_000, 199_999),
        (30_000, 200_000),
        (30_000, 200_001),
        (200_000, 200_000),
        (200_001, 200_001),
        (200_001, 200_000),
        (30_000, 9_999_999),
        (9_999_999, 9_999_999),
        (0, 0),
    ];
    // An object of no current is within every limit, so that only share and limit
    // are tried.
    let places = pairs.map(|(share, limit)| Place {
        share,
        limit,
        offer: vec![Object::new(100, 0)],
    });
    places.iter().flat_map(with_place).collect()
}

/// Met, and passed and missed by 1, in racks of every size.
fn sums_of_shares() -> Vec<SetUp> {
    const SHARES: [u32; 4] = [30_000, 30_001, 90_000, 120_000];
    let mut set_ups = Vec::new();
    for ports in 1..=MOST_PORTS {
        let shares = match ports {
            1..=8 | MOST_PORTS => &SHARES[..],
            // in turn, for large racks have many lines
            _ => &SHARES[ports % 4..][..1],
        };
        for &share in shares {
            let sum = share * ports as u32;
            for supply in [sum - 1, sum, sum + 1] {
                let mut set_up = alike(supply, ports, &[FIVE_VOLT, NINE_VOLT]);
                set_up
                    .places
                    .iter_mut()
                    .for_each(|place| place.share = share);
                set_ups.push(set_up);
            }
        }
    }
    set_ups
}

/// Bad ones of each kind, and one that meets its port's limit or passes it by 1.
fn first_offers() -> Vec<SetUp> {
    let mut places: Vec<Place> = Vec::new();
    let mut add = |limit: u32, offer: Vec<Object>| {
        let share = 30_000;
        places.push(Place {
            share,
            limit,
            offer,
        });
    };
    for offer in bad_offers() {
        add(120_000, offer);
    }
    for limit in [53_999, 54_000, 54_001] {
        add(limit, vec![FIVE_VOLT, NINE_VOLT]);
    }
    add(200_000, vec![Object::new(100, 500), Object::new(400, 500)]);
    add(199_999, vec![Object::new(100, 500), Object::new(400, 500)]);
    let rising = [100, 101, 150, 180, 240, 300, 400].map(|voltage| Object::new(voltage, 300));
    add(120_000, rising.to_vec());
    // the most that a line can have
    add(
        120_000,
        (100..116).map(|voltage| Object::new(voltage, 1)).collect(),
    );
    // bits that are ignored
    add(120_000, vec![Object(0x3FF1_91F4)]);
    places.iter().flat_map(with_place).collect()
}

/// Everything as large as it may be, and one too much; also in a rack of eight
/// ports, where the supply may be larger still.
fn largest() -> Vec<SetUp> {
    let offer = vec![Object::new(100, 500), Object::new(400, 500)];
    let place = |share| Place {
        share,
        limit: 200_000,
        offer: offer.clone(),
    };
    let racks = [(8, 1_600_000), (MOST_PORTS, LARGEST_SUPPLY)].map(|(ports, limits)| {
        let rack = |supply, share| SetUp {
            supply,
            places: vec![place(share); ports],
        };
        [
            rack(limits, 200_000),
            rack(limits - 1, 200_000),
            rack(limits + 1, 200_000),
            rack(limits, 30_000),
        ]
    });
    racks.into_iter().flatten().collect()
}

/// The set-up stays in hand: ports are added to one that was already set up.
fn one_by_one(walk: &mut Walk) {
    // enough for 40 shares
    walk.raw(b"supply 1200000");
    for _ in 0..MOST_PORTS + 2 {
        walk.raw(b"setup");
        walk.raw(b"1 attach");
        walk.raw(b"place 30000 120000 2C 91 01 00 2C D1 02 00");
        walk.raw(b"1 acknowledgement");
    }
    // only the rack that stands counts for an event, not what is in hand
    walk.raw(b"supply 0");
    show(walk, MOST_PORTS);
    walk.raw(b"setup");
    show(walk, MOST_PORTS);
}
