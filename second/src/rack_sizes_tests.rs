//! That the lines have racks of every size, from the paper's 1 to 32 ports, their
//! bounds from both sides, and numbers just past their ports.

use super::tests::{all_judged, each_line, Judged};
use super::*;
use crate::rack::Rack;
use crate::step_lines::Reply;
use std::collections::{BTreeMap, BTreeSet};

fn is_good(set_up: &SetUp) -> bool {
    Rack::set_up(set_up).is_ok()
}

/// All set-ups with so many ports.
fn with_ports(ports: usize) -> Vec<SetUp> {
    let mut set_ups = rack_set_ups::all();
    set_ups.retain(|set_up| set_up.places.len() == ports);
    set_ups
}

/// Four nights by chance, and set-ups at their bounds.
#[test]
fn each_size_is_set_up_several_times() {
    let mut sizes: BTreeMap<usize, usize> = BTreeMap::new();
    each_line(|_, _, reply, bench| {
        if let Some(Reply::Rack(None, Ok(_))) = reply {
            *sizes.entry(bench.beside.rack.bays.len()).or_default() += 1;
        }
    });
    assert!(sizes.keys().copied().eq(1..=32));
    assert!(sizes.values().all(|&count| count >= 6), "{sizes:?}");
}

#[test]
fn more_than_32_ports_are_bad() {
    for ports in [33, 34, 40, 64, 254, 255, 256, 257, 264, 288] {
        let set_ups = with_ports(ports);
        assert!(!set_ups.is_empty() && !set_ups.iter().any(is_good));
    }
    assert!((9..=32).all(|ports| with_ports(ports).iter().any(is_good)));
}

/// The supply has enough for all shares, and without the last ports it is good.
#[test]
fn some_are_bad_for_their_number_alone() {
    for ports in [33, 34, 40, 64, 213] {
        let number_alone = |mut set_up: SetUp| {
            let shares: u32 = set_up.places.iter().map(|place| place.share).sum();
            set_up.places.truncate(32);
            is_good(&set_up) && shares <= set_up.supply
        };
        assert!(with_ports(ports).into_iter().any(number_alone), "{ports}");
    }
}

#[test]
fn supplies_on_both_sides_of_the_largest() {
    for ports in [1, 2, 32] {
        let mut set_ups = with_ports(ports);
        set_ups.retain(|set_up| set_up.places.iter().all(|place| place.share == 30_000));
        let with_supply = |supply| {
            let found = set_ups.iter().find(|set_up| set_up.supply == supply);
            is_good(found.unwrap())
        };
        assert!(with_supply(6_399_999) && with_supply(6_400_000) && !with_supply(6_400_001));
        // the largest while eight ports were the most
        assert!(with_supply(1_600_000) && with_supply(1_600_001));
    }
}

#[test]
fn every_port_has_all_that_a_port_can_have() {
    for (ports, supply, good) in [
        (8, 1_600_000, true),
        (8, 1_599_999, false),
        (8, 1_600_001, true),
        (32, 6_400_000, true),
        (32, 6_399_999, false),
        (32, 6_400_001, false),
    ] {
        let all = |set_up: &&SetUp| {
            let mut places = set_up.places.iter();
            set_up.supply == supply && places.all(|place| (place.share, place.limit) == FULL)
        };
        const FULL: (u32, u32) = (200_000, 200_000);
        let set_ups = with_ports(ports);
        let found = set_ups.iter().find(all);
        assert_eq!(is_good(found.unwrap()), good, "{ports} {supply}");
    }
}

/// Also at every other number: 9 exactly where the rack has no such port.
#[test]
fn all_kinds_of_events_past_the_last_port() {
    let mut words: BTreeMap<(usize, usize), BTreeSet<Vec<u8>>> = BTreeMap::new();
    each_line(|line, before, reply, _| {
        let Some(Reply::Rack(Some(number), outcome)) = reply else {
            return;
        };
        let ports = before.bays.len();
        let outside = !(1..=ports).contains(&number);
        assert_eq!(outcome.err() == Some(9), outside, "{}", line.escape_ascii());
        let mut parts = line.split(|c| b" \r".contains(c)).skip(1);
        let word = parts.find(|part| !part.is_empty()).unwrap();
        let kinds = words.entry((ports, number)).or_default();
        kinds.insert(word.to_vec());
    });
    for ports in [8, 9, 31, 32] {
        for number in [0, 32, 33, 40, 255, ports + 1] {
            assert_eq!(words[&(ports, number)].len(), 12, "{number} of {ports}");
        }
        for number in [256, 257, 256 + ports, 999] {
            assert!(words[&(ports, number)].len() > 5, "{number} of {ports}");
        }
    }
}

/// Not only in small racks: as near to the supply as can be, and at the last ports.
#[test]
fn the_power_rule_matters_in_large_racks() {
    let mut judged: Vec<Judged> = all_judged().into_iter().flatten().collect();
    judged.retain(|answer| answer.ports > 8);
    let count = |wanted: &dyn Fn(&Judged) -> bool| judged.iter().filter(|j| wanted(j)).count();
    let granted = count(&|j| j.yes && j.asked > j.share);
    let refused = count(&|j| !j.yes);
    assert!(granted > 500 && refused > 500, "{granted}, {refused}");
    let exact = count(&|j| j.yes && j.asked > j.share && j.sum == j.supply);
    let missed = count(&|j| !j.yes && j.sum < j.supply + 500);
    assert!(exact > 50 && missed > 50, "{exact}, {missed}");
    for number in 1..=32 {
        let at = |yes| count(&|j| j.number == number && j.yes == yes && j.asked > j.share);
        assert!(at(true) > 1 && at(false) > 1, "{number}");
    }
}
