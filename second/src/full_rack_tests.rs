//! That the largest rack is as large as the paper lets it be, and goes through lines
//! and files whole.

use super::*;
use crate::night_lines::write_night;
use crate::night_text::print_text;
use crate::port::{Event, State};
use crate::rack::Rack;
use crate::replay::replay;
use std::collections::BTreeSet;

#[test]
fn thirty_two_ports_with_seven_objects_and_no_port_more() {
    let largest = set_up(32);
    assert!(largest.places.iter().all(|place| place.offer.len() == 7));
    let shares: BTreeSet<u32> = largest.places.iter().map(|place| place.share).collect();
    assert_eq!(shares.len(), 32);
    assert_eq!(Rack::set_up(&largest).unwrap().bays.len(), 32);
    assert_eq!(Rack::set_up(&set_up(33)), Err(10));
}

#[test]
fn the_last_port_just_gets_all_or_just_does_not() {
    for (short, last, before) in [
        (0, State::Accepting, State::Refusing),
        (1, State::Refusing, State::Accepting),
    ] {
        let mut walk = Walk::new();
        let mut largest = set_up(32);
        largest.supply -= short;
        walk.set_up(&largest);
        for (number, state) in [(32, last), (31, before)] {
            walk.turn_to(number);
            go_in_rack(&mut walk, "attach acked");
            ask_for_all(&mut walk);
            assert_eq!(walk.port().state, state, "{number}");
        }
    }
}

#[test]
fn in_the_end_the_port_before_it_has_all_it_wants() {
    for short in [0, 1] {
        let mut walk = Walk::new();
        last_ports(&mut walk, short);
        let contract = walk.port().contract.unwrap();
        assert_eq!((walk.port().state, contract.position), (State::Ready, 7));
        assert_eq!(contract.worth, 400 * 299);
    }
}

/// Bad set-ups come between its two contracts.
#[test]
fn it_stands_where_a_set_up_has_more_ports() {
    let mut walk = Walk::new();
    one_too_many(&mut walk);
    assert_eq!(walk.rack().bays.len(), 32);
    assert_eq!(walk.port().contract.unwrap().position, 2);
    assert_eq!(walk.port().state, State::Ready);
}

/// An event is for one port of them, and for none past the last.
#[test]
fn each_of_32_ports_is_met_by_its_number() {
    let fresh = Rack::set_up(&set_up(32)).unwrap();
    for number in 1..=32 {
        let mut rack = fresh.clone();
        assert!(rack.step(number, &Event::Attach).is_ok());
        assert_eq!(rack.bays[number - 1].port.state, State::Offer);
        rack.bays[number - 1] = fresh.bays[number - 1].clone();
        assert_eq!(rack, fresh);
    }
    for number in [0, 33, 34, 40, 64, 255, 256, 257, 288, 999] {
        let mut rack = fresh.clone();
        assert_eq!(rack.step(number, &Event::Attach), Err(9), "{number}");
        assert_eq!(rack, fresh);
    }
}

/// The text of a night of it gives the same file again, and the replay has a row for
/// each port.
#[test]
fn as_a_file_and_as_text() {
    let mut walk = Walk::new();
    add_all(&mut walk);
    let (mut file, mut text, mut again) = (Vec::new(), Vec::new(), Vec::new());
    write_night(&walk.lines[..], &mut file).unwrap();
    print_text(&file[..], &mut text).unwrap();
    assert_eq!(text, walk.lines);
    write_night(&text[..], &mut again).unwrap();
    assert_eq!(again, file);
    let mut output = Vec::new();
    replay(&file[..], &mut output).unwrap();
    let output = String::from_utf8(output).unwrap();
    // the shares add to 960,496, and the last port holds 45,000 in place of 30,031
    let rows: Vec<&str> = output.lines().rev().take(34).collect();
    assert_eq!(rows[0], "rack | 975465 of 1050465");
    assert!(rows[1].starts_with("32 | Ready | 7.50 V 3.00 A | 45000 | 30031 | 120031"));
    assert!(rows[32].starts_with("1 | Detached | none | 0 | 30000 | 120000"));
}
