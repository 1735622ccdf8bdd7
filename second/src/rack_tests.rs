//! The paper's examples 7 and 8, the bounds of a good set-up, the power rule, and
//! that a refusal changes nothing.

use super::*;
use crate::port::{Supply, Timer};
use crate::rack_situations::{alike, go_in_rack, TWENTY_VOLT};
use crate::request_objects::request;
use crate::step_walk::{Walk, FIVE_VOLT, NINE_VOLT, REQUEST};

/// The paper's four ports with a third object, 20 V 3 A, on this supply.
fn four_ports(supply: u32) -> Walk {
    let mut walk = Walk::new();
    walk.set_up(&alike(supply, 4, &[FIVE_VOLT, NINE_VOLT, TWENTY_VOLT]));
    walk
}

/// Whether a port that has just attached is accepted, and the sum then.
fn ask(walk: &mut Walk, number: usize, position: u32, current: u32) -> (bool, u32) {
    walk.turn_to(number);
    go_in_rack(walk, "attach acked");
    walk.hear(REQUEST, &request(position, current, current));
    let yes = walk.port().state == State::Accepting;
    assert!(yes || walk.port().state == State::Refusing);
    (yes, walk.rack().taken())
}

#[test]
fn night_desk_8() {
    for (position, current, answer) in [
        (2, 200, (true, 240_000)),
        // 240,180 would be too much, so the sum stays
        (2, 201, (false, 234_000)),
        (1, 300, (true, 234_000)),
    ] {
        let mut walk = four_ports(240_000);
        assert_eq!(walk.rack().taken(), 120_000);
        assert_eq!(ask(&mut walk, 1, 3, 300), (true, 210_000));
        assert_eq!(ask(&mut walk, 2, 2, 300), (true, 234_000));
        assert_eq!(ask(&mut walk, 3, position, current), answer);
    }
}

/// In each of the four ports; the others are idle.
#[test]
fn night_desk_7() {
    for number in 1..=4 {
        let mut walk = four_ports(240_000);
        walk.turn_to(number);
        go_in_rack(&mut walk, "contract1");
        let mut rack = walk.rack().clone();
        let before = rack.bay(number).unwrap().port.clone();
        assert_eq!(before.state, State::Ready);
        assert_eq!(
            (before.channel.counter, before.channel.stored),
            (3, Some(0))
        );
        let packet = Event::Packet(&[0x82, 0x12, 0x2C, 0xB1, 0x04, 0x20]);
        let answer = rack.step(number, &packet).unwrap();
        assert_eq!(answer.good_crc, Some([0xA1, 0x03]));
        assert_eq!(answer.transmit.as_deref(), Some(&[0xA3, 0x07][..]));
        assert_eq!((answer.stop, answer.start), (None, None));
        assert_eq!((answer.signal, answer.supply), (false, None));
        let port = &rack.bay(number).unwrap().port;
        assert_eq!((port.state, port.held), (State::Accepting, 54_000));
        assert_eq!(port.channel.stored, Some(1));
        let after = rack.clone();
        let again = rack.step(number, &packet).unwrap();
        let only = Answer {
            good_crc: Some([0xA1, 0x03]),
            ..Answer::default()
        };
        assert_eq!((again, rack), (only, after));
    }
}

fn is_set_up(set_up: &SetUp) -> bool {
    match Rack::set_up(set_up) {
        Ok(rack) => {
            assert_eq!(rack.bays.len(), set_up.places.len());
            true
        }
        Err(number) => {
            assert_eq!(number, 10);
            false
        }
    }
}

#[test]
fn a_set_up_is_good_with_1_to_32_ports_and_supply_for_their_shares() {
    let rack = |supply, ports| is_set_up(&alike(supply, ports, &[FIVE_VOLT]));
    for ports in 0..=300 {
        assert_eq!(rack(6_400_000, ports), (1..=32).contains(&ports), "{ports}");
    }
    assert!(!rack(29_999, 1) && rack(30_000, 1));
    for ports in [1, 2, 8, 9, 32] {
        assert!(rack(1_600_001, ports) && rack(6_399_999, ports), "{ports}");
        assert!(rack(6_400_000, ports) && !rack(6_400_001, ports), "{ports}");
    }
    for ports in 1..=32 {
        let shares = 30_000 * ports as u32;
        assert!(rack(shares, ports) && !rack(shares - 1, ports), "{ports}");
    }
    assert!(!is_set_up(&SetUp::default()));
}

/// Each is tried in the first place and in the last.
#[test]
fn share_limit_and_first_offer_of_every_port() {
    let with = |share, limit, offer: &[Object]| {
        let place = |index: usize| {
            let mut set_up = alike(6_400_000, 32, &[FIVE_VOLT]);
            let offer = offer.to_vec();
            set_up.places[index] = Place {
                share,
                limit,
                offer,
            };
            is_set_up(&set_up)
        };
        assert_eq!(place(0), place(31));
        place(0)
    };
    let small = [Object::new(100, 1)];
    assert!(with(30_000, 30_000, &small) && !with(29_999, 30_000, &small));
    assert!(!with(30_001, 30_000, &small) && !with(29_999, 29_999, &small));
    assert!(with(30_000, 200_000, &small) && !with(30_000, 200_001, &small));
    assert!(with(200_000, 200_000, &small) && !with(200_001, 200_001, &small));
    assert!(with(30_000, 54_000, &[FIVE_VOLT, NINE_VOLT]));
    assert!(!with(30_000, 53_999, &[FIVE_VOLT, NINE_VOLT]));
    assert!(!with(30_000, 120_000, &[]) && !with(30_000, 120_000, &[NINE_VOLT]));
}

#[test]
fn every_port_of_a_new_rack_is_detached_with_its_own_offer() {
    let mut set_up = alike(240_000, 3, &[FIVE_VOLT]);
    set_up.places[1].offer.push(NINE_VOLT);
    let rack = Rack::set_up(&set_up).unwrap();
    for (bay, place) in rack.bays.iter().zip(&set_up.places) {
        let offer = Offer::of(place.offer.iter().copied()).unwrap();
        assert_eq!(bay.port, Port::new(offer));
        assert_eq!(*bay.port.newest, place.offer);
        assert_eq!((bay.share, bay.limit), (place.share, place.limit));
    }
    assert!(rack.bay(0).is_none() && rack.bay(4).is_none());
    assert_eq!((rack.taken(), rack.supply), (90_000, 240_000));
}

/// A rack in which the first port asks and two others hold what they hold.
fn answer(supply: u32, limit: u32, shares: [u32; 3], held: [u32; 3], asked: u32) -> bool {
    let bays = shares.iter().zip(held).map(|(&share, held)| {
        let mut port = Port::new(Offer::of([FIVE_VOLT]).unwrap());
        port.held = held;
        Bay { share, limit, port }
    });
    let bays = bays.collect();
    let mut rack = Rack { supply, bays };
    rack.bays[0].port.accepted.worth = asked;
    rack.has_power(0)
}

#[test]
fn the_power_rule() {
    let shares = [30_000, 40_000, 50_000];
    let supply_needed = |held, asked, needed: u32| {
        assert!(answer(needed, 200_000, shares, held, asked), "{needed}");
        assert!(
            !answer(needed - 1, 200_000, shares, held, asked),
            "{needed}"
        );
    };
    // share, held or asked of this port, whichever is largest
    supply_needed([0, 0, 0], 10_000, 120_000);
    supply_needed([0, 0, 0], 80_000, 170_000);
    supply_needed([70_000, 0, 0], 60_000, 160_000);
    supply_needed([70_000, 0, 0], 80_000, 170_000);
    // share or held of each other port
    supply_needed([0, 39_999, 50_001], 30_000, 120_001);
    supply_needed([0, 90_000, 60_000], 30_001, 180_001);
    // the limit, however large the supply
    assert!(answer(6_400_000, 54_000, shares, [0; 3], 54_000));
    assert!(!answer(6_400_000, 54_000, shares, [0; 3], 54_001));
}

/// What is asked within the share is always there; that is what a share is for.
#[test]
fn a_share_is_kept_even_for_a_detached_port() {
    let mut walk = four_ports(240_000);
    assert_eq!(ask(&mut walk, 1, 3, 300), (true, 210_000));
    assert_eq!(ask(&mut walk, 2, 3, 300), (false, 210_000));
    assert_eq!(ask(&mut walk, 3, 3, 150), (true, 240_000));
    assert_eq!(ask(&mut walk, 4, 1, 300), (true, 240_000));
    walk.turn_to(1);
    go_in_rack(&mut walk, "detach");
    assert_eq!(walk.rack().taken(), 150_000);
}

/// Asked at each stage by a neighbour that needs what the first port gives up.
#[test]
fn power_is_free_when_the_output_has_moved_and_not_before() {
    for (stage, free) in [
        ("contract3", false),
        ("contract3 ask1", false),
        ("contract3 ask1 acked", false),
        ("contract3 ask1 acked supplyready", false),
        ("contract3 ask1 acked supplyready acked", true),
        ("contract3 hardreset", false),
        ("contract3 hardreset pshardreset", false),
        ("contract3 hardreset pshardreset supplyready", true),
        ("contract3 softreset acked", false),
        ("contract3 new-one acked", false),
        ("contract3 detach", true),
        ("contract1", true),
        ("contract1 ask3", false),
    ] {
        let mut walk = four_ports(180_000);
        walk.turn_to(1);
        go_in_rack(&mut walk, stage);
        assert_eq!(ask(&mut walk, 2, 2, 300).0, free, "{stage}");
    }
}

/// One action in each step: the timer that the Request stops, and the Accept.
#[test]
fn the_actions_of_both_steps_are_one_set() {
    for (supply, bytes, held) in [
        (240_000, [0xA3, 0x03], crate::port::Held::Accepted),
        (120_000, [0xA4, 0x03], crate::port::Held::Nothing),
    ] {
        let mut walk = four_ports(supply);
        walk.turn_to(3);
        go_in_rack(&mut walk, "attach acked");
        let mut rack = walk.rack().clone();
        let packet = Event::Packet(&[0x82, 0x10, 0x2C, 0xB1, 0x04, 0x20]);
        let answer = rack.step(3, &packet).unwrap();
        let transmit = answer.transmit;
        assert_eq!(transmit.as_deref(), Some(&bytes[..]));
        let expected = Answer {
            good_crc: Some([0xA1, 0x01]),
            stop: Some(Timer::SenderResponse),
            transmit,
            held,
            ..Answer::default()
        };
        assert_eq!(answer, expected);
    }
    let mut walk = four_ports(240_000);
    walk.turn_to(3);
    go_in_rack(&mut walk, "attach acked ask2");
    let mut rack = walk.rack().clone();
    let moving = rack.step(3, &Event::Packet(&[0x81, 0x02])).unwrap();
    assert_eq!(moving.supply, Some(Supply::Position(2)));
}

#[test]
fn a_refusal_changes_nothing_and_9_comes_first() {
    let mut walk = four_ports(240_000);
    walk.turn_to(2);
    go_in_rack(&mut walk, "contract2");
    let mut rack = walk.rack().clone();
    let before = rack.clone();
    let eight_objects = [FIVE_VOLT.bytes(); 8];
    for (event, number) in [
        (Event::Packet(&[0x82]), 1),
        (Event::Packet(&[0; 31]), 2),
        (Event::Packet(&[0x82, 0x10]), 3),
        (Event::Packet(&[0x82, 0x90, 0, 0, 0, 0]), 4),
        (Event::NewOffer(&eight_objects), 7),
        (
            Event::NewOffer(&[Object::new(100, 500), Object::new(400, 301)].map(Object::bytes)),
            7,
        ),
        (Event::Attach, 8),
        (Event::SupplyReady, 8),
        (Event::NotAcknowledged, 8),
        (Event::Power(true), 8),
        (Event::Power(false), 8),
    ] {
        assert_eq!(rack.step(2, &event), Err(number), "{event:?}");
        for outside in [0, 5, 8, 9, 32, 33, 255, 256, 258, 999, usize::MAX] {
            assert_eq!(rack.step(outside, &event), Err(9), "{event:?}");
        }
        assert_eq!(Rack::default().step(1, &event), Err(9));
        assert_eq!(rack, before);
    }
}

#[test]
fn an_event_is_for_one_port_and_an_offer_for_its_limit() {
    let mut set_up = alike(240_000, 3, &[FIVE_VOLT]);
    set_up.places[2].limit = 53_999;
    let mut rack = Rack::set_up(&set_up).unwrap();
    let offer = [FIVE_VOLT, NINE_VOLT].map(Object::bytes);
    let offer = Event::NewOffer(&offer);
    assert_eq!(rack.step(3, &offer), Err(7));
    assert_eq!(rack, Rack::set_up(&set_up).unwrap());
    assert!(rack.step(2, &offer).is_ok() && rack.step(2, &Event::Attach).is_ok());
    let mut fresh = Rack::set_up(&set_up).unwrap();
    assert_ne!(rack.bays[1], fresh.bays[1]);
    fresh.bays[1] = rack.bays[1].clone();
    assert_eq!(rack, fresh);
}
