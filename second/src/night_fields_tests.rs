//! The tables of docs/NIGHT.md, row by row. Wrong layouts of a set-up are among the
//! damaged cases, and tested with them.

use super::*;
use crate::offer::Object;

const EVENTS: [(u8, Event); 12] = [
    (32, Event::Attach),
    (33, Event::Detach),
    (34, Event::Packet(&[0x81, 0x00])),
    (35, Event::HardReset),
    (36, Event::NotAcknowledged),
    (37, Event::Expired(Timer::SenderResponse)),
    (38, Event::Expired(Timer::SourceCapability)),
    (39, Event::Expired(Timer::PsHardReset)),
    (40, Event::SupplyReady),
    (41, Event::NewOffer(&[[0x2C, 0x91, 0x01, 0x00]])),
    (42, Event::Power(true)),
    (43, Event::Power(false)),
];

#[test]
fn every_event_has_its_tag_and_any_port() {
    for (tag, event) in EVENTS {
        assert_eq!(tag_of(&event), tag);
        for port in [0, 1, 8, 9, 32, 33, 255] {
            let value = [&[port], bytes_of(&event)].concat();
            assert_eq!(record_of(tag, &value), Ok(Record::Event(port, event)));
        }
    }
}

#[test]
fn packets_and_offers_of_any_size() {
    for length in [0, 1, 30, 31, 65_534] {
        let value = vec![7; 1 + length];
        let packet = Event::Packet(&value[1..]);
        assert_eq!(record_of(34, &value), Ok(Record::Event(7, packet)));
    }
    for count in [0, 1, 7, 8, 16_383] {
        let value = vec![7; 1 + 4 * count];
        let objects = vec![[7; 4]; count];
        let offer = Event::NewOffer(&objects);
        assert_eq!(record_of(41, &value), Ok(Record::Event(7, offer)));
    }
}

#[test]
fn an_event_of_another_length_is_damaged() {
    for (tag, _) in EVENTS {
        for length in 0..40 {
            let fits = match tag {
                34 => length >= 1,
                41 => length % 4 == 1,
                _ => length == 1,
            };
            let record = record_of(tag, &[1; 40][..length]);
            assert_eq!(record.is_ok(), fits, "{tag} {length}");
            assert!(fits || record == Err(Damage::WrongLength));
        }
    }
}

#[test]
fn all_other_tags_are_unknown_whatever_the_length() {
    for tag in (0..=255).filter(|tag| !matches!(tag, 16 | 32..=43)) {
        for length in [0, 1, 4, 5, 300] {
            let record = record_of(tag, &[0; 300][..length]);
            assert_eq!(record, Err(Damage::UnknownTag), "{tag}");
        }
    }
}

/// The bytes of the page's example, and a port more.
#[test]
fn a_set_up_is_its_ports_and_the_supply() {
    let port = [
        0x11, 0x15, 0, 0x13, 4, 0, 0x30, 0x75, 0, 0, 0x14, 4, 0, 0x30, 0x75, 0, 0, 0x15, 4, 0,
        0x2C, 0x91, 0x01, 0x00,
    ];
    // share 256, the largest limit that a field holds, no objects
    let odd_port = [
        0x11, 17, 0, 0x13, 4, 0, 0, 1, 0, 0, 0x14, 4, 0, 255, 255, 255, 255, 0x15, 0, 0,
    ];
    let supply = [0x12, 4, 0, 0x30, 0x75, 0, 0];
    let place = |share, limit, offer| Place {
        share,
        limit,
        offer,
    };
    let good = place(30_000, 30_000, vec![Object::new(100, 300)]);
    let odd = place(256, u32::MAX, vec![]);
    for (value, places) in [
        ([&port[..], &supply].concat(), vec![good.clone()]),
        ([&port[..], &odd_port, &supply].concat(), vec![good, odd]),
        (supply.to_vec(), vec![]),
    ] {
        let set_up = SetUp {
            supply: 30_000,
            places,
        };
        assert_eq!(record_of(16, &value), Ok(Record::SetUp(set_up)));
    }
}
