//! That each case is damaged as it is meant to be, and none is there twice.

use super::*;
use crate::night_fields::{record_of, Damage, Record};
use crate::night_reader::{End, NightReader};
use crate::rack::Rack;
use std::collections::BTreeSet;

fn end_of(night: &[u8]) -> End {
    let mut reader = NightReader::new(night);
    loop {
        if let Err(end) = reader.next().unwrap() {
            return end;
        }
    }
}

#[test]
fn the_field_between_two_stories_is_the_damaged_one() {
    for field in damaged() {
        let End::Damaged(place, _) = end_of(&around(&field)) else {
            panic!("{field:02X?}");
        };
        assert_eq!(place as usize, story().len());
    }
}

#[test]
fn damaged_in_the_way_it_is_meant() {
    let all_are = |fields: Vec<Vec<u8>>, damage: Damage| {
        for field in &fields {
            assert_eq!(
                record_of(field[0], &field[3..]),
                Err(damage),
                "{field:02X?}"
            );
        }
    };
    all_are(unknown_tags(), Damage::UnknownTag);
    all_are(wrong_lengths(), Damage::WrongLength);
    for group in wrong_rack_groups() {
        let record = record_of(RACK_GROUP, &group);
        assert_eq!(record, Err(Damage::WrongLayout), "{group:02X?}");
    }
    // while the parts they are made of are right
    let group = [good_port(), good_port(), number(SUPPLY)].concat();
    assert!(record_of(RACK_GROUP, &group).is_ok());
    for count in [32, 33, 257] {
        let group = [ports_of_seven_objects(count), number(SUPPLY)].concat();
        assert!(record_of(RACK_GROUP, &group).is_ok(), "{count}");
    }
}

#[test]
fn cut_in_the_largest_set_up_and_behind_it() {
    let nights = cut_in_the_largest();
    let (behind, within) = nights.split_last().unwrap();
    let length = story().len() as u64;
    assert!(within.iter().all(|night| end_of(night) == End::Cut(length)));
    assert_eq!(within.len(), 8);
    // behind the set-up and the attach
    let place = largest_set_up().len() as u64 + 4;
    assert_eq!(end_of(behind), End::Cut(place));
    let mut reader = NightReader::new(&behind[..]);
    let Ok(Record::SetUp(set_up)) = reader.next().unwrap() else {
        panic!("the set-up is whole");
    };
    assert!(Rack::set_up(&set_up).is_ok_and(|rack| rack.bays.len() == 32));
}

#[test]
fn cut_at_each_byte_and_past_the_end() {
    let nights = cut();
    let length = story().len();
    for (count, night) in nights[..length].iter().enumerate() {
        assert_eq!(*night, story()[..count]);
    }
    for night in &nights[length..] {
        assert_eq!(end_of(night), End::Cut(length as u64));
    }
}

#[test]
fn long_fields_are_cut_before_they_are_damaged() {
    let ends: Vec<End> = long_fields().iter().map(|night| end_of(night)).collect();
    let damages = [
        Damage::UnknownTag,
        Damage::WrongLength,
        Damage::WrongLength,
        Damage::WrongLayout,
    ];
    for (pair, damage) in ends.chunks(2).zip(damages) {
        assert_eq!(pair, [End::Cut(0), End::Damaged(0, damage)]);
    }
    assert_eq!(ends[8..11], [End::Cut(0); 3]);
    let places = [65_535, 65_536, 65_537].map(|place| [End::Cut(place); 3]);
    assert_eq!(ends[11..], *places.as_flattened());
}

#[test]
fn numbers_from_0_to_the_last_and_no_night_twice() {
    let nights = all();
    assert_eq!(nights.iter().collect::<BTreeSet<_>>().len(), nights.len());
    for number in [0, 1, 77, nights.len() - 1] {
        let mut output = Vec::new();
        assert!(print(number, &mut output).unwrap());
        assert_eq!(output, nights[number]);
    }
    let mut output = Vec::new();
    assert!(!print(nights.len(), &mut output).unwrap());
    assert!(output.is_empty());
}
