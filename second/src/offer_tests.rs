//! The night-desk objects, each condition of a good offer at its edge, and each of
//! a Request that fits.

use super::*;
use crate::request_objects::{request, with_flags, FLAGS, GIVE_BACK, MISMATCH};

const FIVE_VOLT: Object = Object(0x0001_912C);
const NINE_VOLT: Object = Object(0x0002_D12C);
const MOST: u32 = 200_000;

#[test]
fn the_night_desk_objects() {
    let bytes = [0x2C, 0x91, 0x01, 0x00, 0x2C, 0xD1, 0x02, 0x00];
    let objects = objects_of(split(&bytes).unwrap());
    assert_eq!(objects, [FIVE_VOLT, NINE_VOLT]);
    assert_eq!(bytes_of(&objects), bytes);
    let values = |object: Object| (object.voltage(), object.current(), object.worth());
    assert_eq!(values(FIVE_VOLT), (100, 300, 30_000));
    assert_eq!(values(NINE_VOLT), (180, 300, 54_000));
    assert_eq!(Object::new(180, 300), NINE_VOLT);
}

#[test]
fn an_object_has_four_bytes() {
    assert_eq!(split(&[]), Some(&[][..]));
    for count in [1, 2, 3, 5, 6, 7, 9] {
        assert_eq!(split(&[0; 64][..count]), None, "{count}");
    }
}

#[test]
fn an_offer_keeps_up_to_seven_objects_in_place() {
    let rising: Vec<Object> = (100..110).map(|voltage| Object::new(voltage, 1)).collect();
    for count in 0..=10 {
        let offer = Offer::of(rising[..count].iter().copied());
        let expected = (count <= 7).then_some(&rising[..count]);
        assert_eq!(offer.as_deref(), expected);
    }
    assert_eq!(Offer::of([]), Some(Offer::default()));
}

#[test]
fn one_to_seven_objects() {
    let rising: Vec<Object> = (100..110).map(|voltage| Object::new(voltage, 1)).collect();
    for count in 0..=10 {
        assert_eq!(is_good(&rising[..count], MOST), (1..=7).contains(&count));
    }
}

#[test]
fn the_first_at_5_volt_then_strictly_rising() {
    let good = |voltages: &[u32]| {
        let objects: Vec<_> = voltages.iter().map(|&v| Object::new(v, 1)).collect();
        is_good(&objects, MOST)
    };
    assert!(good(&[100]) && good(&[100, 101]) && good(&[100, 180, 400]));
    assert!(!good(&[99]) && !good(&[101]) && !good(&[180]) && !good(&[99, 100]));
    assert!(!good(&[100, 100]) && !good(&[100, 180, 180]) && !good(&[100, 181, 180]));
    assert!(!good(&[100, 401]) && !good(&[100, 400, 401]));
}

#[test]
fn every_object_within_5_ampere_and_the_limit() {
    assert!(is_good(&[Object::new(100, 500)], MOST));
    assert!(!is_good(&[Object::new(100, 501)], MOST));
    assert!(!is_good(&[FIVE_VOLT, Object::new(180, 501)], MOST));
    assert!(is_good(&[FIVE_VOLT, NINE_VOLT], 54_000));
    assert!(!is_good(&[FIVE_VOLT, NINE_VOLT], 53_999));
    assert!(is_good(&[FIVE_VOLT], 30_000));
    assert!(!is_good(&[FIVE_VOLT], 29_999));
    assert!(is_good(&[Object::new(100, 0)], 0));
}

#[test]
fn only_fixed_objects_and_other_bits_ignored() {
    for top in [0x4000_0000, 0x8000_0000, 0xC000_0000] {
        assert!(!is_good(&[Object(FIVE_VOLT.0 | top)], MOST));
        assert!(!is_good(&[FIVE_VOLT, Object(NINE_VOLT.0 | top)], MOST));
    }
    assert!(is_good(&[Object(FIVE_VOLT.0 | 0x3FF0_0000)], MOST));
}

/// All that the paper's second object has.
const NINE_VOLT_DEAL: Deal = Deal {
    position: 2,
    voltage: 180,
    current: 300,
    worth: 54_000,
};

#[test]
fn a_request_that_fits_takes_its_voltage_from_the_offer() {
    let offer = [FIVE_VOLT, NINE_VOLT];
    let deal = Some(NINE_VOLT_DEAL);
    assert_eq!(asked(&[0x2C, 0xB1, 0x04, 0x20], &offer), deal);
    let small = asked(&request(1, 10, 300), &offer).unwrap();
    assert_eq!(
        (small.voltage, small.current, small.worth),
        (100, 10, 1_000)
    );
    let noisy = with_flags(request(1, 10, 300), FLAGS);
    assert_eq!(asked(&noisy, &offer), Some(small));
}

#[test]
fn a_request_fits_by_position_and_both_currents() {
    let offer = [FIVE_VOLT, Object::new(180, 200)];
    let fits = |object: [u8; 4]| asked(&object, &offer).is_some();
    assert!(fits(request(1, 300, 300)) && fits(request(2, 200, 200)));
    assert!(!fits(request(0, 1, 1)) && !fits(request(3, 1, 1)) && !fits(request(15, 1, 1)));
    assert!(!fits(request(1, 301, 300)) && !fits(request(1, 300, 301)));
    assert!(!fits(request(2, 201, 200)) && !fits(request(2, 200, 201)));
    let two = [request(1, 1, 1), request(1, 1, 1)].concat();
    assert_eq!(asked(&two, &offer), None);
    assert_eq!(asked(&[], &offer), None);
}

/// 3 A asked and 5 A named of an object that has 3 A: with bit 26, and without.
#[test]
fn more_may_be_named_with_capability_mismatch_alone() {
    let offer = [FIVE_VOLT, NINE_VOLT];
    let deal = Some(NINE_VOLT_DEAL);
    assert_eq!(asked(&[0xF4, 0xB1, 0x04, 0x24], &offer), deal);
    assert_eq!(asked(&[0xF4, 0xB1, 0x04, 0x20], &offer), None);
    // GiveBack beside either
    assert_eq!(asked(&[0xF4, 0xB1, 0x04, 0x2C], &offer), deal);
    assert_eq!(asked(&[0xF4, 0xB1, 0x04, 0x28], &offer), None);
}

/// All 256 mixtures of the bits between the position and the currents; the deal is
/// by the operating current in each.
#[test]
fn of_all_flags_capability_mismatch_alone_counts() {
    for flags in (0..=0xFF).map(|flags| flags << 20) {
        let mismatch = flags & 0x0400_0000 != 0;
        for (current, most_current, fits) in [
            (300, 300, true),
            (300, 0, true),
            (300, 301, mismatch),
            (299, 301, mismatch),
            (0, 1023, mismatch),
            (301, 300, false),
            (301, 301, false),
            (1023, 0, false),
        ] {
            let object = with_flags(request(1, current, most_current), flags);
            let deal = Deal {
                position: 1,
                voltage: 100,
                current,
                worth: 100 * current,
            };
            let expected = fits.then_some(deal);
            assert_eq!(asked(&object, &[FIVE_VOLT]), expected, "{object:02X?}");
        }
    }
}

/// Every small current, asked and named, of every small object.
#[test]
fn a_request_fits_by_one_current_or_both() {
    for offered in 0..=4 {
        let offer = [Object::new(100, offered)];
        for (current, most_current) in (0..36).map(|pair| (pair / 6, pair % 6)) {
            let object = request(1, current, most_current);
            let fits = |flags| asked(&with_flags(object, flags), &offer).is_some();
            let both = current <= offered && most_current <= offered;
            assert_eq!((fits(0), fits(GIVE_BACK)), (both, both));
            let one = current <= offered;
            assert_eq!((fits(MISMATCH), fits(FLAGS)), (one, one));
        }
    }
}

#[test]
fn capability_mismatch_excuses_no_position_and_no_second_object() {
    let offer = [FIVE_VOLT, NINE_VOLT];
    for position in 0..16 {
        for most_current in [1, 300, 301, 1023] {
            let object = with_flags(request(position, 1, most_current), MISMATCH);
            let fits = asked(&object, &offer).is_some();
            assert_eq!(fits, position == 1 || position == 2, "{position}");
            assert_eq!(asked(&[object, object].concat(), &offer), None);
            assert_eq!(asked(&object[..3], &offer), None);
            assert_eq!(asked(&object, &[]), None);
        }
    }
}

#[test]
fn a_contract_is_honoured_by_position_voltage_and_current() {
    let contract = asked(&request(2, 200, 300), &[FIVE_VOLT, NINE_VOLT]).unwrap();
    let with = |second: Object| honours(&[FIVE_VOLT, second], &contract);
    assert!(with(NINE_VOLT) && with(Object::new(180, 200)) && with(Object::new(180, 500)));
    assert!(!with(Object::new(180, 199)));
    assert!(!with(Object::new(179, 300)) && !with(Object::new(181, 300)));
    assert!(!honours(&[FIVE_VOLT], &contract));
    let elsewhere = [FIVE_VOLT, Object::new(140, 300), NINE_VOLT];
    assert!(!honours(&elsewhere, &contract));
    // by its operating current, whatever was named beside it
    let named = with_flags(request(2, 200, 500), MISMATCH);
    assert_eq!(asked(&named, &[FIVE_VOLT, NINE_VOLT]), Some(contract));
}
