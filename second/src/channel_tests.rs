//! "Protocol rules", sentence by sentence.

use super::*;

/// With a message pending whose MessageID is this.
fn sent(counter: u8) -> (Channel, Message) {
    let mut channel = Channel {
        counter,
        ..Channel::default()
    };
    let message = channel.send(3, &[]);
    (channel, message)
}

#[test]
fn a_message_goes_out_as_ours_with_the_counter() {
    assert_eq!(*sent(3).1, [0xA3, 0x07]);
    let message = Channel::default().send(1, &[Object::new(100, 300)]);
    assert_eq!(*message, [0xA1, 0x11, 0x2C, 0x91, 0x01, 0x00]);
    // as many objects as there can be
    let seven = [100, 101, 102, 103, 104, 105, 106].map(|voltage| Object::new(voltage, 1));
    let message = Channel::default().send(1, &seven);
    assert_eq!((message.len(), &message[..2]), (30, &[0xA1, 0x71][..]));
    assert_eq!(message[26..], Object::new(106, 1).bytes());
}

#[test]
fn acknowledged_by_the_pending_message_id_only() {
    for counter in 0..8 {
        for heard in 0..8 {
            let (mut channel, message) = sent(counter);
            let outcome = channel.hear_good_crc(heard);
            if heard == counter {
                assert_eq!(outcome, Outcome::Acknowledged);
                assert_eq!(channel.pending, None);
                assert_eq!(channel.counter, (counter + 1) & 7);
            } else {
                assert_eq!(outcome, Outcome::Again(message));
                assert_eq!(channel.counter, counter);
            }
            assert_eq!(channel.stored, None);
        }
    }
}

#[test]
fn three_transmissions_and_no_more() {
    for wrong in [
        [false; 3],
        [true; 3],
        [true, false, true],
        [false, true, false],
    ] {
        let (mut channel, message) = sent(7);
        let mut turn = |wrong: bool| match wrong {
            true => channel.hear_good_crc(6),
            false => channel.not_acknowledged(),
        };
        assert_eq!(turn(wrong[0]), Outcome::Again(message));
        assert_eq!(turn(wrong[1]), Outcome::Again(message));
        assert_eq!(turn(wrong[2]), Outcome::Failed);
        assert_eq!((channel.counter, &channel.pending), (0, &None));
    }
}

#[test]
fn a_late_acknowledgement_still_counts() {
    let (mut channel, _) = sent(2);
    channel.not_acknowledged();
    channel.not_acknowledged();
    assert_eq!(channel.pending.as_ref().unwrap().retries, 2);
    assert_eq!(channel.hear_good_crc(2), Outcome::Acknowledged);
    assert_eq!(channel.counter, 3);
    // The next message has its own retries.
    channel.send(3, &[]);
    assert_eq!(channel.pending.unwrap().retries, 0);
}

#[test]
fn with_nothing_pending_a_good_crc_does_nothing() {
    for heard in 0..8 {
        let mut channel = Channel::default();
        assert_eq!(channel.hear_good_crc(heard), Outcome::NothingPending);
        assert_eq!(channel, Channel::default());
    }
}

#[test]
fn a_repeat_leaves_all_as_it_is() {
    let (mut channel, _) = sent(4);
    channel.stored = Some(6);
    let before = channel.clone();
    assert!(!channel.hear(6, false));
    assert_eq!(channel, before);
}

#[test]
fn a_new_packet_drops_what_is_pending() {
    let (mut channel, _) = sent(7);
    channel.stored = Some(6);
    assert!(channel.hear(5, false));
    assert_eq!((channel.counter, channel.stored), (0, Some(5)));
    assert_eq!(channel.pending, None);
    // With nothing pending the counter stays.
    assert!(channel.hear(6, false));
    assert_eq!((channel.counter, channel.stored), (0, Some(6)));
}

#[test]
fn a_soft_reset_is_never_a_repeat_and_the_counter_is_0() {
    for stored in [None, Some(1), Some(2)] {
        let (mut channel, _) = sent(4);
        channel.stored = stored;
        assert!(channel.hear(2, true));
        let expected = Channel {
            counter: 0,
            stored: Some(2),
            pending: None,
        };
        assert_eq!(channel, expected);
        channel.counter = 5;
        assert!(channel.hear(2, true));
        assert_eq!(channel, expected);
    }
}
