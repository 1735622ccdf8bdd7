//! What the paper says of the memory, of new offers, of the order of the refusals
//! and of timers. Where each event leads is for states_tests.rs.

use super::*;
use crate::step_situations::after as walk;
use crate::step_walk::FIVE_VOLT;

#[test]
fn held_power_is_let_go_only_when_the_output_has_moved() {
    let held = |way: &str| walk(way).port().held;
    assert_eq!(held("attach acked ask2"), 0);
    assert_eq!(held("attach acked ask2 yes"), 54_000);
    assert_eq!(held("contract2 ask1 yes"), 54_000);
    assert_eq!(held("contract2 ask1 yes acked supplyready"), 54_000);
    assert_eq!(held("contract2 ask1 yes acked supplyready acked"), 30_000);
    assert_eq!(held("contract1 ask2 yes"), 54_000);
    assert_eq!(held("contract1 ask2 no acked"), 30_000);
    assert_eq!(held("contract2 ask1 yes hardreset pshardreset"), 54_000);
    assert_eq!(held("contract2 detach"), 0);
}

#[test]
fn a_new_offer_leads_to_offer_from_ready_and_waiting_alone() {
    for (way, header) in [
        ("contract1 new-one", [0xA1, 0x17]),
        ("attach acked ask-much acked new-one", [0xA1, 0x15]),
        // kept, and out as soon as Ready or Waiting would be entered
        ("contract1 odd new-one acked", [0xA1, 0x19]),
        ("attach acked ask-much new-one acked", [0xA1, 0x15]),
        (
            "attach ask1 yes acked supplyready new-one acked",
            [0xA1, 0x17],
        ),
        ("contract1 ask2 no new-one acked", [0xA1, 0x19]),
    ] {
        let port = walk(way).port().clone();
        assert_eq!((port.state, port.gone_out), (State::Offer, true), "{way}");
        let sent = port.channel.pending.unwrap().message;
        assert_eq!(*sent, [&header[..], &[0x2C, 0x91, 0x01, 0x00]].concat());
    }
    // A Request is judged by the last offer on the wire, not by the newest.
    assert_eq!(walk("attach new-one ask2").port().state, State::Judge);
    let refused = walk("contract1 new-one acked ask2");
    assert_eq!(refused.port().state, State::Refusing);
}

#[test]
fn elsewhere_a_new_offer_is_kept_and_nothing_else() {
    for way in [
        "",
        "attach",
        "attach acked",
        "attach caps",
        "contract1 ask2",
    ] {
        let mut expected = walk(way).port().clone();
        expected.newest = Offer::of([FIVE_VOLT]).unwrap();
        expected.gone_out = false;
        let kept = walk(&format!("{way} new-one"));
        assert_eq!(*kept.port(), expected, "{way}");
    }
}

#[test]
fn detach_clears_all_but_the_newest_offer() {
    let expected = walk("new-one").port().clone();
    for way in [
        "contract1 new-one acked ask1 yes",
        "attach 49-more failed sourcecapability new-one",
        "attach caps accept acked new-one",
        "contract2 hardreset new-one",
    ] {
        assert_eq!(*walk(&format!("{way} detach")).port(), expected, "{way}");
    }
}

#[test]
fn what_is_wrong_with_the_bytes_goes_before_the_state() {
    let events = [
        (Event::Packet(&[0x82]), 1),
        (Event::Packet(&[0; 31]), 2),
        (Event::Packet(&[0x82, 0x10]), 3),
        (Event::Packet(&[0x82, 0x90, 0, 0, 0, 0]), 4),
        (Event::NewOffer(&[[0x2C, 0xD1, 0x02, 0x00]]), 7),
        (Event::Packet(&[0x81, 0x00]), 8),
        (Event::HardReset, 8),
        (Event::NotAcknowledged, 8),
        (Event::SupplyReady, 8),
    ];
    for way in [
        "",
        "contract1 hardreset",
        "attach 49-more failed sourcecapability",
    ] {
        for (event, number) in &events {
            let mut port = walk(way).port().clone();
            let before = port.clone();
            assert_eq!(port.step(event, 120_000), Err(*number), "{way} {event:?}");
            assert_eq!(port, before);
        }
    }
    let mut fresh = walk("").port().clone();
    assert_eq!(fresh.step(&Event::Detach, 120_000), Err(8));
}

#[test]
fn a_timer_that_does_not_run_is_refused() {
    use Timer::*;
    for (way, running) in [
        ("attach", None),
        ("attach acked", Some(SenderResponse)),
        ("attach failed", Some(SourceCapability)),
        ("attach caps", None),
        ("attach caps acked", Some(SenderResponse)),
        ("contract1", None),
        ("contract1 hardreset", Some(PsHardReset)),
        ("contract1 hardreset pshardreset", None),
        ("attach acked ask1", None),
    ] {
        for timer in [SenderResponse, SourceCapability, PsHardReset] {
            let mut port = walk(way).port().clone();
            let taken = port.step(&Event::Expired(timer), 120_000).is_ok();
            assert_eq!(taken, running == Some(timer), "{way}, {timer:?}");
        }
    }
}

#[test]
fn connected_by_an_acknowledged_offer_or_a_packet() {
    let connected = |way: &str| walk(way).port().connected;
    assert!(!connected("attach") && !connected("attach failed"));
    assert!(!connected("attach wrong"));
    assert!(connected("attach acked") && connected("attach ask1"));
    assert!(connected("attach failed softreset") && connected("attach caps"));
    assert!(connected("attach acked hardreset pshardreset"));
    assert!(!connected("attach acked hardreset pshardreset supplyready"));
}

#[test]
fn default_begins_the_count_again() {
    let way = "attach failed sourcecapability caps hardreset pshardreset";
    assert_eq!(walk(way).port().count, 2);
    assert_eq!(walk(&format!("{way} supplyready")).port().count, 1);
}

/// 1 A is asked both times, with 1.5 A named and with 5 A of the 3 A that there are.
#[test]
fn what_is_named_with_capability_mismatch_leaves_no_trace() {
    for more in [
        "",
        "yes",
        "no acked",
        "yes acked supplyready",
        "yes acked supplyready acked",
        "yes acked supplyready acked caps acked ask2 yes",
        // 1 A is all that is still offered, and the contract stays
        "yes acked supplyready acked new-weak acked ask-over acked",
    ] {
        let after = |ask: &str| walk(&format!("attach acked {ask} {more}"));
        let (usual, mismatch) = (after("ask-small"), after("ask-more"));
        assert_eq!(mismatch.port(), usual.port(), "{more}");
    }
    let kept = walk("contract-more new-weak acked ask-over acked");
    assert_eq!(kept.port().state, State::Ready);
    let refused = walk("attach acked ask-over");
    assert_eq!(refused.port().state, State::Refusing);
}

/// The paper has no other place for a Request that waits for its answer.
#[test]
fn the_request_is_in_memory_from_judge_on() {
    let worth = |way: &str| walk(way).port().accepted.worth;
    assert_eq!(worth("attach acked"), 0);
    assert_eq!(worth("attach acked ask2"), 54_000);
    assert_eq!(worth("contract1 ask2 no acked"), 54_000);
    // one that does not fit is not kept
    assert_eq!(worth("contract1 ask-much"), 30_000);
    let contract = walk("contract1 ask2 no acked").port().contract;
    assert_eq!(contract.unwrap().worth, 30_000);
}
