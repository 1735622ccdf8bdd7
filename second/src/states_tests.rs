//! "The Source states", sentence by sentence: a way to a state whose last word is
//! the event, and the actions and the state that the paper gives.

use super::*;
use crate::channel::Channel;
use crate::step_lines::answer_all;
use crate::step_situations::after as walk;

/// The answer to the way's last line: the actions, and the state then.
fn last_answer(way: &str) -> (String, String) {
    let mut output = Vec::new();
    answer_all(&walk(way).lines[..], &mut output).unwrap();
    let output = String::from_utf8(output).unwrap();
    let line = output.lines().next_back().unwrap();
    let parts: Vec<&str> = line.split(" | ").collect();
    let state = parts[2].split(',').next().unwrap();
    let actions = parts[0].trim_start_matches("actions: ");
    (actions.to_string(), state.to_string())
}

type Row = (&'static str, &'static str, State);

/// So that a row is a line: `!` is a Hard Reset that is signalled, `*` the two
/// objects, `SR` and `SC` the timers SenderResponse and SourceCapability.
fn check(rows: &[Row]) {
    for (way, actions, state) in rows {
        let actions = actions
            .replace('!', "signal Hard Reset; start PSHardReset")
            .replace('*', "2C 91 01 00 2C D1 02 00")
            .replace("SR", "SenderResponse")
            .replace("SC", "SourceCapability");
        let expected = (actions, format!("{state:?}"));
        assert_eq!(last_answer(way), expected, "{way}");
    }
}

use State::*;

const OFFER: &[Row] = &[
    ("attach", "transmit A1 21 *", Offer),
    ("attach acknowledgement", "transmit A1 21 *", Offer),
    ("attach wrong", "transmit A1 21 *", Offer),
    ("attach acked", "start SR", Offer),
    ("attach acked senderresponse", "!", Hard),
    ("attach acked hardreset", "stop SR; start PSHardReset", Hard),
    ("attach failed", "start SC", Discovery),
    ("contract1 caps failed", "transmit AD 01", Soft),
    ("attach acked ask1", "GoodCRC A1 01; stop SR", Judge),
    ("attach ask1", "GoodCRC A1 01", Judge),
    ("attach ask-much", "GoodCRC A1 01; transmit A4 03", Refusing),
    ("attach caps", "GoodCRC A1 01; transmit AD 01", Soft),
    (
        "attach softreset",
        "GoodCRC A1 01; transmit A3 01",
        Answering,
    ),
];

const DISCOVERY: &[Row] = &[
    ("attach failed sourcecapability", "transmit A1 23 *", Offer),
    ("attach failed detach", "stop SC", Detached),
    ("attach failed ask2", "GoodCRC A1 01; stop SC", Judge),
    (
        "attach failed ask-much",
        "GoodCRC A1 01; stop SC; transmit A4 03",
        Refusing,
    ),
    (
        "attach failed accept",
        "GoodCRC A1 01; stop SC; transmit AD 01",
        Soft,
    ),
    (
        "attach failed softreset",
        "GoodCRC A1 01; stop SC; transmit A3 01",
        Answering,
    ),
];

#[test]
fn offer_and_discovery() {
    check(OFFER);
    check(DISCOVERY);
}

#[test]
fn the_fiftieth_offer_is_the_last() {
    check(&[
        ("attach 49-more", "transmit A1 23 *", Offer),
        ("attach 49-more failed", "start SC", Discovery),
        ("attach 49-more failed sourcecapability", "none", Disabled),
        (
            "attach 49-more failed sourcecapability detach",
            "none",
            Detached,
        ),
    ]);
    for more in 0..49 {
        let way = format!("attach {}", "failed sourcecapability ".repeat(more));
        assert_eq!(usize::from(walk(&way).port().count), more + 1);
        assert_eq!(walk(&way).port().state, Offer);
    }
    // "never over 50": only an acknowledged offer begins the count again
    let ready = "attach 49-more ask1 yes acked supplyready acked";
    assert_eq!(walk(ready).port().count, 50);
    assert_eq!(walk(&format!("{ready} caps")).port().count, 50);
    assert_eq!(walk(&format!("{ready} caps acked")).port().count, 0);
}

const JUDGE: &[Row] = &[
    ("attach acked ask2 yes", "transmit A3 03", Accepting),
    ("attach acked ask2 no", "transmit A4 03", Refusing),
    (
        "attach acked ask2 caps",
        "GoodCRC A1 03; transmit AD 01",
        Soft,
    ),
    (
        "attach acked ask2 softreset",
        "GoodCRC A1 03; transmit A3 01",
        Answering,
    ),
    ("attach acked ask2 acked", "none", Judge),
];

const ACCEPTING_TO_TELLING: &[Row] = &[
    ("attach acked ask2 yes acked", "supply 2", Moving),
    ("attach acked ask2 yes failed", "!", Hard),
    ("attach acked ask2 yes softreset", "GoodCRC A1 03; !", Hard),
    ("attach acked ask2 yes acked caps", "GoodCRC A1 03; !", Hard),
    (
        "attach acked ask2 yes acked softreset",
        "GoodCRC A1 03; !",
        Hard,
    ),
    (
        "attach ask2 yes acked supplyready",
        "transmit A6 05",
        Telling,
    ),
    ("attach ask2 yes acked supplyready acked", "none", Ready),
    ("attach ask2 yes acked supplyready failed", "!", Hard),
    (
        "attach ask2 yes acked supplyready softreset",
        "GoodCRC A1 03; !",
        Hard,
    ),
    (
        "attach ask2 yes acked supplyready ask1",
        "GoodCRC A1 03; !",
        Hard,
    ),
];

#[test]
fn judge_to_ready() {
    check(JUDGE);
    check(ACCEPTING_TO_TELLING);
}

const READY: &[Row] = &[
    ("contract1 ask2", "GoodCRC A1 03", Judge),
    (
        "contract1 ask-much",
        "GoodCRC A1 03; transmit A4 07",
        Refusing,
    ),
    ("contract1 caps", "GoodCRC A1 03; transmit A1 27 *", Offer),
    ("contract1 accept", "GoodCRC A1 03; transmit AD 01", Soft),
    ("contract1 odd", "GoodCRC A1 03; transmit B0 07", Declining),
    (
        "contract1 softreset",
        "GoodCRC A1 03; transmit A3 01",
        Answering,
    ),
    ("contract1 odd acked", "none", Ready),
    ("contract1 odd failed", "transmit AD 01", Soft),
    ("contract1 odd ask1", "GoodCRC A1 05; transmit AD 01", Soft),
    (
        "contract1 odd softreset",
        "GoodCRC A1 05; transmit A3 01",
        Answering,
    ),
];

#[test]
fn ready_and_declining() {
    check(READY);
    // Not_Supported and BIST are quiet: acknowledged, stored, and that is all.
    for quiet in ["packet 90 02", "packet 83 12 00 00 00 00"] {
        let mut walk = walk("contract1");
        let mut expected = walk.port().clone();
        expected.channel.stored = Some(1);
        walk.say(quiet);
        assert_eq!(*walk.port(), expected);
    }
}

const REFUSING: &[Row] = &[
    ("attach acked ask-much acked", "none", Waiting),
    ("contract1 ask2 no acked", "none", Ready),
    ("contract1 new-strong acked ask-much acked", "none", Ready),
    (
        "contract-small new-weak acked ask-much acked",
        "none",
        Ready,
    ),
    ("contract1 new-weak acked ask-much acked", "!", Hard),
    ("contract2 new-one acked ask-much acked", "!", Hard),
    ("contract2 new-other acked ask-much acked", "!", Hard),
    ("contract1 ask-much failed", "transmit AD 01", Soft),
    (
        "contract1 ask-much caps",
        "GoodCRC A1 05; transmit AD 01",
        Soft,
    ),
    (
        "contract1 ask-much softreset",
        "GoodCRC A1 05; transmit A3 01",
        Answering,
    ),
];

const WAITING: &[Row] = &[
    ("attach ask1 no acked", "none", Waiting),
    (
        "attach ask1 no acked caps",
        "GoodCRC A1 03; transmit A1 25 *",
        Offer,
    ),
    (
        "attach ask1 no acked ask1",
        "GoodCRC A1 03; transmit AD 01",
        Soft,
    ),
    (
        "attach ask1 no acked softreset",
        "GoodCRC A1 03; transmit A3 01",
        Answering,
    ),
];

#[test]
fn refusing_and_waiting() {
    check(REFUSING);
    check(WAITING);
}

const SOFT: &[Row] = &[
    ("attach caps acked", "start SR", Soft),
    (
        "attach caps accept",
        "GoodCRC A1 01; transmit A1 23 *",
        Offer,
    ),
    (
        "attach caps acked accept",
        "GoodCRC A1 01; stop SR; transmit A1 23 *",
        Offer,
    ),
    ("attach caps acked senderresponse", "!", Hard),
    ("attach caps failed", "!", Hard),
    ("attach caps caps", "GoodCRC A1 01; !", Hard),
    ("attach caps acked ask1", "GoodCRC A1 01; stop SR; !", Hard),
    (
        "attach caps acked softreset",
        "GoodCRC A1 01; stop SR; transmit A3 01",
        Answering,
    ),
];

const ANSWERING: &[Row] = &[
    ("contract1 softreset acked", "transmit A1 23 *", Offer),
    ("contract1 softreset failed", "!", Hard),
    ("contract1 softreset accept", "GoodCRC A1 05; !", Hard),
    (
        "contract1 softreset softreset",
        "GoodCRC A1 05; transmit A3 01",
        Answering,
    ),
];

#[test]
fn soft_and_answering() {
    check(SOFT);
    check(ANSWERING);
    // Only Accept will do, not Reject, PS_RDY or Wait.
    for reply in ["packet 84 00", "packet 86 00", "packet 8C 00"] {
        let mut walk = walk("attach caps acked");
        walk.say(reply);
        assert_eq!(walk.port().state, Hard, "{reply}");
    }
}

const HARD: &[Row] = &[
    ("contract1 hardreset", "start PSHardReset", Hard),
    ("contract1 hardreset detach", "stop PSHardReset", Detached),
    ("contract1 hardreset pshardreset", "supply default", Default),
    (
        "contract1 hardreset pshardreset supplyready",
        "transmit A1 21 *",
        Offer,
    ),
];

#[test]
fn hard_and_default() {
    check(HARD);
    let port = walk("contract2 ask1 yes hardreset").port().clone();
    assert_eq!(port.channel, Channel::default());
    let default = walk("contract2 hardreset pshardreset").port().clone();
    assert_eq!(default.held, 54_000);
    assert!(default.contract.is_some() && default.connected);
    let begun = walk("contract2 hardreset pshardreset supplyready");
    let begun = begun.port();
    assert_eq!((begun.held, begun.count, begun.connected), (0, 1, false));
    assert_eq!(begun.contract, None);
}
