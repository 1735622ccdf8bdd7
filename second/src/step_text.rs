//! What the step program answers, in the words of docs/STEPS.md ("Lines out").

use crate::offer::{bytes_of, Deal};
use crate::port::{Answer, Held, Port, Supply, Timer};
use crate::rack::Place;
use crate::{hex, refusal};

/// The memory is text already, for there is not always a port to show.
pub fn outcome_text(outcome: &Result<Answer, u8>, memory: &str) -> String {
    let text = or_refusal(outcome, |answer| {
        format!("actions: {}", actions_text(answer))
    });
    let held = outcome.as_ref().map_or(Held::Nothing, |answer| answer.held);
    format!("{text} | held: {} | {memory}", held_word(held))
}

/// The text of what was taken, or the refusal's number and words.
pub fn or_refusal<T>(outcome: &Result<T, u8>, text_of: impl Fn(&T) -> String) -> String {
    match outcome {
        Ok(taken) => text_of(taken),
        Err(number) => refusal::text_of(*number),
    }
}

/// In the paper's order, or `none`.
pub fn actions_text(answer: &Answer) -> String {
    let transmit = answer.transmit.as_ref();
    let actions = [
        answer
            .good_crc
            .map(|b| format!("GoodCRC {}", hex::text_of(&b))),
        answer
            .stop
            .map(|timer| format!("stop {}", timer_word(timer))),
        transmit.map(|bytes| format!("transmit {}", hex::text_of(bytes))),
        answer.signal.then(|| "signal Hard Reset".to_string()),
        answer.supply.map(|supply| match supply {
            Supply::Position(position) => format!("supply {position}"),
            Supply::Default => "supply default".to_string(),
        }),
        answer
            .start
            .map(|timer| format!("start {}", timer_word(timer))),
    ];
    let actions: Vec<String> = actions.into_iter().flatten().collect();
    match actions.is_empty() {
        true => "none".to_string(),
        false => actions.join("; "),
    }
}

/// The line of a set-up that has this place.
pub fn place_line(place: &Place) -> String {
    let words = format!("place {} {}", place.share, place.limit);
    with_bytes(&words, &bytes_of(&place.offer))
}

/// Words, and bytes behind them if there are any.
pub fn with_bytes(words: &str, bytes: &[u8]) -> String {
    match bytes {
        [] => words.to_string(),
        _ => format!("{words} {}", hex::text_of(bytes)),
    }
}

pub fn memory_text(port: &Port) -> String {
    let channel = &port.channel;
    let pending = channel.pending.as_ref();
    let stored = channel.stored.map(|message_id| message_id.to_string());
    format!(
        "{:?}, counter {}, stored {}, pending {}, retries {}, newest {}, gone out {}, last {}, \
         accepted {}, contract {}, held {}, count {}, connected {}",
        port.state,
        channel.counter,
        stored.unwrap_or("none".to_string()),
        hex::text_or_dash(pending.map_or(&[], |pending| &pending.message)),
        pending.map_or(0, |pending| pending.retries),
        hex::text_of(&bytes_of(&port.newest)),
        yes_or_no(port.gone_out),
        hex::text_or_dash(&bytes_of(&port.last)),
        deal_text(&port.accepted),
        port.contract.as_ref().map_or("none".to_string(), deal_text),
        port.held,
        port.count,
        yes_or_no(port.connected),
    )
}

fn deal_text(deal: &Deal) -> String {
    let Deal {
        position,
        voltage,
        current,
        worth,
    } = deal;
    format!("{position} {voltage} {current} {worth}")
}

fn yes_or_no(yes: bool) -> &'static str {
    match yes {
        true => "yes",
        false => "no",
    }
}

fn timer_word(timer: Timer) -> &'static str {
    match timer {
        Timer::SenderResponse => "SenderResponse",
        Timer::SourceCapability => "SourceCapability",
        Timer::PsHardReset => "PSHardReset",
    }
}

fn held_word(held: Held) -> &'static str {
    match held {
        Held::Nothing => "nothing",
        Held::Accepted => "accepted",
        Held::InForce => "in force",
        Held::GivenUp => "given up",
    }
}
