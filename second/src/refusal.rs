//! The paper's "Refusal numbers" in the words of docs/PACKETS.md (1 to 6) and
//! docs/STEPS.md (7 to 10).

pub fn text_of(number: u8) -> String {
    let words = match number {
        1 => "packet under 2 bytes",
        2 => "packet over 30 bytes",
        3 => "length is not 2 + 4 x objects, or extended under 4 bytes",
        4 => "extended with Chunked clear, or written without object",
        5 => "too little room from the place on, or place past the end",
        6 => "a field or the object bytes out of range",
        7 => "bad offer",
        8 => "the event is not awaited in this state",
        9 => "port number not in the rack",
        10 => "bad set-up",
        _ => unreachable!("nothing here is refused with {number}"),
    };
    format!("refused {number}, {words}")
}
