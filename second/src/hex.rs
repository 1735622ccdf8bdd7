//! Bytes as text, as docs/PACKETS.md and docs/STEPS.md want them: two hexadecimal
//! digits each.

/// Large digits, one blank between two bytes; no bytes are the empty text.
pub fn text_of(bytes: &[u8]) -> String {
    let pairs: Vec<String> = bytes.iter().map(|byte| format!("{byte:02X}")).collect();
    pairs.join(" ")
}

/// As above, but no bytes are a dash.
pub fn text_or_dash(bytes: &[u8]) -> String {
    if bytes.is_empty() {
        "-".to_string()
    } else {
        text_of(bytes)
    }
}

/// None where a character has no place or one digit stands where two belong.
pub fn bytes_of(text: &[u8]) -> Option<Vec<u8>> {
    let mut bytes = Vec::new();
    let mut rest = text;
    while let Some((&first, after_first)) = rest.split_first() {
        if is_blank(first) {
            rest = after_first;
            continue;
        }
        let (&second, after_second) = after_first.split_first()?;
        bytes.push(digit(first)? << 4 | digit(second)?);
        rest = after_second;
    }
    Some(bytes)
}

/// A tab is not among them: the page names blanks and the carriage return only.
pub fn is_blank(character: u8) -> bool {
    matches!(character, b' ' | b'\r')
}

/// One byte as docs/STEPS.md wants it: these two digits and nothing else.
pub fn byte_of(word: &[u8]) -> Option<u8> {
    match *word {
        [first, second] => Some(digit(first)? << 4 | digit(second)?),
        _ => None,
    }
}

fn digit(character: u8) -> Option<u8> {
    let value = char::from(character).to_digit(16)?;
    Some(value as u8)
}

#[cfg(test)]
mod tests {
    use super::*;

    #[test]
    fn text_has_large_digits_and_single_blanks() {
        assert_eq!(text_of(&[]), "");
        assert_eq!(text_of(&[0x0a, 0xff, 0x00]), "0A FF 00");
        assert_eq!(text_or_dash(&[]), "-");
        assert_eq!(text_or_dash(&[0x0a, 0xff]), "0A FF");
    }

    #[test]
    fn one_byte_has_two_digits() {
        assert_eq!(byte_of(b"0a"), Some(0x0a));
        assert_eq!(byte_of(b"fF"), Some(0xff));
        for bad in ["", "0", "0a0", " 0", "0 ", "+1", "g0", "0g"] {
            assert_eq!(byte_of(bad.as_bytes()), None, "{bad:?}");
        }
    }

    #[test]
    fn blanks_stand_between_bytes_only() {
        assert_eq!(
            bytes_of(b" \r8212  2c\rB1 "),
            Some(vec![0x82, 0x12, 0x2c, 0xb1])
        );
        assert_eq!(bytes_of(b" "), Some(vec![]));
        for bad in [
            "8",
            "82 1",
            "8 2",
            "821",
            "8\r2",
            "8g",
            "82\t10",
            "82,10",
            "\u{ff18}2",
        ] {
            assert_eq!(bytes_of(bad.as_bytes()), None, "{bad:?}");
        }
    }
}
