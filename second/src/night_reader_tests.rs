//! A night in pieces of every size, cut at every byte, and with fields that are
//! longer than a piece.

use super::*;
use crate::night_lines::night_of;
use crate::night_pieces::story;
use crate::night_text::print_text;

/// Hands out at most so many bytes at a time, and is interrupted before each piece.
struct Pieces<'a> {
    bytes: &'a [u8],
    size: usize,
    interrupted: bool,
}

impl Read for Pieces<'_> {
    fn read(&mut self, room: &mut [u8]) -> io::Result<usize> {
        self.interrupted = !self.interrupted;
        if self.interrupted {
            return Err(ErrorKind::Interrupted.into());
        }
        let count = self.bytes.len().min(self.size).min(room.len());
        room[..count].copy_from_slice(&self.bytes[..count]);
        self.bytes = &self.bytes[count..];
        Ok(count)
    }
}

/// The night in words, with the end if it is cut or damaged.
fn words_of(night: &[u8], size: usize) -> String {
    let mut text = Vec::new();
    let pieces = Pieces {
        bytes: night,
        size,
        interrupted: false,
    };
    print_text(pieces, &mut text).unwrap();
    String::from_utf8(text).unwrap()
}

fn end_of(night: &[u8]) -> End {
    let mut reader = NightReader::new(night);
    loop {
        if let Err(end) = reader.next().unwrap() {
            // once ended, it stays so
            assert_eq!(reader.next().unwrap(), Err(end));
            return end;
        }
    }
}

/// A field ends at each of these places.
fn ends_of_fields(night: &[u8]) -> Vec<usize> {
    let mut places = vec![0];
    let mut place = 0;
    while place < night.len() {
        place += 3 + usize::from(night[place + 1]) + 256 * usize::from(night[place + 2]);
        places.push(place);
    }
    places
}

#[test]
fn the_example_of_the_page() {
    let night = [
        0x10, 0x1F, 0x00, 0x11, 0x15, 0x00, 0x13, 0x04, 0x00, 0x30, 0x75, 0x00, 0x00, 0x14, 0x04,
        0x00, 0x30, 0x75, 0x00, 0x00, 0x15, 0x04, 0x00, 0x2C, 0x91, 0x01, 0x00, 0x12, 0x04, 0x00,
        0x30, 0x75, 0x00, 0x00, 0x20, 0x01, 0x00, 0x01, 0x22, 0x03, 0x00, 0x01, 0x81, 0x00,
    ];
    assert_eq!(night.len(), 44);
    let text = "supply 30000\nplace 30000 30000 2C 91 01 00\nsetup\n1 attach\n1 packet 81 00\n";
    assert_eq!(words_of(&night, 1000), text);
    assert_eq!(night_of(text), night);
    assert_eq!(end_of(&night), End::Whole);
}

#[test]
fn cut_at_each_byte() {
    let story = story();
    let ends = ends_of_fields(&story);
    let whole = words_of(&story, 1000);
    let lines: Vec<&str> = whole.lines().collect();
    for length in 0..=story.len() {
        let night = &story[..length];
        let fields = ends.iter().filter(|&&end| end <= length).count() - 1;
        let place = ends[fields];
        let expected = match place == length {
            true => End::Whole,
            false => End::Cut(place as u64),
        };
        assert_eq!(end_of(night), expected);
        // the set-up has three lines
        let told = if fields == 0 { 0 } else { fields + 2 };
        let words = words_of(night, 1000);
        let words: Vec<&str> = words.lines().collect();
        assert_eq!(words[..told], lines[..told], "{length}");
        assert_eq!(words.len() - told, usize::from(place != length));
    }
}

#[test]
fn pieces_of_any_size_say_the_same() {
    let mut damaged = [story(), story(), story()].concat();
    damaged[2 * story().len()] = 99;
    for night in [&story()[..], &damaged, &damaged[..200]] {
        let whole = words_of(night, usize::MAX);
        for size in (1..=night.len()).step_by(3).chain([2, 3]) {
            assert_eq!(words_of(night, size), whole, "{size}");
        }
    }
}

/// With fields on both sides, so that heads, lengths and values are split.
#[test]
fn fields_as_long_as_a_piece_and_longer() {
    for bytes in [65_534, 65_533, 65_532, 65_531, 65_400] {
        let long = format!(
            "{}9 packet{}\n",
            "1 attach\n".repeat(7),
            " 5A".repeat(bytes)
        );
        let text = format!("{long}1 offer 2C 91 01 00\n{long}255 detach\n");
        let night = night_of(&text);
        for size in [usize::MAX, PIECE - 1, 40_000] {
            assert_eq!(words_of(&night, size), text);
        }
        let cut = words_of(&night[..night.len() - 1], usize::MAX);
        let place = night.len() - 4;
        let expected = format!("# the night is cut at byte {place}\n");
        assert_eq!(cut, text.replace("255 detach\n", &expected));
    }
}

#[test]
fn a_field_that_runs_past_the_end_is_cut_whatever_its_tag() {
    for tag in 0..=255 {
        for rest in [&[1, 0][..], &[2, 0, 1], &[255, 255, 1, 2, 3], &[0], &[]] {
            let night = [&story()[..], &[tag], rest].concat();
            assert_eq!(end_of(&night), End::Cut(story().len() as u64));
        }
    }
}

#[test]
fn the_end_in_words() {
    let words = |end: End| end.words().unwrap();
    assert_eq!(End::Whole.words(), None);
    assert_eq!(words(End::Cut(1234)), "the night is cut at byte 1234");
    let damaged = |damage| words(End::Damaged(1234, damage));
    let start = "the night is damaged at byte 1234";
    assert_eq!(
        damaged(Damage::UnknownTag),
        format!("{start}: an unknown tag")
    );
    assert_eq!(
        damaged(Damage::WrongLength),
        format!("{start}: a wrong length")
    );
    assert_eq!(
        damaged(Damage::WrongLayout),
        format!("{start}: a set-up that is not laid out as it must be")
    );
}

#[test]
fn a_failure_of_the_input_is_no_end_of_the_night() {
    struct Broken;
    impl Read for Broken {
        fn read(&mut self, _: &mut [u8]) -> io::Result<usize> {
            Err(io::Error::other("no more paper"))
        }
    }
    let error = NightReader::new(Broken).next().unwrap_err();
    assert_eq!(error.to_string(), "no more paper");
}
