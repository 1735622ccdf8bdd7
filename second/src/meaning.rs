//! Kind and meaning of a message: the paper's "The packet" (extended, control or
//! data) and "Meaning of each type".

#[derive(Clone, Copy, Debug, PartialEq, Eq)]
pub enum Kind {
    Control,
    Data,
    Extended,
}

#[derive(Clone, Copy, Debug, PartialEq, Eq)]
pub enum Meaning {
    GoodCrc,
    Reply,
    GetSourceCap,
    SoftReset,
    Quiet,
    Request,
    Unsupported,
}

/// Extended set: extended, whatever the objects; else no objects: control; else data.
pub fn kind(extended: bool, objects: &[u8]) -> Kind {
    if extended {
        Kind::Extended
    } else if objects.is_empty() {
        Kind::Control
    } else {
        Kind::Data
    }
}

pub fn meaning(kind: Kind, message_type: u8) -> Meaning {
    match (kind, message_type) {
        (Kind::Control, 1) => Meaning::GoodCrc,
        // Accept, Reject, PS_RDY, Wait
        (Kind::Control, 3 | 4 | 6 | 12) => Meaning::Reply,
        (Kind::Control, 7) => Meaning::GetSourceCap,
        (Kind::Control, 13) => Meaning::SoftReset,
        // Not_Supported
        (Kind::Control, 16) => Meaning::Quiet,
        (Kind::Data, 2) => Meaning::Request,
        // BIST
        (Kind::Data, 3) => Meaning::Quiet,
        _ => Meaning::Unsupported,
    }
}

#[cfg(test)]
mod tests {
    use super::*;

    #[test]
    fn extended_goes_before_the_number_of_objects() {
        assert_eq!(kind(false, &[]), Kind::Control);
        assert_eq!(kind(false, &[0; 4]), Kind::Data);
        assert_eq!(kind(true, &[]), Kind::Extended);
        assert_eq!(kind(true, &[0; 4]), Kind::Extended);
    }

    /// One letter for each type from 0 to 31, copied out of the paper by hand.
    #[test]
    fn all_96_meanings() {
        let rows = [
            (Kind::Control, ".G.rr.rC....rS..q..............."),
            (Kind::Data, "..Rq............................"),
            (Kind::Extended, "................................"),
        ];
        for (kind, row) in rows {
            assert_eq!(row.len(), 32);
            for (message_type, letter) in row.bytes().enumerate() {
                let found = match meaning(kind, message_type as u8) {
                    Meaning::GoodCrc => b'G',
                    Meaning::Reply => b'r',
                    Meaning::GetSourceCap => b'C',
                    Meaning::SoftReset => b'S',
                    Meaning::Quiet => b'q',
                    Meaning::Request => b'R',
                    Meaning::Unsupported => b'.',
                };
                assert_eq!(found, letter, "{kind:?} {message_type}");
            }
        }
    }
}
