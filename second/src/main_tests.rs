//! That the end of a reader is no fault, and that any other is still told.

use super::*;

/// Fails as a pipe or a disk does.
struct Failing(ErrorKind);

impl Write for Failing {
    fn write(&mut self, _: &[u8]) -> io::Result<usize> {
        Err(self.0.into())
    }

    fn flush(&mut self) -> io::Result<()> {
        Err(self.0.into())
    }
}

#[test]
fn a_random_night_has_1_to_32_ports() {
    for (ports, written) in [("0", false), ("1", true), ("32", true), ("33", false)] {
        let mut night = Vec::new();
        run(&["random-night", "1", "10", ports], &mut night).unwrap();
        assert_eq!(!night.is_empty(), written, "{ports}");
    }
}

#[test]
fn a_closed_pipe_is_quiet_and_a_full_disk_is_not() {
    let commands: [&[&str]; 4] = [
        &["packet-cases"],
        &["steps-cases"],
        &["damaged-cases", "5"],
        &["random-night", "1", "100", "32"],
    ];
    for words in commands {
        let end = |kind| closed_pipe_is_quiet(run(words, Failing(kind)));
        assert!(end(ErrorKind::BrokenPipe).is_ok(), "{words:?}");
        assert!(end(ErrorKind::StorageFull).is_err(), "{words:?}");
    }
}
