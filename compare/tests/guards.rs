//! The guards themselves: of two buffers lent one after the other, one has a guard of bytes on a side and the other a page
//! that stops the program.
use compare::guarded::Guarded;
use std::env;
use std::os::unix::process::ExitStatusExt;
use std::process::{Command, ExitStatus};

const LEN: usize = 1000;

/// Where the second run of this program reads, as an offset from the first byte of a buffer.
const PLACE: &str = "MOGTRIZ_READ_AT";

/// Linux's number for a read of memory that is shut.
const SEGMENT_FAULT: i32 = 11;

/// Not a test of its own: it is run by the one below, in another process.
#[test]
#[ignore]
fn read_at_a_place() {
    let place: isize = env::var(PLACE).map_or(0, |text| text.parse().expect("a number"));
    for buffer in [Guarded::filled(LEN), Guarded::filled(LEN)] {
        let at = buffer.bytes().as_ptr().wrapping_offset(place);
        // SAFETY: a read of a guard is of memory that is there, and a read of a shut page ends the program.
        unsafe { at.read_volatile() };
    }
}

fn run_reading_at(place: isize) -> ExitStatus {
    let program = env::current_exe().expect("this program");
    let mut command = Command::new(program);
    command.args(["--exact", "--ignored", "read_at_a_place"]);
    let output = command.env(PLACE, place.to_string()).output();
    output.expect("a second run").status
}

#[test]
fn a_read_beside_a_buffer_ends_the_program() {
    for inside in [0, LEN as isize - 1] {
        assert!(run_reading_at(inside).success(), "at {inside}");
    }
    for beside in [-1, LEN as isize] {
        let signal = run_reading_at(beside).signal();
        assert_eq!(signal, Some(SEGMENT_FAULT), "at {beside}");
    }
}

#[test]
fn a_byte_written_to_a_buffer_shows() {
    for place in [0, LEN - 1] {
        let mut buffer = Guarded::holding(&[7; LEN]);
        assert!(buffer.untouched() && buffer.guards_untouched());
        buffer.bytes_mut()[place] = 8;
        assert!(!buffer.untouched() && buffer.guards_untouched());
        buffer.restore();
        assert!(buffer.untouched());
    }
}
