//! How many calls of each operation got each number, printed when the fuzzer ends.
use compare::tally::NUMBERS;
use std::ffi::c_int;
use std::sync::Once;
use std::sync::atomic::{AtomicUsize, Ordering::Relaxed};

#[derive(Clone, Copy)]
pub enum Operation {
    Interleave,
    Deinterleave,
    Start,
    Check,
    Read,
    Body,
    FromGraded,
    ToGraded,
    Write,
    LiveNodes,
    ReadOut,
    Pairs,
    Step,
    Plan,
    Run,
    CheckPlan,
    CarryPlan,
    /// Of these, the calls that are served and tell of a bad step.
    BadStep,
}

const NAMES: [&str; 18] = [
    "interleave",
    "deinterleave",
    "start",
    "check",
    "read",
    "body",
    "from graded",
    "to graded",
    "write",
    "live nodes",
    "read out",
    "pairs",
    "step",
    "plan",
    "run",
    "check plan",
    "carry plan",
    "bad step",
];

static SEEN: [[AtomicUsize; NUMBERS]; NAMES.len()] =
    [const { [const { AtomicUsize::new(0) }; NUMBERS] }; NAMES.len()];

unsafe extern "C" {
    safe fn atexit(call: extern "C" fn()) -> c_int;
}

/// Counts a call, and gives its number.
pub fn count(operation: Operation, number: u8) -> u8 {
    static ONCE: Once = Once::new();
    ONCE.call_once(|| assert_eq!(atexit(print), 0));
    SEEN[operation as usize][usize::from(number)].fetch_add(1, Relaxed);
    number
}

extern "C" fn print() {
    for (name, counts) in NAMES.iter().zip(&SEEN) {
        let numbers = counts.iter().map(|count| count.load(Relaxed)).enumerate();
        let seen = numbers.filter(|(_, count)| *count > 0);
        let cells: Vec<String> = seen
            .map(|(number, count)| format!("{number}: {count}"))
            .collect();
        println!("{name:<12} {}", cells.join("  "));
    }
}
