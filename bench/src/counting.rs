//! Instructions instead of times: callgrind counts them, and they come out the same on a busy machine.
use crate::callgrind;
use std::io;

/// The word with which this program calls each way once.
pub const ONCE: &str = "--once";

/// How many instructions each way takes, in the order of the calls that the program makes with `ONCE`.
pub fn counts() -> io::Result<Vec<f64>> {
    let options = [
        "--toggle-collect=bench::timing::count_this_call",
        "--dump-after=bench::timing::count_this_call",
    ];
    let dumps = callgrind::dumps(&options, ONCE)?;
    Ok(dumps.iter().map(|dump| dump.total("Ir") as f64).collect())
}
