//! The fuzzer's inputs made into calls of the library, each held against the papers' model by `compare::calls`. The model
//! is compiled with counters that the fuzzer follows, so that it looks for inputs that take new ways through the papers'
//! rules.
mod boxed;
mod call_list;
mod counts;
mod handed_plan;
mod input;
mod interleaved;
mod seen;

use input::Input;
use std::ffi::c_int;

/// # Safety
/// The fuzzer lends `size` bytes.
#[unsafe(no_mangle)]
pub unsafe extern "C" fn LLVMFuzzerTestOneInput(data: *const u8, size: usize) -> c_int {
    // SAFETY: as the fuzzer says.
    let bytes = unsafe { std::slice::from_raw_parts(data, size) };
    let mut input = Input(bytes);
    match input.byte() % 4 {
        0 => boxed::compare(&mut input),
        1 => call_list::compare(&mut input),
        2 => interleaved::compare(&mut input),
        _ => call_list::compare_counted(&mut input),
    }
    0
}
