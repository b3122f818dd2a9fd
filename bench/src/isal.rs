//! ISA-L's block XOR in safe Rust.
use std::arch::{asm, is_x86_feature_detected};
use std::ffi::{c_int, c_void};

unsafe extern "C" {
    fn xor_gen(vects: c_int, len: c_int, array: *mut *mut c_void) -> c_int;
}

/// dst becomes the XOR of a and b, by xor_gen, which wants all three aligned to 32 bytes.
pub fn xor(dst: &mut [u8], a: &[u8], b: &[u8]) {
    assert!(a.len() == dst.len() && b.len() == dst.len());
    let len = c_int::try_from(dst.len()).expect("a block's length is small");
    let mut array = [
        a.as_ptr().cast_mut().cast(),
        b.as_ptr().cast_mut().cast(),
        dst.as_mut_ptr().cast(),
    ];
    // SAFETY: all three are slices of `len` bytes, and only the last is written.
    let failed = unsafe { xor_gen(3, len, array.as_mut_ptr()) };
    assert_eq!(failed, 0);
}

/// Clears the upper halves of the vector registers, which xor_gen leaves in use: what runs after it would
/// be slower for them.
pub fn clear_registers() {
    if is_x86_feature_detected!("avx") {
        // SAFETY: the instruction is there, and no value of Rust's is in the halves that it clears.
        unsafe { asm!("vzeroupper", options(nomem, nostack, preserves_flags)) };
    }
}
