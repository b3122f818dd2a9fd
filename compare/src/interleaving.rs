//! Interleaving from document 02, K3, alone: an object's bytes dealt out to k blocks by turns, and put back.
use crate::papers::checked_node_count;

/// A call of either direction: the family, k, L and the two buffers; it gives its number.
pub type Interleaving = fn(usize, usize, usize, &[u8], &mut [u8]) -> u8;

/// Byte t of the object, from 0, goes to block (t mod k) + 1 at place t div k.
pub fn interleave(family: usize, k: usize, len: usize, object: &[u8], out: &mut [u8]) -> u8 {
    let number = answer(family, k, len, [object.len(), out.len()]);
    if number == 0 {
        let mut blocks = vec![vec![0; len]; k];
        for (t, &byte) in object.iter().enumerate() {
            blocks[t % k][t / k] = byte;
        }
        out.copy_from_slice(&blocks.concat());
    }
    number
}

/// The inverse: byte t comes from place t div k of block (t mod k) + 1.
pub fn deinterleave(family: usize, k: usize, len: usize, object: &[u8], out: &mut [u8]) -> u8 {
    let number = answer(family, k, len, [object.len(), out.len()]);
    if number == 0 {
        let blocks: Vec<&[u8]> = object.chunks(len).collect();
        for (t, byte) in out.iter_mut().enumerate() {
            *byte = blocks[t % k][t / k];
        }
    }
    number
}

/// The checks are made in the order 1, 2, 3, 6, and 0 is for a call that meets none.
fn answer(family: usize, k: usize, len: usize, lengths: [usize; 2]) -> u8 {
    match checked_node_count(family, k, len) {
        Err(refusal) => refusal,
        Ok(_) if lengths == [k * len; 2] => 0,
        Ok(_) => 6,
    }
}
