//! Objects interleaved before they are encoded, and deinterleaved after they are read out.
use crate::{Refusal, raw};

/// Interleaves an object, before it is encoded.
///
/// Byte t of the object, from 0, goes to block (t mod k) + 1 at place t div k, which is byte (t mod k) × L + t div k of `out`.
/// Both buffers are exactly k × L bytes ([`object_len`](crate::object_len)), and every byte of `out` is written. So `out` is an
/// object for [`encode`](crate::encode), and damage to one data block falls on every k-th byte of the object that was handed in and
/// not on L bytes in a row.
///
/// A box does not tell whether its object was interleaved: the caller has to know, and to [`deinterleave`] what it reads out.
///
/// # Errors
///
/// The first of these that is met; nothing is written then.
///
/// - 1, [`Refusal::FamilyUnknown`]
/// - 2, [`Refusal::KOutOfRange`]
/// - 3, [`Refusal::LenOutOfRange`]
/// - 6, [`Refusal::BufferLength`]: either buffer is not k × L bytes
///
/// ```
/// let mut out = [0; 6];
/// mogtriz::interleave(mogtriz::SIMPLEX, 3, 2, b"abcdef", &mut out)?;
/// assert_eq!(out, *b"adbecf");
///
/// let refused = mogtriz::interleave(mogtriz::SIMPLEX, 3, 2, b"abcde", &mut out);
/// assert_eq!(refused, Err(mogtriz::Refusal::BufferLength));
/// # Ok::<(), mogtriz::Refusal>(())
/// ```
pub fn interleave(
    family: usize,
    k: usize,
    len: usize,
    object: &[u8],
    out: &mut [u8],
) -> Result<(), Refusal> {
    Refusal::unless_served(raw::interleave(family, k, len, object, out))
}

/// Deinterleaves an object, the reverse of [`interleave`], after it is read out.
///
/// Byte (t mod k) × L + t div k of the object becomes byte t of `out`. Both buffers are exactly k × L bytes
/// ([`object_len`](crate::object_len)), and every byte of `out` is written. An object that is interleaved and then deinterleaved,
/// or the other way round, has the same bytes. One that was not interleaved is accepted too, and where L is above 1 it comes out
/// with bytes in wrong places: a box does not tell, and the caller has to know.
///
/// # Errors
///
/// The first of these that is met; nothing is written then.
///
/// - 1, [`Refusal::FamilyUnknown`]
/// - 2, [`Refusal::KOutOfRange`]
/// - 3, [`Refusal::LenOutOfRange`]
/// - 6, [`Refusal::BufferLength`]: either buffer is not k × L bytes
///
/// ```
/// let mut out = [0; 6];
/// mogtriz::deinterleave(mogtriz::SIMPLEX, 3, 2, b"adbecf", &mut out)?;
/// assert_eq!(out, *b"abcdef");
///
/// let refused = mogtriz::deinterleave(mogtriz::SIMPLEX, 3, 2, b"adbecf", &mut out[1..]);
/// assert_eq!(refused, Err(mogtriz::Refusal::BufferLength));
/// # Ok::<(), mogtriz::Refusal>(())
/// ```
pub fn deinterleave(
    family: usize,
    k: usize,
    len: usize,
    object: &[u8],
    out: &mut [u8],
) -> Result<(), Refusal> {
    Refusal::unless_served(raw::deinterleave(family, k, len, object, out))
}
