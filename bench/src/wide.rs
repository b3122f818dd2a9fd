//! Interleaving in safe Rust by many bytes at a time, with no instruction named. Tiles of 8 blocks and 64 places are transposed in words
//! of 8 bytes, by shifts and masks that the compiler makes vectors of, as it does of a loop over pairs for k 2. Where no tile fits it is
//! done as the plain loop does it.
use crate::rivals;

/// How many words a tile has of each block.
const WORDS: usize = 8;

/// How many places a tile has.
const PLACES: usize = 8 * WORDS;

/// Lines of words. The words at one place of all lines are 8 by 8 bytes.
type Tile = [[u64; WORDS]; 8];

/// Exchanges the high part of each word with the low part of the word `apart` lines on.
#[inline(always)]
fn exchange(tile: &mut Tile, apart: usize, mask: u64) {
    let shift = 8 * apart;
    for line in 0..8 {
        if line & apart == 0 {
            let (before, from_there) = tile.split_at_mut(line + apart);
            for (one, other) in before[line].iter_mut().zip(&mut from_there[0]) {
                let changed = ((*one >> shift) ^ *other) & mask;
                *one ^= changed << shift;
                *other ^= changed;
            }
        }
    }
}

/// Each 8 by 8 bytes of the tile transposed.
fn transpose(tile: &mut Tile) {
    exchange(tile, 4, 0x0000_0000_ffff_ffff);
    exchange(tile, 2, 0x0000_ffff_0000_ffff);
    exchange(tile, 1, 0x00ff_00ff_00ff_00ff);
}

/// Where tiles of this width begin; the last one overlaps the one before it if the length is no multiple.
fn starts(length: usize, width: usize) -> impl Iterator<Item = usize> {
    (0..length)
        .step_by(width)
        .map(move |start| start.min(length - width))
}

#[inline(never)]
pub fn interleave(k: usize, len: usize, object: &[u8], out: &mut [u8]) {
    if k == 2 {
        return interleave_pairs(len, object, out);
    }
    if k < 8 || len < PLACES {
        return rivals::interleave(k, len, object, out);
    }
    let mut tile = [[0; WORDS]; 8];
    for place in starts(len, PLACES) {
        let rows = &object[place * k..(place + PLACES) * k];
        for first in starts(k, 8) {
            for (i, row) in rows.chunks_exact(k).enumerate() {
                tile[i % 8][i / 8] = word(&row[first..first + 8]);
            }
            transpose(&mut tile);
            let blocks = out[first * len..].chunks_exact_mut(len);
            for (block, line) in blocks.zip(&tile) {
                let words = block[place..place + PLACES].chunks_exact_mut(8);
                words.zip(line).for_each(|(to, from)| put(to, *from));
            }
        }
    }
}

#[inline(never)]
pub fn deinterleave(k: usize, len: usize, object: &[u8], out: &mut [u8]) {
    if k == 2 {
        return deinterleave_pairs(len, object, out);
    }
    if k < 8 || len < PLACES {
        return rivals::deinterleave(k, len, object, out);
    }
    let mut tile = [[0; WORDS]; 8];
    for place in starts(len, PLACES) {
        let rows = &mut out[place * k..(place + PLACES) * k];
        for first in starts(k, 8) {
            let blocks = object[first * len..].chunks_exact(len);
            for (block, line) in blocks.zip(&mut tile) {
                let words = block[place..place + PLACES].chunks_exact(8);
                words.zip(line).for_each(|(from, to)| *to = word(from));
            }
            transpose(&mut tile);
            for (i, row) in rows.chunks_exact_mut(k).enumerate() {
                put(&mut row[first..first + 8], tile[i % 8][i / 8]);
            }
        }
    }
}

fn word(bytes: &[u8]) -> u64 {
    u64::from_le_bytes(bytes.try_into().expect("8 bytes"))
}

fn put(bytes: &mut [u8], word: u64) {
    bytes.copy_from_slice(&word.to_le_bytes());
}

fn interleave_pairs(len: usize, object: &[u8], out: &mut [u8]) {
    // the first bytes of all pairs and then the second ones, as the compiler makes no vectors of both at once
    for (block, shift) in out.chunks_exact_mut(len).zip([0, 8]) {
        for (byte, pair) in block.iter_mut().zip(object.chunks_exact(2)) {
            *byte = (u16::from_le_bytes([pair[0], pair[1]]) >> shift) as u8;
        }
    }
}

fn deinterleave_pairs(len: usize, object: &[u8], out: &mut [u8]) {
    let (one, other) = object.split_at(len);
    let places = one.iter().zip(other);
    for ((&first, &second), pair) in places.zip(out.chunks_exact_mut(2)) {
        pair.copy_from_slice(&[first, second]);
    }
}
