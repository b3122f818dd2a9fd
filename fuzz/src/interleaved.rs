//! An object of any length with any family, k and L: interleaved and deinterleaved, into a destination of any length; where that is
//! served the object comes back.
use crate::input::{Input, MOST_BYTES};
use crate::seen::Operation::{Deinterleave, Interleave};
use crate::seen::count;
use compare::interleaving::Interleaving;
use compare::samples::Shape;
use compare::{calls, library};

pub fn compare(input: &mut Input) {
    let [family, k, len] = [(); 3].map(|()| input.number());
    let shape = Shape { family, k, len };
    // near k × L, whatever is wrong with the numbers
    let exact = k.saturating_mul(len).min(MOST_BYTES);
    let given = [(); 2].map(|()| input.length_near(exact));
    let fitting = [exact, exact];
    for lengths in [given, fitting, [exact + 1, exact], [exact, exact + 1]] {
        with_lengths(shape, lengths, input.0);
    }
    // the other numbers are the first again once cut to 8, 16 or 32 bits
    for raise in [1 << 8, 1 << 16, 1 << 32] {
        let [family, k, len] = [family, k, len].map(|number| number.wrapping_add(raise));
        with_lengths(Shape { family, ..shape }, fitting, input.0);
        with_lengths(Shape { k, ..shape }, fitting, input.0);
        with_lengths(Shape { len, ..shape }, fitting, input.0);
    }
}

/// Both calls, with an object and a destination of these lengths.
fn with_lengths(shape: Shape, [object_len, out_len]: [usize; 2], bytes: &[u8]) {
    let object = &object_from(bytes, object_len);
    if count(Interleave, calls::interleave(shape, object, out_len)) == 0 {
        there_and_back(shape, object, [library::interleave, library::deinterleave]);
    }
    if count(Deinterleave, calls::deinterleave(shape, object, out_len)) == 0 {
        there_and_back(shape, object, [library::deinterleave, library::interleave]);
    }
}

/// The bytes again and again, each time one higher, so that few of an object's neighbours are alike.
fn object_from(bytes: &[u8], length: usize) -> Vec<u8> {
    let bytes = if bytes.is_empty() { &[0] } else { bytes };
    let byte = |place: usize| bytes[place % bytes.len()].wrapping_add((place / bytes.len()) as u8);
    (0..length).map(byte).collect()
}

fn there_and_back(shape: Shape, object: &[u8], calls: [Interleaving; 2]) {
    let Shape { family, k, len } = shape;
    let [there, back] = calls;
    let [mut other, mut again] = [(); 2].map(|()| vec![0; object.len()]);
    assert_eq!(there(family, k, len, object, &mut other), 0, "{shape:?}");
    assert_eq!(back(family, k, len, &other, &mut again), 0, "{shape:?}");
    assert_eq!(again, object, "{shape:?}");
}
