//! Encoding against a multiplication by the generator matrix, for every family, k and a choice of L.
use compare::guarded::Guarded;
use compare::library;
use compare::papers::{Code, MOST_LENGTH, every_code};
use compare::random::Random;

const MOST: usize = MOST_LENGTH;

// the small ones, those around the sizes of a chunk, one between, and the largest
const LENGTHS: [usize; 11] = [1, 2, 63, 64, 65, 127, 128, 129, 512, MOST - 1, MOST];

/// Encodes an object between guards and compares every node with the matrix.
fn compare_with_matrix(code: &Code, len: usize, object: &[u8]) {
    let lent = Guarded::holding(object);
    let mut nodes = Guarded::filled(code.n() * len);
    let answer = library::encode(code.family, code.k, len, lent.bytes(), nodes.bytes_mut());
    let place = format!("family {} k {} L {len}", code.family, code.k);
    assert_eq!(answer, 0, "{place}");
    let expected = code.multiply(len, object);
    let blocks = nodes.bytes().chunks(len).zip(expected.chunks(len));
    for (i, (got, want)) in blocks.enumerate() {
        assert!(got == want, "{place}: node {} differs", i + 1);
    }
    assert!(nodes.guards_untouched(), "{place}: the guards were written");
    assert!(lent.untouched(), "{place}: the object was written to");
}

/// Compares the objects that `make` gives for each code and L, and says how many there were.
fn compare_objects(kind: &str, mut make: impl FnMut(usize, usize) -> Vec<Vec<u8>>) {
    let mut count = 0;
    for code in every_code() {
        for len in LENGTHS {
            for object in make(code.k, len) {
                compare_with_matrix(&code, len, &object);
                count += 1;
            }
        }
    }
    println!("{count} {kind} objects encoded as the matrix says");
    assert!(count > 0);
}

#[test]
fn random_objects_are_encoded_by_the_matrix() {
    let mut random = Random::seeded();
    compare_objects("random", |k, len| {
        (0..3).map(|_| random.bytes(k * len)).collect()
    });
}

#[test]
fn zero_objects_are_encoded_by_the_matrix() {
    compare_objects("zero", |k, len| vec![vec![0; k * len]]);
}

#[test]
fn objects_of_a_single_bit_are_encoded_by_the_matrix() {
    let mut random = Random::seeded();
    compare_objects("single-bit", |k, len| {
        let bits = 8 * k * len;
        // the first and last bit of the object, of its first block and of its last, and some between
        let mut places = vec![0, 8 * len - 1, bits - 8 * len, bits - 1];
        places.extend((0..4).map(|_| random.below(bits)));
        let object = |place| single_bit(k * len, place);
        places.into_iter().map(object).collect()
    });
}

fn single_bit(len: usize, place: usize) -> Vec<u8> {
    let mut object = vec![0; len];
    object[place / 8] = 1 << (place % 8);
    object
}
