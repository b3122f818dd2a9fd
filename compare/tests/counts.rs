//! A box that counts n nodes, n + 1 or 255, in every family and k, of the right length and of wrong ones: from 8 bytes on it gives 9
//! above n, and at n, where the length is wrong, 7 (document 02, K12).
use compare::boxes::{HEAD, box_len, head};
use compare::calls;
use compare::papers::{Code, every_code};
use compare::random::Random;

const LENS: [usize; 3] = [1, 5, 64];

/// n, n + 1 and 255, as far as a byte has room for them.
fn counts(n: usize) -> Vec<usize> {
    let mut counts = vec![n, n + 1, 255];
    counts.retain(|&count| count <= 255);
    counts.dedup();
    counts
}

/// Lengths that are wrong: the head alone and a byte more, the head and the numbers, one byte off, those for a node more or fewer, and
/// two that are right once cut to 8 or 16 bits.
fn wrong_lengths(held: usize, len: usize) -> [usize; 9] {
    let right = box_len(held, len);
    [
        HEAD,
        HEAD + 1,
        HEAD + held,
        right - 1,
        right + 1,
        box_len(held - 1, len),
        box_len(held + 1, len),
        right + (1 << 8),
        right + (1 << 16),
    ]
}

/// A code with an L.
struct Case<'a> {
    code: &'a Code,
    len: usize,
}

impl Case<'_> {
    /// A box that counts so many nodes and names them, cut or filled to a length.
    fn page(&self, held: usize, length: usize, random: &mut Random) -> Vec<u8> {
        let mut bytes = head(self.code.family, self.code.k, self.len, held);
        bytes.extend(1..=held as u8);
        bytes.truncate(length);
        let more = random.bytes(length - bytes.len());
        bytes.extend(more);
        bytes
    }

    /// What check, read and the body of node 1 give, all of which have to give this number.
    fn hold(&self, bytes: &[u8], number: u8) {
        let (family, k, len) = (self.code.family, self.code.k, self.len);
        let nodes_len = self.code.n() * len;
        let numbers = [
            calls::check(bytes),
            calls::read(bytes, nodes_len),
            calls::body(bytes, 1),
        ];
        let (held, length) = (bytes[4], bytes.len());
        let place = format!("family {family} k {k} L {len} E {held}, {length} bytes");
        assert_eq!(numbers, [number; 3], "{place}");
    }

    /// A box of this length gives the number, and with a byte of 5 to 7 that is not zero 8.
    fn hold_at(&self, held: usize, length: usize, number: u8, random: &mut Random) {
        let mut bytes = self.page(held, length, random);
        self.hold(&bytes, number);
        bytes[5 + length % 3] = 1;
        self.hold(&bytes, 8);
    }
}

#[test]
fn above_n_is_9_from_8_bytes_on_and_a_wrong_length_at_n_is_7() {
    let random = &mut Random::seeded();
    for code in &every_code() {
        for len in LENS {
            let case = Case { code, len };
            for held in counts(code.n()) {
                let above = held > code.n();
                let (right, wrong) = if above { (9, 9) } else { (0, 7) };
                case.hold_at(held, box_len(held, len), right, random);
                for length in wrong_lengths(held, len) {
                    case.hold_at(held, length, wrong, random);
                }
                // under 8 bytes it is 7, whatever E is
                for length in 5..HEAD {
                    case.hold(&case.page(held, length, random), 7);
                }
            }
        }
    }
}
