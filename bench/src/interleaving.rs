//! Interleaving and its reverse, timed against a plain loop in Rust, Rust that moves many bytes at a time, and a copy of as many.
use crate::rivals::{self, Family};
use crate::table::{Line, Table};
use crate::timing::{Aligned, Meter, Way};
use crate::wide;
use compare::interleaving::{self, Interleaving};
use compare::random::Random;
use mogtriz::Refusal;

const WAYS: [&str; 4] = ["Mogtriz", "Rust", "Rust wide", "memcpy"];

/// The most that the library may take of the time of the plain loop, or none where that is recorded, as the others are.
type Goal = Option<f64>;
const GOAL: Goal = Some(1.1);

const CASES: [(Family, usize, usize, Goal); 8] = [
    (Family::Simplex, 2, 64, GOAL),
    (Family::Simplex, 2, 1536, GOAL),
    (Family::Simplex, 3, 1536, None),
    (Family::Simplex, 5, 1536, None),
    (Family::Simplex, 8, 64, GOAL),
    (Family::Simplex, 8, 1536, GOAL),
    (Family::WeightTwo, 22, 64, GOAL),
    (Family::WeightTwo, 22, 1536, GOAL),
];

type Call = fn(usize, usize, usize, &[u8], &mut [u8]) -> Result<(), Refusal>;

/// One of the two: the library's call, the model, and the rivals, which take k, L and the buffers.
struct Direction {
    title: &'static str,
    call: Call,
    model: Interleaving,
    rust: fn(usize, usize, &[u8], &mut [u8]),
    wide: fn(usize, usize, &[u8], &mut [u8]),
}

const INTERLEAVE: Direction = Direction {
    title: "interleave",
    call: mogtriz::interleave,
    model: interleaving::interleave,
    rust: rivals::interleave,
    wide: wide::interleave,
};

const DEINTERLEAVE: Direction = Direction {
    title: "deinterleave",
    call: mogtriz::deinterleave,
    model: interleaving::deinterleave,
    rust: rivals::deinterleave,
    wide: wide::deinterleave,
};

impl Direction {
    fn line(
        &self,
        (family, k, len, goal): (Family, usize, usize, Goal),
        random: &mut Random,
        meter: &mut Meter,
    ) -> Line {
        let number = family as usize;
        let object = Aligned::holding(&random.bytes(k * len));
        let mut expected = Aligned::unfilled(k * len);
        (self.model)(number, k, len, object.bytes(), expected.bytes_mut());
        let mogtriz = |object: &[u8], out: &mut [u8]| {
            (self.call)(number, k, len, object, out).expect("a sound call");
        };
        let rust = |object: &[u8], out: &mut [u8]| (self.rust)(k, len, object, out);
        let wide = |object: &[u8], out: &mut [u8]| (self.wide)(k, len, object, out);
        let memcpy = |_: &[u8], out: &mut [u8]| out.copy_from_slice(expected.bytes());
        let ways: [Way; 4] = [&mogtriz, &rust, &wide, &memcpy];
        let mut out = Aligned::unfilled(k * len);
        Line {
            name: family.name(k, format!("L {len}")),
            goals: vec![goal, None, None],
            measured: meter.compare_and_measure(
                &ways,
                object.bytes(),
                &mut out,
                expected.bytes(),
                0,
            ),
        }
    }
}

/// There, and back.
pub fn tables(random: &mut Random, meter: &mut Meter) -> [Table; 2] {
    [INTERLEAVE, DEINTERLEAVE].map(|direction| Table {
        title: direction.title,
        ways: &WAYS,
        lines: CASES.map(|case| direction.line(case, random, meter)).into(),
    })
}
