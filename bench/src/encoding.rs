//! Encoding, timed against the same algorithm in Rust, the same with ISA-L's block XOR, and a copy of as
//! many bytes.
use crate::isal;
use crate::rivals::{self, Family};
use crate::table::{Line, Table};
use crate::timing::{Aligned, Meter, Way};
use compare::papers;
use compare::random::Random;

const WAYS: [&str; 4] = ["Mogtriz", "Rust", "ISA-L", "memcpy"];

struct Case {
    family: Family,
    k: usize,
    len: usize,
    goals: [Option<f64>; 3],
}

const RECORDED: [Option<f64>; 3] = [None; 3];

fn simplex(len: usize, goals: [Option<f64>; 3]) -> Case {
    Case {
        family: Family::Simplex,
        k: 8,
        len,
        goals,
    }
}

fn weight_two(len: usize, goals: [Option<f64>; 3]) -> Case {
    Case {
        family: Family::WeightTwo,
        k: 22,
        len,
        goals,
    }
}

fn run(case: Case, random: &mut Random, meter: &mut Meter) -> Line {
    let Case { family, k, len, .. } = case;
    let number = family as usize;
    let object = Aligned::holding(&random.bytes(k * len));
    let expected = Aligned::holding(&papers::code(number, k).multiply(len, object.bytes()));
    let mut nodes = Aligned::unfilled(expected.bytes().len());
    let steps = rivals::steps(family, k);
    let mogtriz = |object: &[u8], nodes: &mut [u8]| {
        mogtriz::encode(number, k, len, object, nodes).expect("a sound call");
    };
    let rust = |object: &[u8], nodes: &mut [u8]| {
        rivals::encode(&steps, len, object, nodes, rivals::xor);
    };
    let isal = |object: &[u8], nodes: &mut [u8]| {
        rivals::encode(&steps, len, object, nodes, isal::xor);
        isal::clear_registers();
    };
    let memcpy = |_: &[u8], nodes: &mut [u8]| nodes.copy_from_slice(expected.bytes());
    let ways: [Way; 4] = [&mogtriz, &rust, &isal, &memcpy];
    Line {
        name: family.name(k, format!("L {len}")),
        goals: case.goals.to_vec(),
        measured: meter.compare_and_measure(&ways, object.bytes(), &mut nodes, expected.bytes(), 0),
    }
}

pub fn table(random: &mut Random, meter: &mut Meter) -> Table {
    let cases = [
        simplex(64, RECORDED),
        simplex(512, [Some(1.2), Some(1.4), Some(1.6)]),
        simplex(1536, [Some(1.1), Some(1.0), Some(1.6)]),
        weight_two(64, RECORDED),
        weight_two(512, [Some(1.3), None, None]),
        weight_two(1536, [Some(1.1), None, None]),
    ];
    Table {
        title: "encode",
        ways: &WAYS,
        lines: cases.map(|case| run(case, random, meter)).into(),
    }
}
