//! Reading, writing and converting a box of every node, timed against copying the same bodies one by one in Rust; and the live nodes
//! listed, timed against Rust that checks the same of a session's marks.
use crate::rivals::{self, Family};
use crate::table::{Line, Table};
use crate::timing::{Aligned, Meter, Way};
use compare::boxes::HEAD;
use compare::graded::{self, node_at, position_of};
use compare::library::handed_in;
use compare::random::Random;
use compare::samples::Shape;
use mogtriz::Refusal;
use mogtriz::raw::Converted;
use std::hint::black_box;

const WAYS: [&str; 2] = ["Mogtriz", "Rust"];

/// The most that the library may take of the time of the copies.
const GOAL: f64 = 1.4;

/// A code at the L with which a box of every node is just under 64 KiB.
type Case = (Family, usize, usize);
const SIMPLEX: Case = (Family::Simplex, 8, 255);
const WEIGHT_TWO: Case = (Family::WeightTwo, 22, 256);

/// A box of every node, the numbers of its nodes, and the nodes buffer that it is read into.
struct Full {
    shape: Shape,
    list: Vec<u8>,
    bytes: Aligned,
    nodes: Aligned,
}

impl Full {
    fn new(family: Family, k: usize, len: usize, random: &mut Random) -> Full {
        let family = family as usize;
        let shape = Shape { family, k, len };
        let list = shape.all_nodes();
        let bytes = shape.box_of(&list, random);
        Full {
            shape,
            nodes: Aligned::holding(&bytes[HEAD + list.len()..]),
            list,
            bytes: Aligned::holding(&bytes),
        }
    }

    fn bodies_from(&self) -> usize {
        HEAD + self.list.len()
    }

    fn read(&self, meter: &mut Meter) -> Vec<Vec<f64>> {
        let mogtriz = |bytes: &[u8], nodes: &mut [u8]| {
            mogtriz::Session::read(bytes, nodes).expect("a sound box");
        };
        let rust = |bytes: &[u8], nodes: &mut [u8]| {
            let bodies = &bytes[self.bodies_from()..];
            rivals::read_bodies(&self.list, self.shape.len, bodies, nodes);
        };
        let ways: [Way; 2] = [&mogtriz, &rust];
        let mut nodes = Aligned::unfilled(self.shape.nodes_len());
        meter.compare_and_measure(&ways, self.bytes.bytes(), &mut nodes, self.nodes.bytes(), 0)
    }

    fn write(&self, meter: &mut Meter) -> Vec<Vec<f64>> {
        let session = handed_in(self.shape.session(&self.list));
        let mogtriz = |nodes: &[u8], out: &mut [u8]| {
            let length = session.write(nodes, &self.list, out);
            assert_eq!(length.expect("a sound call"), out.len());
        };
        let rust = |nodes: &[u8], out: &mut [u8]| {
            let bodies = &mut out[self.bodies_from()..];
            rivals::write_bodies(&self.list, self.shape.len, nodes, bodies);
        };
        let ways: [Way; 2] = [&mogtriz, &rust];
        let mut out = Aligned::unfilled(self.bytes.bytes().len());
        // the copies leave out what stands before the bodies
        let from = self.bodies_from();
        meter.compare_and_measure(
            &ways,
            self.nodes.bytes(),
            &mut out,
            self.bytes.bytes(),
            from,
        )
    }

    /// A node's body stands at its position.
    fn theirs_to_ours(&self, meter: &mut Meter) -> Vec<Vec<f64>> {
        let conversion = Conversion {
            call: mogtriz::from_graded,
            model: graded::from_graded,
            place_of: position_of,
        };
        self.convert(&conversion, meter)
    }

    /// The body at a position is that of the node there.
    fn ours_to_theirs(&self, meter: &mut Meter) -> Vec<Vec<f64>> {
        let conversion = Conversion {
            call: mogtriz::to_graded,
            model: graded::to_graded,
            place_of: node_at,
        };
        self.convert(&conversion, meter)
    }

    fn convert(&self, conversion: &Conversion, meter: &mut Meter) -> Vec<Vec<f64>> {
        let source = self.bytes.bytes();
        let mut expected = vec![0; source.len()];
        (conversion.model)(source, &mut expected);
        let place = |&number: &u8| (conversion.place_of)(self.shape.k, number);
        let places: Vec<u8> = self.list.iter().map(place).collect();
        let mogtriz = |bytes: &[u8], out: &mut [u8]| {
            let length = (conversion.call)(bytes, out);
            assert_eq!(length.expect("a sound call"), out.len());
        };
        let from = self.bodies_from();
        let rust = |bytes: &[u8], out: &mut [u8]| {
            rivals::write_bodies(&places, self.shape.len, &bytes[from..], &mut out[from..]);
        };
        let ways: [Way; 2] = [&mogtriz, &rust];
        let mut out = Aligned::unfilled(source.len());
        // the copies leave out what stands before the bodies
        meter.compare_and_measure(&ways, source, &mut out, &expected, from)
    }
}

/// A conversion of a box of every node: the library's, the papers' model, and the place of the body that comes to a number.
struct Conversion {
    call: fn(&[u8], &mut [u8]) -> Result<usize, Refusal>,
    model: fn(&[u8], &mut [u8]) -> Converted,
    place_of: fn(usize, u8) -> u8,
}

type Measured = fn(&Full, &mut Meter) -> Vec<Vec<f64>>;

fn line(
    (family, k, len): Case,
    random: &mut Random,
    meter: &mut Meter,
    measured: Measured,
) -> Line {
    Line {
        name: family.name(k, format!("L {len}")),
        goals: vec![Some(GOAL)],
        measured: measured(&Full::new(family, k, len, random), meter),
    }
}

fn table<const CASES: usize>(
    title: &'static str,
    cases: [Case; CASES],
    random: &mut Random,
    meter: &mut Meter,
    measured: Measured,
) -> Table {
    Table {
        title,
        ways: &WAYS,
        lines: cases.map(|case| line(case, random, meter, measured)).into(),
    }
}

pub fn tables(random: &mut Random, meter: &mut Meter) -> [Table; 2] {
    let cases = [SIMPLEX, WEIGHT_TWO];
    [
        table("read a box", cases, random, meter, Full::read),
        table("write a box", cases, random, meter, Full::write),
    ]
}

/// Theirs to ours, and ours to theirs.
pub fn conversions(random: &mut Random, meter: &mut Meter) -> [Table; 2] {
    [
        table(
            "convert from graded",
            [SIMPLEX],
            random,
            meter,
            Full::theirs_to_ours,
        ),
        table(
            "convert to graded",
            [SIMPLEX],
            random,
            meter,
            Full::ours_to_theirs,
        ),
    ]
}

/// A line for the list of these live nodes of weight-two.
fn live_list(shape: Shape, word: &str, live: &[u8], meter: &mut Meter) -> Line {
    let session = handed_in(shape.session(live));
    let mogtriz = |_: &[u8], out: &mut [u8]| {
        let count = session.live_nodes_into(out);
        assert_eq!(count.expect("a sound call"), live.len());
    };
    let rust = |_: &[u8], out: &mut [u8]| {
        let count = rivals::list_live(shape.n(), black_box(session.marks()), out);
        assert_eq!(count.expect("a sound call"), live.len());
    };
    let ways: [Way; 2] = [&mogtriz, &rust];
    let mut out = Aligned::unfilled(live.len());
    Line {
        name: Family::WeightTwo.name(shape.k, word),
        goals: vec![None],
        measured: meter.compare_and_measure(&ways, &[], &mut out, live, 0),
    }
}

pub fn live_lists(random: &mut Random, meter: &mut Meter) -> Table {
    let shape = Shape {
        family: Family::WeightTwo as usize,
        k: 22,
        len: 1,
    };
    let all = shape.all_nodes();
    let chosen = |_: &&u8| random.below(2) == 0;
    let half: Vec<u8> = all.iter().filter(chosen).copied().collect();
    let lines = [("all", &all[..]), ("half", &half), ("none", &[])];
    Table {
        title: "list the live nodes",
        ways: &WAYS,
        lines: lines
            .map(|(word, live)| live_list(shape, word, live, meter))
            .into(),
    }
}
