//! The largest L is 1,536: every operation at it and beside it, at 4,096, which was the largest before, and at larger ones. A call
//! whose L is out of range gets 3, and one whose session has such an L gets 13.
use compare::boxes::box_len;
use compare::guarded::Guarded;
use compare::papers::code;
use compare::planner::plan_of;
use compare::random::Random;
use compare::samples::Shape;
use compare::triples::right_triple;
use compare::{calls, library};
use mogtriz::raw::Session;

const IN_RANGE: [usize; 3] = [1, 1535, 1536];

/// The last ones are in range once cut to 16 or 32 bits.
const OUT_OF_RANGE: [usize; 10] = [
    0,
    1537,
    4095,
    4096,
    4097,
    65_535,
    65_536,
    usize::MAX,
    (1 << 16) + 1536,
    (1 << 32) + 1536,
];

/// A code with an L, and with buffers that fit it, or where it is wide fit what 16 bits have of it.
struct Case {
    shape: Shape,
    len: usize,
    nodes: Vec<u8>,
    object: Vec<u8>,
}

impl Case {
    fn new(family: usize, k: usize, len: usize, random: &mut Random) -> Case {
        let shape = Shape {
            family,
            k,
            len: len % (1 << 16),
        };
        Case {
            shape,
            len,
            nodes: random.bytes(shape.nodes_len()),
            object: random.bytes(shape.object_len()),
        }
    }

    /// The nodes of the data blocks, from which every call is accepted.
    fn live(&self) -> Vec<u8> {
        let code = code(self.shape.family, self.shape.k);
        let mut live: Vec<u8> = (1..=self.shape.k).map(|i| code.data_node(i)).collect();
        live.sort();
        live
    }

    /// What encode gives; a refusal has to write nothing.
    fn encode(&self) -> u8 {
        let Shape { family, k, .. } = self.shape;
        let object = Guarded::holding(&self.object);
        let mut nodes = Guarded::filled(self.nodes.len());
        let number = library::encode(family, k, self.len, object.bytes(), nodes.bytes_mut());
        assert!(object.untouched() && nodes.guards_untouched());
        if number == 0 {
            let wanted = code(family, k).multiply(self.len, &self.object);
            assert!(nodes.bytes() == wanted);
        } else {
            assert!(nodes.untouched());
        }
        number
    }

    /// What encode and start give, and interleaving there and back.
    fn numbers(&self) -> [u8; 4] {
        let Shape { family, k, .. } = self.shape;
        let len = self.len;
        let (shape, room) = (Shape { family, k, len }, self.object.len());
        [
            self.encode(),
            calls::start(family, k, len, &self.live()),
            calls::interleave(shape, &self.object, room),
            calls::deinterleave(shape, &self.object, room),
        ]
    }

    /// What check, read and the body of a node give of a box, whose two bytes have this L.
    fn numbers_of_a_box(&self, random: &mut Random) -> [u8; 3] {
        let live = self.live();
        let bytes = self.shape.box_of(&live, random);
        let nodes_len = self.nodes.len();
        let body = calls::body(&bytes, live[0].into());
        [calls::check(&bytes), calls::read(&bytes, nodes_len), body]
    }

    /// What the two conversions give of such a box.
    fn numbers_of_conversions(&self, random: &mut Random) -> [u8; 2] {
        let bytes = self.shape.box_of(&self.live(), random);
        let room = bytes.len();
        [
            calls::from_graded(&bytes, room),
            calls::to_graded(&bytes, room),
        ]
    }

    /// What step, plan, run, write, live nodes, read out, pairs, check plan and carry plan give in a session with this L.
    fn numbers_in_a_session(&self, random: &mut Random) -> [u8; 9] {
        let live = self.live();
        let fitting = self.shape.session(&live);
        let session = Session {
            len: self.len,
            ..fitting
        };
        let triple = right_triple(&fitting, random).expect("a node to repair");
        let lent = || self.nodes.clone();
        let room = box_len(live.len(), self.shape.len);
        let plan = plan_of(&fitting).steps.concat();
        [
            calls::step(session, &mut lent(), triple).refusal,
            calls::plan(session, 4 * self.shape.n()).refusal,
            calls::run(session, &mut lent()).refusal,
            calls::write(session, &self.nodes, &live, room),
            calls::live_nodes(session, live.len()),
            calls::read_out(session, &self.nodes, self.object.len()),
            calls::pairs(session, triple[0]).refusal,
            calls::check_plan(session, &plan).refusal,
            calls::carry_plan(session, &plan, &mut lent()).refusal,
        ]
    }
}

/// Every call at these L: encode, start, interleaving and boxes have to give one number, and calls with a session another.
fn hold_every_call(lens: &[usize], number: u8, in_session: u8) {
    let random = &mut Random::seeded();
    for (family, k) in [(1, 2), (1, 3), (2, 2), (2, 5), (3, 4)] {
        for &len in lens {
            let case = Case::new(family, k, len, random);
            let place = format!("family {family} k {k} L {len}");
            assert_eq!(case.numbers(), [number; 4], "{place}");
            let numbers = case.numbers_in_a_session(random);
            assert_eq!(numbers, [in_session; 9], "{place}");
            if len < 1 << 16 {
                let numbers = case.numbers_of_a_box(random);
                assert_eq!(numbers, [number; 3], "{place}");
                // a box of the other families that is served elsewhere gets 1
                let wanted = if family == 1 { number } else { number.max(1) };
                let numbers = case.numbers_of_conversions(random);
                assert_eq!(numbers, [wanted; 2], "{place}");
            }
        }
    }
}

#[test]
fn every_call_is_served_up_to_1536() {
    hold_every_call(&IN_RANGE, 0, 0);
}

#[test]
fn no_call_is_served_from_1537_on() {
    hold_every_call(&OUT_OF_RANGE, 3, 13);
}
