//! Encode's refusals: the number and the order are the paper's, and not a byte is written.
use compare::guarded::Guarded;
use compare::library;
use compare::papers::{Call, FAMILIES, MOST_LENGTH, code, encode_answer, node_count, range_of_k};
use compare::random::Random;
use compare::tally::NUMBERS;

/// A family, k and L whose buffers the calls get, whether or not encode takes them.
#[derive(Clone, Copy)]
struct Shape {
    family: usize,
    k: usize,
    len: usize,
}

impl Shape {
    fn least_k(self) -> usize {
        *range_of_k(self.family).expect("a known family").start()
    }

    fn most_k(self) -> usize {
        *range_of_k(self.family).expect("a known family").end()
    }

    fn families(self) -> Vec<usize> {
        with_uncut(self.family, &[1, 2, 3, 0, 4, 255, usize::MAX])
    }

    fn ks(self) -> Vec<usize> {
        let (below, above) = (self.least_k() - 1, self.most_k() + 1);
        with_uncut(self.k, &[self.k, below, above, 0, usize::MAX])
    }

    fn lens(self) -> Vec<usize> {
        const LARGE: usize = (1 << 32) + 1;
        let others = [0, 65537, LARGE, usize::MAX];
        with_uncut(self.len, &[&[self.len], &others[..], &LONG].concat())
    }

    fn object_len(self) -> usize {
        self.k * self.len
    }

    fn nodes_len(self) -> usize {
        node_count(self.family, self.k) * self.len
    }
}

/// These numbers, and those that are `right` once cut to 8, 16 or 32 bits: a call that cut them would
/// find buffers that fit.
fn with_uncut(right: usize, numbers: &[usize]) -> Vec<usize> {
    let uncut = [8, 16, 32].map(|bits| (1 << bits) + right);
    [numbers, &uncut].concat()
}

const MOST: usize = MOST_LENGTH;
const LONG: [usize; 6] = [MOST - 1, MOST, MOST + 1, 4096, 65535, 65536];

/// Every k of a family and one to each side, at two short L, and the least k at the long ones.
fn shapes() -> Vec<Shape> {
    let mut shapes = Vec::new();
    for family in FAMILIES {
        let range = range_of_k(family).expect("a known family");
        for k in range.start() - 1..=range.end() + 1 {
            shapes.extend([1, 64].map(|len| Shape { family, k, len }));
        }
        let k = *range.start();
        shapes.extend(LONG.map(|len| Shape { family, k, len }));
    }
    shapes
}

fn lengths_near(exact: usize) -> [usize; 4] {
    [exact, exact - 1, exact + 1, 0]
}

/// The refusals of encode, in the order of their checks.
const CONDITIONS: [usize; 4] = [1, 2, 3, 6];

/// How many calls got each answer, and how many met two conditions at once.
#[derive(Default)]
struct Tally {
    answers: [usize; NUMBERS],
    together: [[usize; 4]; 4],
}

impl Tally {
    fn add(&mut self, shape: Shape, call: Call, answer: u8) {
        self.answers[usize::from(answer)] += 1;
        let met = conditions_met(shape, call);
        for (i, row) in self.together.iter_mut().enumerate() {
            for (j, count) in row.iter_mut().enumerate() {
                *count += usize::from(met[i] && met[j]);
            }
        }
    }

    fn report(&self) {
        for number in [0, 1, 2, 3, 6] {
            let count = self.answers[number];
            println!("{count} calls answered {number}");
            assert!(count > 0, "no call was answered {number}");
        }
        for (i, first) in CONDITIONS.iter().enumerate() {
            for (j, second) in CONDITIONS.iter().enumerate().skip(i + 1) {
                let count = self.together[i][j];
                println!("{count} calls met both {first} and {second}");
                assert!(count > 0, "no call met both {first} and {second}");
            }
        }
    }
}

/// Which conditions a call meets, those after the first too: k and the lengths by its shape.
fn conditions_met(shape: Shape, call: Call) -> [bool; 4] {
    [
        range_of_k(call.family).is_none(),
        call.k < shape.least_k() || call.k > shape.most_k(),
        call.len == 0 || call.len > MOST_LENGTH,
        call.object_len != shape.object_len() || call.nodes_len != shape.nodes_len(),
    ]
}

/// Makes one call: its answer, and what it did to the buffers, have to be the paper's.
fn make_call(call: Call, object: &Guarded, nodes: &mut Guarded) -> u8 {
    let answer = library::encode(
        call.family,
        call.k,
        call.len,
        object.bytes(),
        nodes.bytes_mut(),
    );
    assert_eq!(answer, encode_answer(call), "{call:?}");
    assert!(object.untouched(), "{call:?}: the object was written to");
    if answer == 0 {
        let expected = code(call.family, call.k).multiply(call.len, object.bytes());
        assert!(nodes.bytes() == expected, "{call:?}: wrong nodes");
        assert!(
            nodes.guards_untouched(),
            "{call:?}: the guards were written"
        );
        nodes.restore();
    } else {
        assert!(nodes.untouched(), "{call:?}: a refusal wrote");
    }
    answer
}

fn call_with_each_buffer(shape: Shape, tally: &mut Tally, random: &mut Random) {
    for object_len in lengths_near(shape.object_len()) {
        let object = Guarded::holding(&random.bytes(object_len));
        for nodes_len in lengths_near(shape.nodes_len()) {
            let mut nodes = Guarded::filled(nodes_len);
            call_with_each_number(shape, tally, &object, &mut nodes);
        }
    }
}

fn call_with_each_number(shape: Shape, tally: &mut Tally, object: &Guarded, nodes: &mut Guarded) {
    for family in shape.families() {
        for k in shape.ks() {
            for len in shape.lens() {
                let call = Call {
                    family,
                    k,
                    len,
                    object_len: object.bytes().len(),
                    nodes_len: nodes.bytes().len(),
                };
                let answer = make_call(call, object, nodes);
                tally.add(shape, call, answer);
            }
        }
    }
}

#[test]
fn refusals_have_the_papers_number_and_order_and_write_nothing() {
    let mut random = Random::seeded();
    let mut tally = Tally::default();
    for shape in shapes() {
        call_with_each_buffer(shape, &mut tally, &mut random);
    }
    tally.report();
}
