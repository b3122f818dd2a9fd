//! Shapes, node lists, sessions and lengths to call the library with, sound and faulty.
use crate::boxes;
use crate::counted::{agreeing, spoil_counts};
use crate::papers::{MOST_LENGTH, node_count};
use crate::random::Random;
use mogtriz::raw::{MARKS, Session};

/// A family, k and L.
#[derive(Clone, Copy, Debug)]
pub struct Shape {
    pub family: usize,
    pub k: usize,
    pub len: usize,
}

impl Shape {
    pub fn n(self) -> usize {
        node_count(self.family, self.k)
    }

    pub fn nodes_len(self) -> usize {
        self.n() * self.len
    }

    pub fn object_len(self) -> usize {
        self.k * self.len
    }

    pub fn all_nodes(self) -> Vec<u8> {
        (1..=255).take(self.n()).collect()
    }

    pub fn session(self, live: &[u8]) -> Session {
        boxes::session(self.family, self.k, self.len, live)
    }

    /// Strictly rising lists: none, the first node, the last, every node, and some by chance.
    pub fn lists(self, random: &mut Random) -> Vec<Vec<u8>> {
        let all = self.all_nodes();
        let last = vec![self.n() as u8];
        let [some, others] = [(); 2].map(|()| some_of(&all, random));
        vec![vec![], vec![1], last, all, some, others]
    }

    /// A box of these nodes, sound or not, with random bodies.
    pub fn box_of(self, list: &[u8], random: &mut Random) -> Vec<u8> {
        let mut bytes = boxes::head(self.family, self.k, self.len, list.len());
        bytes.extend(list);
        bytes.extend(random.bytes(list.len() * self.len));
        bytes
    }
}

/// Shapes of each family with the ends of its range of k, at short L, and of a few nodes around the places
/// where L takes its second byte and ends.
pub fn shapes() -> Vec<Shape> {
    let codes: [(usize, &[usize]); 3] = [(1, &[2, 3, 4, 8]), (2, &[2, 3, 7, 22]), (3, &[4])];
    let few = [(1, 2), (2, 3), (3, 4)];
    let mut shapes = Vec::new();
    for (family, ks) in codes {
        for &k in ks {
            shapes.extend([1, 2, 5].map(|len| Shape { family, k, len }));
        }
    }
    for (family, k) in few {
        let lens = [255, 256, 257, MOST_LENGTH - 1, MOST_LENGTH];
        shapes.extend(lens.map(|len| Shape { family, k, len }));
    }
    shapes
}

/// The codes of three nodes, small enough for every list and every set of live nodes.
pub const THREE_NODES: [Shape; 2] = [
    Shape {
        family: 1,
        k: 2,
        len: 2,
    },
    Shape {
        family: 2,
        k: 2,
        len: 2,
    },
];

/// Every list of up to four out of the numbers up to 3, one above and the largest, for codes of three nodes.
pub fn short_lists() -> Vec<Vec<u8>> {
    let mut lists = vec![vec![]];
    let mut done = 0;
    while lists[done].len() < 4 {
        for node in [0, 1, 2, 3, 4, 255] {
            lists.push([&lists[done][..], &[node]].concat());
        }
        done += 1;
    }
    lists
}

/// The nodes whose bits are set, bit 0 being node 1's: every number below 2^n is a set of n nodes.
pub fn nodes_in(bits: usize) -> Vec<u8> {
    let set = |node: &u8| bits >> (node - 1) & 1 == 1;
    (1..=64).filter(set).collect()
}

/// Some of these numbers, from none to all, in their order.
pub fn some_of(numbers: &[u8], random: &mut Random) -> Vec<u8> {
    let share = random.below(11);
    let chosen = |_: &&u8| random.below(10) < share;
    numbers.iter().filter(chosen).copied().collect()
}

/// The list with a fault or two: zeros, numbers that may be above n, repeats, falls.
pub fn spoiled(list: &[u8], random: &mut Random) -> Vec<u8> {
    let mut list = list.to_vec();
    for _ in 0..1 + random.below(2) {
        spoil(&mut list, random);
    }
    list
}

fn spoil(list: &mut Vec<u8>, random: &mut Random) {
    let place = random.below(list.len() + 1);
    let last = list.last().copied().unwrap_or(0);
    match random.below(7) {
        0 => list.insert(place, 0),
        1 => list.insert(place, random.number() as u8),
        2 => list.push(255),
        // above n where the list ends with n, and a repeat after 255
        3 => list.push(last.saturating_add(1)),
        4 => list.extend_from_within(place.saturating_sub(1)..place),
        5 => list.rotate_left(place),
        _ => list.reverse(),
    }
}

/// Lists of more nodes than there are, of lengths that cut to 8 or 16 bits would be short, all of numbers
/// from 1 to n or some not.
pub fn long_list(n: usize, random: &mut Random) -> Vec<u8> {
    let length = *random.of(&[255, 256, 257, 258, 511, 512, 513, 65_536, 65_537]);
    let mut list: Vec<u8> = match random.below(3) {
        0 => (0..length).map(|place| (place % n + 1) as u8).collect(),
        1 => vec![1 + random.below(n) as u8; length],
        _ => (0..length).map(|place| (place + 1) as u8).collect(),
    };
    if random.below(4) == 0 {
        let place = random.below(length);
        list[place] = *random.of(&[0, 255]);
    }
    list
}

/// A length that is not `exact`: near it, 0, or equal to it once cut to 8 or 16 bits.
pub fn wrong_length(exact: usize, random: &mut Random) -> usize {
    let far = if random.below(50) == 0 { 65_536 } else { 256 };
    let near = [exact - 1, exact + 1, 0, exact + 7, exact / 2, exact + far];
    *random.of(&near)
}

/// `exact` for the most part.
pub fn length_near(exact: usize, random: &mut Random) -> usize {
    if random.below(5) > 0 {
        return exact;
    }
    wrong_length(exact, random)
}

/// A number other than `right`, some equal to it once cut to 8, 16 or 32 bits.
pub fn wrong_number(right: usize, random: &mut Random) -> usize {
    let cut: usize = 1 << *random.of(&[8, 16, 32]);
    let small = random.below(30);
    let wide = random.wide();
    let near = [-1, 1, cut as isize].map(|step| right.wrapping_add_signed(step));
    let numbers = [near[0], near[1], near[2], 0, small, wide, usize::MAX];
    *random.of(&numbers)
}

/// An L that is out of range, the one that was the largest before among them, or another in it.
pub fn wrong_len(right: usize, random: &mut Random) -> usize {
    let other = wrong_number(right, random);
    let most = MOST_LENGTH;
    *random.of(&[0, most, most + 1, 4096, 65_535, 65_536, other])
}

/// A session of any content, near to one that is taken or far from it.
pub fn spoiled_session(session: Session, n: usize, random: &mut Random) -> Session {
    let mut spoiled = session;
    for _ in 0..1 + random.below(2) {
        spoil_session(&mut spoiled, n, random);
    }
    spoiled
}

fn spoil_session(session: &mut Session, n: usize, random: &mut Random) {
    let place = random.below(MARKS);
    let no_mark = *random.of(&[2, 3, 128, 254, 255]);
    match random.below(14) {
        0 => session.family = wrong_number(session.family, random),
        1 => session.k = wrong_number(session.k, random),
        2 => session.len = wrong_len(session.len, random),
        3 => session.live[0] = 1,
        4 => session.live[usize::min(n + 1, 255)] = 1,
        5 => session.live[place] = 1,
        6 => session.live[place] = no_mark,
        7 => session.live[random.below(n + 1)] = no_mark,
        8 => session.live.copy_from_slice(&random.bytes(MARKS)),
        _ => spoil_counts(session, n, random),
    }
}

/// A session that is taken: one that a start gives, or one with counts.
pub fn sound_session(shape: Shape, random: &mut Random) -> Session {
    let session = shape.session(&some_of(&shape.all_nodes(), random));
    agreeing(session, shape.n(), random)
}

/// A session of any content: one that is taken with something changed, or nothing but random numbers.
pub fn any_session(shape: Shape, random: &mut Random) -> Session {
    if random.below(10) > 0 {
        return spoiled_session(sound_session(shape, random), shape.n(), random);
    }
    let mut live = [0; MARKS];
    live.copy_from_slice(&random.bytes(MARKS));
    let [family, k, len, steps] = [(); 4].map(|()| random.wide());
    Session {
        family,
        k,
        len,
        steps,
        live,
        reads: std::array::from_fn(|_| random.wide() as u16),
    }
}

/// The session with each mark in turn made live, missing or no mark.
pub fn with_each_mark(session: Session) -> impl Iterator<Item = Session> {
    let marks = [0, 1, 2, 3, 128, 254, 255];
    let changes = (0..MARKS).flat_map(move |place| marks.map(|mark| (place, mark)));
    changes.map(move |(place, mark)| {
        let mut changed = session;
        changed.live[place] = mark;
        changed
    })
}

/// Bytes for a nodes buffer, those of a longer one for all calls.
pub struct Nodes(Vec<u8>);

impl Nodes {
    pub fn new(random: &mut Random) -> Nodes {
        Nodes(random.bytes(200_000))
    }

    /// So many of the bytes, from anywhere, as nothing has to be aligned.
    pub fn some(&self, length: usize, random: &mut Random) -> &[u8] {
        let from = random.below(self.0.len() - length);
        &self.0[from..from + length]
    }
}
