//! Sets of live nodes that a planner has work with: about k nodes, chains and trees, parts of spans, and all or none but a few.
use crate::open::Span;
use crate::papers::{Code, columns_of, every_code};
use crate::random::Random;
use crate::samples::{nodes_in, some_of};
use std::collections::BTreeSet;

/// Codes with so few nodes that every set is compared.
pub fn is_small(code: &Code) -> bool {
    code.n() <= 14
}

/// How many sets these have: simplex 2 and 3, weight-two 2 to 4, the tetrahedron.
pub const SETS_OF_SMALL: usize = 8 + 128 + 8 + 64 + 1024 + 16_384;

/// The sets of a code.
#[derive(Clone, Copy, Debug)]
pub struct LiveSets {
    pub family: usize,
    pub k: usize,
}

impl LiveSets {
    fn columns(self) -> &'static [usize] {
        columns_of(self.family, self.k)
    }

    fn all(self) -> Vec<u8> {
        (1..=255).take(self.columns().len()).collect()
    }

    fn node_of(self, column: usize) -> u8 {
        let place = self.columns().iter().position(|&other| other == column);
        place.expect("a node has this column") as u8 + 1
    }

    /// So many nodes, n at most.
    pub fn so_many(self, count: usize, random: &mut Random) -> Vec<u8> {
        choose(count, self.all(), random)
    }

    /// From k - 2 to k + 2 nodes.
    pub fn about_k(self, random: &mut Random) -> Vec<u8> {
        let count = self.k - 2 + random.below(5);
        choose(count, self.all(), random)
    }

    /// k nodes, each data block in turn being tied to one of the last `reach` before it, the first to none: one
    /// at a time makes a chain, which takes the most waves.
    fn tied(self, reach: usize, order: &[usize], random: &mut Random) -> Vec<u8> {
        let mut bits = vec![0];
        let mut nodes = Vec::new();
        for &block in order {
            let bit = 1 << block;
            let last = random.below(reach.min(bits.len()));
            nodes.push(self.node_of(bit ^ bits[bits.len() - 1 - last]));
            bits.push(bit);
        }
        rising(nodes)
    }

    /// A chain through the data blocks in any order.
    pub fn chain(self, random: &mut Random) -> Vec<u8> {
        self.tied(1, &shuffled(self.k, random), random)
    }

    /// A tree of the data blocks, between a chain and a star.
    pub fn tree(self, random: &mut Random) -> Vec<u8> {
        let reach = 2 + random.below(self.k);
        self.tied(reach, &shuffled(self.k, random), random)
    }

    /// A chain or tree from which a node or two are lost, with up to two others besides.
    pub fn broken(self, random: &mut Random) -> Vec<u8> {
        let mut nodes = match random.below(2) {
            0 => self.chain(random),
            _ => self.tree(random),
        };
        for _ in 0..1 + random.below(2) {
            nodes.swap_remove(random.below(nodes.len()));
        }
        let others = choose(random.below(3), self.all(), random);
        nodes.extend(others);
        rising(nodes)
    }

    /// About k nodes out of the span of fewer, so that some are open.
    pub fn of_low_rank(self, random: &mut Random) -> Vec<u8> {
        let count = self.k + random.below(3);
        let span = self.flat(random);
        choose(count, span, random)
    }

    /// Every node of the span of some, so that nothing can be repaired.
    pub fn flat(self, random: &mut Random) -> Vec<u8> {
        let columns = self.columns();
        let rank = random.below(self.k);
        let base = choose(rank, self.all(), random);
        let span = Span::of(base.iter().map(|&node| columns[usize::from(node) - 1]));
        let within = |node: &u8| span.contains(columns[usize::from(*node) - 1]);
        self.all().into_iter().filter(within).collect()
    }

    /// All nodes but a few, from one to k.
    pub fn few_lost(self, random: &mut Random) -> Vec<u8> {
        let lost = 1 + random.below(self.k);
        choose(self.columns().len() - lost, self.all(), random)
    }

    /// Fewer than k nodes, so that some are open.
    pub fn many_lost(self, random: &mut Random) -> Vec<u8> {
        choose(random.below(self.k), self.all(), random)
    }

    /// Any share of the nodes, from none to all.
    pub fn any(self, random: &mut Random) -> Vec<u8> {
        some_of(&self.all(), random)
    }

    /// Data block 1, then the pairs 1 2, 2 3 and so on: all of it, each of its beginnings and ends, and all but
    /// each one.
    pub fn paths(self) -> Vec<Vec<u8>> {
        let pair = |i: usize| self.node_of(0b11 << i);
        let mut path = vec![self.node_of(1)];
        path.extend((0..self.k - 1).map(pair));
        let mut paths = Vec::new();
        for i in 0..path.len() {
            paths.extend([&path[..i], &path[i..]].map(|part| rising(part.to_vec())));
            paths.push(rising([&path[..i], &path[i + 1..]].concat()));
        }
        paths
    }
}

/// Every set of the small codes.
pub fn small_sets(mut visit: impl FnMut(&Code, Vec<u8>)) {
    for code in every_code().iter().filter(|code| is_small(code)) {
        for bits in 0..1 << code.n() {
            visit(code, nodes_in(bits));
        }
    }
}

/// A way to choose a set.
pub type Choice = fn(LiveSets, &mut Random) -> Vec<u8>;

pub const CHOICES: [Choice; 9] = [
    LiveSets::about_k,
    LiveSets::chain,
    LiveSets::tree,
    LiveSets::broken,
    LiveSets::of_low_rank,
    LiveSets::flat,
    LiveSets::few_lost,
    LiveSets::many_lost,
    LiveSets::any,
];

/// How many codes are not small.
pub const OTHER_CODES: usize = 23;

/// Sets of the other codes, so many chosen in each way.
pub fn other_sets(times: usize, mut visit: impl FnMut(&Code, Vec<u8>)) {
    let mut random = Random::seeded();
    for code in every_code().iter().filter(|code| !is_small(code)) {
        let (family, k) = (code.family, code.k);
        for choose in CHOICES {
            for _ in 0..times {
                visit(code, choose(LiveSets { family, k }, &mut random));
            }
        }
    }
}

/// So many of these nodes, or all of them if there are fewer.
fn choose(count: usize, mut nodes: Vec<u8>, random: &mut Random) -> Vec<u8> {
    while nodes.len() > count {
        nodes.swap_remove(random.below(nodes.len()));
    }
    rising(nodes)
}

/// A list as a start takes it.
fn rising(nodes: Vec<u8>) -> Vec<u8> {
    let set: BTreeSet<u8> = nodes.into_iter().collect();
    set.into_iter().collect()
}

/// The numbers below `end` in any order.
fn shuffled(end: usize, random: &mut Random) -> Vec<usize> {
    let mut numbers: Vec<usize> = (0..end).collect();
    for i in 1..end {
        numbers.swap(i, random.below(i + 1));
    }
    numbers
}
