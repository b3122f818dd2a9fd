//! The wave in which each node returns (document 02, K9), from the columns alone: only XORs of live columns are formed, and no pair
//! that repairs a node is looked for. A wave is a round of document 01, in which a live node may be read by any number of repairs; in a
//! round of a plan it is read once at most (K11), so that there are as many rounds as waves or more.
use crate::papers::columns_of;
use crate::samples::nodes_in;

/// The most waves at a k in the range of a family.
pub fn most_waves(k: usize) -> usize {
    match k {
        2 => 1,
        3 | 4 => 2,
        5..=8 => 3,
        9..=16 => 4,
        17..=22 => 5,
        _ => panic!("no code has k {k}"),
    }
}

/// For nodes 1 to n: the least r for which the node's column is the XOR of the columns of at most 2^r live nodes. It is 0 for a live
/// node, and a node that does not return has none.
pub fn waves(family: usize, k: usize, live: &[u8]) -> Vec<Option<usize>> {
    let counts = fewest(family, k, live).into_iter();
    counts.map(|count| count.map(wave_of)).collect()
}

/// The least r for which so many nodes are at most 2^r.
fn wave_of(count: usize) -> usize {
    let enough = |r: &usize| count <= 1 << r;
    (0..).find(enough).expect("the powers of 2 have no end")
}

/// For nodes 1 to n: how few live nodes have columns whose XOR is the node's, if any have. It is the first level with the node's
/// column in it, where level m has the XORs of at most m live columns. A column may be taken twice on the way, which is as if it
/// were not taken.
pub fn fewest(family: usize, k: usize, live: &[u8]) -> Vec<Option<usize>> {
    let columns = columns_of(family, k);
    let live = columns_of_nodes(columns, live);
    let mut counts = vec![None; columns.len()];
    let mut level = Numbers::zero_alone(k);
    for m in 0.. {
        for (count, &column) in counts.iter_mut().zip(columns) {
            if count.is_none() && level.contains(column) {
                *count = Some(m);
            }
        }
        if !counts.contains(&None) {
            break;
        }
        let next = level.with_xors(&live);
        // a level that adds nothing is followed by none that does
        if next == level {
            break;
        }
        level = next;
    }
    counts
}

/// The same by going through every choice of live nodes, for few of them.
pub fn fewest_by_choices(family: usize, k: usize, live: &[u8]) -> Vec<Option<usize>> {
    let columns = columns_of(family, k);
    let live = columns_of_nodes(columns, live);
    let mut counts: Vec<Option<usize>> = vec![None; columns.len()];
    for choice in (0..1 << live.len()).map(nodes_in) {
        let chosen = choice.iter().map(|&place| live[usize::from(place) - 1]);
        let xor = chosen.fold(0, |xor, column| xor ^ column);
        if let Some(node) = columns.iter().position(|&column| column == xor) {
            let count = counts[node].unwrap_or(choice.len());
            counts[node] = Some(count.min(choice.len()));
        }
    }
    counts
}

fn columns_of_nodes(columns: &[usize], nodes: &[u8]) -> Vec<usize> {
    let column = |&node: &u8| columns[usize::from(node) - 1];
    nodes.iter().map(column).collect()
}

/// Numbers of k digits, each a bit: number c is bit c % 64 of word c / 64.
#[derive(Clone, PartialEq)]
struct Numbers(Vec<u64>);

impl Numbers {
    fn zero_alone(k: usize) -> Numbers {
        let mut words = vec![0; (1usize << k).div_ceil(64)];
        words[0] = 1;
        Numbers(words)
    }

    fn contains(&self, number: usize) -> bool {
        self.0[number / 64] >> (number % 64) & 1 == 1
    }

    /// These numbers, and each of them XORed with each column.
    fn with_xors(&self, columns: &[usize]) -> Numbers {
        let mut next = self.clone();
        for column in columns {
            let (high, low) = (column / 64, column % 64);
            for (place, &word) in self.0.iter().enumerate() {
                next.0[place ^ high] |= xored(word, low);
            }
        }
        next
    }
}

/// For each digit of a number below 64, the numbers that have a 0 there.
const WITH_0: [u64; 6] = [
    0x5555_5555_5555_5555,
    0x3333_3333_3333_3333,
    0x0f0f_0f0f_0f0f_0f0f,
    0x00ff_00ff_00ff_00ff,
    0x0000_ffff_0000_ffff,
    0x0000_0000_ffff_ffff,
];

/// A word's numbers XORed with one below 64: where that has a 1, those with a 0 there change places with those with a 1.
fn xored(word: u64, number: usize) -> u64 {
    let ones = (0..6).filter(|digit| number >> digit & 1 == 1);
    ones.fold(word, |word, digit| {
        let apart = 1 << digit;
        (word & WITH_0[digit]) << apart | word >> apart & WITH_0[digit]
    })
}
