//! Open nodes: those at which two objects alike on all live nodes can differ.
use crate::papers::columns_of;

/// The open nodes, by elimination. Take the bits at one place of each block of two objects, and d for where
/// they differ: a node's block differs there exactly when d and its column have an odd number of ones in
/// common. Some d has an even number with every live column and an odd one with this column exactly when this
/// column is no XOR of live ones. The length of the blocks plays no part in it.
pub fn open_nodes(family: usize, k: usize, live: &[u8]) -> Vec<u8> {
    let columns = columns_of(family, k);
    let span = Span::of(live.iter().map(|&node| columns[usize::from(node) - 1]));
    let open = |node: &u8| !span.contains(columns[usize::from(*node) - 1]);
    nodes(columns).filter(open).collect()
}

/// The same by going through every d, for small k.
pub fn open_by_differences(family: usize, k: usize, live: &[u8]) -> Vec<u8> {
    let columns = columns_of(family, k);
    let differs = |d: usize, node: u8| (d & columns[usize::from(node) - 1]).count_ones() % 2 == 1;
    let alike = |d: &usize| live.iter().all(|&node| !differs(*d, node));
    let differences: Vec<usize> = (0..1 << k).filter(alike).collect();
    let open = |node: &u8| differences.iter().any(|&d| differs(d, *node));
    nodes(columns).filter(open).collect()
}

fn nodes(columns: &[usize]) -> impl Iterator<Item = u8> {
    (1..=255).take(columns.len())
}

/// The XORs of some numbers, as a base of numbers that have their highest bits at different places.
#[derive(Default)]
pub struct Span(Vec<usize>);

impl Span {
    pub fn of(numbers: impl Iterator<Item = usize>) -> Span {
        let mut span = Span::default();
        numbers.for_each(|number| span.add(number));
        span
    }

    pub fn contains(&self, number: usize) -> bool {
        self.reduced(number) == 0
    }

    fn add(&mut self, number: usize) {
        let rest = self.reduced(number);
        if rest != 0 {
            self.0.push(rest);
            // the highest bits fall, as `reduced` has to clear them from the top
            self.0.sort_by(|a, b| b.cmp(a));
        }
    }

    /// The number with the base's highest bits cleared.
    fn reduced(&self, number: usize) -> usize {
        let clear = |rest: usize, &one: &usize| rest.min(rest ^ one);
        self.0.iter().fold(number, clear)
    }
}
