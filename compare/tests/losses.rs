//! How many nodes may be lost, whichever they are, so that all come back (docs/FORMAT.md): every such loss of the codes with
//! few nodes, and many of the others. With one node more some losses are too many.
use compare::papers::{columns_of, every_code, may_be_lost};
use compare::random::Random;
use mogtriz::{PLAN_ROOM, Session};

/// Up to so many nodes every loss is tried.
const FEW: usize = 15;

/// So many losses are tried of each code with more nodes.
const TRIES: usize = 2000;

/// The nodes left by the plan where the nodes that `lost` picks are missing.
fn left(family: usize, k: usize, lost: impl Fn(usize) -> bool) -> usize {
    let nodes = 1..=columns_of(family, k).len();
    let live: Vec<u8> = nodes
        .filter(|&node| !lost(node))
        .map(|node| node as u8)
        .collect();
    let session = Session::start(family, k, 1, &live).expect("a sound start");
    let mut out = [0; PLAN_ROOM];
    session.plan(&mut out).expect("a sound plan").repairs.left
}

/// Every loss of so many of n nodes; gives how many there are.
fn every_loss(family: usize, k: usize, n: usize, count: usize) -> usize {
    let losses = (0..1usize << n).filter(|bits| bits.count_ones() as usize == count);
    losses
        .inspect(|bits| {
            let lost = |node: usize| bits >> (node - 1) & 1 == 1;
            assert_eq!(left(family, k, lost), 0, "{family} {k} {bits:b}");
        })
        .count()
}

/// Some losses of so many of n nodes: the first ones in a random order.
fn some_losses(family: usize, k: usize, n: usize, count: usize, random: &mut Random) -> usize {
    for _ in 0..TRIES {
        let mut order: Vec<usize> = (1..=n).collect();
        for place in 0..count {
            order.swap(place, place + random.below(n - place));
        }
        let lost = &order[..count];
        let is_lost = |node: usize| lost.contains(&node);
        assert_eq!(left(family, k, is_lost), 0, "{family} {k} {lost:?}");
    }
    TRIES
}

#[test]
fn so_many_may_be_lost() {
    let mut random = Random::seeded();
    let mut tried = 0;
    for code in every_code() {
        let (family, k) = (code.family, code.k);
        let n = columns_of(family, k).len();
        let count = may_be_lost(family, k);
        tried += match n {
            ..=FEW => every_loss(family, k, n, count),
            _ => some_losses(family, k, n, count, &mut random),
        };
    }
    println!("{tried} losses came back whole");
}

/// The nodes with data block 1 are one more than may be lost, and no other node has it.
#[test]
fn one_more_may_be_too_many() {
    for code in every_code() {
        let (family, k) = (code.family, code.k);
        let columns = columns_of(family, k);
        let has_block_1 = |node: usize| columns[node - 1] & 1 == 1;
        let count = (1..=columns.len())
            .filter(|&node| has_block_1(node))
            .count();
        assert_eq!(count, may_be_lost(family, k) + 1, "{family} {k}");
        assert_eq!(left(family, k, has_block_1), count, "{family} {k}");
    }
}
