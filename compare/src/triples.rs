//! The three numbers to call a step with, right and wrong: the node to repair and the two that it comes from.
use crate::boxes::missing_nodes;
use crate::papers::columns_of;
use crate::planner::pairs;
use crate::random::Random;
use crate::samples::{Shape, wrong_number};
use mogtriz::raw::Session;

type Triple = [usize; 3];

/// A step that is accepted in a session that is taken, if there is one: a missing node with any of its
/// pairs, in either order.
pub fn right_triple(session: &Session, random: &mut Random) -> Option<Triple> {
    let mut missing = missing_nodes(session);
    let turn = random.below(missing.len().max(1));
    missing.rotate_left(turn);
    let mut with_pairs = missing.iter().map(|&node| (node, pairs(session, node)));
    let (node, pairs) = with_pairs.find(|(_, pairs)| !pairs.is_empty())?;
    let [smaller, larger] = *random.of(&pairs);
    let orders = [[node, smaller, larger], [node, larger, smaller]];
    Some(random.of(&orders).map(usize::from))
}

/// Three numbers of any kind: most are related nodes, live or missing as it comes, some with a number or two
/// replaced.
pub fn any_triple(shape: Shape, random: &mut Random) -> Triple {
    let n = shape.n();
    match random.below(10) {
        0 => [(); 3].map(|()| random.below(n + 2)),
        1 => [(); 3].map(|()| 1 + random.below(n)),
        2 => [(); 3].map(|()| random.wide()),
        3 | 4 => with_wrong_numbers(related_triple(shape, random), n, random),
        _ => related_triple(shape, random),
    }
}

/// Any three nodes whose columns cancel.
fn related_triple(shape: Shape, random: &mut Random) -> Triple {
    let columns = columns_of(shape.family, shape.k);
    loop {
        let [a, b] = [(); 2].map(|()| random.below(columns.len()));
        let third = columns[a] ^ columns[b];
        if let Some(c) = columns.iter().position(|&column| column == third) {
            return [a + 1, b + 1, c + 1];
        }
    }
}

/// One to three of the numbers replaced by 0, by one above n, by one that would be right if it were cut, by
/// another of the three, and so on.
fn with_wrong_numbers(triple: Triple, n: usize, random: &mut Random) -> Triple {
    let mut wrong = triple;
    for _ in 0..1 + random.below(3) {
        let place = random.below(3);
        let other = wrong_number(triple[place], random);
        let node = 1 + random.below(n);
        let again = *random.of(&triple);
        wrong[place] = *random.of(&[0, n + 1, other, other, node, again]);
    }
    wrong
}
