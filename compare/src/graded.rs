//! Graded order from document 02, K1, alone: the order of the columns, and a box converted from its numbers to ours and back.
use crate::boxes::{self, HEAD};
use mogtriz::raw::Converted;
use std::sync::LazyLock;

/// The numbers of the data blocks in a column, rising.
pub fn blocks_of(column: u8) -> Vec<u8> {
    (1..=8).filter(|i| column >> (i - 1) & 1 == 1).collect()
}

/// The columns for k = 8: by number of data blocks, then by the rising lists of block numbers compared from the front.
static COLUMNS: LazyLock<Vec<u8>> = LazyLock::new(|| {
    let mut columns: Vec<u8> = (1..=255).collect();
    columns.sort_by_key(|&column| {
        let blocks = blocks_of(column);
        (blocks.len(), blocks)
    });
    columns
});

/// The columns for each k from 0 to 8: a smaller one leaves out those of 2^k and above.
static ORDERS: LazyLock<[Vec<u8>; 9]> = LazyLock::new(|| {
    std::array::from_fn(|k| {
        let is_left = |column: &&u8| usize::from(**column) < 1 << k;
        COLUMNS.iter().filter(is_left).copied().collect()
    })
});

/// The columns left for a k, the one at position 1 first. They are our nodes' numbers, as node j's column is j.
pub fn order(k: usize) -> &'static [u8] {
    &ORDERS[k]
}

/// The node at a position, from 1.
pub fn node_at(k: usize, position: u8) -> u8 {
    order(k)[usize::from(position) - 1]
}

/// The position of a node, from 1.
pub fn position_of(k: usize, node: u8) -> u8 {
    let place = order(k).iter().position(|&column| column == node);
    place.expect("every node has a position") as u8 + 1
}

/// Theirs to ours.
pub fn from_graded(bytes: &[u8], out: &mut [u8]) -> Converted {
    converted(box_for(bytes, out.len(), node_at), out)
}

/// Ours to theirs.
pub fn to_graded(bytes: &[u8], out: &mut [u8]) -> Converted {
    converted(box_for(bytes, out.len(), position_of), out)
}

fn converted(made: Result<Vec<u8>, u8>, out: &mut [u8]) -> Converted {
    let (refusal, length) = match made {
        Ok(bytes) => {
            out[..bytes.len()].copy_from_slice(&bytes);
            (0, bytes.len())
        }
        Err(refusal) => (refusal, 0),
    };
    Converted { refusal, length }
}

/// The box with its nodes numbered anew, or a refusal: those of a box, then 1 for families 2 and 3, then 6.
fn box_for(bytes: &[u8], room: usize, renumber: fn(usize, u8) -> u8) -> Result<Vec<u8>, u8> {
    let checked = boxes::check(bytes);
    if checked.refusal != 0 {
        return Err(checked.refusal);
    }
    if checked.session.family != 1 {
        return Err(1);
    }
    if room < bytes.len() {
        return Err(6);
    }
    let (k, len) = (checked.session.k, checked.session.len);
    let (head, rest) = bytes.split_at(HEAD);
    let (list, bodies) = rest.split_at(head[4].into());
    let numbers = list.iter().map(|&number| renumber(k, number));
    let mut held: Vec<(u8, &[u8])> = numbers.zip(bodies.chunks(len)).collect();
    held.sort();
    let numbers: Vec<u8> = held.iter().map(|(number, _)| *number).collect();
    let bodies: Vec<&[u8]> = held.iter().map(|(_, body)| *body).collect();
    Ok([head, &numbers, &bodies.concat()].concat())
}
