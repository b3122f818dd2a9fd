//! The pairs of a node and their number (document 02, K4), from the words alone: every two live nodes are tried.
use crate::boxes::{check_session, live_nodes};
use crate::papers::{columns_of, node_count};
use mogtriz::raw::{PairsFound, Session};

pub fn pairs(session: Session, node: usize) -> PairsFound {
    let (refusal, found) = match check_node(&session, node) {
        Ok(()) => (0, found_in(&session, node)),
        Err(refusal) => (refusal, Found::default()),
    };
    let Found { least, count } = found;
    PairsFound {
        refusal,
        smaller: least[0],
        larger: least[1],
        count,
        session,
    }
}

/// How many pairs a node has with all nodes live, at a k in the range of its family; it has no more.
pub fn most_pairs(family: usize, k: usize) -> usize {
    match family {
        1 => (node_count(family, k) - 1) / 2,
        2 => k - 1,
        _ => 6,
    }
}

/// Zeros where there is no pair.
#[derive(Default)]
struct Found {
    least: [usize; 2],
    count: usize,
}

/// The checks 13 and 4.
fn check_node(session: &Session, node: usize) -> Result<(), u8> {
    let n = check_session(session)?;
    if node == 0 || node > n {
        return Err(4);
    }
    Ok(())
}

/// The pairs a < b of live nodes whose columns with the node's give 0, by a: the first one is the least.
fn found_in(session: &Session, node: usize) -> Found {
    let columns = columns_of(session.family, session.k);
    let column = |node: usize| columns[node - 1];
    let live: Vec<usize> = live_nodes(session).into_iter().map(usize::from).collect();
    let mut found = Found::default();
    for (place, &a) in live.iter().enumerate() {
        for &b in &live[place + 1..] {
            if column(a) ^ column(b) ^ column(node) == 0 {
                if found.count == 0 {
                    found.least = [a, b];
                }
                found.count += 1;
            }
        }
    }
    found
}
