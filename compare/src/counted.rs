//! Counts for sessions, the steps since the start and the reads that go with them (document 02, K8): some that agree, whether a start
//! leads to them or not, and some that do not.
use crate::boxes::{live_nodes, missing_nodes};
use crate::random::Random;
use mogtriz::raw::{MARKS, Session};

/// The reads of nodes in turn, as many of each as there is room for in its count until they are all dealt out.
pub fn dealt(total: usize, nodes: &[u8]) -> [u16; MARKS] {
    let (mut reads, mut left) = ([0; MARKS], total);
    for &node in nodes {
        let count = left.min(usize::from(u16::MAX));
        reads[usize::from(node)] = count as u16;
        left -= count;
    }
    assert_eq!(left, 0, "{total} reads of {} nodes", nodes.len());
    reads
}

/// One read of each of these nodes in turn, until they are all made.
pub fn spread(total: usize, nodes: &[u8]) -> [u16; MARKS] {
    let mut reads = [0; MARKS];
    for &node in nodes.iter().cycle().take(total) {
        reads[usize::from(node)] += 1;
    }
    reads
}

/// The session, with no mark outside 1 to n, with counts that agree: from no step to as many as nodes are live, which with the
/// missing ones are n, and twice as many reads, of one node, of two, of all, of missing ones or of any.
pub fn agreeing(session: Session, n: usize, random: &mut Random) -> Session {
    let most = live_nodes(&session).len();
    let some = random.below(most + 1);
    let steps = *random.of(&[0, most, most, some, some, some.min(2)]);
    Session {
        steps,
        reads: some_reads(&session, n, 2 * steps, random),
        ..session
    }
}

/// So many reads of nodes from 1 to n.
fn some_reads(session: &Session, n: usize, total: usize, random: &mut Random) -> [u16; MARKS] {
    let all: Vec<u8> = (1..=255).take(n).collect();
    let missing = missing_nodes(session);
    let one = [*random.of(&all)];
    match random.below(5) {
        0 => dealt(total, &one),
        1 => spread(total, &[one[0], *random.of(&all)]),
        2 => spread(total, &all),
        3 if !missing.is_empty() => spread(total, &missing),
        _ => {
            let nodes: Vec<u8> = (0..total).map(|_| *random.of(&all)).collect();
            spread(total, &nodes)
        }
    }
}

/// Changes the counts in one of many ways, after most of which they do not agree.
pub fn spoil_counts(session: &mut Session, n: usize, random: &mut Random) {
    let place = random.below(MARKS);
    let node = 1 + random.below(n);
    let other = node % n + 1;
    match random.below(12) {
        0 => add(session, node, 1),
        1 => session.reads[node] = session.reads[node].wrapping_sub(1),
        2 => session.steps = session.steps.wrapping_add(1),
        3 => session.steps = session.steps.wrapping_sub(1),
        // twice as many steps are as many as before once cut to 8, 16, 32 or 64 bits
        4 => {
            session.steps = session
                .steps
                .wrapping_add(1 << *random.of(&[7, 15, 31, 63]))
        }
        5 => session.steps = [1 << 63, usize::MAX, random.wide()][random.below(3)],
        // so are the reads
        6 => add(session, node, *random.of(&[256, 512])),
        7 => {
            add(session, node, u16::MAX);
            add(session, other, 1);
        }
        // one step more and its two reads: of 0, above n, of any, or one too many
        8 => add_step(session, *random.of(&[0, 0, usize::min(n + 1, 255), place])),
        9 => {
            session.steps = live_nodes(session).len() + 1;
            session.reads = dealt(2 * session.steps, &[node as u8]);
        }
        10 => session.reads = [u16::MAX; MARKS],
        _ => session.reads = std::array::from_fn(|_| random.wide() as u16),
    }
}

fn add(session: &mut Session, place: usize, count: u16) {
    session.reads[place] = session.reads[place].wrapping_add(count);
}

fn add_step(session: &mut Session, place: usize) {
    session.steps = session.steps.wrapping_add(1);
    add(session, place, 2);
}
