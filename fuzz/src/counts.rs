//! Counts out of the fuzzer's bytes: steps that the marks of a session leave room for and twice as many reads, which are taken for the
//! most part, some that are broken, and some beside any counts.
use crate::input::Input;
use compare::boxes::live_nodes;
use compare::counted::dealt;
use compare::papers::checked_node_count;
use mogtriz::raw::{MARKS, Session};

/// The session with counts instead of its own.
pub fn counted(session: Session, input: &mut Input) -> Session {
    let n = checked_node_count(session.family, session.k, 1).unwrap_or(1);
    // with as many steps as there are nodes live, steps and missing nodes are n
    let steps = usize::from(input.byte()) % (live_nodes(&session).len() + 1);
    let mut counted = Session {
        steps,
        reads: reads(2 * steps, n, input),
        ..session
    };
    if let tag @ 192.. = input.byte() {
        spoil(&mut counted, tag, input);
    }
    counted
}

/// Sessions with other counts, on both sides of each condition: the reads one too many, or as many as before once cut to 16 bits; a step
/// more with no read, or with two of node n, of 0 or above n; as many steps as before once twice as many are cut to 32 or 64 bits; and,
/// with reads that agree, as many steps as there can be, and one more.
pub fn beside(session: Session) -> [Session; 10] {
    let n = checked_node_count(session.family, session.k, 1).unwrap_or(1);
    let most = live_nodes(&session).len();
    let with = |steps: usize, added: &[(usize, u16)]| {
        let mut other = session;
        other.steps = session.steps.wrapping_add(steps);
        for &(node, count) in added {
            other.reads[node] = other.reads[node].wrapping_add(count);
        }
        other
    };
    [
        with(0, &[(1, 1)]),
        with(0, &[(1, u16::MAX), (2, 1)]),
        with(1, &[]),
        with(1, &[(n, 2)]),
        with(1, &[(0, 2)]),
        with(1, &[(usize::min(n + 1, 255), 2)]),
        with(1 << 31, &[]),
        with(1 << 63, &[]),
        of_one_node(session, most),
        of_one_node(session, most + 1),
    ]
}

fn of_one_node(session: Session, steps: usize) -> Session {
    Session {
        steps,
        reads: dealt(2 * steps, &[1]),
        ..session
    }
}

/// So many reads: a node and how many of them are its own, again and again.
fn reads(total: usize, n: usize, input: &mut Input) -> [u16; MARKS] {
    let (mut reads, mut left) = ([0; MARKS], total);
    while left > 0 {
        let node = 1 + usize::from(input.byte()) % n;
        let count = left.min(1 + usize::from(input.byte()));
        reads[node] += count as u16;
        left -= count;
    }
    reads
}

/// A change after which most counts do not agree.
fn spoil(session: &mut Session, tag: u8, input: &mut Input) {
    let [one, other] = [(); 2].map(|()| usize::from(input.byte()));
    let Session { steps, reads, .. } = session;
    match tag % 8 {
        0 => reads[one] = reads[one].wrapping_add(1),
        1 => reads[one] = reads[one].wrapping_sub(1),
        2 => *steps = steps.wrapping_add(1),
        3 => *steps = steps.wrapping_add(1 << (one % 64)),
        4 => *steps = input.number(),
        5 => reads[one] = u16::from_le_bytes([other as u8, input.byte()]),
        // a step more, with its two reads
        6 => {
            *steps = steps.wrapping_add(1);
            reads[one] = reads[one].wrapping_add(1);
            reads[other] = reads[other].wrapping_add(1);
        }
        // as many reads as before once they are cut to 16 bits
        _ => {
            reads[one] = reads[one].wrapping_add(u16::MAX);
            reads[other] = reads[other].wrapping_add(1);
        }
    }
}
