//! Sessions and boxes from the papers alone: for each operation its answer, and what it writes.
use crate::papers::{checked_node_count, code, node_count};
use mogtriz::raw::{MARKS, Part, ReadOut, Session, Started, Written};

/// How many bytes stand before a box's node numbers.
pub const HEAD: usize = 8;

/// What comes with a refused start or box.
pub const NO_SESSION: Session = Session {
    family: 0,
    k: 0,
    len: 0,
    steps: 0,
    live: [0; MARKS],
    reads: [0; MARKS],
};

/// The session with these nodes live, and nothing counted.
pub fn session(family: usize, k: usize, len: usize, list: &[u8]) -> Session {
    let mut session = Session {
        family,
        k,
        len,
        ..NO_SESSION
    };
    for &node in list {
        session.live[usize::from(node)] = 1;
    }
    session
}

/// The numbers of the live nodes, rising.
pub fn live_nodes(session: &Session) -> Vec<u8> {
    (0..=255).filter(|&node| is_live(session, node)).collect()
}

/// The numbers from 1 to n that are not live, in a session with family and k in range.
pub fn missing_nodes(session: &Session) -> Vec<u8> {
    let n = node_count(session.family, session.k);
    let nodes = (1..=255).take(n);
    nodes.filter(|&node| !is_live(session, node)).collect()
}

fn is_live(session: &Session, node: u8) -> bool {
    session.live[usize::from(node)] == 1
}

/// The length of a box that holds so many nodes.
pub fn box_len(held: usize, len: usize) -> usize {
    HEAD + held + held * len
}

pub fn start(family: usize, k: usize, len: usize, list: &[u8]) -> Started {
    let checked = checked_node_count(family, k, len).and_then(|n| check_list(list, n));
    started(checked.map(|()| session(family, k, len, list)))
}

pub fn check(bytes: &[u8]) -> Started {
    started(contents(bytes).map(|contents| contents.session))
}

pub fn read(bytes: &[u8], nodes: &mut [u8]) -> Started {
    started(contents(bytes).and_then(|contents| contents.read_into(nodes)))
}

pub fn body(bytes: &[u8], node: usize) -> Part {
    match contents(bytes).and_then(|contents| contents.body_of(node)) {
        Ok((from, length)) => Part {
            refusal: 0,
            from,
            length,
        },
        Err(refusal) => Part {
            refusal,
            from: 0,
            length: 0,
        },
    }
}

pub fn write(session: Session, nodes: &[u8], list: &[u8], out: &mut [u8]) -> Written {
    written(session, box_for(&session, nodes, list, out.len()), out)
}

/// The live nodes put in a lent buffer.
pub fn list_live(session: Session, out: &mut [u8]) -> Written {
    written(session, live_list_for(&session, out.len()), out)
}

/// Bytes at the front of their destination, or a refusal.
fn written(session: Session, made: Result<Vec<u8>, u8>, out: &mut [u8]) -> Written {
    let (refusal, length) = match made {
        Ok(bytes) => {
            out[..bytes.len()].copy_from_slice(&bytes);
            (0, bytes.len())
        }
        Err(refusal) => (refusal, 0),
    };
    Written {
        refusal,
        length,
        session,
    }
}

pub fn read_out(session: Session, nodes: &[u8], object: &mut [u8]) -> ReadOut {
    let (refusal, block) = match object_for(&session, nodes, object.len()) {
        Ok(bytes) => {
            object.copy_from_slice(&bytes);
            (0, 0)
        }
        Err(refused) => refused,
    };
    ReadOut {
        refusal,
        block,
        session,
    }
}

fn started(answer: Result<Session, u8>) -> Started {
    match answer {
        Ok(session) => Started {
            refusal: 0,
            session,
        },
        Err(refusal) => Started {
            refusal,
            session: NO_SESSION,
        },
    }
}

/// 4 is sought over the whole list before 5 is.
fn check_list(list: &[u8], n: usize) -> Result<(), u8> {
    if list.iter().any(|&node| node == 0 || usize::from(node) > n) {
        return Err(4);
    }
    if list.windows(2).any(|pair| pair[0] >= pair[1]) {
        return Err(5);
    }
    Ok(())
}

/// What an accepted box says.
struct Contents<'a> {
    session: Session,
    n: usize,
    list: &'a [u8],
    bodies: &'a [u8],
}

/// The checks of a box alone: 7 under 8 bytes, 1, 2, 3, 8, 9, 7, 4, 5 (document 02, K12).
fn contents(bytes: &[u8]) -> Result<Contents<'_>, u8> {
    let Some((head, rest)) = bytes.split_at_checked(HEAD) else {
        return Err(7);
    };
    let [family, k, held] = [0, 1, 4].map(|place| usize::from(head[place]));
    let len = usize::from(u16::from_le_bytes([head[2], head[3]]));
    let n = checked_node_count(family, k, len)?;
    if head[5..] != [0, 0, 0] {
        return Err(8);
    }
    if held > n {
        return Err(9);
    }
    if bytes.len() != box_len(held, len) {
        return Err(7);
    }
    let (list, bodies) = rest.split_at(held);
    check_list(list, n)?;
    Ok(Contents {
        session: session(family, k, len, list),
        n,
        list,
        bodies,
    })
}

/// The places of a node's block in a nodes buffer.
pub fn block_at(node: u8, len: usize) -> std::ops::Range<usize> {
    let end = usize::from(node) * len;
    end - len..end
}

impl Contents<'_> {
    fn read_into(&self, nodes: &mut [u8]) -> Result<Session, u8> {
        let len = self.session.len;
        if nodes.len() != self.n * len {
            return Err(6);
        }
        for (&node, body) in self.list.iter().zip(self.bodies.chunks(len)) {
            nodes[block_at(node, len)].copy_from_slice(body);
        }
        Ok(self.session)
    }

    fn body_of(&self, node: usize) -> Result<(usize, usize), u8> {
        if node == 0 || node > self.n {
            return Err(4);
        }
        let named = |&held: &u8| usize::from(held) == node;
        let before = self.list.iter().position(named).ok_or(12)?;
        let len = self.session.len;
        Ok((HEAD + self.list.len() + before * len, len))
    }
}

/// n, or 13: a number is out of range, a mark is neither 0 nor 1 or stands against 0 or above n, or the counts do not agree (document 02, K8).
pub fn check_session(session: &Session) -> Result<usize, u8> {
    let n = checked_node_count(session.family, session.k, session.len).map_err(|_| 13)?;
    let no_mark = session.live.iter().any(|&mark| mark > 1);
    if no_mark || session.live[0] != 0 || session.live[n + 1..].contains(&1) {
        return Err(13);
    }
    if !counts_agree(session, n) {
        return Err(13);
    }
    Ok(n)
}

/// Whether the reads sum to twice the steps, none of them stands against 0 or above n, and the steps with the missing nodes are at most
/// n. The sums are those of mathematics, for which 128 bits have room.
fn counts_agree(session: &Session, n: usize) -> bool {
    let steps = session.steps as u128;
    let reads: u128 = session.reads.iter().map(|&count| u128::from(count)).sum();
    let outside = session.reads[0] > 0 || session.reads[n + 1..].iter().any(|&count| count > 0);
    let missing = missing_nodes(session).len() as u128;
    reads == 2 * steps && !outside && steps + missing <= n as u128
}

/// n, or the first of 13 and 6 for the nodes that is met.
pub fn check_nodes(session: &Session, nodes: &[u8]) -> Result<usize, u8> {
    let n = check_session(session)?;
    if nodes.len() != n * session.len {
        return Err(6);
    }
    Ok(n)
}

/// The box that a call writes: 13, 6 for the nodes, 4, 5, 12, 6 for the destination. An empty list stands for no node (document 02,
/// K7).
fn box_for(session: &Session, nodes: &[u8], list: &[u8], room: usize) -> Result<Vec<u8>, u8> {
    let n = check_nodes(session, nodes)?;
    check_list(list, n)?;
    let live = live_nodes(session);
    if list.iter().any(|node| !live.contains(node)) {
        return Err(12);
    }
    if room < box_len(list.len(), session.len) {
        return Err(6);
    }
    Ok(box_of(session, nodes, list))
}

/// The list that a call makes of the live nodes: 13, then 6 for a buffer that is too short.
fn live_list_for(session: &Session, room: usize) -> Result<Vec<u8>, u8> {
    check_session(session)?;
    let live = live_nodes(session);
    if room < live.len() {
        return Err(6);
    }
    Ok(live)
}

fn box_of(session: &Session, nodes: &[u8], list: &[u8]) -> Vec<u8> {
    let mut bytes = head(session.family, session.k, session.len, list.len());
    bytes.extend(list);
    for &node in list {
        bytes.extend(&nodes[block_at(node, session.len)]);
    }
    bytes
}

/// The first bytes of a box, for numbers that fit in them.
pub fn head(family: usize, k: usize, len: usize, held: usize) -> Vec<u8> {
    let [low, high] = (len as u16).to_le_bytes();
    vec![family as u8, k as u8, low, high, held as u8, 0, 0, 0]
}

/// The object that a call reads out: 13, 6, 14, the last with its block.
fn object_for(session: &Session, nodes: &[u8], room: usize) -> Result<Vec<u8>, (u8, usize)> {
    check_nodes(session, nodes).map_err(|refusal| (refusal, 0))?;
    if room != session.k * session.len {
        return Err((6, 0));
    }
    let code = code(session.family, session.k);
    let mut object = Vec::new();
    for block in 1..=session.k {
        let node = code.data_node(block);
        if session.live[usize::from(node)] == 0 {
            return Err((14, block));
        }
        object.extend(&nodes[block_at(node, session.len)]);
    }
    Ok(object)
}
