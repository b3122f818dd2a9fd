//! A box of any content: checked, read, a body looked for in it, and converted from and to graded order; an accepted one is written
//! again, repaired and read out, and asked for the pairs of a node, and one that is converted comes back.
use crate::input::{Input, MOST_BYTES};
use crate::seen::Operation::{Body, Check, FromGraded, LiveNodes, Pairs, Plan};
use crate::seen::Operation::{Read, ReadOut, Run, ToGraded, Write};
use crate::seen::count;
use compare::boxes::{self, HEAD, box_len, live_nodes};
use compare::papers::checked_node_count;
use compare::{calls, library};
use mogtriz::raw::Session;

pub fn compare(input: &mut Input) {
    let node = input.number();
    // the lengths are near what the box asks for, which follows
    let tags = input.part(2);
    let list = input.list();
    let tag = input.byte();
    let bytes = &box_from(input.0, tag);
    count(Check, calls::check(bytes));
    // the other numbers are the first again once cut to 8, 16 or 32 bits
    for raise in [0, 1 << 8, 1 << 16, 1 << 32] {
        count(Body, calls::body(bytes, node.wrapping_add(raise)));
    }
    let checked = boxes::check(bytes);
    with_room(bytes, Input(tags).length_near(bytes.len()));
    let nodes_len = Input(tags).nodes_len(&checked.session);
    if count(Read, calls::read(bytes, nodes_len)) == 0 {
        let mut nodes = vec![0x5a; nodes_len];
        library::read(bytes, &mut nodes);
        with_nodes(checked.session, &mut nodes, &list, bytes);
        count(Pairs, calls::pairs(checked.session, node).refusal);
    }
}

/// The bytes as they are, or with E near n; and of their own length, or cut or filled to the one that the head asks for, so that the
/// checks after 7 are reached.
fn box_from(bytes: &[u8], tag: u8) -> Vec<u8> {
    let mut bytes = bytes.to_vec();
    if bytes.len() < HEAD {
        return bytes;
    }
    let len = u16::from_le_bytes([bytes[2], bytes[3]]);
    if tag & 2 != 0 {
        bytes[4] = near_n(bytes[0].into(), bytes[1].into(), tag >> 2);
    }
    if tag & 1 != 0 {
        let length = box_len(bytes[4].into(), len.into());
        bytes.resize(length.min(MOST_BYTES), 0xc3);
    }
    bytes
}

/// n − 1, n, n + 1 or n + 2 of a family and k, 255 where that is no byte; near 0 where they are out of range.
fn near_n(family: usize, k: usize, choice: u8) -> u8 {
    let n = checked_node_count(family, k, 1).unwrap_or(1);
    let held = n - 1 + usize::from(choice % 4);
    held.min(255) as u8
}

/// A box converted into so much room, both ways; where that is served it comes back with the same bytes.
fn with_room(bytes: &[u8], room: usize) {
    let mut other = vec![0; room];
    let mut again = vec![0; bytes.len()];
    if count(FromGraded, calls::from_graded(bytes, room)) == 0 {
        let length = library::from_graded(bytes, &mut other).length;
        library::to_graded(&other[..length], &mut again);
        assert_eq!(again, bytes);
    }
    if count(ToGraded, calls::to_graded(bytes, room)) == 0 {
        let length = library::to_graded(bytes, &mut other).length;
        library::from_graded(&other[..length], &mut again);
        assert_eq!(again, bytes);
    }
}

/// An accepted box has the same bytes when it is written again, by its live nodes, which are its own list; then lists of its nodes,
/// a run, and all that is live.
fn with_nodes(session: Session, nodes: &mut [u8], list: &[u8], bytes: &[u8]) {
    let mut again = vec![0; bytes.len()];
    let own = live_nodes(&session);
    assert_eq!(own, bytes[HEAD..HEAD + usize::from(bytes[4])]);
    count(LiveNodes, calls::live_nodes(session, own.len()));
    let written = library::write(session, nodes, &own, &mut again);
    assert_eq!((written.refusal, &again[..]), (0, bytes));
    count(Write, calls::write(session, nodes, list, bytes.len()));
    count(Plan, calls::plan(session, 4 * 255).refusal);
    let object_len = session.k * session.len;
    count(ReadOut, calls::read_out(session, nodes, object_len));
    let run = calls::run(session, nodes);
    count(Run, run.refusal);
    count(ReadOut, calls::read_out(run.session, nodes, object_len));
    let live = live_nodes(&run.session);
    count(LiveNodes, calls::live_nodes(run.session, live.len()));
    let room = box_len(live.len(), session.len);
    count(Write, calls::write(run.session, nodes, &live, room));
}
