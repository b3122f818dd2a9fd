//! The calls that give a `Vec` give what the calls with lent buffers do, refusals too.
#![cfg(feature = "alloc")]
use mogtriz::{
    MARKS, MOST_LEN, MOST_NODES, PLAN_ROOM, Refusal, SIMPLEX, Session, TETRAHEDRON, WEIGHT_TWO,
    deinterleave, deinterleave_to_vec, encode, encode_to_vec, from_graded, from_graded_to_vec,
    interleave, interleave_to_vec, to_graded, to_graded_to_vec,
};

const CODES: [(usize, usize, usize); 4] = [
    (SIMPLEX, 3, 8),
    (SIMPLEX, 8, 1),
    (WEIGHT_TWO, 22, 5),
    (TETRAHEDRON, 4, MOST_LEN),
];

fn bytes(count: usize) -> Vec<u8> {
    (0..=250).cycle().take(count).collect()
}

/// Sessions of a code: none live, every third node, all.
fn sessions((family, k, len): (usize, usize, usize)) -> Vec<Session> {
    let n = mogtriz::node_count(family, k).expect("a code");
    let all: Vec<u8> = (1..=255).take(n).collect();
    let third: Vec<u8> = all.iter().copied().step_by(3).collect();
    [vec![], third, all]
        .iter()
        .map(|live| Session::start(family, k, len, live).expect("a sound start"))
        .collect()
}

/// A session that every call gives 13 for.
fn turned_away() -> Session {
    Session::from_parts(SIMPLEX, 3, usize::MAX, 0, [1; MARKS], [0; MARKS])
}

#[test]
fn nodes_are_encoded_alike() -> Result<(), Refusal> {
    for (family, k, len) in CODES {
        let object = bytes(k * len);
        let mut nodes = vec![0; mogtriz::nodes_len(family, k, len)?];
        encode(family, k, len, &object, &mut nodes)?;
        assert_eq!(encode_to_vec(family, k, len, &object)?, nodes);
        let refused = encode_to_vec(family, k, len, &object[1..]);
        assert_eq!(refused, Err(Refusal::BufferLength));
    }
    for (family, k, len) in [(0, 9, 0), (SIMPLEX, 9, 0), (SIMPLEX, 8, usize::MAX)] {
        let wanted = encode(family, k, len, &[], &mut []).unwrap_err();
        assert_eq!(encode_to_vec(family, k, len, &[]), Err(wanted));
    }
    Ok(())
}

/// An object, interleaved or deinterleaved, into a lent buffer and into a `Vec`.
type IntoBuffer = fn(usize, usize, usize, &[u8], &mut [u8]) -> Result<(), Refusal>;
type IntoVec = fn(usize, usize, usize, &[u8]) -> Result<Vec<u8>, Refusal>;

#[test]
fn objects_are_interleaved_and_deinterleaved_alike() -> Result<(), Refusal> {
    let forms: [(IntoBuffer, IntoVec); 2] = [
        (interleave, interleave_to_vec),
        (deinterleave, deinterleave_to_vec),
    ];
    for (into_buffer, into_vec) in forms {
        for (family, k, len) in CODES {
            let object = bytes(k * len);
            let mut out = vec![0; k * len];
            into_buffer(family, k, len, &object, &mut out)?;
            assert_eq!(into_vec(family, k, len, &object)?, out);
            let refused = into_vec(family, k, len, &object[1..]);
            assert_eq!(refused, Err(Refusal::BufferLength));
        }
        for (family, k, len) in [(0, 9, 0), (SIMPLEX, 9, 0), (SIMPLEX, 8, usize::MAX)] {
            let wanted = into_buffer(family, k, len, &[], &mut []).unwrap_err();
            assert_eq!(into_vec(family, k, len, &[]), Err(wanted));
        }
    }
    Ok(())
}

#[test]
fn an_interleaved_object_is_another_and_comes_back() -> Result<(), Refusal> {
    for (family, k, len) in CODES {
        let object = bytes(k * len);
        let interleaved = interleave_to_vec(family, k, len, &object)?;
        assert_eq!(interleaved == object, len == 1);
        assert_eq!(deinterleave_to_vec(family, k, len, &interleaved)?, object);
    }
    Ok(())
}

#[test]
fn boxes_are_written_and_read_alike() -> Result<(), Refusal> {
    for session in CODES.into_iter().flat_map(sessions) {
        let nodes = bytes(session.nodes_len()?);
        let mut out = vec![0; session.box_len(session.node_count()?)?];
        let live = session.live_nodes_to_vec()?;
        for list in [&[][..], &live, &live[..live.len() / 2]] {
            let length = session.write(&nodes, list, &mut out)?;
            let written = session.write_to_vec(&nodes, list)?;
            assert_eq!(written, out[..length]);

            let mut again = vec![0; nodes.len()];
            let read = Session::read(&written, &mut again)?;
            assert_eq!(Session::read_to_vec(&written)?, (read, again));
        }
    }
    Ok(())
}

/// A box converted both ways, whatever it is.
fn convert_alike(box_bytes: &[u8]) {
    let mut out = vec![0; box_bytes.len()];
    let length = from_graded(box_bytes, &mut out);
    let wanted = length.map(|length| out[..length].to_vec());
    assert_eq!(from_graded_to_vec(box_bytes), wanted);
    let length = to_graded(box_bytes, &mut out);
    let wanted = length.map(|length| out[..length].to_vec());
    assert_eq!(to_graded_to_vec(box_bytes), wanted);
}

#[test]
fn boxes_are_converted_and_refused_alike() -> Result<(), Refusal> {
    for session in CODES.into_iter().flat_map(sessions) {
        let nodes = bytes(session.nodes_len()?);
        let written = session.write_to_vec(&nodes, &session.live_nodes_to_vec()?)?;
        convert_alike(&written);
        convert_alike(&written[1..]);
        if session.family() == SIMPLEX {
            assert_eq!(to_graded_to_vec(&from_graded_to_vec(&written)?)?, written);
        }
    }
    for faulty in [&[][..], &[4; 8], &[1, 3, 1, 0, 1, 0, 0, 0, 8, 0]] {
        convert_alike(faulty);
    }
    Ok(())
}

#[test]
fn live_nodes_are_listed_alike() {
    for session in CODES.into_iter().flat_map(sessions).chain([turned_away()]) {
        let mut out = [0; MOST_NODES];
        let wanted = session
            .live_nodes_into(&mut out)
            .map(|count| out[..count].to_vec());
        assert_eq!(session.live_nodes_to_vec(), wanted, "{session:?}");
    }
}

#[test]
fn boxes_are_refused_alike() {
    for session in CODES.into_iter().flat_map(sessions).chain([turned_away()]) {
        let nodes = bytes(session.nodes_len().unwrap_or(0));
        let mut out = vec![0; 8 + 255 * (MOST_LEN + 1)];
        let long = [1; 300];
        for nodes in [&nodes[..], &[0; 2]] {
            for list in [&[][..], &[0], &[255], &[2, 1], &[1, 2], &long, &[0; 300]] {
                let length = session.write(nodes, list, &mut out);
                let wanted = length.map(|length| out[..length].to_vec());
                let written = session.write_to_vec(nodes, list);
                assert_eq!(written, wanted, "{session:?} {list:?}");
            }
        }
    }
    for bytes in [&[][..], &[4; 8], &[1, 3, 1, 0, 1, 0, 0, 0, 8, 0]] {
        let wanted = Session::check(bytes).unwrap_err();
        assert_eq!(Session::read_to_vec(bytes), Err(wanted));
    }
}

#[test]
fn objects_are_read_out_alike() {
    for session in CODES.into_iter().flat_map(sessions).chain([turned_away()]) {
        let nodes = bytes(session.nodes_len().unwrap_or(0));
        let mut object = vec![0; session.object_len().unwrap_or(0)];
        for nodes in [&nodes[..], &[0; 2]] {
            let read_out = session.read_out(nodes, &mut object);
            let wanted = read_out.map(|()| object.clone());
            assert_eq!(session.read_out_to_vec(nodes), wanted, "{session:?}");
        }
    }
}

#[test]
fn repairs_are_planned_alike() {
    for session in CODES.into_iter().flat_map(sessions).chain([turned_away()]) {
        let mut out = [0; PLAN_ROOM];
        let plan = session.plan(&mut out);
        let wanted = plan.map(|plan| (plan.repairs, plan.steps().collect()));
        assert_eq!(session.plan_to_vec(), wanted, "{session:?}");
    }
}
