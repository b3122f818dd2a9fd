//! What is put in comes out again: nodes through a box, a box through its nodes, an object through all of it.
use compare::boxes::{self, HEAD, box_len};
use compare::guarded::Guarded;
use compare::library;
use compare::papers::{Code, every_code};
use compare::random::Random;
use compare::samples::{Shape, shapes, some_of};
use mogtriz::raw::{self, Session, Started};

const LENGTHS: [usize; 4] = [1, 3, 64, 257];

/// Every family, k and a choice of L.
fn every_shape() -> Vec<Shape> {
    let mut shapes = Vec::new();
    for Code { family, k, .. } in every_code() {
        shapes.extend(LENGTHS.map(|len| Shape { family, k, len }));
    }
    shapes
}

/// The session of a start that has to be accepted.
fn start(shape: Shape, live: &[u8]) -> Session {
    let Started { refusal, session } = library::start(shape.family, shape.k, shape.len, live);
    assert_eq!(refusal, 0, "{shape:?} {live:?}");
    session
}

/// The box that has to be written, nothing else in the destination being changed.
fn write(session: Session, nodes: &[u8], list: &[u8]) -> Vec<u8> {
    let length = box_len(list.len(), session.len);
    let mut out = Guarded::filled(length + 17);
    let beyond = out.bytes()[length..].to_vec();
    for write in [library::write, raw::write] {
        let written = write(session, nodes, list, out.bytes_mut());
        assert_eq!(written.refusal, 0, "{session:?} {list:?}");
        assert_eq!(written.length, length, "{session:?} {list:?}");
        assert_eq!(written.session, session, "{list:?}");
    }
    let unwritten = out.bytes()[length..] == beyond && out.guards_untouched();
    assert!(unwritten, "{session:?} {list:?}: bytes beyond the box");
    out.bytes()[..length].to_vec()
}

/// The list that has to be made of a session's live nodes.
fn every_live_node(session: Session) -> Vec<u8> {
    let mut out = [0; 255];
    let listed = library::live_nodes(session, &mut out);
    assert_eq!(listed.refusal, 0, "{session:?}");
    assert_eq!(raw::live_nodes(session, &mut out), listed, "{session:?}");
    out[..listed.length].to_vec()
}

/// Reads a box that has to be accepted, into a pattern.
fn read(bytes: &[u8], shape: Shape) -> (Session, Guarded) {
    let mut nodes = Guarded::filled(shape.nodes_len());
    let Started { refusal, session } = library::read(bytes, nodes.bytes_mut());
    assert_eq!(refusal, 0, "{shape:?}");
    assert!(nodes.guards_untouched(), "{shape:?}");
    (session, nodes)
}

/// Every node of the box, and no other, comes back from it, as a part of it and into a nodes buffer.
fn compare_nodes(bytes: &[u8], shape: Shape, listed: &[u8], nodes: &[u8]) {
    let session = start(shape, listed);
    let checked = library::check(bytes);
    assert_eq!((checked.refusal, checked.session), (0, session));
    let before = Guarded::filled(shape.nodes_len());
    let (read, after) = read(bytes, shape);
    assert_eq!(read, session);
    for node in shape.all_nodes() {
        let end = usize::from(node) * shape.len;
        let place = end - shape.len..end;
        let part = library::body(bytes, node.into());
        let body = &bytes[part.from..part.from + part.length];
        let got = &after.bytes()[place.clone()];
        if listed.contains(&node) {
            let block = &nodes[place];
            assert_eq!(part.refusal, 0, "{session:?} node {node}");
            assert!(body == block && got == block, "{session:?} node {node}");
        } else {
            assert_eq!((part.refusal, body), (12, &[][..]), "{session:?} {node}");
            assert!(got == &before.bytes()[place], "{session:?} node {node}");
        }
    }
}

#[test]
fn a_box_that_is_written_reads_to_the_same_nodes() {
    let mut random = Random::seeded();
    let mut count = 0;
    for shape in every_shape() {
        let nodes = random.bytes(shape.nodes_len());
        for live in shape.lists(&mut random) {
            let session = start(shape, &live);
            let some = some_of(&live, &mut random);
            for list in [&[][..], &live, &some] {
                let bytes = write(session, &nodes, list);
                compare_nodes(&bytes, shape, list, &nodes);
                count += 1;
            }
        }
    }
    println!("{count} boxes written and read");
    assert_eq!(count, 29 * 4 * 6 * 3);
}

#[test]
fn an_accepted_box_written_again_has_the_same_bytes() {
    let mut random = Random::seeded();
    let mut counts = [0; 2];
    for shape in every_shape().into_iter().chain(shapes()) {
        for list in shape.lists(&mut random) {
            let bytes = shape.box_of(&list, &mut random);
            let (session, nodes) = read(&bytes, shape);
            let own = &bytes[HEAD..HEAD + list.len()];
            let live = every_live_node(session);
            assert_eq!(live, own, "{session:?}");
            let again = write(session, nodes.bytes(), &live);
            assert!(again == bytes, "{session:?} {live:?}");
            counts[usize::from(list.is_empty())] += 1;
        }
    }
    let [others, empty] = counts;
    println!("{others} boxes read and written again, and {empty} of no node");
    assert!(others > 0 && empty > 0);
}

/// The lowest data block whose node is not live.
fn lowest_missing(code: &Code, live: &[u8]) -> Option<usize> {
    let missing = |block: &usize| !live.contains(&code.data_node(*block));
    (1..=code.k).find(missing)
}

/// Encodes, writes a box of the live nodes, reads it and reads out; gives the block that 14 names, or 0.
fn through_a_box(shape: Shape, live: &[u8], object: &[u8]) -> usize {
    let mut nodes = vec![0; shape.nodes_len()];
    let encoded = library::encode(shape.family, shape.k, shape.len, object, &mut nodes);
    assert_eq!(encoded, 0, "{shape:?}");
    let bytes = write(start(shape, live), &nodes, live);
    let (session, nodes) = read(&bytes, shape);
    assert_eq!(
        session,
        boxes::session(shape.family, shape.k, shape.len, live)
    );
    let mut out = Guarded::filled(shape.object_len());
    let answer = library::read_out(session, nodes.bytes(), out.bytes_mut());
    assert_eq!(answer.session, session);
    let from_c = raw::read_out(session, nodes.bytes(), out.bytes_mut());
    assert_eq!(from_c, answer, "{session:?}");
    if answer.refusal == 0 {
        assert!(out.bytes() == object, "{session:?}: another object");
        assert!(out.guards_untouched(), "{session:?}");
    } else {
        assert_eq!(answer.refusal, 14, "{session:?}");
        assert!(out.untouched(), "{session:?}: a refusal wrote");
    }
    answer.block
}

#[test]
fn an_object_comes_back_from_a_box_of_its_nodes() {
    let mut random = Random::seeded();
    let mut counts = [0; 2];
    for code in every_code() {
        let data_nodes: Vec<u8> = (1..=code.k).map(|block| code.data_node(block)).collect();
        for len in LENGTHS {
            let (family, k) = (code.family, code.k);
            let shape = Shape { family, k, len };
            let mut lists = shape.lists(&mut random);
            let mut enough =
                [data_nodes.clone(), some_of(&shape.all_nodes(), &mut random)].concat();
            enough.sort();
            enough.dedup();
            lists.push(enough);
            for live in lists {
                let object = random.bytes(shape.object_len());
                let block = through_a_box(shape, &live, &object);
                let wanted = lowest_missing(&code, &live).unwrap_or(0);
                assert_eq!(block, wanted, "{shape:?} {live:?}");
                counts[usize::from(block == 0)] += 1;
            }
        }
    }
    let [missing, whole] = counts;
    println!("{whole} objects put in and read out, {missing} with a block missing");
    assert!(whole > 0 && missing > 0);
}
