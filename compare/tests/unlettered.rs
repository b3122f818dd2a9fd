//! The examples of document 01 that have no letter, as they are printed there; those of L as document 02, K2, has them.
use compare::library;
use mogtriz::raw::{self, MARKS};

/// Simplex 3, L 1, with nodes 4, 5 and 7.
const PRINTED: [u8; 14] = [1, 3, 1, 0, 3, 0, 0, 0, 4, 5, 7, 4, 5, 7];

/// The number that a start gives, which the box of no node has to give too.
fn answer(family: u8, k: u8, len: u16) -> u8 {
    let started = raw::start(family.into(), k.into(), len.into(), &[]);
    let [low, high] = len.to_le_bytes();
    let bytes = [family, k, low, high, 0, 0, 0, 0];
    let by_package = library::start(family.into(), k.into(), len.into(), &[]);
    for other in [by_package, library::check(&bytes), raw::check(&bytes)] {
        assert_eq!(started, other, "family {family} k {k} L {len}");
    }
    started.refusal
}

#[test]
fn length_1536_is_accepted_and_1537_gives_3() {
    for (family, k) in [(1, 2), (1, 8), (2, 2), (2, 22), (3, 4)] {
        assert_eq!(answer(family, k, 1536), 0, "family {family} k {k}");
        assert_eq!(answer(family, k, 1537), 3, "family {family} k {k}");
    }
}

#[test]
fn simplex_8_is_accepted_and_9_gives_2() {
    assert_eq!(answer(1, 8, 1), 0);
    assert_eq!(answer(1, 9, 1), 2);
}

#[test]
fn weight_two_22_is_accepted_and_23_gives_2() {
    assert_eq!(answer(2, 22, 1), 0);
    assert_eq!(answer(2, 23, 1), 2);
}

#[test]
fn the_list_3_3_gives_5() {
    for (family, k) in [(1, 3), (2, 3), (3, 4)] {
        let started = library::start(family.into(), k.into(), 1, &[3, 3]);
        assert_eq!(started.refusal, 5, "family {family}");
        let checked = library::check(&[family, k, 1, 0, 2, 0, 0, 0, 3, 3, 9, 9]);
        assert_eq!(checked.refusal, 5, "family {family}");
        let session = library::start(family.into(), k.into(), 1, &[3]).session;
        let nodes = vec![0; library::node_count(family.into(), k.into())];
        let written = library::write(session, &nodes, &[3, 3], &mut [0; 12]);
        assert_eq!(written.refusal, 5, "family {family}");
    }
}

#[test]
fn the_printed_box_is_accepted() {
    let mut live = [0; MARKS];
    for node in [4, 5, 7] {
        live[node] = 1;
    }
    let checked = library::check(&PRINTED);
    assert_eq!(checked.refusal, 0);
    let session = checked.session;
    assert_eq!((session.family, session.k, session.len), (1, 3, 1));
    assert_eq!(session.live, live);
    let mut nodes = [9; 7];
    assert_eq!(library::read(&PRINTED, &mut nodes), checked);
    assert_eq!(nodes, [9, 9, 9, 4, 5, 9, 7]);
    for (node, from) in [(4, 11), (5, 12), (7, 13)] {
        let part = library::body(&PRINTED, node);
        assert_eq!((part.refusal, part.from, part.length), (0, from, 1));
    }
}

#[test]
fn the_printed_box_one_byte_shorter_or_longer_gives_7() {
    let shorter = &PRINTED[..13];
    let longer = [&PRINTED[..], &[0]].concat();
    for bytes in [shorter, &longer] {
        assert_eq!(library::check(bytes).refusal, 7);
        assert_eq!(library::read(bytes, &mut [9; 7]).refusal, 7);
        assert_eq!(library::body(bytes, 4).refusal, 7);
    }
}
