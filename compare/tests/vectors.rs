//! Tables and matrices printed in the source documents, against the library.
use compare::boxes::{block_at, head};
use compare::library;
use compare::papers::{MATRIX_7, column_number, xor_into};
use compare::random::Random;
use mogtriz::{Refusal, Session, from_graded_to_vec, to_graded_to_vec};

/// Table 2 of source document 002: by symbol index, its pairs of symbol indexes.
const TABLE_2: [[(usize, usize); 6]; 14] = [
    [(2, 11), (5, 6), (3, 8), (9, 10), (4, 13), (1, 7)],
    [(2, 12), (5, 13), (4, 6), (0, 7), (8, 10), (3, 9)],
    [(10, 13), (0, 11), (1, 12), (3, 6), (5, 8), (4, 9)],
    [(4, 12), (5, 11), (7, 10), (0, 8), (1, 9), (2, 6)],
    [(10, 11), (0, 13), (3, 12), (1, 6), (5, 7), (2, 9)],
    [(10, 12), (1, 13), (3, 11), (0, 6), (4, 7), (2, 8)],
    [(1, 4), (2, 3), (0, 5), (7, 13), (9, 12), (8, 11)],
    [(11, 12), (0, 1), (3, 10), (4, 5), (6, 13), (8, 9)],
    [(12, 13), (1, 10), (0, 3), (2, 5), (6, 11), (7, 9)],
    [(11, 13), (0, 10), (1, 3), (2, 4), (6, 12), (7, 8)],
    [(2, 13), (4, 11), (5, 12), (3, 7), (1, 8), (0, 9)],
    [(0, 2), (4, 10), (3, 5), (7, 12), (6, 8), (9, 13)],
    [(1, 2), (3, 4), (5, 10), (7, 11), (8, 13), (6, 9)],
    [(2, 10), (0, 4), (1, 5), (6, 7), (8, 12), (9, 11)],
];

/// Example 2.1 of source document 000: the generator matrix G.
const EXAMPLE_2_1: [[u8; 7]; 3] = [
    [1, 0, 0, 1, 1, 0, 1],
    [0, 1, 0, 1, 0, 1, 1],
    [0, 0, 1, 0, 1, 1, 1],
];

/// The numbers that the columns of G spell, in its order.
const EXAMPLE_ORDER: [usize; 7] = [1, 2, 4, 3, 5, 6, 7];

/// The sums of example 3.1 of source document 000, over the same G: c_1 = c_3 + c_5 and so on.
const EXAMPLE_3_1: [[usize; 3]; 4] = [[1, 3, 5], [2, 5, 7], [4, 3, 7], [6, 2, 3]];

#[test]
fn table_2_lists_exactly_the_related_pairs() {
    let mut counts = [0; 2];
    for (symbol, pairs) in TABLE_2.iter().enumerate() {
        for a in 0..14 {
            for b in 0..14 {
                let listed = pairs.contains(&(a, b)) || pairs.contains(&(b, a));
                let related = library::related(3, 4, [symbol, a, b].map(|index| 14 - index));
                assert_eq!(related, u8::from(listed), "symbol {symbol}, pair {a}, {b}");
                counts[usize::from(listed)] += 1;
            }
        }
    }
    let [unlisted, listed] = counts;
    println!("{listed} pairs listed, in either order, and related; {unlisted} unlisted and not");
    assert_eq!(counts, [14 * (14 * 14 - 12), 14 * 12]);
}

#[test]
fn matrix_7_gives_the_columns() {
    for node in 1..=14 {
        let expected = column_number(&MATRIX_7, node);
        assert_eq!(library::column(3, 4, node), expected, "node {node}");
        assert_eq!(library::node_of_column(3, 4, expected), node, "node {node}");
    }
    println!("14 columns of matrix (7)");
}

#[test]
fn example_2_1_holds_in_its_own_order() {
    let order: Vec<usize> = (1..=7).map(|p| column_number(&EXAMPLE_2_1, p)).collect();
    assert_eq!(order, EXAMPLE_ORDER);
    for node in order {
        assert_eq!(library::column(1, 3, node), node);
    }
    let mut random = Random::seeded();
    for _ in 0..100 {
        compare_codeword(&random.bytes(3));
    }
    println!("7 columns and 100 codewords of example 2.1");
}

/// The document's codeword c = uG, against the nodes of the object u.
fn compare_codeword(u: &[u8]) {
    let mut nodes = [0; 7];
    assert_eq!(library::encode(1, 3, 1, u, &mut nodes), 0);
    for (p, node) in EXAMPLE_ORDER.iter().enumerate() {
        let chosen = EXAMPLE_2_1.iter().zip(u).filter(|(row, _)| row[p] == 1);
        let c = chosen.fold(0, |sum, (_, byte)| sum ^ byte);
        assert_eq!(nodes[node - 1], c, "c_{} of {u:?}", p + 1);
    }
}

#[test]
fn sums_of_example_3_1_are_related() {
    for sum in EXAMPLE_3_1 {
        let nodes = sum.map(|p| EXAMPLE_ORDER[p - 1]);
        assert_eq!(library::related(1, 3, nodes), 1, "{sum:?}");
    }
    println!("4 sums of example 3.1");
}

/// Example 3.1: the nodes that are live, in the document's numbers.
const LIVE_3_1: [u8; 3] = [3, 5, 7];

/// The document's codeword c = uG, as blocks of L bytes.
fn codeword(u: &[u8], len: usize) -> Vec<u8> {
    let mut c = vec![0; 7 * len];
    for (p, block) in c.chunks_mut(len).enumerate() {
        for (row, data) in EXAMPLE_2_1.iter().zip(u.chunks(len)) {
            if row[p] == 1 {
                xor_into(block, data);
            }
        }
    }
    c
}

/// A box of these nodes of a codeword, in the document's numbers.
fn box_of_codeword(c: &[u8], len: usize, list: &[u8]) -> Vec<u8> {
    let mut bytes = head(1, 3, len, list.len());
    bytes.extend(list);
    for &p in list {
        bytes.extend(&c[block_at(p, len)]);
    }
    bytes
}

/// The session and the nodes that the box of example 3.1 gives once it is converted: nodes 4, 5 and 7, with the bodies of c_3, c_5
/// and c_7.
fn read_example_3_1(c: &[u8], len: usize) -> Result<(Session, Vec<u8>), Refusal> {
    let ours = from_graded_to_vec(&box_of_codeword(c, len, &LIVE_3_1))?;
    assert_eq!(ours[8..11], [4, 5, 7]);
    for (node, p) in [(4, 3), (5, 5), (7, 7)] {
        assert_eq!(mogtriz::body(&ours, node)?, &c[block_at(p, len)]);
    }
    Session::read_to_vec(&ours)
}

/// A box of every node, converted to the document's numbers, has its codeword.
fn compare_with_codeword(session: &Session, nodes: &[u8], c: &[u8]) -> Result<(), Refusal> {
    let all = session.live_nodes_to_vec()?;
    let theirs = to_graded_to_vec(&session.write_to_vec(nodes, &all)?)?;
    let wanted = box_of_codeword(c, session.block_len(), &[1, 2, 3, 4, 5, 6, 7]);
    assert_eq!(theirs, wanted);
    Ok(())
}

/// The node at a position of the document, out of a box that holds it alone.
fn node_at(p: usize) -> Result<usize, Refusal> {
    let ours = from_graded_to_vec(&[1, 3, 1, 0, 1, 0, 0, 0, p as u8, 0x5a])?;
    Ok(ours[8].into())
}

#[test]
fn example_3_1_is_repaired_from_a_box_in_its_own_numbers() -> Result<(), Refusal> {
    let mut random = Random::seeded();
    for len in [1, 2, 64] {
        for _ in 0..20 {
            let c = codeword(&random.bytes(3 * len), len);
            let (mut session, mut nodes) = read_example_3_1(&c, len)?;
            assert_eq!(session.run(&mut nodes)?.left, 0);
            compare_with_codeword(&session, &nodes, &c)?;
        }
    }
    println!("60 codewords of example 2.1 repaired from c_3, c_5 and c_7");
    Ok(())
}

/// In the document c_6 cannot be repaired first; the sums that it names are steps in the order in which it names them.
#[test]
fn sums_of_example_3_1_are_steps_once_the_box_is_converted() -> Result<(), Refusal> {
    let mut random = Random::seeded();
    let len = 5;
    let c = codeword(&random.bytes(3 * len), len);
    let (mut session, mut nodes) = read_example_3_1(&c, len)?;
    let mut step = |[node, first, second]: [usize; 3]| {
        let pair = [node_at(first)?, node_at(second)?];
        session.step(&mut nodes, node_at(node)?, pair)
    };
    assert_eq!(step(EXAMPLE_3_1[3]), Err(Refusal::NodeMissing));
    for sum in EXAMPLE_3_1 {
        step(sum)?;
    }
    assert_eq!(session.missing_nodes().count(), 0);
    compare_with_codeword(&session, &nodes, &c)
}
