//! The families over every k: node counts, columns, their inverse, and which nodes are related.
use compare::library;
use compare::papers::{Code, FAMILIES, code, every_code, node_count, range_of_k};
use compare::random::Random;
use mogtriz::raw;

const LARGE: usize = 1 << 32;

/// What a number may be raised by and be itself again once cut to 8, 16 or 32 bits.
const CUTS: [usize; 3] = [1 << 8, 1 << 16, LARGE];

/// Families and k that stand for no code, those among them that would if they were cut.
fn no_codes() -> Vec<(usize, usize)> {
    let mut none = Vec::new();
    for family in FAMILIES {
        let range = range_of_k(family).expect("a known family");
        for k in range.clone() {
            none.extend([0, 4, 255, usize::MAX].map(|family| (family, k)));
            none.extend(CUTS.map(|cut| (cut + family, k)));
            none.extend(CUTS.map(|cut| (family, cut + k)));
        }
        none.extend([0, range.start() - 1, range.end() + 1, usize::MAX].map(|k| (family, k)));
    }
    none
}

/// Numbers that are no node's, as n is below 256, those among them that would be if they were cut.
fn no_nodes(code: &Code) -> Vec<usize> {
    let n = code.n();
    let mut none = vec![0, n + 1, 300, usize::MAX];
    none.extend(CUTS.map(|cut| cut + 1));
    none.extend(CUTS.map(|cut| cut + n));
    none
}

fn place(code: &Code) -> String {
    format!("family {} k {}", code.family, code.k)
}

#[test]
fn node_counts_follow_the_formulas() {
    let mut count = 0;
    for code in every_code() {
        let from_c = raw::mogtriz_node_count(code.family, code.k);
        for n in [library::node_count(code.family, code.k), from_c] {
            assert_eq!(n, node_count(code.family, code.k), "{}", place(&code));
            assert_eq!(n, code.n(), "{}: the matrix", place(&code));
        }
        count += 1;
    }
    println!("{count} node counts");
    assert_eq!(count, 7 + 21 + 1);
}

#[test]
fn a_family_or_k_out_of_range_has_no_nodes() {
    let none = no_codes();
    for &(family, k) in &none {
        let place = format!("family {family} k {k}");
        assert_eq!(library::node_count(family, k), 0, "{place}");
        assert_eq!(raw::mogtriz_node_count(family, k), 0, "{place}");
        assert_eq!(library::column(family, k, 1), 0, "{place}");
        assert_eq!(library::node_of_column(family, k, 1), 0, "{place}");
        // these are related in the simplex, weight-two and tetrahedron codes that cut numbers would give
        for triple in [[1, 2, 3], [1, 2, k % 256 + 1], [1, 2, 6]] {
            assert_eq!(library::related(family, k, triple), 0, "{place}");
        }
    }
    println!("{} families and k out of range", none.len());
    assert!(!none.is_empty());
}

#[test]
fn columns_and_nodes_undo_each_other() {
    let (mut nodes, mut others) = (0, 0);
    for code in every_code() {
        for node in 1..=code.n() {
            let column = library::column(code.family, code.k, node);
            assert_eq!(column, code.column(node), "{} node {node}", place(&code));
            let back = library::node_of_column(code.family, code.k, column);
            assert_eq!(back, node, "{} column {column}", place(&code));
            nodes += 1;
        }
        for node in no_nodes(&code) {
            let column = library::column(code.family, code.k, node);
            assert_eq!(column, 0, "{} node {node}", place(&code));
            others += 1;
        }
    }
    println!("{nodes} nodes and their columns, {others} numbers of no node");
    assert!(nodes > 0 && others > 0);
}

/// The node of each column below 2^k, 0 where there is none.
fn nodes_by_column(code: &Code) -> Vec<usize> {
    let mut nodes = vec![0; 1 << code.k];
    for (i, column) in code.columns().into_iter().enumerate() {
        nodes[column] = i + 1;
    }
    nodes
}

#[test]
fn columns_of_no_node_give_0() {
    let mut random = Random::seeded();
    let mut counts = [0; 2];
    for code in every_code() {
        let by_column = nodes_by_column(&code);
        let below = by_column.len();
        let mut compare = |column: usize| {
            let node = library::node_of_column(code.family, code.k, column);
            let expected = by_column.get(column).copied().unwrap_or(0);
            assert_eq!(node, expected, "{} column {column}", place(&code));
            counts[usize::from(node != 0)] += 1;
        };
        if code.k <= 12 {
            (0..below).for_each(&mut compare);
        } else {
            (0..20_000).for_each(|_| compare(random.below(below)));
        }
        let above = [below, below + 1, LARGE, LARGE + 1, usize::MAX];
        above.into_iter().for_each(&mut compare);
    }
    assert_eq!(library::node_of_column(3, 4, 15), 0);
    let [without, with_node] = counts;
    println!("{with_node} columns of a node, {without} of none");
    assert!(with_node > 0 && without > 0);
}

#[test]
fn pairs_stand_where_the_formula_puts_them() {
    let mut count = 0;
    for k in range_of_k(2).expect("a known family") {
        for i in 1..=k {
            for j in i + 1..=k {
                let node = k + (i - 1) * (2 * k - i) / 2 + (j - i);
                let column = (1 << (i - 1)) + (1 << (j - 1));
                assert_eq!(library::column(2, k, node), column, "k {k} pair {i}, {j}");
                let back = library::node_of_column(2, k, column);
                assert_eq!(back, node, "k {k} pair {i}, {j}");
                count += 1;
            }
        }
    }
    println!("{count} pairs");
    assert!(count > 0);
}

/// How many triples were compared that are not related, and how many that are.
#[derive(Default)]
struct Triples([usize; 2]);

impl Triples {
    /// Compares one triple with the XOR of the matrix's columns.
    fn compare(&mut self, code: &Code, columns: &[usize], triple: [usize; 3]) {
        let nodes = triple.iter().all(|node| (1..=columns.len()).contains(node));
        let expected = nodes && triple.iter().fold(0, |sum, node| sum ^ columns[node - 1]) == 0;
        let place = place(code);
        for related in [library::related, raw::related] {
            let related = related(code.family, code.k, triple);
            assert_eq!(related, u8::from(expected), "{place} nodes {triple:?}");
        }
        self.0[usize::from(expected)] += 1;
    }

    /// Every triple of nodes and of some numbers that are none.
    fn compare_all(&mut self, code: &Code) {
        let columns = code.columns();
        let numbers: Vec<usize> = (1..=code.n()).chain(no_nodes(code)).collect();
        for &a in &numbers {
            for &b in &numbers {
                for &c in &numbers {
                    self.compare(code, &columns, [a, b, c]);
                }
            }
        }
    }

    /// Random triples. Few of them are related, so each comes again with the node that its first two ask
    /// for, if there is one, and again with numbers that are no node's and with equal ones.
    fn compare_random(&mut self, code: &Code, random: &mut Random) {
        let columns = code.columns();
        let by_column = nodes_by_column(code);
        let others = no_nodes(code);
        for _ in 0..20_000 {
            let [a, b, c] = [(); 3].map(|()| 1 + random.below(code.n()));
            let third = by_column[columns[a - 1] ^ columns[b - 1]];
            let other = others[random.below(others.len())];
            for triple in [[a, b, c], [a, b, third], [other, b, c], [a, other, third]] {
                let [x, y, z] = triple;
                self.compare(code, &columns, [x, y, z]);
                self.compare(code, &columns, [z, x, y]);
            }
            self.compare(code, &columns, [a, a, b]);
            self.compare(code, &columns, [a, a, a]);
        }
    }
}

#[test]
fn related_nodes_are_those_whose_columns_cancel() {
    let mut random = Random::seeded();
    let mut triples = Triples::default();
    for code in every_code() {
        if code.n() <= 28 {
            triples.compare_all(&code);
        } else {
            triples.compare_random(&code, &mut random);
        }
    }
    let [others, related] = triples.0;
    println!("{related} related triples, {others} others");
    assert!(related > 0 && others > 0);
}

#[test]
fn every_triple_of_weight_two_nodes() {
    let mut counts = [0; 2];
    for code in range_of_k(2).expect("a known family").map(|k| code(2, k)) {
        let columns = code.columns();
        let n = columns.len();
        for a in 1..=n {
            for b in 1..=n {
                for c in 1..=n {
                    let expected = columns[a - 1] ^ columns[b - 1] ^ columns[c - 1] == 0;
                    let related = library::related(2, code.k, [a, b, c]);
                    assert_eq!(related, u8::from(expected), "k {} {a}, {b}, {c}", code.k);
                    counts[usize::from(expected)] += 1;
                }
            }
        }
    }
    let [others, related] = counts;
    println!("{related} related triples of weight-two nodes, {others} others");
    // two data blocks and their pair, or the three pairs of three data blocks, in each order
    let lines = |k: usize| k * (k - 1) / 2 + k * (k - 1) * (k - 2) / 6;
    assert_eq!(related, (2..=22).map(|k| 6 * lines(k)).sum::<usize>());
}
