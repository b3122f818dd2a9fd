//! Boxes of simplex nodes in graded order, converted to our numbers and back (document 02, K1).
use compare::boxes::{HEAD, box_len, head};
use compare::graded::{blocks_of, node_at, order, position_of};
use compare::guarded::Guarded;
use compare::random::Random;
use compare::samples::{Shape, nodes_in, some_of};
use compare::{calls, library};
use mogtriz::raw::{self, Converted};
use std::fs;
use std::path::Path;

/// Every k of simplex.
const KS: std::ops::RangeInclusive<usize> = 2..=8;

type Conversion = fn(&[u8], &mut [u8]) -> Converted;

/// By the package and from C.
const FROM_GRADED: [Conversion; 2] = [library::from_graded, raw::from_graded];
const TO_GRADED: [Conversion; 2] = [library::to_graded, raw::to_graded];

fn simplex(k: usize, len: usize) -> Shape {
    Shape { family: 1, k, len }
}

/// The new box, which has to be just as long as the old one, whichever call makes it.
fn converted(calls: [Conversion; 2], bytes: &[u8]) -> Vec<u8> {
    let [by_package, from_c] = calls.map(|convert| {
        let mut out = vec![0x5a; bytes.len()];
        let Converted { refusal, length } = convert(bytes, &mut out);
        assert_eq!((refusal, length), (0, bytes.len()), "{bytes:02x?}");
        out
    });
    assert_eq!(by_package, from_c, "{bytes:02x?}");
    by_package
}

// ---- the order

#[test]
fn the_order_for_k_3_is_as_printed() {
    assert_eq!(order(3), [1, 2, 4, 3, 5, 6, 7]);
}

/// The model's own order: every column once, and of two neighbours the first has fewer data blocks, or as many and the earlier list.
#[test]
fn every_order_goes_by_the_number_and_the_lists_of_blocks() {
    for k in KS {
        let mut columns = order(k).to_vec();
        for pair in columns.windows(2) {
            let [a, b] = [pair[0], pair[1]].map(blocks_of);
            assert!(a.len() <= b.len(), "k {k}: {a:?}, {b:?}");
            assert!(a.len() < b.len() || a < b, "k {k}: {a:?}, {b:?}");
        }
        columns.sort();
        assert_eq!(columns, simplex(k, 1).all_nodes(), "k {k}");
    }
}

/// A box of one node, and its number in the other order.
fn number_alone(calls: [Conversion; 2], k: usize, number: u8) -> u8 {
    let bytes = [1, k as u8, 1, 0, 1, 0, 0, 0, number, 0xc3];
    let new = converted(calls, &bytes);
    assert_eq!((&new[..HEAD], new[HEAD + 1]), (&bytes[..HEAD], 0xc3));
    new[HEAD]
}

#[test]
fn every_position_becomes_its_node_and_back() {
    for k in KS {
        let nodes = simplex(k, 1).all_nodes();
        let ours: Vec<u8> = nodes
            .iter()
            .map(|&position| number_alone(FROM_GRADED, k, position))
            .collect();
        assert_eq!(ours, order(k), "k {k}");
        for (&node, &position) in ours.iter().zip(&nodes) {
            let back = number_alone(TO_GRADED, k, node);
            assert_eq!(back, position, "k {k} node {node}");
        }
    }
}

/// A file of the repository.
fn text_of(file: &str) -> String {
    let path = Path::new(env!("CARGO_MANIFEST_DIR")).join("..").join(file);
    fs::read_to_string(&path).unwrap_or_else(|why| panic!("{}: {why}", path.display()))
}

#[test]
fn the_programs_lines_are_the_order_for_k_8() {
    let lines = order(8).iter().map(|column| format!("{column}\n"));
    let wanted: String = lines.collect();
    assert_eq!(text_of("crates/show_graded/stdout"), wanted);
}

#[test]
fn the_constant_table_is_the_order_for_k_8() {
    let code = text_of("crates/graded/src/lib.rt");
    let (_, table) = code
        .split_once("const COLUMNS: [u8; 255] = [")
        .expect("the table");
    let (table, _) = table.split_once(']').expect("its end");
    let entries = table
        .split(',')
        .map(str::trim)
        .filter(|entry| !entry.is_empty());
    let columns: Vec<u8> = entries
        .map(|entry| entry.parse().expect("a number"))
        .collect();
    assert_eq!(columns, order(8));
}

// ---- sound boxes

/// A body that says which number it is of, and goes on by that number alone.
fn body_of(number: u8, len: usize) -> Vec<u8> {
    let byte = |place: usize| (usize::from(number) + place * 97) as u8;
    (0..len).map(byte).collect()
}

/// A box of these numbers, strictly rising, each with the body of what `of` makes of it.
fn box_with(k: usize, len: usize, list: &[u8], of: impl Fn(u8) -> u8) -> Vec<u8> {
    let mut bytes = head(1, k, len, list.len());
    bytes.extend(list);
    for &number in list {
        bytes.extend(body_of(of(number), len));
    }
    bytes
}

/// Destinations: just enough, a byte more and many more.
fn rooms(length: usize) -> [usize; 3] {
    [length, length + 1, length + 700]
}

/// A box of these nodes, with bodies of the nodes' numbers, and the same in graded order: each is converted to the other, into room of
/// several lengths, of which what lies beyond the box keeps its bytes.
fn hold_both_ways(k: usize, len: usize, nodes: &[u8]) {
    let mut positions: Vec<u8> = nodes.iter().map(|&node| position_of(k, node)).collect();
    positions.sort();
    let ours = box_with(k, len, nodes, |node| node);
    let theirs = box_with(k, len, &positions, |position| node_at(k, position));
    hold(FROM_GRADED, &theirs, &ours);
    hold(TO_GRADED, &ours, &theirs);
}

fn hold(calls: [Conversion; 2], bytes: &[u8], wanted: &[u8]) {
    let length = bytes.len();
    let lent = Guarded::holding(bytes);
    for room in rooms(length) {
        for convert in calls {
            let mut out = Guarded::filled(room);
            let beyond = out.bytes()[length..].to_vec();
            let given = convert(lent.bytes(), out.bytes_mut());
            let place = || format!("{:02x?} into {room}", &bytes[..length.min(64)]);
            assert_eq!(
                (given.refusal, given.length),
                (0, wanted.len()),
                "{}",
                place()
            );
            assert!(out.bytes()[..length] == *wanted, "{}", place());
            assert!(out.bytes()[length..] == beyond, "{}: beyond", place());
            assert!(out.guards_untouched() && lent.untouched(), "{}", place());
        }
    }
}

#[test]
fn every_set_of_nodes_of_few_is_converted_both_ways() {
    let mut count = 0;
    for (k, lens) in [(2, &[1, 2, 3, 255][..]), (3, &[1, 2, 5]), (4, &[1])] {
        for bits in 0..1 << ((1 << k) - 1) {
            for &len in lens {
                hold_both_ways(k, len, &nodes_in(bits));
                count += 1;
            }
        }
    }
    println!("{count} boxes converted both ways");
    assert_eq!(count, 8 * 4 + 128 * 3 + 32_768);
}

/// The nodes that are left where one or two are lost, and the lost ones alone.
fn hold_losses(k: usize, len: usize) -> usize {
    let all = simplex(k, len).all_nodes();
    let mut count = 0;
    for (i, &first) in all.iter().enumerate() {
        for &second in &all[i..] {
            let lost = |node: &u8| *node == first || *node == second;
            let (some, others): (Vec<u8>, Vec<u8>) = all.iter().partition(|node| lost(node));
            hold_both_ways(k, len, &some);
            hold_both_ways(k, len, &others);
            count += 1;
        }
    }
    count
}

#[test]
fn every_loss_of_one_or_two_nodes_is_converted_both_ways() {
    let count: usize = [4, 5, 6].map(|k| hold_losses(k, 2)).iter().sum();
    println!("{count} losses converted both ways");
    assert_eq!(count, 15 * 8 + 31 * 16 + 63 * 32);
}

#[test]
fn boxes_of_every_k_and_many_lengths_are_converted_both_ways() {
    let mut random = Random::seeded();
    for k in KS {
        for (len, times) in [(1, 60), (2, 40), (16, 20), (64, 10), (255, 6), (1536, 3)] {
            let all = simplex(k, len).all_nodes();
            hold_both_ways(k, len, &[]);
            hold_both_ways(k, len, &all);
            for _ in 0..times {
                hold_both_ways(k, len, &some_of(&all, &mut random));
            }
        }
    }
}

/// A box of any bodies, converted there and back, either way round; and each way as the model has it.
#[test]
fn a_box_there_and_back_is_the_same_box() {
    let mut random = Random::seeded();
    let mut count = 0;
    for k in KS {
        for len in [1, 2, 16, 64, 255, 1536] {
            let shape = simplex(k, len);
            for list in shape.lists(&mut random) {
                let bytes = shape.box_of(&list, &mut random);
                let there = [FROM_GRADED, TO_GRADED].map(|calls| converted(calls, &bytes));
                let [ours, theirs] = there;
                assert!(converted(TO_GRADED, &ours) == bytes, "{shape:?} {list:?}");
                assert!(
                    converted(FROM_GRADED, &theirs) == bytes,
                    "{shape:?} {list:?}"
                );
                assert_eq!(calls::from_graded(&bytes, bytes.len()), 0);
                assert_eq!(calls::to_graded(&bytes, bytes.len() + 9), 0);
                count += 1;
            }
        }
    }
    println!("{count} boxes there and back");
}

// ---- refusals

/// A fault put into a box, of a kind that a box of k = 4 can have in every family, and the number that it gives.
type Fault = (u8, fn(&mut Vec<u8>));

/// In the order of the checks. They are put in from the last to the first, so that the cut comes after all else.
const FAULTS: [Fault; 10] = [
    (7, |bytes| bytes.truncate(HEAD - 1)),
    (1, |bytes| bytes[0] = 4),
    (2, |bytes| bytes[1] = 23),
    (3, |bytes| bytes[2] = 0),
    (8, |bytes| bytes[6] = 1),
    (9, |bytes| bytes[4] = 255),
    (7, |bytes| bytes.push(0x77)),
    (4, |bytes| bytes[HEAD + 2] = 255),
    (5, |bytes| bytes[HEAD + 1] = bytes[HEAD]),
    (1, |bytes| bytes[0] = 2),
];

/// What both conversions, by the package and from C, have to give; a refusal gives the length 0 and writes nothing.
fn hold_refusal(bytes: &[u8], room: usize, number: u8) {
    let lent = Guarded::holding(bytes);
    for convert in FROM_GRADED.into_iter().chain(TO_GRADED) {
        let mut out = Guarded::filled(room);
        let answer = convert(lent.bytes(), out.bytes_mut());
        let wanted = Converted {
            refusal: number,
            length: if number == 0 { bytes.len() } else { 0 },
        };
        assert_eq!(answer, wanted, "{bytes:02x?} into {room}");
        let written = !out.untouched();
        assert_eq!(written, number == 0, "{bytes:02x?} into {room}");
        assert!(lent.untouched(), "{bytes:02x?}: the box was written to");
    }
    for calls in [calls::from_graded, calls::to_graded] {
        assert_eq!(calls(bytes, room), number, "{bytes:02x?} into {room}");
    }
}

/// Every set of faults, with a destination that is long enough and one that is a byte short: the first fault is told, and the short
/// destination after all others.
#[test]
fn of_every_set_of_faults_the_first_is_told() {
    let sound = box_with(4, 2, &[3, 5, 8], |node| node);
    for set in 0..1 << FAULTS.len() {
        let chosen: Vec<Fault> = nodes_in(set)
            .iter()
            .map(|&fault| FAULTS[usize::from(fault) - 1])
            .collect();
        let mut bytes = sound.clone();
        chosen
            .iter()
            .rev()
            .for_each(|(_, put_in)| put_in(&mut bytes));
        let first = chosen.first().map_or(0, |(number, _)| *number);
        let if_short = if first == 0 { 6 } else { first };
        hold_refusal(&bytes, bytes.len() - 1, if_short);
        hold_refusal(&bytes, 0, if_short);
        for room in rooms(bytes.len()) {
            hold_refusal(&bytes, room, first);
        }
    }
}

/// The ends of each range, in a box that is sound but for that.
#[test]
fn faults_at_the_ends_of_their_ranges_are_told() {
    let sound = box_with(3, 2, &[3, 5, 7], |node| node);
    let with = |place: usize, byte: u8| {
        let mut bytes = sound.clone();
        bytes[place] = byte;
        bytes
    };
    let rows = [
        (vec![], 7),
        (sound[..HEAD - 1].to_vec(), 7),
        (with(0, 0), 1),
        (with(0, 4), 1),
        (with(0, 255), 1),
        (with(1, 1), 2),
        (with(1, 9), 2),
        (with(2, 0), 3),
        // 1,537 and 4,098
        ([&[1, 3, 1, 6], &sound[4..]].concat(), 3),
        (with(3, 16), 3),
        (with(5, 1), 8),
        (with(6, 128), 8),
        (with(7, 255), 8),
        (with(4, 8), 9),
        (with(4, 255), 9),
        (with(4, 4), 7),
        (with(4, 2), 7),
        (sound[..HEAD].to_vec(), 7),
        (sound[..sound.len() - 1].to_vec(), 7),
        ([&sound[..], &[0]].concat(), 7),
        (with(HEAD, 0), 4),
        (with(HEAD + 2, 8), 4),
        (with(HEAD + 1, 3), 5),
        (with(HEAD + 1, 7), 5),
        (with(HEAD, 6), 5),
    ];
    for (bytes, number) in rows {
        for room in rooms(bytes.len()) {
            hold_refusal(&bytes, room, number);
        }
        hold_refusal(&bytes, bytes.len().saturating_sub(1), number);
    }
    for room in 0..sound.len() {
        hold_refusal(&sound, room, 6);
    }
}

/// Sound boxes of families 2 and 3 get 1, whatever they hold and however short the destination.
#[test]
fn sound_boxes_of_the_other_families_get_1() {
    let mut random = Random::seeded();
    let others = (2..=22).map(|k| (2, k)).chain([(3, 4)]);
    for (family, k) in others {
        for len in [1, 3, 64] {
            let shape = Shape { family, k, len };
            for list in shape.lists(&mut random) {
                let bytes = shape.box_of(&list, &mut random);
                let length = bytes.len();
                for room in [0, length - 1, length, length + 5] {
                    hold_refusal(&bytes, room, 1);
                }
            }
        }
    }
}

/// A box of no node is its head alone, and stays as it is.
#[test]
fn a_box_of_no_node_stays() {
    for k in KS {
        for len in [1, 255, 256, 1536] {
            let bytes = head(1, k, len, 0);
            assert_eq!(bytes.len(), box_len(0, len));
            hold(FROM_GRADED, &bytes, &bytes);
            hold(TO_GRADED, &bytes, &bytes);
            hold_refusal(&bytes, HEAD - 1, 6);
            hold_refusal(&bytes, 0, 6);
        }
    }
}
