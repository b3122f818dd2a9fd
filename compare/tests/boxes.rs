//! Checking boxes, reading them, finding bodies in them and converting them, against the papers' model, over boxes of every
//! content and length.
use compare::boxes::{HEAD, box_len, head};
use compare::calls;
use compare::papers::checked_node_count;
use compare::random::Random;
use compare::samples::{self, Shape, THREE_NODES, shapes, short_lists, spoiled};
use compare::tally::Tally;

/// What is done with each box of a kind.
type Visit<'a> = &'a mut dyn FnMut(&[u8]);

type Kind = fn(&mut Random, Visit);

const KINDS: [(&str, Kind); 7] = [
    ("sound", sound_boxes),
    ("header bytes", boxes_with_each_header_byte),
    ("lengths", boxes_of_each_length),
    ("node lists", boxes_with_faulty_lists),
    ("counts", boxes_with_a_wrong_count),
    ("several faults", boxes_with_several_faults),
    ("random bytes", random_boxes),
];

/// Longer boxes are not changed byte by byte.
const SMALL: usize = 5000;

fn sound_boxes(random: &mut Random, visit: Visit) {
    for shape in shapes() {
        for list in shape.lists(random) {
            visit(&shape.box_of(&list, random));
        }
    }
}

/// Small sound boxes, and for each shape one with a faulty list, which is met after the other faults.
fn small_boxes(random: &mut Random) -> Vec<Vec<u8>> {
    let mut boxes = Vec::new();
    for shape in shapes() {
        let mut lists = shape.lists(random);
        lists.push(faulty_list(shape, random));
        boxes.extend(lists.iter().map(|list| shape.box_of(list, random)));
    }
    boxes.retain(|bytes| bytes.len() <= SMALL);
    boxes
}

/// A list with faults that a box has room for.
fn faulty_list(shape: Shape, random: &mut Random) -> Vec<u8> {
    let some = samples::some_of(&shape.all_nodes(), random);
    let mut list = spoiled(&some, random);
    list.truncate(255);
    list
}

/// L, as the header has it.
fn len_of(bytes: &[u8]) -> usize {
    u16::from_le_bytes([bytes[2], bytes[3]]).into()
}

/// Cuts or lengthens a box to what its header says, unless that is long; says whether its length was wrong.
fn fit(bytes: &mut Vec<u8>, random: &mut Random) -> bool {
    let right = box_len(bytes[4].into(), len_of(bytes));
    if right == bytes.len() || right > SMALL {
        return false;
    }
    let more = random.bytes(right.saturating_sub(bytes.len()));
    bytes.truncate(right);
    bytes.extend(more);
    true
}

fn boxes_with_each_header_byte(random: &mut Random, visit: Visit) {
    for bytes in small_boxes(random) {
        for place in 0..HEAD {
            for value in 0..=255 {
                let mut changed = bytes.clone();
                changed[place] = value;
                visit(&changed);
                // with the right length the later checks are reached
                if fit(&mut changed, random) {
                    visit(&changed);
                }
            }
        }
    }
}

fn boxes_of_each_length(random: &mut Random, visit: Visit) {
    for mut bytes in small_boxes(random) {
        let right = bytes.len();
        // the last lengths are right once cut to 8 or 16 bits
        bytes.extend(random.bytes(65_536));
        let every = if right <= 2000 { 0 } else { right - 2 };
        let others = [right + 256, right + 65_536];
        for length in (every..=right + 2).chain(others) {
            visit(&bytes[..length]);
        }
    }
}

fn boxes_with_faulty_lists(random: &mut Random, visit: Visit) {
    for list in short_lists() {
        for shape in THREE_NODES {
            visit(&shape.box_of(&list, random));
        }
    }
    for shape in shapes() {
        for _ in 0..200 {
            let list = faulty_list(shape, random);
            visit(&shape.box_of(&list, random));
        }
    }
}

/// E one too small or too large, at n and above, and 255.
fn boxes_with_a_wrong_count(random: &mut Random, visit: Visit) {
    for bytes in small_boxes(random) {
        let n = checked_node_count(bytes[0].into(), bytes[1].into(), 1).expect("a sound head");
        let near_n = [n, n + 1, n + 2].map(|count| count.min(255) as u8);
        let near = [bytes[4].wrapping_sub(1), bytes[4].wrapping_add(1), 255];
        for count in near_n.into_iter().chain(near) {
            visit_with_count(&bytes, count, random, visit);
        }
    }
}

/// The box with another E: of its own length, of the right one, and of those that the bodies alone and the
/// list alone would ask for.
fn visit_with_count(bytes: &[u8], count: u8, random: &mut Random, visit: Visit) {
    let mut changed = bytes.to_vec();
    changed[4] = count;
    visit(&changed);
    if fit(&mut changed, random) {
        visit(&changed);
    }
    let [old, new] = [bytes[4], count].map(usize::from);
    let len = len_of(bytes);
    for length in [HEAD + old + new * len, HEAD + new + old * len] {
        changed.resize(length, 1);
        visit(&changed);
    }
}

/// Two to four bytes of header and list changed at once, for the order of the checks.
fn boxes_with_several_faults(random: &mut Random, visit: Visit) {
    for bytes in small_boxes(random) {
        for _ in 0..200 {
            let mut changed = bytes.clone();
            for _ in 0..2 + random.below(3) {
                let place = random.below(bytes.len().min(HEAD + 3));
                let value = random.number() as u8;
                changed[place] = *random.of(&[0, 1, 2, 3, 4, 5, 9, 255, value]);
            }
            if random.below(2) == 0 {
                fit(&mut changed, random);
            }
            visit(&changed);
        }
    }
}

fn random_boxes(random: &mut Random, visit: Visit) {
    for _ in 0..20_000 {
        let length = random.below(40);
        visit(&random.bytes(length));
        let shape = *random.of(&shapes());
        let held = random.below(shape.n() + 2);
        let mut likely = head(shape.family, shape.k, shape.len, held);
        likely.extend(random.bytes(length));
        visit(&likely);
        if fit(&mut likely, random) {
            visit(&likely);
        }
    }
}

/// Visits the boxes of all kinds; the visitor gets a generator of its own, so that all see the same boxes.
fn over_every_kind(tally: &mut Tally, mut visit: impl FnMut(&mut Tally, &mut Random, &[u8])) {
    let mut random = Random::seeded();
    let mut beside = random.beside();
    for (kind, boxes) in KINDS {
        tally.begin(kind);
        boxes(&mut random, &mut |bytes| visit(tally, &mut beside, bytes));
    }
}

#[test]
fn boxes_are_checked_as_the_papers_say() {
    let mut tally = Tally::of("check");
    over_every_kind(&mut tally, |tally, _, bytes| {
        tally.add(calls::check(bytes));
    });
    tally.report(&[0, 1, 2, 3, 4, 5, 7, 8, 9], 500_000);
}

/// What the head of a box says: n, or 1, 2 or 3 where the box is refused for it; and whether the length is as the head asks.
struct Fields {
    n: Result<usize, u8>,
    zeros: bool,
    held: usize,
    right_length: bool,
}

impl Fields {
    fn of(bytes: &[u8]) -> Fields {
        let (len, held) = (len_of(bytes), usize::from(bytes[4]));
        Fields {
            n: checked_node_count(bytes[0].into(), bytes[1].into(), len),
            zeros: bytes[5..HEAD] == [0; 3],
            held,
            right_length: bytes.len() == box_len(held, len),
        }
    }
}

/// What a box gave before document 02, K12: 7 under 8 bytes, 1, 2, 3, 8, 7, 9, 4, 5.
fn number_before(bytes: &[u8]) -> u8 {
    if bytes.len() < HEAD {
        return 7;
    }
    let fields = Fields::of(bytes);
    let n = match fields.n {
        Err(number) => return number,
        Ok(n) => n,
    };
    if !fields.zeros {
        return 8;
    }
    if !fields.right_length {
        return 7;
    }
    if fields.held > n {
        return 9;
    }
    let names = &bytes[HEAD..HEAD + fields.held];
    if names.iter().any(|&node| node == 0 || usize::from(node) > n) {
        return 4;
    }
    if names.is_sorted_by(|a, b| a < b) {
        0
    } else {
        5
    }
}

/// K12's words: it has 8 bytes or more, passes 1, 2, 3 and 8, and has E above n and the wrong length.
fn changed_by_k12(bytes: &[u8]) -> bool {
    if bytes.len() < HEAD {
        return false;
    }
    let fields = Fields::of(bytes);
    fields.n.is_ok_and(|n| fields.held > n) && fields.zeros && !fields.right_length
}

#[test]
fn the_answers_that_changed_are_those_of_k12() {
    let mut tally = Tally::of("check");
    let mut changed = 0;
    over_every_kind(&mut tally, |tally, _, bytes| {
        let (before, now) = (number_before(bytes), calls::check(bytes));
        if changed_by_k12(bytes) {
            assert_eq!((before, now), (7, 9), "{bytes:02x?}");
            changed += 1;
        } else {
            assert_eq!(before, now, "{bytes:02x?}");
        }
        tally.add(now);
    });
    println!("{changed} of these were 7 before K12");
    assert!(changed >= 10_000);
    tally.report(&[0, 1, 2, 3, 4, 5, 7, 8, 9], 500_000);
}

/// The length of the nodes buffer that a box asks for, or some length where it asks for none or a long one.
fn nodes_len(bytes: &[u8]) -> usize {
    if bytes.len() < HEAD {
        return 24;
    }
    let len = len_of(bytes);
    let asked = checked_node_count(bytes[0].into(), bytes[1].into(), len).map(|n| n * len);
    asked.unwrap_or(24).min(60_000)
}

#[test]
fn boxes_are_read_as_the_papers_say() {
    let mut tally = Tally::of("read");
    over_every_kind(&mut tally, |tally, random, bytes| {
        let exact = nodes_len(bytes);
        tally.add(calls::read(bytes, exact));
        tally.add(calls::read(bytes, samples::wrong_length(exact, random)));
    });
    tally.report(&[0, 1, 2, 3, 4, 5, 6, 7, 8, 9], 1_000_000);
}

/// A node that the box may name, or a number near one, or equal to one once cut.
fn node_for(bytes: &[u8], random: &mut Random) -> usize {
    let listed = bytes.get(HEAD..).unwrap_or(&[]);
    let held = listed.len().min(bytes.get(4).copied().unwrap_or(0).into());
    let named = match held {
        0 => 1,
        _ => usize::from(*random.of(&listed[..held])),
    };
    match random.below(3) {
        0 => named,
        1 => random.below(260),
        _ => samples::wrong_number(named, random),
    }
}

#[test]
fn bodies_are_found_as_the_papers_say() {
    let mut tally = Tally::of("body");
    over_every_kind(&mut tally, |tally, random, bytes| {
        for _ in 0..2 {
            tally.add(calls::body(bytes, node_for(bytes, random)));
        }
    });
    tally.begin("every node");
    sound_boxes(&mut Random::seeded(), &mut |bytes| {
        for node in 0..=300 {
            tally.add(calls::body(bytes, node));
        }
    });
    tally.report(&[0, 1, 2, 3, 4, 5, 7, 8, 9, 12], 1_000_000);
}

/// Room for a box as long as this one: just enough, a byte less, less, more, or a length that is 0 once cut to 8 or 16 bits.
fn room_for(bytes: &[u8], random: &mut Random) -> usize {
    let exact = bytes.len();
    let [less, more] = [random.below(exact + 1), exact + 1 + random.below(300)];
    let cut = if random.below(50) == 0 { 65_536 } else { 256 };
    *random.of(&[exact, exact, exact.saturating_sub(1), less, more, cut])
}

#[test]
fn boxes_are_converted_as_the_papers_say() {
    let mut tally = Tally::of("convert");
    over_every_kind(&mut tally, |tally, random, bytes| {
        tally.add(calls::from_graded(bytes, room_for(bytes, random)));
        tally.add(calls::to_graded(bytes, room_for(bytes, random)));
    });
    tally.report(&[0, 1, 2, 3, 4, 5, 6, 7, 8, 9], 1_000_000);
}
