//! Objects interleaved before they are encoded, and deinterleaved after they are read out (document 02, K3).
use compare::boxes::block_at;
use compare::interleaving::Interleaving;
use compare::papers::{Code, MOST_LENGTH, every_code, may_be_lost, range_of_k};
use compare::random::Random;
use compare::samples::Shape;
use compare::{calls, library};
use mogtriz::{Refusal, Session, encode_to_vec, raw};

/// Every L up to 130, past the sizes of the library's tiles, which are powers of two up to 128, one at the end of a byte, and the two
/// largest.
fn lengths() -> impl Iterator<Item = usize> {
    (1..=130).chain([255, MOST_LENGTH - 1, MOST_LENGTH])
}

/// Every family and k at each L.
fn every_shape() -> Vec<Shape> {
    let with_each_length = |code: Code| {
        let (family, k) = (code.family, code.k);
        lengths().map(move |len| Shape { family, k, len })
    };
    every_code()
        .into_iter()
        .flat_map(with_each_length)
        .collect()
}

/// By the package and from C.
const INTERLEAVE: [Interleaving; 2] = [library::interleave, raw::interleave];
const DEINTERLEAVE: [Interleaving; 2] = [library::deinterleave, raw::deinterleave];

/// What both calls have to make of an object.
fn moved(calls: [Interleaving; 2], shape: Shape, object: &[u8]) -> Vec<u8> {
    let Shape { family, k, len } = shape;
    let [by_package, from_c] = calls.map(|call| {
        let mut out = vec![0x5a; object.len()];
        assert_eq!(call(family, k, len, object, &mut out), 0, "{shape:?}");
        out
    });
    assert!(by_package == from_c, "{shape:?}");
    by_package
}

// ---- the rule

#[test]
fn letters_are_dealt_out_by_turns() {
    let rows = [
        (1, 2, 3, "abcdef", "acebdf"),
        (2, 3, 2, "abcdef", "adbecf"),
        (3, 4, 3, "abcdefghijkl", "aeibfjcgkdhl"),
        (1, 8, 2, "abcdefghijklmnop", "aibjckdlemfngohp"),
        (2, 5, 1, "abcde", "abcde"),
    ];
    for (family, k, len, object, interleaved) in rows {
        let shape = Shape { family, k, len };
        let [object, interleaved] = [object, interleaved].map(str::as_bytes);
        assert_eq!(moved(INTERLEAVE, shape, object), interleaved);
        assert_eq!(moved(DEINTERLEAVE, shape, interleaved), object);
    }
}

/// Which byte of the object each byte that is written was: two objects have in their bytes the low and the high part of the places.
fn sources(calls: [Interleaving; 2], shape: Shape) -> Vec<usize> {
    let places = 0..shape.object_len();
    let [low, high] = [0, 8].map(|shift| {
        let object: Vec<u8> = places.clone().map(|t| (t >> shift) as u8).collect();
        moved(calls, shape, &object)
    });
    let both = low.into_iter().zip(high);
    both.map(|(low, high)| u16::from_le_bytes([low, high]).into())
        .collect()
}

#[test]
fn every_byte_goes_to_its_block_and_place_and_back() {
    let mut count = 0;
    for shape in every_shape() {
        let Shape { k, len, .. } = shape;
        let interleaved = sources(INTERLEAVE, shape);
        let blocks: Vec<&[usize]> = interleaved.chunks(len).collect();
        let deinterleaved = sources(DEINTERLEAVE, shape);
        for t in 0..shape.object_len() {
            assert_eq!(blocks[t % k][t / k], t, "{shape:?}");
            assert_eq!(deinterleaved[t], t % k * len + t / k, "{shape:?}");
            count += 1;
        }
    }
    println!("{count} bytes in their places");
    assert_eq!(every_shape().len(), 29 * 133);
}

// ---- against the model

/// Random objects, one of zeros and one of ones. The buffers of the calls have their guards on either side by turns.
fn objects(length: usize, random: &mut Random) -> [Vec<u8>; 5] {
    let [a, b, c] = [(); 3].map(|()| random.bytes(length));
    [a, b, c, vec![0; length], vec![0xff; length]]
}

#[test]
fn objects_are_interleaved_as_the_model_does_and_back() {
    let mut random = Random::seeded();
    let mut count = 0;
    for shape in every_shape() {
        let length = shape.object_len();
        for object in objects(length, &mut random) {
            assert_eq!(calls::interleave(shape, &object, length), 0);
            assert_eq!(calls::deinterleave(shape, &object, length), 0);
            count += 2;
        }
    }
    println!("{count} objects interleaved or deinterleaved");
}

#[test]
fn each_undoes_the_other() {
    let mut random = Random::seeded();
    for shape in every_shape() {
        let object = random.bytes(shape.object_len());
        let interleaved = moved(INTERLEAVE, shape, &object);
        assert!(
            moved(DEINTERLEAVE, shape, &interleaved) == object,
            "{shape:?}"
        );
        let deinterleaved = moved(DEINTERLEAVE, shape, &object);
        assert!(
            moved(INTERLEAVE, shape, &deinterleaved) == object,
            "{shape:?}"
        );
    }
}

// ---- refusals

/// The number with 2^8, 2^16 and 2^32 added, which are it again once cut to so many bits, and with 2^63, which has the same product with
/// an even one once cut to 64.
fn uncut(right: usize) -> [usize; 4] {
    [8, 16, 32, 63].map(|bits| (1 << bits) + right)
}

/// A number or a length as it has to be, or every wrong one that is tried in its place.
struct Argument {
    right: usize,
    wrong: Vec<usize>,
    refusal: u8,
}

impl Argument {
    fn choices(&self, is_wrong: bool) -> &[usize] {
        match is_wrong {
            true => &self.wrong,
            false => std::slice::from_ref(&self.right),
        }
    }
}

/// The family, k, L and the two buffers' lengths, in the order of the checks.
fn arguments(shape: Shape) -> [Argument; 5] {
    let Shape { family, k, len } = shape;
    let range = range_of_k(family).expect("a known family");
    let number = |right, others: &[usize], refusal| Argument {
        right,
        wrong: [others, &uncut(right)].concat(),
        refusal,
    };
    let mut length_of_blocks = number(len, &[0, 1537, 4096, usize::MAX], 3);
    // an L with 2^8 added is another one in range
    length_of_blocks.wrong.retain(|&wrong| wrong != len + 256);
    let exact = shape.object_len();
    let length = || Argument {
        right: exact,
        wrong: vec![0, exact - 1, exact + 1, exact + 256],
        refusal: 6,
    };
    [
        number(family, &[0, 4, 255, usize::MAX], 1),
        number(k, &[0, range.start() - 1, range.end() + 1, usize::MAX], 2),
        length_of_blocks,
        length(),
        length(),
    ]
}

/// Both calls with these numbers and lengths have to give this number.
fn hold(shape: Shape, object: &[u8], out_len: usize, wanted: u8) {
    let got = [calls::interleave, calls::deinterleave].map(|call| call(shape, object, out_len));
    let lengths = [object.len(), out_len];
    assert_eq!(got, [wanted; 2], "{shape:?} {lengths:?}");
}

/// Every way to have just these arguments wrong; gives how many there are.
fn hold_set(arguments: &[Argument; 5], is_wrong: [bool; 5], bytes: &[u8]) -> usize {
    let first = (0..5).find(|&i| is_wrong[i]);
    let wanted = first.map_or(0, |i| arguments[i].refusal);
    let choices: [&[usize]; 5] = std::array::from_fn(|i| arguments[i].choices(is_wrong[i]));
    let [families, ks, lens, object_lens, out_lens] = choices;
    for &family in families {
        for &k in ks {
            for &len in lens {
                for &object_len in object_lens {
                    for &out_len in out_lens {
                        let shape = Shape { family, k, len };
                        hold(shape, &bytes[..object_len], out_len, wanted);
                    }
                }
            }
        }
    }
    choices.iter().map(|of_one| of_one.len()).product()
}

/// Of any set of wrong arguments the first is told, whatever the wrong ones are, and nothing is written.
#[test]
fn of_every_set_of_faults_the_first_is_told() {
    let mut random = Random::seeded();
    let mut counts = [0; 32];
    for code in every_code() {
        let shape = Shape {
            family: code.family,
            k: code.k,
            len: 1 + random.below(5),
        };
        let arguments = arguments(shape);
        let bytes = random.bytes(shape.object_len() + 256);
        for (set, count) in counts.iter_mut().enumerate() {
            let is_wrong = std::array::from_fn(|i| set >> i & 1 == 1);
            *count += hold_set(&arguments, is_wrong, &bytes);
        }
    }
    let [served, refused @ ..] = counts;
    let refused: usize = refused.iter().sum();
    println!("{served} calls served and {refused} refused, each way");
    assert_eq!(served, 29);
}

/// A buffer's length just off k × L, or that of another k or L, at every shape; one of the two or both alike.
#[test]
fn a_length_that_is_off_gets_6_at_every_shape() {
    let mut random = Random::seeded();
    for shape in every_shape() {
        let exact = shape.object_len();
        let bytes = random.bytes(exact + shape.len);
        for off in [exact - 1, exact + 1, exact - shape.k, exact + shape.len, 0] {
            hold(shape, &bytes[..off], exact, 6);
            hold(shape, &bytes[..exact], off, 6);
            hold(shape, &bytes[..off], off, 6);
        }
        hold(shape, &bytes[..exact], exact, 0);
    }
}

#[test]
fn lengths_at_the_ends_of_the_range_are_told() {
    let mut random = Random::seeded();
    for code in every_code() {
        let (family, k) = (code.family, code.k);
        for (len, wanted) in [(0, 3), (1, 0), (MOST_LENGTH, 0), (MOST_LENGTH + 1, 3)] {
            let shape = Shape { family, k, len };
            let object = random.bytes(shape.object_len());
            hold(shape, &object, object.len(), wanted);
        }
    }
}

// ---- with the rest of the library

/// Each data block's node holds every k-th byte of the object, from its own on.
#[test]
fn a_data_block_has_every_kth_byte() -> Result<(), Refusal> {
    let mut random = Random::seeded();
    for code in every_code() {
        for len in [1, 2, 17, 255] {
            let (family, k) = (code.family, code.k);
            let shape = Shape { family, k, len };
            let object = random.bytes(shape.object_len());
            let interleaved = moved(INTERLEAVE, shape, &object);
            let nodes = encode_to_vec(family, k, len, &interleaved)?;
            for block in 1..=k {
                let held = &nodes[block_at(code.data_node(block), len)];
                let every_kth = object.iter().skip(block - 1).step_by(k);
                assert!(held.iter().eq(every_kth), "{shape:?} block {block}");
            }
        }
    }
    Ok(())
}

/// A data block that is spoilt spoils every k-th byte of what is received, and no other.
#[test]
fn a_spoilt_block_is_spread_thin() {
    let mut random = Random::seeded();
    for shape in every_shape() {
        let object = random.bytes(shape.object_len());
        let mut spoilt = moved(INTERLEAVE, shape, &object);
        let block = 1 + random.below(shape.k);
        for byte in &mut spoilt[block_at(block as u8, shape.len)] {
            *byte ^= 0xff;
        }
        let received = moved(DEINTERLEAVE, shape, &spoilt);
        for (t, pair) in received.iter().zip(&object).enumerate() {
            let is_spoilt = t % shape.k + 1 == block;
            assert_eq!(pair.0 != pair.1, is_spoilt, "{shape:?} byte {t}");
        }
    }
}

/// Nodes that are kept where as many as may be are lost, by chance.
fn kept(code: &Code, random: &mut Random) -> Vec<u8> {
    let mut nodes: Vec<u8> = (1..=255).take(code.n()).collect();
    for _ in 0..may_be_lost(code.family, code.k) {
        nodes.remove(random.below(nodes.len()));
    }
    nodes
}

/// The object through interleave, encode, a box of the kept nodes, read, run, read out and deinterleave.
fn whole_way(shape: Shape, kept: &[u8], object: &[u8]) -> Result<Vec<u8>, Refusal> {
    let Shape { family, k, len } = shape;
    let interleaved = moved(INTERLEAVE, shape, object);
    let nodes = encode_to_vec(family, k, len, &interleaved)?;
    let all = Session::start(family, k, len, &shape.all_nodes())?;
    let bytes = all.write_to_vec(&nodes, kept)?;
    let (mut session, mut nodes) = Session::read_to_vec(&bytes)?;
    // every second step of the plan's first round, each made again, which is turned away, and a run for the rest
    let (_, steps) = session.plan_to_vec()?;
    let first_round = steps.iter().filter(|step| step.round == 1);
    for step in first_round.step_by(2) {
        session.step(&mut nodes, step.node, step.pair)?;
        let again = session.step(&mut nodes, step.node, step.pair);
        assert_eq!(again, Err(Refusal::AlreadyLive), "{shape:?} {step:?}");
    }
    assert_eq!(session.run(&mut nodes)?.left, 0, "{shape:?} {kept:?}");
    let read_out = session.read_out_to_vec(&nodes)?;
    assert!(read_out == interleaved, "{shape:?}: what is read out");
    Ok(moved(DEINTERLEAVE, shape, &read_out))
}

#[test]
fn an_object_comes_back_the_whole_way() -> Result<(), Refusal> {
    let mut random = Random::seeded();
    let mut count = 0;
    for code in every_code() {
        for len in [1, 2, 3, 16, 17, 64, 255, MOST_LENGTH] {
            let (family, k) = (code.family, code.k);
            let shape = Shape { family, k, len };
            for _ in 0..3 {
                let object = random.bytes(shape.object_len());
                let received = whole_way(shape, &kept(&code, &mut random), &object)?;
                assert!(received == object, "{shape:?}: another object");
                count += 1;
            }
        }
    }
    println!("{count} objects came back the whole way");
    Ok(())
}
