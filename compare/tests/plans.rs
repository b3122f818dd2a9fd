//! Plans and runs of sets of live nodes: every set of the small codes, and many of the others, against the
//! papers' model and against the open nodes by elimination.
use compare::boxes::{block_at, live_nodes, missing_nodes};
use compare::guarded::Guarded;
use compare::live_sets::{LiveSets, SETS_OF_SMALL, is_small};
use compare::open::{open_by_differences, open_nodes};
use compare::papers::every_code;
use compare::random::Random;
use compare::samples::{Shape, nodes_in};
use compare::{calls, library};
use mogtriz::raw::{self, Repairs, Session};
use std::collections::BTreeMap;

/// What the sets came to.
#[derive(Default)]
struct Seen {
    sets: usize,
    about_k: usize,
    with_open: usize,
    one_short: usize,
    read_out: usize,
    rounds: BTreeMap<usize, usize>,
}

impl Seen {
    /// Prints the counts. Every number of rounds up to so many has to occur, and sets with open nodes and without.
    fn report(&self, kind: &str, rounds: usize) {
        let Seen { sets, about_k, .. } = self;
        let mut text = format!("{sets} sets of {kind}, {about_k} of about k nodes\n");
        text += &format!("{} had open nodes\n", self.with_open);
        text += &format!("{} objects were read out after a run\n", self.read_out);
        text += &format!("{} plans had one byte too few\n", self.one_short);
        for (rounds, count) in &self.rounds {
            text += &format!("{count} took {rounds} rounds\n");
        }
        println!("{text}");
        assert!((0..=rounds).all(|rounds| self.rounds.contains_key(&rounds)));
        assert!(self.with_open > 0 && self.with_open < self.sets);
        assert!(self.one_short > 0 && self.read_out > 0);
    }
}

/// A short L, now and then one that is not.
fn any_len(random: &mut Random) -> usize {
    match random.below(50) {
        0 => *random.of(&[63, 64, 65, 200, 257]),
        _ => 1 + random.below(9),
    }
}

/// Plans and runs a set, on random bytes and on an object.
fn compare_set(family: usize, k: usize, live: &[u8], random: &mut Random, seen: &mut Seen) {
    let len = any_len(random);
    let shape = Shape { family, k, len };
    let started = library::start(family, k, len, live);
    assert_eq!(started.refusal, 0, "{shape:?} {live:?}");
    let open = open_nodes(family, k, live);
    let plan = compare_plan(started.session, random, seen);
    assert!(plan.rounds <= plan.steps, "{shape:?} {live:?}");
    let mut nodes = random.bytes(shape.nodes_len());
    let run = calls::run(started.session, &mut nodes);
    compare_counts(&plan, &run, &open);
    seen.read_out += usize::from(compare_object(shape, started.session, &run, random));
    seen.sets += 1;
    seen.about_k += usize::from(live.len().abs_diff(k) <= 2);
    seen.with_open += usize::from(!open.is_empty());
    *seen.rounds.entry(plan.rounds).or_default() += 1;
}

/// The plan into room for more than its steps, for just them, and for one byte less, which gives 6.
fn compare_plan(session: Session, random: &mut Random, seen: &mut Seen) -> Repairs {
    let n = library::node_count(session.family, session.k);
    let plan = calls::plan(session, 4 * n + random.below(9));
    assert_eq!(plan.refusal, 0, "{session:?}");
    let exact = 4 * plan.steps;
    assert_eq!(calls::plan(session, exact), plan);
    if exact > 0 {
        assert_eq!(calls::plan(session, exact - 1).refusal, 6, "{session:?}");
        seen.one_short += 1;
    }
    plan
}

/// The run has the plan's counts, what is left is what is open, and nothing more can be planned.
fn compare_counts(plan: &Repairs, run: &Repairs, open: &[u8]) {
    let counts = |repairs: &Repairs| (repairs.steps, repairs.rounds, repairs.left);
    assert_eq!(counts(plan), counts(run), "{:?}", plan.session);
    assert_eq!(run.left, open.len(), "{:?}", plan.session);
    assert_eq!(missing_nodes(&run.session), open, "{:?}", plan.session);
    let none = Repairs {
        steps: 0,
        rounds: 0,
        ..*run
    };
    for plan in [library::plan, raw::plan] {
        assert_eq!(plan(run.session, &mut []), none);
    }
}

/// Runs an object's nodes, the missing ones holding other bytes: the answer is that of the run before, every live
/// block is the object's then, the others are as they were, and the object is read out if its data blocks' nodes are
/// live. Says whether it was.
fn compare_object(shape: Shape, session: Session, run: &Repairs, random: &mut Random) -> bool {
    let Shape { family, k, len } = shape;
    let object = random.bytes(shape.object_len());
    let mut encoded = vec![0; shape.nodes_len()];
    assert_eq!(library::encode(family, k, len, &object, &mut encoded), 0);
    let mut before = random.bytes(shape.nodes_len());
    copy_blocks(&live_nodes(&session), len, &encoded, &mut before);
    let mut nodes = Guarded::holding(&before);
    assert_eq!(library::run(session, nodes.bytes_mut()), *run);
    let mut expected = before;
    copy_blocks(&live_nodes(&run.session), len, &encoded, &mut expected);
    let same = nodes.bytes() == expected && nodes.guards_untouched();
    assert!(same, "{session:?}: a block is not the object's");
    let number = calls::read_out(run.session, nodes.bytes(), object.len());
    let mut out = vec![0; object.len()];
    let answer = library::read_out(run.session, nodes.bytes(), &mut out);
    assert_eq!(answer.refusal, number, "{session:?}");
    assert!(number != 0 || out == object, "{session:?}: another object");
    number == 0
}

fn copy_blocks(list: &[u8], len: usize, from: &[u8], to: &mut [u8]) {
    for &node in list {
        let place = block_at(node, len);
        to[place.clone()].copy_from_slice(&from[place]);
    }
}

#[test]
fn every_set_of_the_small_codes_is_planned_and_run() {
    let mut random = Random::seeded();
    let mut seen = Seen::default();
    for code in every_code().iter().filter(|code| is_small(code)) {
        for bits in 0..1usize << code.n() {
            let live = nodes_in(bits);
            compare_set(code.family, code.k, &live, &mut random, &mut seen);
        }
    }
    assert_eq!(seen.sets, SETS_OF_SMALL);
    seen.report("the small codes", 5);
}

/// A way to choose a set.
type Choice = fn(LiveSets, &mut Random) -> Vec<u8>;

/// The ways, and how many sets of each code are chosen so.
const CHOICES: [(Choice, usize); 7] = [
    (LiveSets::about_k, 250),
    (LiveSets::chain, 150),
    (LiveSets::tree, 150),
    (LiveSets::broken, 150),
    (LiveSets::of_low_rank, 150),
    (LiveSets::flat, 50),
    (LiveSets::any, 150),
];

#[test]
fn sets_of_the_other_codes_are_planned_and_run() {
    let mut random = Random::seeded();
    let mut seen = Seen::default();
    for code in every_code().iter().filter(|code| !is_small(code)) {
        let (family, k) = (code.family, code.k);
        let sets = LiveSets { family, k };
        let mut compare =
            |live: &[u8], random: &mut Random| compare_set(family, k, live, random, &mut seen);
        for (choose, times) in CHOICES {
            for _ in 0..times {
                compare(&choose(sets, &mut random), &mut random);
            }
        }
        for path in sets.paths() {
            compare(&path, &mut random);
        }
    }
    assert!(seen.sets >= 20_000, "{} sets", seen.sets);
    assert!(2 * seen.about_k >= seen.sets, "{} of about k", seen.about_k);
    seen.report("the other codes", 11);
}

#[test]
fn elimination_finds_the_nodes_at_which_objects_can_differ() {
    let mut random = Random::seeded();
    let mut counts = [0; 2];
    for code in every_code().iter().filter(|code| code.k <= 10) {
        let (family, k) = (code.family, code.k);
        for _ in 0..100 {
            let live = LiveSets { family, k }.about_k(&mut random);
            let open = open_nodes(family, k, &live);
            let wanted = open_by_differences(family, k, &live);
            assert_eq!(open, wanted, "family {family} k {k} {live:?}");
            counts[usize::from(open.is_empty())] += 1;
        }
    }
    let [with_open, without] = counts;
    println!(
        "{with_open} sets with open nodes and {without} without, by every difference of two objects"
    );
    assert!(with_open > 0 && without > 0);
}
