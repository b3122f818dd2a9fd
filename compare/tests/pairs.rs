//! The pairs of each node and their number (document 02, K4), against a search through every two live nodes: every node of every set of
//! the small codes, and of many sets of the others. A pair's blocks make the node's, and a step takes the pair. The missing nodes that
//! have one are those of wave 1, each from the pair that is given; round 1 of a plan repairs the first of them so, and no others but
//! some of them.
use compare::boxes::{block_at, missing_nodes};
use compare::calls;
use compare::library;
use compare::live_sets::{CHOICES, LiveSets, OTHER_CODES, SETS_OF_SMALL, is_small, small_sets};
use compare::pairs::most_pairs;
use compare::papers::{Code, code, every_code, xor_into};
use compare::planner::{self, Step};
use compare::random::Random;
use compare::samples::{Shape, any_session, shapes, sound_session, with_each_mark, wrong_number};
use compare::tally::{Tally, repeat};
use mogtriz::raw::{PairsFound, Session};
use std::collections::BTreeMap;

const LEN: usize = 3;

/// What the library found.
#[derive(Default)]
struct Seen {
    sets: usize,
    /// Nodes by whether they are live and whether they have a pair.
    nodes: BTreeMap<(bool, bool), usize>,
    /// Numbers that are no node's.
    refused: usize,
    /// Nodes that were missing after a run.
    left: usize,
    /// By how many pairs a node had.
    counts: BTreeMap<usize, usize>,
}

impl Seen {
    /// Prints the counts. There have to be nodes of each kind, with no pair and with the most.
    fn report(&self, kind: &str, most: usize) {
        let mut text = format!("{} sets of {kind}\n", self.sets);
        for (&(live, with_pair), count) in &self.nodes {
            let state = if live { "live" } else { "missing" };
            let with = if with_pair { "with" } else { "without" };
            text += &format!("{count} {state} nodes {with} a pair\n");
        }
        text += &format!("{} numbers of no node\n", self.refused);
        text += &format!("{} nodes left by a run, without a pair\n", self.left);
        let (sum, kinds) = (self.sum(), self.counts.len());
        text += &format!("{sum} pairs, in {kinds} numbers up to {most}\n");
        println!("{text}");
        assert_eq!(self.nodes.len(), 4);
        assert!(self.refused > 0 && self.left > 0);
        let ends = [self.counts.keys().min(), self.counts.keys().max()];
        assert_eq!(ends, [Some(&0), Some(&most)]);
    }

    fn sum(&self) -> usize {
        self.counts.iter().map(|(pairs, nodes)| pairs * nodes).sum()
    }
}

/// A set of live nodes with the blocks of an object at every node, live or missing.
struct Case<'a> {
    code: &'a Code,
    session: Session,
    blocks: Vec<u8>,
}

impl Case<'_> {
    fn new<'a>(code: &'a Code, live: &[u8], random: &mut Random) -> Case<'a> {
        let (family, k) = (code.family, code.k);
        let started = library::start(family, k, LEN, live);
        assert_eq!(started.refusal, 0, "family {family} k {k} {live:?}");
        Case {
            code,
            session: started.session,
            blocks: code.multiply(LEN, &random.bytes(k * LEN)),
        }
    }

    fn nodes(&self) -> impl Iterator<Item = u8> {
        (1..=255).take(self.code.n())
    }

    fn is_live(&self, node: u8) -> bool {
        self.session.live[usize::from(node)] == 1
    }

    /// What is found for each node: no more pairs than with all nodes live, and as many as the planner has to choose from.
    fn found(&self) -> Vec<(u8, PairsFound)> {
        let most = most_pairs(self.code.family, self.code.k);
        let found = |node: u8| {
            let found = calls::pairs(self.session, node.into());
            assert_eq!(found.refusal, 0, "{node} {:?}", self.session);
            assert!(found.count <= most, "{node} {:?}", self.session);
            let pairs = planner::pairs(&self.session, node);
            assert_eq!(found.count, pairs.len(), "{node} {:?}", self.session);
            let least = pairs.first().copied().unwrap_or([0; 2]);
            assert_eq!(pair_of(&found), least, "{node} {:?}", self.session);
            (node, found)
        };
        self.nodes().map(found).collect()
    }

    /// The XOR of the pair's blocks is the node's block. A step from the pair makes it so if the node is missing, and is turned away if
    /// it is live.
    fn compare_blocks(&self, node: u8, found: &PairsFound) {
        let pair = pair_of(found);
        let [mut block, other] = pair.map(|node| self.blocks[block_at(node, LEN)].to_vec());
        xor_into(&mut block, &other);
        let place = block_at(node, LEN);
        assert_eq!(block, self.blocks[place.clone()], "{node} from {pair:?}");
        let mut nodes = self.blocks.clone();
        let refusal = match self.is_live(node) {
            true => 11,
            false => {
                nodes[place].fill(0xa5);
                0
            }
        };
        let triple = [node, pair[0], pair[1]].map(usize::from);
        let stepped = library::step(self.session, &mut nodes, triple);
        assert_eq!(stepped.refusal, refusal, "{triple:?} {:?}", self.session);
        assert!(nodes == self.blocks, "{triple:?} {:?}", self.session);
    }

    /// Wave 1 repairs the missing nodes that have a pair, from that pair, and no other node. Round 1 repairs the first of them so, and
    /// some of the others, as a node is read once.
    fn compare_plan(&self, found: &[(u8, PairsFound)]) {
        let with_pair = found.iter().filter_map(|(node, found)| {
            let [smaller, larger] = pair_of(found);
            let can_be_had = !self.is_live(*node) && found.count > 0;
            can_be_had.then_some([1, *node, smaller, larger])
        });
        let with_pair: Vec<Step> = with_pair.collect();
        let in_waves = planner::waves_of(&self.session).steps;
        let of_wave_1 = in_waves.iter().filter(|step| step[0] == 1);
        assert!(of_wave_1.eq(&with_pair), "{:?}", self.session);
        let (steps, plan) = library::planned(self.session);
        assert_eq!(plan.refusal, 0, "{:?}", self.session);
        assert_eq!(steps.first(), with_pair.first(), "{:?}", self.session);
        for step in steps.iter().filter(|step| step[0] == 1) {
            let has_pair = with_pair.iter().any(|with_pair| with_pair[1] == step[1]);
            assert!(has_pair, "{step:?} {:?}", self.session);
        }
    }

    /// After a run no missing node has a pair; gives how many are missing.
    fn compare_run(&self) -> usize {
        let run = library::run(self.session, &mut self.blocks.clone());
        let left = missing_nodes(&run.session);
        for &node in &left {
            let found = calls::pairs(run.session, node.into());
            assert_eq!((found.refusal, found.count), (0, 0), "{:?}", run.session);
        }
        left.len()
    }

    /// Numbers of no node, among them such as are one's once cut to 8, 16 or 32 bits; gives how many there are.
    fn compare_other_numbers(&self) -> usize {
        let n = self.code.n();
        let cut = [8, 16, 32].map(|bits| (1 << bits) + n);
        let ends = [0, n + 1, 255, 256, usize::MAX];
        let others = ends
            .into_iter()
            .chain(cut)
            .filter(|&node| node == 0 || node > n);
        let refused = |&node: &usize| calls::pairs(self.session, node).refusal == 4;
        let [all, refused] = [others.clone().count(), others.filter(refused).count()];
        assert_eq!(all, refused, "{:?}", self.session);
        refused
    }
}

/// Node numbers, or zeros.
fn pair_of(found: &PairsFound) -> [u8; 2] {
    [found.smaller, found.larger].map(|node| u8::try_from(node).expect("a node or 0"))
}

fn compare_set(code: &Code, live: &[u8], random: &mut Random, seen: &mut Seen) {
    let case = Case::new(code, live, random);
    let found = case.found();
    for (node, found) in &found {
        if found.count > 0 {
            case.compare_blocks(*node, found);
        }
        let kind = (case.is_live(*node), found.count > 0);
        *seen.nodes.entry(kind).or_default() += 1;
        *seen.counts.entry(found.count).or_default() += 1;
    }
    case.compare_plan(&found);
    seen.sets += 1;
    seen.left += case.compare_run();
    seen.refused += case.compare_other_numbers();
}

#[test]
fn pairs_are_counted_in_every_set_of_the_small_codes() {
    let random = &mut Random::seeded();
    let mut seen = Seen::default();
    small_sets(|code, live| compare_set(code, &live, random, &mut seen));
    // of the tetrahedron
    seen.report("the small codes", 6);
    assert_eq!(seen.sets, SETS_OF_SMALL);
}

/// How many sets of each other code are chosen in each way.
const TIMES: usize = 10;

/// So many nodes are lost, and so many are left.
const SIZES: [usize; 6] = [0, 1, 2, 3, 8, 64];

#[test]
fn pairs_are_counted_in_sets_of_the_other_codes() {
    let random = &mut Random::seeded();
    let mut seen = Seen::default();
    for code in every_code().iter().filter(|code| !is_small(code)) {
        let (family, k, n) = (code.family, code.k, code.n());
        let sets = LiveSets { family, k };
        for choose in CHOICES {
            for _ in 0..TIMES {
                compare_set(code, &choose(sets, random), random, &mut seen);
            }
        }
        for size in SIZES.into_iter().filter(|&size| size < n) {
            for count in [n - size, size] {
                compare_set(code, &sets.so_many(count, random), random, &mut seen);
            }
        }
    }
    // of simplex 8
    seen.report("the other codes", 127);
    assert!(seen.sets >= OTHER_CODES * CHOICES.len() * TIMES);
}

/// The numbers of the request, and the same for a node that alone is missing: it is in none of its pairs.
#[test]
fn with_all_nodes_live_every_node_has_as_many_pairs() {
    let mut nodes = 0;
    for code in every_code() {
        let (family, k, n) = (code.family, code.k, code.n());
        let wanted = match family {
            1 => (n - 1) / 2,
            2 => k - 1,
            _ => 6,
        };
        assert_eq!(most_pairs(family, k), wanted);
        let shape = Shape { family, k, len: 1 };
        let all = shape.session(&shape.all_nodes());
        for node in 1..=n {
            let mut lost = all;
            lost.live[node] = 0;
            for session in [all, lost] {
                assert_eq!(
                    calls::pairs(session, node).count,
                    wanted,
                    "{node} {session:?}"
                );
                nodes += 1;
            }
        }
    }
    println!("{nodes} nodes had as many pairs as their code has for each");
    assert_eq!(nodes, 2 * every_code().iter().map(Code::n).sum::<usize>());
}

/// Family and k, the live nodes, and the nodes with a pair: node, smaller, larger, count.
type Row = ((usize, usize), &'static [u8], &'static [[usize; 4]]);

/// The lettered examples b, d, e, f, g, h and j, counted by hand; b once two of its nodes are repaired; and weight-two 3 with all nodes
/// live.
const COUNTED: [Row; 10] = [
    (
        (1, 3),
        &[4, 5, 7],
        &[[1, 4, 5, 1], [2, 5, 7, 1], [3, 4, 7, 1]],
    ),
    (
        (1, 3),
        &[1, 2, 4, 5, 7],
        &[
            [1, 4, 5, 1],
            [2, 5, 7, 1],
            [3, 1, 2, 2],
            [4, 1, 5, 1],
            [5, 1, 4, 2],
            [6, 1, 7, 2],
            [7, 2, 5, 1],
        ],
    ),
    (
        (1, 3),
        &[1, 2, 4],
        &[[3, 1, 2, 1], [5, 1, 4, 1], [6, 2, 4, 1]],
    ),
    ((2, 3), &[4, 6], &[[5, 4, 6, 1]]),
    ((2, 3), &[1, 4, 6], &[[2, 1, 4, 1], [5, 4, 6, 1]]),
    (
        (2, 3),
        &[1, 2, 3, 4, 5, 6],
        &[
            [1, 2, 4, 2],
            [2, 1, 4, 2],
            [3, 1, 5, 2],
            [4, 1, 2, 2],
            [5, 1, 3, 2],
            [6, 2, 3, 2],
        ],
    ),
    (
        (3, 4),
        &[1, 2, 3, 4],
        &[
            [5, 1, 3, 1],
            [6, 1, 2, 1],
            [7, 2, 3, 1],
            [9, 2, 4, 1],
            [10, 3, 4, 1],
            [12, 1, 4, 1],
        ],
    ),
    ((3, 4), &[4, 8], &[]),
    ((1, 3), &[], &[]),
    (
        (1, 3),
        &[1, 2, 3, 4, 5, 6, 7],
        &[
            [1, 2, 3, 3],
            [2, 1, 3, 3],
            [3, 1, 2, 3],
            [4, 1, 5, 3],
            [5, 1, 4, 3],
            [6, 1, 7, 3],
            [7, 1, 6, 3],
        ],
    ),
];

#[test]
fn the_examples_have_their_pairs_as_by_hand() {
    for ((family, k), live, rows) in COUNTED {
        let session = library::start(family, k, 1, live).session;
        for node in 1..=code(family, k).n() {
            let found = calls::pairs(session, node);
            let wanted = rows.iter().find(|row| row[0] == node);
            let wanted = wanted.map_or([0; 3], |&[_, smaller, larger, count]| {
                [smaller, larger, count]
            });
            assert_eq!(
                [found.smaller, found.larger, found.count],
                wanted,
                "{node} {session:?}"
            );
            assert_eq!((found.refusal, found.session), (0, session));
        }
    }
}

/// A node for the most part, else a number of none.
fn any_number(n: usize, random: &mut Random) -> usize {
    let node = 1 + random.below(n);
    let other = wrong_number(node, random);
    let others = [0, n + 1, 255, 256, usize::MAX, other];
    match random.below(3) {
        0 => *random.of(&others),
        _ => node,
    }
}

/// No code has a node with such a number.
fn is_never_a_node(number: usize) -> bool {
    number == 0 || number > 255
}

#[test]
fn pairs_are_given_or_turned_away() {
    let random = &mut Random::seeded();
    let mut tally = Tally::of("pairs");
    let mut both = 0;
    let mut pairs = |session: Session, n: usize, random: &mut Random| {
        let number = any_number(n, random);
        let refusal = calls::pairs(session, number).refusal;
        both += usize::from(refusal == 13 && is_never_a_node(number));
        refusal
    };
    repeat(&mut tally, "sound", 1000, |shape| {
        pairs(sound_session(shape, random), shape.n(), random)
    });
    repeat(&mut tally, "sessions", 2000, |shape| {
        pairs(any_session(shape, random), shape.n(), random)
    });
    tally.begin("each mark");
    for shape in shapes().into_iter().filter(|shape| shape.len == 1) {
        for session in with_each_mark(sound_session(shape, random)) {
            tally.add(pairs(session, shape.n(), random));
        }
    }
    tally.report(&[0, 4, 13], 100_000);
    println!("{both} calls met both 13 and 4, and gave 13");
    assert!(both > 0);
}
