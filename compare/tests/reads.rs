//! Reads by node and steps since the start (document 02, K8): counts that agree are taken by every call with a session, whether a start
//! leads to them or not, those that do not give 13, and a step, a run and a plan that is carried out count on from any that are taken.
use compare::boxes::{self, box_len, live_nodes, missing_nodes};
use compare::calls;
use compare::counted::{dealt, spread};
use compare::papers::{Code, every_code};
use compare::planner::plan_of;
use compare::random::Random;
use compare::samples::Shape;
use compare::triples::right_triple;
use mogtriz::raw::{MARKS, Session};

const LEN: usize = 3;

/// A session of a start, whose counts are then changed, and what its calls are lent.
struct Case {
    session: Session,
    nodes: Vec<u8>,
    triple: [usize; 3],
    plan: Vec<u8>,
}

impl Case {
    fn new(code: &Code, live: &[u8], random: &mut Random) -> Case {
        let (family, k) = (code.family, code.k);
        let shape = Shape {
            family,
            k,
            len: LEN,
        };
        let session = shape.session(live);
        Case {
            session,
            nodes: random.bytes(shape.nodes_len()),
            // where nothing can be repaired the step gets another number
            triple: right_triple(&session, random).unwrap_or([1, 2, 3]),
            // the first steps are enough, and take less time
            plan: plan_of(&session)
                .steps
                .into_iter()
                .take(3)
                .flatten()
                .collect(),
        }
    }

    fn n(&self) -> usize {
        self.nodes.len() / LEN
    }

    /// What step, plan, run, write, live nodes, read out, pairs, check plan and carry plan give.
    fn numbers(&self, session: Session) -> [u8; 9] {
        let live = live_nodes(&session);
        let lent = || self.nodes.clone();
        [
            calls::step(session, &mut lent(), self.triple).refusal,
            calls::plan(session, 4 * self.n()).refusal,
            calls::run(session, &mut lent()).refusal,
            calls::write(session, &self.nodes, &live, box_len(live.len(), LEN)),
            calls::live_nodes(session, live.len()),
            calls::read_out(session, &self.nodes, session.k * LEN),
            calls::pairs(session, self.triple[0]).refusal,
            calls::check_plan(session, &self.plan).refusal,
            calls::carry_plan(session, &self.plan, &mut lent()).refusal,
        ]
    }

    fn with(&self, steps: usize, reads: [u16; MARKS]) -> Session {
        Session {
            steps,
            reads,
            ..self.session
        }
    }

    /// Each call gives what it gives with nothing counted.
    fn is_taken(&self, steps: usize, reads: [u16; MARKS]) {
        let session = self.with(steps, reads);
        let numbers = self.numbers(session);
        assert!(!numbers.contains(&13), "{session:?}");
        assert_eq!(numbers, self.numbers(self.session), "{session:?}");
    }

    /// Each call gives 13.
    fn is_turned_away(&self, steps: usize, reads: [u16; MARKS]) {
        let session = self.with(steps, reads);
        assert_eq!(self.numbers(session), [13; 9], "{session:?}");
    }

    /// From no step to the most that there can be: with the missing nodes they are n.
    fn steps(&self) -> Vec<usize> {
        let most = live_nodes(&self.session).len();
        let mut steps = vec![0, 1, 2, most / 2, most.saturating_sub(1), most];
        steps.retain(|&steps| steps <= most);
        steps.sort();
        steps.dedup();
        steps
    }
}

/// None, the first, half, the data blocks' nodes, all but one, and all, of every code.
fn cases(random: &mut Random) -> Vec<Case> {
    let mut cases = Vec::new();
    for code in &every_code() {
        let all: Vec<u8> = (1..=255).take(code.n()).collect();
        let mut data: Vec<u8> = (1..=code.k).map(|block| code.data_node(block)).collect();
        data.sort();
        let half: Vec<u8> = all.iter().copied().step_by(2).collect();
        for live in [&[], &all[..1], &half, &data, &all[1..], &all[..]] {
            cases.push(Case::new(code, live, random));
        }
    }
    cases
}

fn nodes_up_to(n: usize) -> Vec<u8> {
    (1..=255).take(n).collect()
}

#[test]
fn counts_that_agree_are_taken() {
    let random = &mut Random::seeded();
    for case in cases(random) {
        let all = nodes_up_to(case.n());
        let last = case.n() as u8;
        for steps in case.steps() {
            let reads = 2 * steps;
            case.is_taken(steps, spread(reads, &all));
            // no start leads to these: all reads of one node, odd counts of two, and reads of nodes that are missing
            case.is_taken(steps, dealt(reads, &[1]));
            case.is_taken(steps, dealt(reads, &[last]));
            if steps > 0 {
                let mut odd = dealt(reads - 1, &[2]);
                odd[1] = 1;
                case.is_taken(steps, odd);
            }
            let missing = missing_nodes(&case.session);
            if !missing.is_empty() {
                case.is_taken(steps, spread(reads, &missing));
            }
        }
    }
}

#[test]
fn reads_that_are_not_twice_the_steps_are_turned_away() {
    let random = &mut Random::seeded();
    for case in cases(random) {
        let all = nodes_up_to(case.n());
        for steps in case.steps() {
            let reads = 2 * steps;
            for wrong in [
                reads + 1,
                reads + 2,
                reads.wrapping_sub(1),
                reads.wrapping_sub(2),
            ] {
                if wrong <= reads + 2 {
                    case.is_turned_away(steps, dealt(wrong, &[1]));
                    case.is_turned_away(steps, spread(wrong, &all));
                }
            }
            // as many as they should be once cut to 8 or 16 bits
            for wrong in [reads + 256, reads + 512] {
                case.is_turned_away(steps, dealt(wrong, &[1]));
                case.is_turned_away(steps, spread(wrong, &all));
            }
            for times in [1, 2, 3, all.len() - 1] {
                let wrong = reads + (times << 16);
                if wrong <= all.len() * usize::from(u16::MAX) {
                    case.is_turned_away(steps, dealt(wrong, &all));
                }
            }
            case.is_turned_away(steps, dealt(all.len() * usize::from(u16::MAX), &all));
        }
    }
}

/// Steps far above n, among them such as would be right if a sum or a product wrapped.
#[test]
fn steps_that_are_too_many_are_turned_away() {
    let random = &mut Random::seeded();
    for case in cases(random) {
        let missing = missing_nodes(&case.session).len();
        for steps in case.steps() {
            let reads = dealt(2 * steps, &[1]);
            // twice these are twice the steps once cut to 8, 16, 32 or 64 bits
            for bit in [7, 8, 15, 16, 31, 32, 62, 63] {
                case.is_turned_away(steps + (1 << bit), reads);
            }
            case.is_turned_away(usize::MAX, reads);
            case.is_turned_away(usize::MAX - steps, reads);
            // with missing nodes the first comes round to 0; the second is near 2^64
            case.is_turned_away(0usize.wrapping_sub(missing.max(1)), reads);
            case.is_turned_away(steps.wrapping_sub(case.n() + 1), reads);
        }
        case.is_turned_away(usize::MAX, [u16::MAX; MARKS]);
    }
}

/// Steps and missing nodes together are n at most; the reads agree with the steps all the while.
#[test]
fn steps_and_missing_nodes_above_n_are_turned_away() {
    let random = &mut Random::seeded();
    for case in cases(random) {
        let (all, most) = (nodes_up_to(case.n()), live_nodes(&case.session).len());
        for spreading in [spread, dealt] {
            case.is_taken(most, spreading(2 * most, &all));
            for above in [most + 1, most + 2, case.n() + 1, 256, 300] {
                case.is_turned_away(above, spreading(2 * above, &all));
            }
        }
    }
}

/// Two reads in a step, of each number in turn.
#[test]
fn a_count_against_0_or_above_n_is_turned_away() {
    let random = &mut Random::seeded();
    for case in cases(random) {
        if live_nodes(&case.session).is_empty() {
            continue;
        }
        for place in 0..MARKS {
            let [mut both, mut one] = [[0; MARKS]; 2];
            both[place] = 2;
            one[place] = 1;
            one[1] += 1;
            for reads in [both, one] {
                if (1..=case.n()).contains(&place) {
                    case.is_taken(1, reads);
                } else {
                    case.is_turned_away(1, reads);
                }
            }
        }
    }
}

/// A step counts one read of each source on, from any count that one of them can have.
#[test]
fn counts_go_on_above_255() {
    let random = &mut Random::seeded();
    for code in every_code().iter().filter(|code| code.n() > 250) {
        let all = nodes_up_to(code.n());
        for node in [1, 3, all.len()] {
            let others: Vec<u8> = all
                .iter()
                .copied()
                .filter(|&n| usize::from(n) != node)
                .collect();
            let case = Case::new(code, &others, random);
            let (steps, [_, first, second]) = (case.n() - 1, case.triple);
            let most = 2 * steps as u16;
            for count in [0, 1, 127, 128, 254, 255, 256, 257, 500, most - 1, most] {
                let mut reads = [0; MARKS];
                reads[first] = count;
                reads[second] = most - count;
                let before = case.with(steps, reads);
                let stepped = calls::step(before, &mut case.nodes.clone(), case.triple);
                let after = stepped.session;
                assert_eq!((stepped.refusal, after.steps), (0, steps + 1), "{before:?}");
                assert_eq!(after.reads[first], count + 1, "{before:?}");
                assert_eq!(after.reads[second], most - count + 1, "{before:?}");
                let run = calls::run(before, &mut case.nodes.clone());
                assert_eq!((run.steps, run.session.steps), (1, steps + 1), "{before:?}");
                let carried = calls::carry_plan(before, &case.plan, &mut case.nodes.clone());
                assert_eq!(carried.session, run.session, "{before:?}");
                // no step can follow, and every other call takes the counts as they are
                assert!(!case.numbers(after).contains(&13), "{after:?}");
            }
        }
    }
}

/// With every node live nothing can be repaired: 510 is the most that a count can be.
#[test]
fn a_count_of_510_is_taken() {
    let random = &mut Random::seeded();
    let codes = every_code();
    let simplex_8 = codes
        .iter()
        .find(|code| code.n() == 255)
        .expect("simplex 8");
    let case = Case::new(simplex_8, &nodes_up_to(255), random);
    for node in [1, 128, 255] {
        case.is_taken(255, dealt(510, &[node]));
        let mut reads = dealt(509, &[node]);
        reads[2] = 1;
        case.is_taken(255, reads);
        case.is_turned_away(255, dealt(509, &[node]));
        case.is_turned_away(255, dealt(511, &[node]));
        case.is_turned_away(256, dealt(512, &[node]));
    }
}

/// Family and k, the live nodes, and the reads once every step is made, as node and count.
type Row = ((usize, usize), &'static [u8], &'static [(usize, u16)]);

/// The lettered examples b, d, e, f and g, counted by hand.
const COUNTED: [Row; 5] = [
    (
        (1, 3),
        &[4, 5, 7],
        &[(1, 2), (2, 1), (4, 1), (5, 2), (7, 2)],
    ),
    ((1, 3), &[1, 2, 4], &[(1, 3), (2, 2), (4, 2), (6, 1)]),
    ((2, 3), &[4, 6], &[(4, 1), (6, 1)]),
    (
        (2, 3),
        &[1, 4, 6],
        &[(1, 2), (2, 1), (3, 1), (4, 1), (6, 1)],
    ),
    (
        (3, 4),
        &[1, 2, 3, 4],
        &[
            (1, 4),
            (2, 4),
            (3, 4),
            (4, 4),
            (6, 1),
            (7, 1),
            (10, 1),
            (12, 1),
        ],
    ),
];

#[test]
fn the_examples_are_counted_as_by_hand() {
    for ((family, k), live, counts) in COUNTED {
        let shape = Shape { family, k, len: 1 };
        let start = boxes::start(family, k, 1, live).session;
        let mut wanted = [0; MARKS];
        for &(node, count) in counts {
            wanted[node] = count;
        }
        let nodes = vec![0x5a; shape.nodes_len()];
        let run = calls::run(start, &mut nodes.clone());
        assert_eq!(run.session.reads, wanted, "{start:?}");
        assert_eq!(run.session.steps, run.steps, "{start:?}");

        // the same steps as a plan that is handed in, and one by one
        let steps = plan_of(&start).steps;
        let carried = calls::carry_plan(start, &steps.concat(), &mut nodes.clone());
        assert_eq!(carried.session, run.session, "{start:?}");
        let mut session = start;
        for [_, node, smaller, larger] in steps {
            let triple = [node, larger, smaller].map(usize::from);
            session = calls::step(session, &mut nodes.clone(), triple).session;
        }
        assert_eq!(session, run.session, "{start:?}");
    }
}
