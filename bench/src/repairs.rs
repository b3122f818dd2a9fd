//! Planning, timed against the same rule in Rust with its count of pairs, and against Rust that counts nothing; the pairs of each node,
//! timed against the same in Rust; runs, timed against the same XORs in Rust and by ISA-L, and against Rust that plans them first, as a
//! run does; and steps, timed against Rust that checks the same of sound sessions. The rivals count no reads.
use crate::isal;
use crate::rivals::{self, Family, Planner};
use crate::table::{Line, Table};
use crate::timing::{Aligned, Meter, Way};
use compare::library::handed_in;
use compare::live_sets::LiveSets;
use compare::papers::code;
use compare::random::Random;
use compare::samples::Shape;
use compare::{pairs, planner};
use mogtriz::raw::Session;
use mogtriz::{Pairs, Refusal, Repairs};
use std::hint::black_box;

/// The k of weight-two.
const K: usize = 22;

/// Repetitions of some hundred or thousand calls.
pub const FEWER_ROUNDS: usize = 101;

/// A code with its live nodes, and how a table names them.
#[derive(Clone)]
pub struct Case {
    pub family: Family,
    pub k: usize,
    word: &'static str,
    live: Vec<u8>,
}

fn simplex(word: &'static str, live: Vec<u8>) -> Case {
    Case {
        family: Family::Simplex,
        k: 8,
        word,
        live,
    }
}

/// Simplex 8 with 1, 8 and 64 nodes lost.
pub fn with_some_lost(random: &mut Random) -> [Case; 3] {
    let sets = LiveSets { family: 1, k: 8 };
    let mut lose = |count: usize| sets.so_many(255 - count, random);
    [
        simplex("1 lost", lose(1)),
        simplex("8 lost", lose(8)),
        simplex("64 lost", lose(64)),
    ]
}

fn weight_two(word: &'static str, live: Vec<u8>) -> Case {
    Case {
        family: Family::WeightTwo,
        k: K,
        word,
        live,
    }
}

/// Data block 1 and the pairs 1 2, 2 3 and so on: a plan of 8 rounds, and of 5 waves, as many as there can be.
pub fn path() -> Case {
    let columns = code(2, K).columns();
    let on_path = |column: usize| column == 1 || (0..K - 1).any(|i| column == 0b11 << i);
    let nodes = (1..=255).zip(columns).filter(|&(_, c)| on_path(c));
    weight_two("path", nodes.map(|(node, _)| node).collect())
}

/// The nodes of the data blocks of weight-two 22. A plan from them has 12 rounds, in one wave.
pub fn weight_two_data() -> Case {
    weight_two("data", (1..=K as u8).collect())
}

/// The nodes of the data blocks of simplex 8. A plan from them has 11 rounds, in 3 waves.
pub fn simplex_data() -> Case {
    simplex("data", (0..8).map(|i| 1 << i).collect())
}

fn counts(answer: Result<Repairs, Refusal>) -> [usize; 3] {
    let repairs = answer.expect("a sound call");
    [repairs.steps, repairs.rounds, repairs.left]
}

impl Case {
    fn shape(&self) -> Shape {
        self.with_len(1)
    }

    pub fn with_len(&self, len: usize) -> Shape {
        Shape {
            family: self.family as usize,
            k: self.k,
            len,
        }
    }

    pub fn session(&self) -> Session {
        self.shape().session(&self.live)
    }

    pub fn name(&self) -> String {
        self.family.name(self.k, self.word)
    }
}

/// How many pairs the nodes that a plan repairs have in all, each when its round begins; whether they are read in it plays no part.
fn pairs_of_repaired(session: Session, plan: &planner::Plan) -> usize {
    let (mut began, mut sum) = (session, 0);
    for round in 1..=plan.rounds {
        let repaired = plan
            .steps
            .iter()
            .filter(|step| usize::from(step[0]) == round);
        let nodes: Vec<usize> = repaired.map(|step| step[1].into()).collect();
        let counts = nodes.iter().map(|&node| pairs::pairs(began, node).count);
        sum += counts.sum::<usize>();
        nodes.iter().for_each(|&node| began.live[node] = 1);
    }
    sum
}

fn plan(case: Case, meter: &mut Meter) -> Line {
    let Case { family, k, .. } = case;
    let session = case.session();
    let plan = planner::plan_of(&session);
    let left = case.shape().n() - case.live.len() - plan.steps.len();
    let wanted = [plan.steps.len(), plan.rounds, left];
    let pairs = pairs_of_repaired(session, &plan);
    let handed_in = handed_in(session);
    let mogtriz = |_: &[u8], out: &mut [u8]| {
        let plan = handed_in.plan(out);
        assert_eq!(counts(plan.map(|plan| plan.repairs)), wanted);
    };
    let rust = |_: &[u8], out: &mut [u8]| {
        // the sum is of use, so that no compiler leaves the counts out
        let planned = rivals::plan(family, k, &session.live, out);
        assert_eq!(planned, (wanted, pairs));
    };
    let rust_pair = |_: &[u8], out: &mut [u8]| {
        assert_eq!(rivals::plan_by_pairs(family, k, &session.live, out), wanted);
    };
    let ways: [Way; 3] = [&mogtriz, &rust, &rust_pair];
    let expected = plan.steps.concat();
    let mut out = Aligned::unfilled(expected.len());
    Line {
        name: case.name(),
        goals: vec![Some(1.0), None],
        measured: meter.compare_and_measure(&ways, &[], &mut out, &expected, 0),
    }
}

pub fn plans(some_lost: &[Case], meter: &mut Meter) -> Table {
    let hard = [
        simplex_data(),
        simplex("1-127", (1..=127).collect()),
        simplex("none", vec![]),
        weight_two_data(),
        path(),
    ];
    let cases = some_lost.iter().cloned().chain(hard);
    Table {
        title: "plan",
        ways: &["Mogtriz", "Rust", "Rust pair"],
        lines: cases.map(|case| plan(case, meter)).collect(),
    }
}

/// The pairs of every node, a call each, which are put down as smaller, larger and their number.
fn pairs_of_each(case: &Case, meter: &mut Meter) -> Line {
    let (session, n) = (case.session(), case.shape().n());
    let wanted = (1..=n).map(|node| pairs::pairs(session, node));
    let wanted = wanted.map(|found| [found.smaller, found.larger, found.count]);
    let expected: Vec<u8> = wanted
        .flat_map(|row| row.map(|number| number as u8))
        .collect();
    let put = |row: &mut [u8], numbers: [usize; 3]| {
        row.copy_from_slice(&numbers.map(|number| number as u8));
    };
    let handed_in = handed_in(session);
    let mogtriz = |_: &[u8], out: &mut [u8]| {
        for (row, node) in out.chunks_exact_mut(3).zip(1..) {
            let Pairs { least, count } = handed_in.pairs(node).expect("a sound call");
            let [smaller, larger] = least.unwrap_or([0; 2]);
            put(row, [smaller, larger, count]);
        }
    };
    // the columns are worked out beforehand
    let planner = Planner::new(case.family, case.k);
    let rust = |_: &[u8], out: &mut [u8]| {
        for (row, node) in out.chunks_exact_mut(3).zip(1..) {
            let found = rivals::pairs(&planner, black_box(&session.live), node);
            put(row, found.expect("a sound call"));
        }
    };
    let ways: [Way; 2] = [&mogtriz, &rust];
    let mut out = Aligned::unfilled(expected.len());
    Line {
        name: case.name(),
        goals: vec![None],
        measured: meter.compare_in_rounds(FEWER_ROUNDS, &ways, &[], &mut out, &expected, 0),
    }
}

pub fn pairs(some_lost: &[Case], meter: &mut Meter) -> Table {
    let half = simplex("half", (1..=255).step_by(2).collect());
    let all = weight_two("all", (1..=253).collect());
    let cases = some_lost.iter().cloned().chain([half, all]);
    Table {
        title: "pairs of each node",
        ways: &["Mogtriz", "Rust"],
        lines: cases.map(|case| pairs_of_each(&case, meter)).collect(),
    }
}

/// A repair of every node of simplex 8 from its data nodes.
fn run(len: usize, random: &mut Random, meter: &mut Meter) -> Line {
    let data = simplex_data();
    let (family, k, shape) = (data.family, data.k, data.with_len(len));
    let session = shape.session(&data.live);
    let steps = planner::plan_of(&session).steps.concat();
    let mut nodes = Aligned::holding(&random.bytes(shape.nodes_len()));
    let mut expected = nodes.bytes().to_vec();
    let repairs = planner::run(session, &mut expected);
    let wanted = [repairs.steps, repairs.rounds, repairs.left];
    let handed_in = handed_in(session);
    let mogtriz = |_: &[u8], nodes: &mut [u8]| {
        // a run marks the nodes that it repairs, and each is to have all of them to repair
        assert_eq!(counts(handed_in.clone().run(nodes)), wanted);
    };
    let rust = |_: &[u8], nodes: &mut [u8]| rivals::repair(&steps, len, nodes, rivals::xor);
    let isal = |_: &[u8], nodes: &mut [u8]| {
        rivals::repair(&steps, len, nodes, isal::xor);
        isal::clear_registers();
    };
    let planned = |_: &[u8], nodes: &mut [u8]| {
        let mut bytes = [0; 4 * 255];
        let ([count, ..], pairs) = rivals::plan(family, k, &session.live, &mut bytes);
        black_box(pairs);
        rivals::repair(&bytes[..4 * count], len, nodes, rivals::xor);
    };
    let ways: [Way; 4] = [&mogtriz, &rust, &isal, &planned];
    Line {
        name: family.name(k, format!("L {len}")),
        // the goal is against Rust that plans by the same rule; the others are handed their steps
        goals: vec![None, None, Some(1.0)],
        measured: meter.compare_and_measure(&ways, &[], &mut nodes, &expected, 0),
    }
}

pub fn runs(random: &mut Random, meter: &mut Meter) -> Table {
    Table {
        title: "run",
        ways: &["Mogtriz", "Rust", "ISA-L", "Rust plan"],
        lines: [64, 512, 1536].map(|len| run(len, random, meter)).into(),
    }
}

/// Every way to repair a node of weight-two 22 from two others, as node, first and second: those of two data blocks and
/// their pair, or those of three pairs.
fn repairs(with_data: bool) -> Vec<[usize; 3]> {
    let columns = code(2, K).columns();
    let n = columns.len();
    let node_of = |column: usize| columns.iter().position(|&c| c == column).map(|i| i + 1);
    let pairs = (1..=n).flat_map(|a| (a + 1..=n).map(move |b| [a, b]));
    let triples = pairs.filter_map(|[a, b]| {
        let node = node_of(columns[a - 1] ^ columns[b - 1])?;
        Some([node, a, b])
    });
    triples
        .filter(|triple| triple.iter().any(|&node| node <= K) == with_data)
        .collect()
}

/// By number, every node but this one.
fn all_but_one(shape: Shape) -> Vec<Vec<u8>> {
    let all = shape.all_nodes();
    let without = |node: u8| all.iter().copied().filter(move |&n| n != node);
    (0..=shape.n() as u8)
        .map(|node| without(node).collect())
        .collect()
}

/// Steps on blocks of an object, each in a session in which its node alone is missing. The block is made 0 before its step.
fn step(word: &str, with_data: bool, random: &mut Random, meter: &mut Meter) -> Line {
    let (family, len) = (Family::WeightTwo, 64);
    let shape = Shape {
        family: family as usize,
        k: K,
        len,
    };
    let lists = all_but_one(shape);
    let sessions: Vec<_> = lists.iter().map(|live| shape.session(live)).collect();
    let handed_in: Vec<_> = sessions.iter().copied().map(handed_in).collect();
    let repairs = repairs(with_data);
    let object = random.bytes(K * len);
    let mut nodes = Aligned::holding(&code(shape.family, K).multiply(len, &object));
    let expected = nodes.bytes().to_vec();
    let blank = |nodes: &mut [u8], node: usize| nodes[(node - 1) * len..node * len].fill(0);
    let mogtriz = |_: &[u8], nodes: &mut [u8]| {
        for &[node, first, second] in &repairs {
            blank(nodes, node);
            let mut session = handed_in[node].clone();
            let stepped = session.step(nodes, node, [first, second]);
            stepped.expect("a sound step");
            black_box(session);
        }
    };
    let rust = |_: &[u8], nodes: &mut [u8]| {
        for &triple in &repairs {
            let [node, ..] = triple;
            blank(nodes, node);
            let live = rivals::step(K, len, sessions[node].live, nodes, triple);
            black_box(live.expect("a sound step"));
        }
    };
    let ways: [Way; 2] = [&mogtriz, &rust];
    Line {
        name: family.name(K, word),
        goals: vec![None],
        measured: meter.compare_in_rounds(FEWER_ROUNDS, &ways, &[], &mut nodes, &expected, 0),
    }
}

pub fn steps(random: &mut Random, meter: &mut Meter) -> Table {
    Table {
        title: "all steps, L 64",
        ways: &["Mogtriz", "Rust"],
        lines: vec![
            step("data", true, random, meter),
            step("pairs", false, random, meter),
        ],
    }
}
