//! The relation of three weight-two nodes, a million triples, timed against Rust with branches.
use crate::rivals::{self, Family};
use crate::table::{Line, Table};
use crate::timing::{Aligned, Meter, Way};
use compare::papers::{Code, code};
use compare::random::Random;
use mogtriz::WEIGHT_TWO;

const K: usize = 22;
const TRIPLES: usize = 1_000_000;

/// Repetitions of a million triples: they take some thousand times as long as the other calls.
pub const ROUNDS: usize = 11;

/// Which nodes a triple has: data blocks alone, pairs alone, or either as it comes.
#[derive(Clone, Copy)]
enum Mix {
    Data,
    Pairs,
    Both,
}

impl Mix {
    fn word(self) -> &'static str {
        match self {
            Mix::Data => "data",
            Mix::Pairs => "pairs",
            Mix::Both => "mixed",
        }
    }

    fn has(self, node: usize) -> bool {
        match self {
            Mix::Data => node <= K,
            Mix::Pairs => node > K,
            Mix::Both => true,
        }
    }

    fn node(self, n: usize, random: &mut Random) -> usize {
        match self {
            Mix::Data => 1 + random.below(K),
            Mix::Pairs => 1 + K + random.below(n - K),
            Mix::Both if random.below(2) == 0 => Mix::Data.node(n, random),
            Mix::Both => Mix::Pairs.node(n, random),
        }
    }
}

/// Triples one after the other, a byte for each number. Every second triple is related if the mix has a third node for its
/// first two.
fn triples(mix: Mix, code: &Code, random: &mut Random) -> Vec<u8> {
    let columns = code.columns();
    let n = columns.len();
    let mut node_of = vec![None; 1 << K];
    for (i, &column) in columns.iter().enumerate() {
        node_of[column] = Some(i + 1).filter(|&node| mix.has(node));
    }
    let mut bytes = Vec::with_capacity(3 * TRIPLES);
    for i in 0..TRIPLES {
        let [a, b, other] = [(); 3].map(|()| mix.node(n, random));
        let third = node_of[columns[a - 1] ^ columns[b - 1]];
        let c = third.filter(|_| i % 2 == 0).unwrap_or(other);
        bytes.extend([a, b, c].map(|node| node as u8));
    }
    bytes
}

/// An answer for each triple.
fn answer(triples: &[u8], answers: &mut [u8], related: impl Fn([usize; 3]) -> bool) {
    for (triple, answer) in triples.chunks_exact(3).zip(answers) {
        *answer = related([0, 1, 2].map(|place| triple[place].into())).into();
    }
}

fn line(mix: Mix, goal: Option<f64>, random: &mut Random, meter: &mut Meter) -> Line {
    let code = code(WEIGHT_TWO, K);
    let columns = code.columns();
    let triples = triples(mix, &code, random);
    let mut expected = vec![0; TRIPLES];
    answer(&triples, &mut expected, |nodes| {
        nodes.iter().fold(0, |sum, node| sum ^ columns[node - 1]) == 0
    });
    let mogtriz = |triples: &[u8], answers: &mut [u8]| {
        answer(triples, answers, |nodes| {
            mogtriz::related(WEIGHT_TWO, K, nodes)
        });
    };
    let rust = |triples: &[u8], answers: &mut [u8]| {
        answer(triples, answers, |[a, b, c]| rivals::related(K, a, b, c));
    };
    let ways: [Way; 2] = [&mogtriz, &rust];
    let mut answers = Aligned::unfilled(TRIPLES);
    Line {
        name: Family::WeightTwo.name(K, mix.word()),
        goals: vec![goal],
        measured: meter.compare_in_rounds(ROUNDS, &ways, &triples, &mut answers, &expected, 0),
    }
}

pub fn table(random: &mut Random, meter: &mut Meter) -> Table {
    let cases = [
        (Mix::Both, Some(1.0)),
        (Mix::Pairs, None),
        (Mix::Data, None),
    ];
    Table {
        title: "relate 1,000,000",
        ways: &["Mogtriz", "Rust"],
        lines: cases
            .map(|(mix, goal)| line(mix, goal, random, meter))
            .into(),
    }
}
