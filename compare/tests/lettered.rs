//! The lettered examples of the papers, as one table, through the C interface; b, d, f and g are those of document 02, K11, and in waves
//! as document 01 has them.
use compare::boxes::{self, missing_nodes};
use compare::planner::{Step, plan_of, waves_of};
use compare::{calls, library};
use mogtriz::raw::Session;

/// What an example says, at L 1. A session is its family, k and live nodes.
enum Example {
    /// The object's nodes.
    Encodes(&'static [u8], &'static [u8]),
    /// All steps, the rounds, and the nodes that are left.
    Plans(&'static [Step], usize, &'static [u8]),
    /// A step of a node from two others, and the number that it gives.
    Steps([usize; 3], u8),
}
use Example::{Encodes, Plans, Steps};

type Row = (&'static str, (usize, usize), &'static [u8], Example);

const SIMPLEX_2: (usize, usize) = (1, 2);
const SIMPLEX_3: (usize, usize) = (1, 3);
const WEIGHT_TWO_3: (usize, usize) = (2, 3);
const TETRAHEDRON: (usize, usize) = (3, 4);

const B_STEPS: [Step; 4] = [[1, 1, 4, 5], [2, 2, 5, 7], [3, 3, 1, 2], [4, 6, 1, 7]];
const D_STEPS: [Step; 4] = [[1, 3, 1, 2], [2, 5, 1, 4], [3, 6, 2, 4], [4, 7, 1, 6]];
const F_STEPS: [Step; 3] = [[1, 2, 1, 4], [2, 3, 2, 6], [3, 5, 1, 3]];
const G_STEPS: [Step; 10] = [
    [1, 5, 1, 3],
    [1, 9, 2, 4],
    [2, 6, 1, 2],
    [2, 10, 3, 4],
    [3, 7, 2, 3],
    [3, 12, 1, 4],
    [4, 8, 1, 7],
    [4, 11, 2, 10],
    [4, 13, 4, 6],
    [4, 14, 3, 12],
];
const ALL_BUT_4_AND_8: [u8; 12] = [1, 2, 3, 5, 6, 7, 9, 10, 11, 12, 13, 14];
const ALL_7: [u8; 7] = [1, 2, 3, 4, 5, 6, 7];

const TABLE: [Row; 13] = [
    ("a", SIMPLEX_3, &[], Encodes(&[1, 2, 4], &ALL_7)),
    ("b", SIMPLEX_3, &[4, 5, 7], Plans(&B_STEPS, 4, &[])),
    ("c", SIMPLEX_2, &[1], Plans(&[], 0, &[2, 3])),
    ("d", SIMPLEX_3, &[1, 2, 4], Plans(&D_STEPS, 4, &[])),
    (
        "e",
        WEIGHT_TWO_3,
        &[4, 6],
        Plans(&[[1, 5, 4, 6]], 1, &[1, 2, 3]),
    ),
    ("f", WEIGHT_TWO_3, &[1, 4, 6], Plans(&F_STEPS, 3, &[])),
    ("g", TETRAHEDRON, &[1, 2, 3, 4], Plans(&G_STEPS, 4, &[])),
    ("h", TETRAHEDRON, &[4, 8], Plans(&[], 0, &ALL_BUT_4_AND_8)),
    ("i, 12", SIMPLEX_3, &[4, 5, 7], Steps([6, 1, 7], 12)),
    ("i, 11", SIMPLEX_3, &[4, 5, 7], Steps([4, 1, 5], 11)),
    ("i, 10", SIMPLEX_3, &[4, 5, 7], Steps([1, 4, 7], 10)),
    ("j, none", SIMPLEX_3, &[], Plans(&[], 0, &ALL_7)),
    ("j, all", SIMPLEX_3, &ALL_7, Plans(&[], 0, &[])),
];

/// The plan's bytes and counts, and the same counts from a run that leaves these nodes.
fn compare_plan(letter: &str, session: Session, steps: &[Step], rounds: usize, left: &[u8]) {
    let mut out = vec![0xa5; 4 * steps.len()];
    let plan = library::plan(session, &mut out);
    let counts = (0, steps.len(), rounds, left.len());
    assert_eq!(out, steps.concat(), "{letter}");
    let n = library::node_count(session.family, session.k);
    let run = calls::run(session, &mut vec![0x5a; n]);
    for answer in [plan, run, calls::plan(session, out.len())] {
        let got = (answer.refusal, answer.steps, answer.rounds, answer.left);
        assert_eq!(got, counts, "{letter}");
    }
    assert_eq!(missing_nodes(&run.session), left, "{letter}");
}

fn compare(row: &Row) {
    let (letter, (family, k), live, example) = row;
    let session = library::start(*family, *k, 1, live).session;
    let n = library::node_count(*family, *k);
    match example {
        Encodes(object, wanted) => {
            let mut nodes = vec![0; n];
            assert_eq!(library::encode(*family, *k, 1, object, &mut nodes), 0);
            assert_eq!(&nodes, wanted, "{letter}");
        }
        Plans(steps, rounds, left) => compare_plan(letter, session, steps, *rounds, left),
        Steps(triple, number) => {
            let stepped = calls::step(session, &mut vec![0x5a; n], *triple);
            assert_eq!(stepped.refusal, *number, "{letter}");
        }
    }
}

/// The model, with no library beside it.
#[test]
fn the_model_plans_every_row_as_the_papers_say() {
    let mut rows = 0;
    for (letter, (family, k), live, example) in &TABLE {
        if let Plans(steps, rounds, left) = example {
            let session = boxes::start(*family, *k, 1, live).session;
            let plan = plan_of(&session);
            assert_eq!((&plan.steps[..], plan.rounds), (*steps, *rounds));
            assert_eq!(missing_nodes(&plan.session), *left, "{letter}");
            rows += 1;
        }
    }
    println!("{rows} plans of the model");
    assert_eq!(rows, 9);
}

/// Document 01's plans: family and k, the live nodes, and all steps, the last in wave 2.
type Waves = ((usize, usize), &'static [u8], &'static [Step]);

const WAVES: [Waves; 4] = [
    (
        SIMPLEX_3,
        &[4, 5, 7],
        &[[1, 1, 4, 5], [1, 2, 5, 7], [1, 3, 4, 7], [2, 6, 1, 7]],
    ),
    (
        SIMPLEX_3,
        &[1, 2, 4],
        &[[1, 3, 1, 2], [1, 5, 1, 4], [1, 6, 2, 4], [2, 7, 1, 6]],
    ),
    (
        WEIGHT_TWO_3,
        &[1, 4, 6],
        &[[1, 2, 1, 4], [1, 5, 4, 6], [2, 3, 1, 5]],
    ),
    (
        TETRAHEDRON,
        &[1, 2, 3, 4],
        &[
            [1, 5, 1, 3],
            [1, 6, 1, 2],
            [1, 7, 2, 3],
            [1, 9, 2, 4],
            [1, 10, 3, 4],
            [1, 12, 1, 4],
            [2, 8, 1, 7],
            [2, 11, 2, 10],
            [2, 13, 1, 9],
            [2, 14, 1, 10],
        ],
    ),
];

#[test]
fn waves_are_as_document_01_says() {
    for ((family, k), live, steps) in WAVES {
        let waves = waves_of(&boxes::start(family, k, 1, live).session);
        assert_eq!((&waves.steps[..], waves.rounds), (steps, 2));
        assert_eq!(missing_nodes(&waves.session), [], "{live:?}");
    }
    println!("{} plans in waves", WAVES.len());
}

#[test]
fn every_row_is_as_the_papers_say() {
    TABLE.iter().for_each(compare);
    println!("{} rows of the lettered examples", TABLE.len());
}
