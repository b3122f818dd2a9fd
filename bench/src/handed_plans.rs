//! Plans that are handed in: checked, timed against the same check in Rust, and carried out, timed against Rust that checks and then makes
//! the same XORs. The plans are the sessions' own. The rivals check the whole session, as the library does, and count no reads.
use crate::checker::check_plan;
use crate::repairs::{Case, path, simplex_data, weight_two_data};
use crate::rivals::{self, Planner};
use crate::table::{Line, Table};
use crate::timing::{Aligned, Meter, Way};
use compare::library::handed_in;
use compare::planner;
use compare::random::Random;

/// The check of a case's own plan, which is accepted: the ways put down 0 for its bad step.
fn check(case: &Case, meter: &mut Meter) -> Line {
    let session = case.session();
    let plan = planner::plan_of(&session).steps.concat();
    let handed_in = handed_in(session);
    let mogtriz = |plan: &[u8], out: &mut [u8]| {
        handed_in.check_plan(plan).expect("an accepted plan");
        out.fill(0);
    };
    let put = |bad_step: Option<usize>, out: &mut [u8]| {
        let bad_step = bad_step.expect("a sound call");
        out.copy_from_slice(&bad_step.to_le_bytes());
    };
    // one works the columns out in the call, as the library does, and one has them beforehand
    let rust = |plan: &[u8], out: &mut [u8]| {
        let planner = Planner::new(case.family, case.k);
        put(check_plan(&planner, &session, plan), out);
    };
    let planner = Planner::new(case.family, case.k);
    let table = |plan: &[u8], out: &mut [u8]| put(check_plan(&planner, &session, plan), out);
    let ways: [Way; 3] = [&mogtriz, &rust, &table];
    let expected = [0; size_of::<usize>()];
    let mut out = Aligned::unfilled(expected.len());
    Line {
        name: case.name(),
        goals: vec![Some(1.1), None],
        measured: meter.compare_and_measure(&ways, &plan, &mut out, &expected, 0),
    }
}

/// One node lost has a plan of one step.
pub fn checks(one_lost: &Case, meter: &mut Meter) -> Table {
    let cases = [one_lost.clone(), simplex_data(), weight_two_data(), path()];
    Table {
        title: "check plan",
        ways: &["Mogtriz", "Rust", "Rust table"],
        lines: cases.iter().map(|case| check(case, meter)).collect(),
    }
}

/// A repair of every node of simplex 8 from its data nodes.
fn carry(len: usize, random: &mut Random, meter: &mut Meter) -> Line {
    let case = simplex_data();
    let mut session = case.session();
    session.len = len;
    let plan = planner::plan_of(&session).steps.concat();
    let mut nodes = Aligned::holding(&random.bytes(case.with_len(len).nodes_len()));
    let mut expected = nodes.bytes().to_vec();
    planner::run(session, &mut expected);
    let handed_in = handed_in(session);
    let mogtriz = |plan: &[u8], nodes: &mut [u8]| {
        // the nodes are marked when they are repaired, and each call is to have all of them to repair
        let carried = handed_in.clone().carry_plan(plan, nodes);
        carried.expect("an accepted plan");
    };
    let rust = |plan: &[u8], nodes: &mut [u8]| {
        let planner = Planner::new(case.family, case.k);
        assert_eq!(check_plan(&planner, &session, plan), Some(0));
        rivals::repair(plan, len, nodes, rivals::xor);
    };
    let ways: [Way; 2] = [&mogtriz, &rust];
    Line {
        name: case.family.name(case.k, format!("L {len}")),
        goals: vec![Some(1.1)],
        measured: meter.compare_and_measure(&ways, &plan, &mut nodes, &expected, 0),
    }
}

pub fn carried(random: &mut Random, meter: &mut Meter) -> Table {
    Table {
        title: "carry plan",
        ways: &["Mogtriz", "Rust"],
        lines: [64, 512, 1536].map(|len| carry(len, random, meter)).into(),
    }
}
