//! Plans made elsewhere (document 02, K10): some judged by hand, plans that are carried out counted on, and both calls with sessions, plans
//! and buffers of every content and length, served or turned away.
use compare::boxes::check_session;
use compare::made_elsewhere::{any_steps, other_plan};
use compare::planner::{Step, plan_of};
use compare::random::Random;
use compare::samples::{
    Nodes, Shape, any_session, length_near, shapes, sound_session, with_each_mark, wrong_length,
};
use compare::tally::{Tally, repeat};
use compare::{calls, library};
use mogtriz::raw::Session;

/// Family and k, the live nodes, a plan, and the number of its first bad step, 0 for none.
type Row = ((usize, usize), &'static [u8], &'static [Step], usize);

/// Judged by hand.
const JUDGED: [Row; 36] = [
    // the plan of document 02, K11, and none
    (
        (1, 3),
        &[4, 5, 7],
        &[[1, 1, 4, 5], [2, 2, 5, 7], [3, 3, 1, 2], [4, 6, 1, 7]],
        0,
    ),
    ((1, 3), &[4, 5, 7], &[], 0),
    ((1, 3), &[], &[], 0),
    // other pairs, nodes in another order, nodes left
    (
        (1, 3),
        &[4, 5, 7],
        &[[1, 3, 4, 7], [2, 1, 4, 5], [3, 6, 1, 7], [4, 2, 1, 3]],
        0,
    ),
    ((1, 3), &[4, 5, 7], &[[1, 2, 5, 7]], 0),
    (
        (1, 3),
        &[4, 5, 7],
        &[[1, 1, 4, 5], [2, 6, 1, 7], [3, 2, 5, 7]],
        0,
    ),
    ((3, 4), &[1, 2, 3, 4], &[[1, 10, 3, 4], [1, 6, 1, 2]], 0),
    (
        (2, 3),
        &[1, 4, 6],
        &[[1, 2, 1, 4], [2, 3, 2, 6], [3, 5, 4, 6]],
        0,
    ),
    // rounds begin at 1
    ((1, 3), &[4, 5, 7], &[[0, 1, 4, 5]], 1),
    ((1, 3), &[4, 5, 7], &[[2, 1, 4, 5]], 1),
    ((1, 3), &[4, 5, 7], &[[255, 1, 4, 5]], 1),
    // never fall and rise by at most 1
    ((1, 3), &[4, 5, 7], &[[1, 1, 4, 5], [0, 2, 5, 7]], 2),
    (
        (1, 3),
        &[4, 5, 7],
        &[[1, 1, 4, 5], [2, 2, 5, 7], [1, 3, 4, 7]],
        3,
    ),
    ((1, 3), &[4, 5, 7], &[[1, 1, 4, 5], [3, 2, 5, 7]], 2),
    // node numbers are 1 to n
    ((1, 3), &[4, 5, 7], &[[1, 0, 4, 5]], 1),
    ((1, 3), &[4, 5, 7], &[[1, 8, 4, 5]], 1),
    ((1, 3), &[4, 5, 7], &[[1, 1, 0, 5]], 1),
    ((1, 3), &[4, 5, 7], &[[1, 1, 4, 8]], 1),
    ((1, 8), &[4, 5, 7], &[[1, 255, 4, 255]], 1),
    // the smaller before the larger
    ((1, 3), &[4, 5, 7], &[[1, 1, 5, 4]], 1),
    ((1, 3), &[4, 5, 7], &[[1, 1, 4, 4]], 1),
    // each node is missing when its step comes
    ((1, 3), &[1, 4, 5], &[[1, 1, 4, 5]], 1),
    ((1, 3), &[4, 5, 7], &[[1, 1, 4, 5], [2, 1, 4, 5]], 2),
    ((1, 3), &[1, 2, 4, 7], &[[1, 3, 1, 2], [1, 3, 4, 7]], 2),
    // its pair is related
    ((1, 3), &[4, 5, 7], &[[1, 1, 4, 7]], 1),
    ((2, 4), &[1, 8], &[[1, 2, 1, 8]], 1),
    // and was live when its round began
    ((1, 3), &[4, 5, 7], &[[1, 6, 1, 7]], 1),
    ((1, 3), &[4, 5, 7], &[[1, 1, 4, 5], [1, 6, 1, 7]], 2),
    ((1, 3), &[4, 5, 7], &[[1, 1, 4, 5], [2, 6, 1, 7]], 0),
    (
        (1, 3),
        &[4, 5, 7],
        &[[1, 1, 4, 5], [2, 6, 1, 7], [3, 2, 5, 7], [3, 3, 1, 2]],
        4,
    ),
    // neither of it read in its round
    ((1, 3), &[4, 5, 7], &[[1, 1, 4, 5], [1, 2, 5, 7]], 2),
    ((1, 3), &[4, 5, 7], &[[1, 1, 4, 5], [1, 3, 4, 7]], 2),
    (
        (1, 3),
        &[4, 5, 7],
        &[[1, 1, 4, 5], [2, 6, 1, 7], [2, 2, 5, 7]],
        3,
    ),
    // read in the round before
    ((1, 3), &[4, 5, 7], &[[1, 1, 4, 5], [2, 2, 5, 7]], 0),
    // the first bad step, with worse ones after it
    (
        (1, 3),
        &[4, 5, 7],
        &[[1, 1, 4, 5], [1, 2, 5, 7], [9, 0, 0, 0]],
        2,
    ),
    ((1, 3), &[4, 5, 7], &[[1, 1, 4, 7], [0, 0, 0, 0]], 1),
];

#[test]
fn plans_are_judged_as_by_hand() {
    for ((family, k), live, steps, wanted) in JUDGED {
        let session = library::start(family, k, 1, live).session;
        let plan = steps.concat();
        let checked = calls::check_plan(session, &plan);
        assert_eq!((checked.refusal, checked.bad_step), (0, wanted), "{plan:?}");
        let mut nodes = vec![0x5a; library::node_count(family, k)];
        let carried = calls::carry_plan(session, &plan, &mut nodes);
        assert_eq!((carried.refusal, carried.bad_step), (0, wanted), "{plan:?}");
        let made = if wanted == 0 { steps.len() } else { 0 };
        assert_eq!(carried.session.steps, made, "{plan:?}");
    }
}

/// Every session that counts have is taken, and its counts go on.
#[test]
fn carried_plans_count_on() {
    let random = &mut Random::seeded();
    let mut steps_made = 0;
    for shape in shapes().into_iter().filter(|shape| shape.len <= 5) {
        for _ in 0..30 {
            let session = sound_session(shape, random);
            let steps = other_plan(&session, random);
            let mut nodes = random.bytes(shape.nodes_len());
            let carried = calls::carry_plan(session, &steps.concat(), &mut nodes);
            assert_eq!((carried.refusal, carried.bad_step), (0, 0), "{session:?}");
            let after = carried.session;
            assert_eq!(after.steps, session.steps + steps.len(), "{session:?}");
            for node in 1..=shape.n() {
                let reads = |step: &&Step| step[2..].contains(&(node as u8));
                let added = steps.iter().filter(reads).count();
                let counted = usize::from(after.reads[node] - session.reads[node]);
                assert_eq!(counted, added, "node {node} {session:?}");
            }
            steps_made += steps.len();
        }
    }
    println!("{steps_made} steps of carried plans were counted on");
    assert!(steps_made > 10_000);
}

/// A plan for a session, or for another where it is turned away: our own, another one, any bytes or none, some with a byte changed or one
/// more.
fn any_plan(session: &Session, shape: Shape, random: &mut Random) -> Vec<u8> {
    let planned = match check_session(session) {
        Ok(_) => *session,
        Err(_) => sound_session(shape, random),
    };
    let count = random.below(9);
    let mut plan = match random.below(4) {
        0 => plan_of(&planned).steps.concat(),
        1 => other_plan(&planned, random).concat(),
        2 => any_steps(&planned, count, random),
        _ => Vec::new(),
    };
    if !plan.is_empty() && random.below(3) == 0 {
        let place = random.below(plan.len());
        plan[place] = random.below(shape.n() + 2) as u8;
    }
    let length = plan.len() + *random.of(&[0, 0, 0, 1, 2, 3]);
    plan.resize(length, 1);
    plan
}

/// What is done with a session, given a plan and a length for its nodes buffer.
type Visit<'a> = &'a mut dyn FnMut(Session, &[u8], usize, &mut Random) -> u8;

/// Makes calls with sound sessions and buffers, with wrong buffers, with sessions of any content, and with each mark changed; gives how
/// many met both 13 and 6, and gave 13.
fn over_every_kind(tally: &mut Tally, times: usize, visit: Visit) -> usize {
    let random = &mut Random::seeded();
    let mut both = 0;
    let mut visit = |shape: Shape, session: Session, length: usize, random: &mut Random| {
        let plan = any_plan(&session, shape, random);
        let refusal = visit(session, &plan, length, random);
        both += usize::from(refusal == 13 && plan.len() % 4 > 0);
        refusal
    };
    repeat(tally, "sound", 2 * times, |shape| {
        let session = sound_session(shape, random);
        visit(shape, session, shape.nodes_len(), random)
    });
    repeat(tally, "nodes buffers", times, |shape| {
        let session = sound_session(shape, random);
        let length = wrong_length(shape.nodes_len(), random);
        visit(shape, session, length, random)
    });
    repeat(tally, "sessions", 2 * times, |shape| {
        let session = any_session(shape, random);
        let length = length_near(shape.nodes_len(), random);
        visit(shape, session, length, random)
    });
    tally.begin("each mark");
    for shape in shapes().into_iter().filter(|shape| shape.len == 1) {
        for session in with_each_mark(sound_session(shape, random)) {
            tally.add(visit(shape, session, shape.nodes_len(), random));
        }
    }
    both
}

#[test]
fn plans_are_checked_or_turned_away() {
    let mut tally = Tally::of("check plan");
    let both = over_every_kind(&mut tally, 200, &mut |session, plan, _, _| {
        calls::check_plan(session, plan).refusal
    });
    tally.report(&[0, 6, 13], 40_000);
    println!("{both} calls met both 13 and 6, and gave 13");
    assert!(both > 0);
}

#[test]
fn plans_are_carried_out_or_turned_away() {
    let mut tally = Tally::of("carry plan");
    let bytes = Nodes::new(&mut Random::seeded());
    let both = over_every_kind(&mut tally, 200, &mut |session, plan, length, random| {
        let mut nodes = bytes.some(length, random).to_vec();
        calls::carry_plan(session, plan, &mut nodes).refusal
    });
    tally.report(&[0, 6, 13], 40_000);
    println!("{both} calls met both 13 and 6 for the plan, and gave 13");
    assert!(both > 0);
}
