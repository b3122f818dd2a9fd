//! Plans that are handed in, out of the fuzzer's bytes: the session's own, one of other pairs, or any bytes; most of them with something
//! changed.
use crate::input::Input;
use compare::boxes::{check_session, missing_nodes};
use compare::planner::{self, Step, plan_of};
use mogtriz::raw::Session;

/// For a session that is turned away it is of any bytes.
pub fn handed_plan(session: &Session, input: &mut Input) -> Vec<u8> {
    let tag = input.byte();
    let steps = match (tag % 4, check_session(session)) {
        (0, Ok(_)) => plan_of(session).steps,
        (1, Ok(_)) => round_for_each(plan_of(session).steps),
        (2, Ok(_)) => chosen(session, input),
        _ => return any_bytes(input),
    };
    let mut plan = steps.concat();
    for _ in 0..tag / 4 % 4 {
        change(&mut plan, input);
    }
    let length = input.length_near(plan.len());
    plan.resize(length, 1);
    plan
}

fn any_bytes(input: &mut Input) -> Vec<u8> {
    let length = input.byte().into();
    input.part(length).to_vec()
}

fn round_for_each(mut steps: Vec<Step>) -> Vec<Step> {
    for (step, round) in steps.iter_mut().zip(1..) {
        step[0] = round;
    }
    steps
}

/// Steps one by one, each for a missing node that the input names, from the pair that it names of those that may be read in the round;
/// it says too whether a round begins.
fn chosen(session: &Session, input: &mut Input) -> Vec<Step> {
    let (mut now, mut free) = (*session, *session);
    let (mut steps, mut round) = (Vec::new(), 1);
    for _ in 0..input.byte() % 32 {
        let [which, pair] = [(); 2].map(|()| usize::from(input.byte()));
        if pair >= 128 && !steps.is_empty() {
            free = now;
            round += 1;
        }
        let missing = missing_nodes(&now);
        let Some(&node) = missing.get(which % missing.len().max(1)) else {
            break;
        };
        let pairs = planner::pairs(&free, node);
        if let Some(&[smaller, larger]) = pairs.get(pair % pairs.len().max(1)) {
            steps.push([round, node, smaller, larger]);
            now.live[usize::from(node)] = 1;
            for read in [smaller, larger] {
                free.live[usize::from(read)] = 0;
            }
        }
    }
    steps
}

/// A byte changed, a step of four taken out, put in a second time or exchanged with the one after it, or the rounds from one on raised or
/// lowered.
fn change(plan: &mut Vec<u8>, input: &mut Input) {
    let [which, place, value] = [(); 3].map(|()| input.byte());
    let steps = plan.len() / 4;
    if steps == 0 {
        plan.extend([1, place, value, which]);
        return;
    }
    let at = usize::from(place) % steps * 4;
    let mut shift = |by: u8| {
        let rounds = plan[at..].iter_mut().step_by(4);
        rounds.for_each(|round| *round = round.wrapping_add(by));
    };
    match which % 6 {
        0 => shift(1),
        1 => shift(u8::MAX),
        2 => drop(plan.drain(at..at + 4)),
        3 => plan.extend_from_within(at..at + 4),
        4 if at + 8 <= plan.len() => plan[at..at + 8].rotate_left(4),
        _ => plan[at + usize::from(which / 6) % 4] = value,
    }
}
