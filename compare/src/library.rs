//! The library by its Rust package, its answers put as the papers have them. A refusal is a number there, with a block where
//! it is 14, and a session is lent and not given back: the zeros that come with a refusal, and the session of zeros of a
//! refused start or box, stand here for what C gives, and a session is what the call left of the one lent to it.
//! `mogtriz::raw` has what C gives.
use crate::boxes::NO_SESSION;
use crate::planner::{Step, steps_in};
use mogtriz::raw::{
    self, Carried, Converted, PairsFound, Part, PlanChecked, ReadOut, Repairs, Session, Started,
    Stepped, Written,
};
use mogtriz::{PLAN_ROOM, PlanError, Refusal};

pub fn encode(family: usize, k: usize, len: usize, object: &[u8], nodes: &mut [u8]) -> u8 {
    number(mogtriz::encode(family, k, len, object, nodes))
}

pub fn interleave(family: usize, k: usize, len: usize, object: &[u8], out: &mut [u8]) -> u8 {
    number(mogtriz::interleave(family, k, len, object, out))
}

pub fn deinterleave(family: usize, k: usize, len: usize, object: &[u8], out: &mut [u8]) -> u8 {
    number(mogtriz::deinterleave(family, k, len, object, out))
}

pub fn node_count(family: usize, k: usize) -> usize {
    mogtriz::node_count(family, k).unwrap_or(0)
}

pub fn column(family: usize, k: usize, node: usize) -> usize {
    mogtriz::column(family, k, node).unwrap_or(0)
}

pub fn node_of_column(family: usize, k: usize, column: usize) -> usize {
    mogtriz::node_of_column(family, k, column).unwrap_or(0)
}

pub fn related(family: usize, k: usize, nodes: [usize; 3]) -> u8 {
    mogtriz::related(family, k, nodes).into()
}

pub fn start(family: usize, k: usize, len: usize, list: &[u8]) -> Started {
    started(mogtriz::Session::start(family, k, len, list))
}

pub fn check(bytes: &[u8]) -> Started {
    started(mogtriz::Session::check(bytes))
}

pub fn read(bytes: &[u8], nodes: &mut [u8]) -> Started {
    started(mogtriz::Session::read(bytes, nodes))
}

/// The place is that of the part itself, so that a copy would not do.
pub fn body(bytes: &[u8], node: usize) -> Part {
    match mogtriz::body(bytes, node) {
        Ok(part) => Part {
            refusal: 0,
            from: part.as_ptr().addr() - bytes.as_ptr().addr(),
            length: part.len(),
        },
        Err(refusal) => Part {
            refusal: refusal.number(),
            from: 0,
            length: 0,
        },
    }
}

pub fn from_graded(bytes: &[u8], out: &mut [u8]) -> Converted {
    converted(mogtriz::from_graded(bytes, out))
}

pub fn to_graded(bytes: &[u8], out: &mut [u8]) -> Converted {
    converted(mogtriz::to_graded(bytes, out))
}

pub fn write(session: Session, nodes: &[u8], list: &[u8], out: &mut [u8]) -> Written {
    let session = handed_in(session);
    written(session.write(nodes, list, out), &session)
}

pub fn live_nodes(session: Session, out: &mut [u8]) -> Written {
    let session = handed_in(session);
    written(session.live_nodes_into(out), &session)
}

pub fn read_out(session: Session, nodes: &[u8], object: &mut [u8]) -> ReadOut {
    let session = handed_in(session);
    let answer = session.read_out(nodes, object);
    ReadOut {
        refusal: number(answer),
        block: answer.map_or_else(block_of, |()| 0),
        session: left_of(&session),
    }
}

/// No pair is a pair of zeros in C.
pub fn pairs(session: Session, node: usize) -> PairsFound {
    let session = handed_in(session);
    let answer = session.pairs(node);
    let [smaller, larger] = answer.map_or(None, |pairs| pairs.least).unwrap_or([0; 2]);
    PairsFound {
        refusal: number(answer),
        smaller,
        larger,
        count: answer.map_or(0, |pairs| pairs.count),
        session: left_of(&session),
    }
}

/// The triple is the node to repair and the two that it comes from.
pub fn step(session: Session, nodes: &mut [u8], triple: [usize; 3]) -> Stepped {
    let [node, first, second] = triple;
    let mut session = handed_in(session);
    let answer = session.step(nodes, node, [first, second]);
    Stepped {
        refusal: number(answer),
        session: left_of(&session),
    }
}

pub fn plan(session: Session, out: &mut [u8]) -> Repairs {
    let session = handed_in(session);
    let answer = session.plan(out).map(|plan| plan.repairs);
    repairs(answer, &session)
}

/// The steps of a plan and its counts, which are the same from C.
pub fn planned(session: Session) -> (Vec<Step>, Repairs) {
    let [planned, from_c] = [plan, raw::plan].map(|plan| {
        let mut bytes = [0; PLAN_ROOM];
        let answer = plan(session, &mut bytes);
        (steps_in(&bytes[..4 * answer.steps]), answer)
    });
    assert_eq!(planned, from_c);
    planned
}

pub fn run(session: Session, nodes: &mut [u8]) -> Repairs {
    let mut session = handed_in(session);
    let answer = session.run(nodes);
    repairs(answer, &session)
}

pub fn check_plan(session: Session, plan: &[u8]) -> PlanChecked {
    let session = handed_in(session);
    let (refusal, bad_step) = numbers(session.check_plan(plan));
    PlanChecked {
        refusal,
        bad_step,
        session: left_of(&session),
    }
}

pub fn carry_plan(session: Session, plan: &[u8], nodes: &mut [u8]) -> Carried {
    let mut session = handed_in(session);
    let (refusal, bad_step) = numbers(session.carry_plan(plan, nodes));
    Carried {
        refusal,
        bad_step,
        session: left_of(&session),
    }
}

/// A session of any content, for the package.
pub fn handed_in(session: Session) -> mogtriz::Session {
    let Session {
        family,
        k,
        len,
        steps,
        live,
        reads,
    } = session;
    mogtriz::Session::from_parts(family, k, len, steps, live, reads)
}

fn left_of(session: &mogtriz::Session) -> Session {
    Session {
        family: session.family(),
        k: session.k(),
        len: session.block_len(),
        steps: session.steps(),
        live: *session.marks(),
        reads: *session.reads(),
    }
}

/// 0 for a call that is served.
fn number<Given>(answer: Result<Given, Refusal>) -> u8 {
    answer.map_or_else(Refusal::number, |_| 0)
}

/// The refusal's number and the bad step's; no step has the number 0.
fn numbers(answer: Result<(), PlanError>) -> (u8, usize) {
    match answer {
        Ok(()) => (0, 0),
        Err(PlanError::Refused(refusal)) => (refusal.number(), 0),
        Err(PlanError::BadStep(number)) => {
            assert_ne!(number, 0);
            (0, number)
        }
    }
}

fn started(answer: Result<mogtriz::Session, Refusal>) -> Started {
    Started {
        session: answer.as_ref().map_or(NO_SESSION, left_of),
        refusal: number(answer),
    }
}

fn converted(answer: Result<usize, Refusal>) -> Converted {
    Converted {
        refusal: number(answer),
        length: answer.unwrap_or(0),
    }
}

fn written(answer: Result<usize, Refusal>, session: &mogtriz::Session) -> Written {
    Written {
        refusal: number(answer),
        length: answer.unwrap_or(0),
        session: left_of(session),
    }
}

fn block_of(refusal: Refusal) -> usize {
    match refusal {
        Refusal::BlockMissing { block } => block,
        _ => 0,
    }
}

fn repairs(answer: Result<mogtriz::Repairs, Refusal>, session: &mogtriz::Session) -> Repairs {
    let counts = answer.map_or([0; 3], |given| [given.steps, given.rounds, given.left]);
    let [steps, rounds, left] = counts;
    Repairs {
        refusal: number(answer),
        steps,
        rounds,
        left,
        session: left_of(session),
    }
}
