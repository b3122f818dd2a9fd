//! The example of examples/carry.c in Rust; both print the same lines. The steps of a planner of one's own are checked, the first bad one is
//! told, and once they are put right they are carried out and the object is read out.
use mogtriz::{PlanError, Refusal, SIMPLEX, Session, Step};

const K: usize = 3;
const LEN: usize = 8;

fn main() -> Result<(), PlanError> {
    let object = b"vowels of one disc, 1952";
    let (mut session, mut nodes) = lose_nodes(object)?;

    // node 4 is read twice in round 1
    let mut steps = [[1, 3, 4, 7], [1, 1, 4, 5], [2, 6, 1, 7], [3, 2, 1, 3]].map(Step::from_bytes);
    if !is_accepted(&session, &steps)? {
        // a round for each step, as a drive serves one request a round
        for (step, round) in steps.iter_mut().zip(1..) {
            step.round = round;
        }
    }
    is_accepted(&session, &steps)?;

    // it is checked here too, and nothing is written where a step is bad
    session.carry_plan(&plan_of(&steps), &mut nodes)?;
    let (made, live) = (session.steps(), session.live_nodes().count());
    let n = session.node_count()?;
    println!("carried out: {made} steps, {live} of {n} nodes live");

    let again = session.read_out_to_vec(&nodes)?;
    println!("read out: {}", String::from_utf8_lossy(&again));
    assert_eq!(again, object);
    // its nodes are live now
    is_accepted(&session, &steps)?;
    Ok(())
}

/// Nodes 4, 5 and 7 of an object; the others are lost.
fn lose_nodes(object: &[u8]) -> Result<(Session, Vec<u8>), Refusal> {
    let mut nodes = mogtriz::encode_to_vec(SIMPLEX, K, LEN, object)?;
    let session = Session::start(SIMPLEX, K, LEN, &[4, 5, 7])?;
    for node in session.missing_nodes() {
        let end = usize::from(node) * LEN;
        nodes[end - LEN..end].fill(0);
    }
    Ok((session, nodes))
}

/// The bytes of some steps, in which no number is above 255.
fn plan_of(steps: &[Step]) -> Vec<u8> {
    let bytes = steps.iter().map(|step| step.to_bytes());
    let bytes: Option<Vec<[u8; 4]>> = bytes.collect();
    bytes.expect("numbers of a byte").concat()
}

/// Tells the first bad step; any other error is the caller's.
fn is_accepted(session: &Session, steps: &[Step]) -> Result<bool, PlanError> {
    match session.check_plan(&plan_of(steps)) {
        Ok(()) => println!("accepted, {} steps", steps.len()),
        Err(PlanError::BadStep(number)) => {
            let Step { round, node, pair } = steps[number - 1];
            let [smaller, larger] = pair;
            println!(
                "step {number} is bad: in round {round} node {node} from {smaller} and {larger}"
            );
            return Ok(false);
        }
        Err(error) => return Err(error),
    }
    Ok(true)
}
