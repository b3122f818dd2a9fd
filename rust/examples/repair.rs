//! The example of examples/repair.c in Rust; both print the same lines. An object is stored as a box that keeps three of its
//! seven nodes, the others are planned and repaired, the reads that this took and the pairs of one of the nodes are printed, and all
//! seven are put away and the object read out.
use mogtriz::{Pairs, Refusal, SIMPLEX, Session, Step};

const K: usize = 3;
const LEN: usize = 8;

fn main() -> Result<(), Refusal> {
    let object = b"vowels of one disc, 1952";
    let bytes = store(object)?;

    let (mut session, mut nodes) = Session::read_to_vec(&bytes)?;
    println!("read a box of {} nodes", session.live_nodes().count());
    print_plan(&session)?;

    let run = session.run(&mut nodes)?;
    println!(
        "{} repaired in {} rounds, {} left",
        run.steps, run.rounds, run.left
    );
    print_reads(&session);
    print_pairs(&session, 7)?;

    // every live node is named: an empty list would give an empty box
    let list = session.live_nodes_to_vec()?;
    let whole = session.write_to_vec(&nodes, &list)?;
    println!(
        "put away a box of {} nodes, {} bytes",
        list.len(),
        whole.len()
    );

    match session.read_out_to_vec(&nodes) {
        Ok(again) => {
            println!("read out: {}", String::from_utf8_lossy(&again));
            assert_eq!(again, object);
        }
        // where more nodes are lost than can be repaired
        Err(Refusal::BlockMissing { block }) => println!("data block {block} is lost"),
        Err(refusal) => return Err(refusal),
    }

    match session.step(&mut nodes, 6, [1, 7]) {
        Err(refusal @ Refusal::AlreadyLive) => {
            println!("a step to node 6: {refusal}");
            Ok(())
        }
        other => other,
    }
}

/// The box of nodes 4, 5 and 7 of an object; the other nodes are lost.
fn store(object: &[u8]) -> Result<Vec<u8>, Refusal> {
    let nodes = mogtriz::encode_to_vec(SIMPLEX, K, LEN, object)?;
    let n = nodes.len() / LEN;
    println!("encoded {} bytes into {n} nodes", object.len());

    let kept = [4, 5, 7];
    let session = Session::start(SIMPLEX, K, LEN, &kept)?;
    let bytes = session.write_to_vec(&nodes, &kept)?;
    println!("wrote a box of {} bytes", bytes.len());
    Ok(bytes)
}

/// The session counts how often each node's block was read by steps, those of a run included.
fn print_reads(session: &Session) {
    let counts = session.reads().iter().enumerate();
    let read: Vec<String> = counts
        .filter(|(_, count)| **count > 0)
        .map(|(node, count)| format!("{count} of node {node}"))
        .collect();
    println!("reads in {} steps: {}", session.steps(), read.join(", "));
}

/// A node that is much asked for can be read as the XOR of a pair's blocks, while its own drive rests.
fn print_pairs(session: &Session, node: usize) -> Result<(), Refusal> {
    let Pairs { least, count } = session.pairs(node)?;
    if let Some([smaller, larger]) = least {
        println!("node {node} can be read through {count} pairs, the least {smaller} and {larger}");
    }
    Ok(())
}

fn print_plan(session: &Session) -> Result<(), Refusal> {
    let (_, steps) = session.plan_to_vec()?;
    for Step { round, node, pair } in steps {
        let [smaller, larger] = pair;
        println!("round {round}: node {node} from {smaller} and {larger}");
    }
    Ok(())
}
