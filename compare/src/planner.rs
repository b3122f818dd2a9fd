//! Steps, plans and runs from the papers alone: for each its answer, and what it writes.
use crate::boxes::{block_at, check_nodes, check_session, live_nodes, missing_nodes};
use crate::papers::{columns_of, xor_into};
use mogtriz::raw::{Repairs, Session, Stepped};

/// A step as a plan writes it: round, node, smaller, larger.
pub type Step = [u8; 4];

/// The steps that a plan's bytes hold.
pub fn steps_in(bytes: &[u8]) -> Vec<Step> {
    let steps = bytes.chunks_exact(4);
    steps.map(|step| [0, 1, 2, 3].map(|i| step[i])).collect()
}

/// All steps of a plan, and the session once they are made.
pub struct Plan {
    pub steps: Vec<Step>,
    pub rounds: usize,
    pub session: Session,
}

/// The triple is the node to repair and the two that it comes from.
pub fn step(session: Session, nodes: &mut [u8], triple: [usize; 3]) -> Stepped {
    match check_step(&session, nodes, triple) {
        Ok(triple) => {
            repair(nodes, session.len, triple);
            Stepped {
                refusal: 0,
                session: after_step(session, triple),
            }
        }
        Err(refusal) => Stepped { refusal, session },
    }
}

pub fn plan(session: Session, out: &mut [u8]) -> Repairs {
    match check_session(&session).and_then(|_| plan_within(&session, out.len())) {
        Ok(plan) => {
            let bytes = plan.steps.concat();
            out[..bytes.len()].copy_from_slice(&bytes);
            counts(&plan, session)
        }
        Err(refusal) => refused(refusal, session),
    }
}

pub fn run(session: Session, nodes: &mut [u8]) -> Repairs {
    match check_nodes(&session, nodes) {
        Ok(_) => {
            let plan = plan_of(&session);
            for &[_, node, smaller, larger] in &plan.steps {
                repair(nodes, session.len, [node, smaller, larger]);
            }
            counts(&plan, plan.session)
        }
        Err(refusal) => refused(refusal, session),
    }
}

/// How often a live node may be read in a round.
#[derive(Clone, Copy, PartialEq)]
enum Reads {
    Once,
    AnyNumber,
}

/// The plan of a session that is taken, in rounds in which a node is read once at most (document 02, K11).
pub fn plan_of(session: &Session) -> Plan {
    planned(session, Reads::Once)
}

/// The same in waves, the rounds of document 01, in which a node may be read by any number of repairs.
pub fn waves_of(session: &Session) -> Plan {
    planned(session, Reads::AnyNumber)
}

fn planned(session: &Session, reads: Reads) -> Plan {
    let mut plan = Plan {
        steps: Vec::new(),
        rounds: 0,
        session: *session,
    };
    loop {
        let steps = round(&plan.session, plan.rounds + 1, reads);
        if steps.is_empty() {
            return plan;
        }
        plan.rounds += 1;
        for &[_, node, smaller, larger] in &steps {
            plan.session = after_step(plan.session, [node, smaller, larger]);
        }
        plan.steps.extend(steps);
    }
}

/// The pairs of live nodes that are related to a node, those with the least smaller number first.
pub fn pairs(session: &Session, node: u8) -> Vec<[u8; 2]> {
    Live::of(session).pairs(column(session, node)).collect()
}

/// Live nodes, rising, and their columns.
struct Live {
    nodes: Vec<u8>,
    columns: Vec<u32>,
}

impl Live {
    fn of(session: &Session) -> Live {
        let nodes = live_nodes(session);
        let columns = nodes.iter().map(|&node| column(session, node)).collect();
        Live { nodes, columns }
    }

    /// The pairs a < b whose columns with this one give 0, by a: every b above a is tried.
    fn pairs(&self, column: u32) -> impl Iterator<Item = [u8; 2]> {
        (0..self.nodes.len()).filter_map(move |a| {
            let wanted = column ^ self.columns[a];
            let above = &self.columns[a + 1..];
            // `contains` looks at several at a time
            if !above.contains(&wanted) {
                return None;
            }
            let b = a + 1 + above.iter().position(|&other| other == wanted)?;
            Some([self.nodes[a], self.nodes[b]])
        })
    }

    fn remove(&mut self, node: u8) {
        let place = self.nodes.iter().position(|&other| other == node);
        let place = place.expect("a node of these");
        self.nodes.remove(place);
        self.columns.remove(place);
    }
}

/// The column of a node from 1 to n.
fn column(session: &Session, node: u8) -> u32 {
    // of at most 22 bits
    columns_of(session.family, session.k)[usize::from(node) - 1] as u32
}

/// Whether the XOR of the columns of three nodes is 0.
fn related(session: &Session, triple: [u8; 3]) -> bool {
    let [a, b, c] = triple.map(|node| column(session, node));
    a ^ b ^ c == 0
}

/// The steps of one round: missing nodes by rising number, each with its least pair of which both are live now, when the round begins,
/// and may still be read. A node without one waits.
fn round(session: &Session, number: usize, reads: Reads) -> Vec<Step> {
    let mut may_be_read = Live::of(session);
    let mut steps = Vec::new();
    for node in missing_nodes(session) {
        let least = may_be_read.pairs(column(session, node)).next();
        let Some([smaller, larger]) = least else {
            continue;
        };
        steps.push([number as u8, node, smaller, larger]);
        if reads == Reads::Once {
            may_be_read.remove(smaller);
            may_be_read.remove(larger);
        }
    }
    steps
}

/// The first node's block becomes the XOR of the two others'.
fn repair(nodes: &mut [u8], len: usize, triple: [u8; 3]) {
    let [node, first, second] = triple.map(|node| block_at(node, len));
    let mut block = nodes[first].to_vec();
    xor_into(&mut block, &nodes[second]);
    nodes[node].copy_from_slice(&block);
}

/// The session once a step is made: its node is live, and the step and a read of each of its two sources are counted (document 02,
/// K8).
fn after_step(mut session: Session, triple: [u8; 3]) -> Session {
    let [node, first, second] = triple.map(usize::from);
    session.live[node] = 1;
    session.steps += 1;
    session.reads[first] += 1;
    session.reads[second] += 1;
    session
}

/// The three nodes, once the checks 13, 6, 4, 10, 11 and 12 are passed.
fn check_step(session: &Session, nodes: &[u8], triple: [usize; 3]) -> Result<[u8; 3], u8> {
    let n = check_nodes(session, nodes)?;
    if triple.iter().any(|&node| node == 0 || node > n) {
        return Err(4);
    }
    // n is below 256
    let triple = triple.map(|node| node as u8);
    if !related(session, triple) {
        return Err(10);
    }
    let [node, first, second] = triple.map(|node| session.live[usize::from(node)] == 1);
    if node {
        return Err(11);
    }
    if !first || !second {
        return Err(12);
    }
    Ok(triple)
}

/// The plan, or 6 where its steps take more bytes than there are.
fn plan_within(session: &Session, room: usize) -> Result<Plan, u8> {
    let plan = plan_of(session);
    if room < 4 * plan.steps.len() {
        return Err(6);
    }
    Ok(plan)
}

fn counts(plan: &Plan, session: Session) -> Repairs {
    Repairs {
        refusal: 0,
        steps: plan.steps.len(),
        rounds: plan.rounds,
        left: missing_nodes(&plan.session).len(),
        session,
    }
}

fn refused(refusal: u8, session: Session) -> Repairs {
    Repairs {
        refusal,
        steps: 0,
        rounds: 0,
        left: 0,
        session,
    }
}
