//! Plans looked at step by step, by the words of document 02, K11: in a round, missing nodes are taken by rising number, each with its
//! least pair of which both were live when the round began and neither was read in that round; a node without one waits. No plan is
//! made here.
use crate::papers::columns_of;
use crate::planner::Step;
use mogtriz::raw::{MARKS, Session};
use std::collections::{BTreeSet, HashMap};

/// Says what is wrong with the steps and the number of rounds of a plan, if anything is.
pub fn check(session: &Session, steps: &[Step], rounds: usize) -> Result<(), String> {
    let mut nodes = Nodes::of(session);
    let mut rest = steps;
    for number in 1..=rounds {
        let in_round = |step: &&Step| usize::from(step[0]) == number;
        let (of_round, later) = rest.split_at(rest.iter().take_while(in_round).count());
        if of_round.is_empty() {
            return Err(format!("round {number} repairs nothing"));
        }
        let fault = |text: String| format!("round {number}: {text}");
        read_once(of_round).map_err(fault)?;
        nodes.take_turns(of_round).map_err(fault)?;
        nodes.set_live(of_round);
        rest = later;
    }
    if let Some(step) = rest.first() {
        return Err(format!("{step:?} is in none of {rounds} rounds"));
    }
    // the round that ends the plan
    let fault = |text: String| format!("after the last round: {text}");
    nodes.take_turns(&[]).map_err(fault)
}

fn read_once(steps: &[Step]) -> Result<(), String> {
    let mut read = BTreeSet::new();
    for &[_, _, smaller, larger] in steps {
        for node in [smaller, larger] {
            if !read.insert(node) {
                return Err(format!("node {node} is read twice"));
            }
        }
    }
    Ok(())
}

/// The nodes of a code, and which of them are live when a round begins.
struct Nodes {
    columns: &'static [usize],
    by_column: HashMap<usize, u8>,
    live: [bool; MARKS],
}

impl Nodes {
    fn of(session: &Session) -> Nodes {
        let columns = columns_of(session.family, session.k);
        Nodes {
            columns,
            by_column: columns.iter().copied().zip(1..=255).collect(),
            live: session.live.map(|mark| mark == 1),
        }
    }

    fn numbers(&self) -> impl Iterator<Item = u8> {
        (1..=255).take(self.columns.len())
    }

    fn column(&self, node: u8) -> usize {
        self.columns[usize::from(node) - 1]
    }

    /// Each missing node in its turn has its step if it has a pair, and none if it has not.
    fn take_turns(&self, steps: &[Step]) -> Result<(), String> {
        let mut steps = steps.iter().peekable();
        let mut serves = self.live;
        for node in self.numbers().filter(|&node| !self.live[usize::from(node)]) {
            let step = steps.next_if(|step| step[1] == node);
            let given = step.map(|&[_, _, smaller, larger]| [smaller, larger]);
            let least = self.least_pair(node, &serves);
            if given != least {
                return Err(format!("node {node} from {given:?}, not from {least:?}"));
            }
            for source in given.into_iter().flatten() {
                serves[usize::from(source)] = false;
            }
        }
        match steps.next() {
            Some(step) => Err(format!("{step:?} is out of turn")),
            None => Ok(()),
        }
    }

    /// The related pair of nodes that serve whose smaller number is least.
    fn least_pair(&self, node: u8, serves: &[bool; MARKS]) -> Option<[u8; 2]> {
        let serves = |node: u8| serves[usize::from(node)];
        self.numbers().filter(|&a| serves(a)).find_map(|a| {
            let lacking = self.column(node) ^ self.column(a);
            let b = *self.by_column.get(&lacking)?;
            (a < b && serves(b)).then_some([a, b])
        })
    }

    fn set_live(&mut self, steps: &[Step]) {
        for step in steps {
            self.live[usize::from(step[1])] = true;
        }
    }
}
