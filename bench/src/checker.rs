//! The check of a plan that was made elsewhere, in safe Rust.
use crate::rivals::{Planner, are_marks};
use mogtriz::raw::Session;

/// The round of a node that is missing; no accepted plan has so many.
const MISSING: u8 = 255;

/// The number of the plan's first bad step, 0 where there is none; nothing where the session is unsound or the plan's length no multiple
/// of four. A call of its own, as the library's is.
#[inline(never)]
pub fn check_plan(planner: &Planner, session: &Session, plan: &[u8]) -> Option<usize> {
    if !is_sound(planner.n, session) || plan.len() % 4 != 0 {
        return None;
    }
    let steps = plan.chunks_exact(4);
    let mut checker = Checker::new(planner, &session.live);
    let bad = steps.zip(1..).find(|(step, _)| !checker.makes(step));
    Some(bad.map_or(0, |(_, number)| number))
}

/// Whether marks and counts are such as a session can have.
fn is_sound(n: usize, session: &Session) -> bool {
    let Session {
        steps, live, reads, ..
    } = session;
    if !are_marks(n, live) {
        return false;
    }
    let sum: usize = reads.iter().map(|&count| usize::from(count)).sum();
    let outside = reads[0] > 0 || reads[n + 1..].iter().any(|&count| count > 0);
    let missing = live[1..=n].iter().filter(|&&mark| mark == 0).count();
    // steps above n are too many in any case, so that nothing wraps
    *steps <= n && sum == 2 * steps && !outside && steps + missing <= n
}

/// A plan under way. By node the round after which it is live, 0 for one that is so from the start, and the last round in which it
/// was read: so no marks are copied when a round begins.
struct Checker<'a> {
    planner: &'a Planner,
    round: u8,
    live_after: [u8; 256],
    read_in: [u8; 256],
}

impl Checker<'_> {
    fn new<'a>(planner: &'a Planner, marks: &[u8; 256]) -> Checker<'a> {
        Checker {
            planner,
            round: 0,
            live_after: marks.map(|mark| if mark == 1 { 0 } else { MISSING }),
            read_in: [0; 256],
        }
    }

    /// Makes a step of four bytes, or says that it is bad.
    fn makes(&mut self, step: &[u8]) -> bool {
        let &[round, node, smaller, larger] = step else {
            return false;
        };
        if round == 0 || round.wrapping_sub(self.round) > 1 {
            return false;
        }
        let [node, smaller, larger] = [node, smaller, larger].map(usize::from);
        let n = self.planner.n;
        let are_nodes = (1..=n).contains(&node) && smaller >= 1 && larger <= n;
        if !are_nodes || smaller >= larger || self.live_after[node] != MISSING {
            return false;
        }
        let column = |node: usize| self.planner.columns[node];
        if column(node) ^ column(smaller) ^ column(larger) != 0 {
            return false;
        }
        let serves = |node: usize| self.live_after[node] < round && self.read_in[node] != round;
        if !serves(smaller) || !serves(larger) {
            return false;
        }
        self.round = round;
        self.live_after[node] = round;
        self.read_in[smaller] = round;
        self.read_in[larger] = round;
        true
    }
}
