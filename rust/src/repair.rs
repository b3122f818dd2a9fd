//! Repair: single steps, plans and runs.
use crate::{Plan, Refusal, Session, raw};

/// The counts of a plan or a run; a run gives the same three as the plan that it carries out.
///
/// ```
/// use mogtriz::{Repairs, Session, WEIGHT_TWO};
/// let mut session = Session::start(WEIGHT_TWO, 3, 1, &[4, 6])?;
/// let repairs = session.run(&mut [0, 0, 0, 3, 0, 6])?;
/// assert_eq!(repairs, Repairs { steps: 1, rounds: 1, left: 3 });
/// # Ok::<(), mogtriz::Refusal>(())
/// ```
#[derive(Clone, Copy, Debug, PartialEq, Eq, Hash)]
pub struct Repairs {
    /// How many nodes are repaired.
    pub steps: usize,
    /// In how many rounds: each repairs a node or more, so that there are at most as many as steps.
    pub rounds: usize,
    /// How many nodes are missing once all steps are made: those at which two objects alike on all live nodes can
    /// differ. They are no refusal. After a run [`missing_nodes`](Session::missing_nodes) says which they are.
    pub left: usize,
}

impl Session {
    /// One repair, from a pair of nodes that the caller names.
    ///
    /// It takes a nodes buffer of exactly n × L bytes, the missing node, and two live nodes that are related to it, in
    /// either order. The node's block becomes the XOR of theirs, and the node becomes live; no other byte is written. The step is
    /// counted in [`steps`](Session::steps), and the pair in [`reads`](Session::reads).
    ///
    /// # Errors
    ///
    /// The first of these that is met; nothing is written then, and the session stays as it was.
    ///
    /// - 13, [`Refusal::NoSuchSession`]
    /// - 6, [`Refusal::BufferLength`]: the nodes buffer is not of its length
    /// - 4, [`Refusal::NoSuchNode`]: one of the three is no node
    /// - 10, [`Refusal::NotRelated`]
    /// - 11, [`Refusal::AlreadyLive`]
    /// - 12, [`Refusal::NodeMissing`]: one of the pair is missing
    ///
    /// ```
    /// use mogtriz::{Refusal, SIMPLEX, Session};
    /// let mut nodes = [0, 0, 0, 4, 5, 0, 7];
    /// let mut session = Session::start(SIMPLEX, 3, 1, &[4, 5, 7])?;
    /// assert_eq!(session.step(&mut nodes, 6, [1, 7]), Err(Refusal::NodeMissing));
    ///
    /// session.step(&mut nodes, 1, [4, 5])?;
    /// assert_eq!(nodes, [1, 0, 0, 4, 5, 0, 7]);
    /// assert!(session.is_live(1));
    /// session.step(&mut nodes, 6, [1, 7])?;
    /// # Ok::<(), mogtriz::Refusal>(())
    /// ```
    pub fn step(&mut self, nodes: &mut [u8], node: usize, pair: [usize; 2]) -> Result<(), Refusal> {
        let [first, second] = pair;
        let answer = raw::step(self.0, nodes, [node, first, second]);
        Refusal::unless_served(answer.refusal)?;
        self.0 = answer.session;
        Ok(())
    }

    /// The repairs to make, in rounds from 1. In a round no node is read twice: missing nodes are taken by rising number, each with
    /// its least related pair of which both were live when the round began and neither was read in that round; a node without one
    /// waits. Least is the pair whose smaller number is least. A node that is repaired serves from the next round on.
    ///
    /// Waves are what rounds would be if a node could be read by any number of repairs in one. A node returns in the least wave r for
    /// which its column is the XOR of the columns of at most 2^r nodes that are live when round 1 begins; a node that is left has no
    /// such r. There are no more waves than 1 for k = 2, 2 for 3 and 4, 3 for 5 to 8, 4 for 9 to 16, 5 for 17 to 22. A plan leaves
    /// the nodes that waves leave, and has as many rounds as there are waves, or more.
    ///
    /// It takes a destination, for which [`PLAN_ROOM`](crate::PLAN_ROOM) bytes are always enough: each step is written to
    /// it as four bytes, and what lies beyond the steps is not written. It gives the [`Plan`] in it. Where nodes are left
    /// the plan is given all the same, and says how many.
    ///
    /// # Errors
    ///
    /// The first of these that is met; nothing is written then.
    ///
    /// - 13, [`Refusal::NoSuchSession`]
    /// - 6, [`Refusal::BufferLength`]: the destination has under four bytes a step
    ///
    /// ```
    /// use mogtriz::{Refusal, SIMPLEX, Session};
    /// let session = Session::start(SIMPLEX, 3, 1, &[4, 5, 7])?;
    /// let mut out = [0; mogtriz::PLAN_ROOM];
    /// let plan = session.plan(&mut out)?;
    /// let steps = [[1, 1, 4, 5], [2, 2, 5, 7], [3, 3, 1, 2], [4, 6, 1, 7]];
    /// assert_eq!(plan.bytes(), steps.as_flattened());
    ///
    /// assert_eq!(session.plan(&mut [0; 15]), Err(Refusal::BufferLength));
    /// # Ok::<(), mogtriz::Refusal>(())
    /// ```
    pub fn plan<'out>(&self, out: &'out mut [u8]) -> Result<Plan<'out>, Refusal> {
        let repairs = Repairs::of(&raw::plan(self.0, out))?;
        Ok(Plan::at_start_of(out, repairs))
    }

    /// The plan carried out.
    ///
    /// It takes a nodes buffer of exactly n × L bytes, writes the blocks of the repaired nodes and marks these live. It
    /// gives the plan's counts, and every step of the plan is counted in the session as [`step`](Session::step) counts one.
    /// Blocks of live nodes and places of nodes left keep their bytes. A live block is taken to be what it says: damage to it is
    /// not noticed, and goes into the blocks repaired from it.
    ///
    /// # Errors
    ///
    /// The first of these that is met; nothing is written then, and the session stays as it was.
    ///
    /// - 13, [`Refusal::NoSuchSession`]
    /// - 6, [`Refusal::BufferLength`]: the nodes buffer is not of its length
    ///
    /// ```
    /// let mut session = mogtriz::Session::start(mogtriz::SIMPLEX, 3, 1, &[4, 5, 7])?;
    /// let mut nodes = [0, 0, 0, 4, 5, 0, 7];
    /// let repairs = session.run(&mut nodes)?;
    /// assert_eq!(nodes, [1, 2, 3, 4, 5, 6, 7]);
    /// assert_eq!((repairs.steps, repairs.rounds, repairs.left), (4, 4, 0));
    /// assert_eq!((session.steps(), session.missing_nodes().count()), (4, 0));
    /// # Ok::<(), mogtriz::Refusal>(())
    /// ```
    pub fn run(&mut self, nodes: &mut [u8]) -> Result<Repairs, Refusal> {
        let answer = raw::run(self.0, nodes);
        let repairs = Repairs::of(&answer)?;
        self.0 = answer.session;
        Ok(repairs)
    }
}

impl Repairs {
    fn of(answer: &raw::Repairs) -> Result<Repairs, Refusal> {
        Refusal::unless_served(answer.refusal)?;
        Ok(Repairs {
            steps: answer.steps,
            rounds: answer.rounds,
            left: answer.left,
        })
    }
}
