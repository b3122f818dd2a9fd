//! Plans made elsewhere: checked, and carried out.
use crate::{Refusal, Session, raw};
use core::error::Error;
use core::fmt;

/// Why a plan that was made elsewhere is not accepted: the call is turned away, or one of the plan's steps is bad.
///
/// ```
/// use mogtriz::{PlanError, Refusal, SIMPLEX, Session};
/// let session = Session::start(SIMPLEX, 3, 1, &[4, 5, 7])?;
///
/// // node 5 is read twice in round 1
/// let error = session.check_plan(&[1, 1, 4, 5, 1, 2, 5, 7]).unwrap_err();
/// assert_eq!(error, PlanError::BadStep(2));
/// assert_eq!(error.to_string(), "step 2 of the plan is bad");
///
/// let error = session.check_plan(&[1, 1, 4]).unwrap_err();
/// assert_eq!(error, PlanError::Refused(Refusal::BufferLength));
/// assert_eq!(error.to_string(), "refused 6: a buffer is not of the length that the call needs");
/// # Ok::<(), mogtriz::Refusal>(())
/// ```
#[derive(Clone, Copy, Debug, PartialEq, Eq, Hash)]
pub enum PlanError {
    /// The call is turned away, whatever the steps are.
    Refused(Refusal),
    /// The number, from 1, of the plan's first bad step. [`check_plan`](Session::check_plan) says what makes a step bad.
    BadStep(usize),
}

impl Session {
    /// Whether a plan that was made elsewhere can be carried out, as one by a planner that would rather read some nodes than others.
    ///
    /// It takes the plan's steps, four bytes each as [`Step::to_bytes`](crate::Step::to_bytes) and [`plan`](Session::plan) make them:
    /// round, node, smaller, larger. There may be any number of them, of any bytes. A step is good where all of this holds:
    ///
    /// - its round is that of the step before it or one more; the first step's is 1
    /// - the three node numbers are 1 to n, and smaller is less than larger
    /// - its node is missing when its step comes: it is not live in the session, and no step before it repairs it
    /// - the pair is related to the node, and both were live when its round began: in the session, or repaired in an earlier round
    /// - no step before it in its round reads one of the pair
    ///
    /// The plan is accepted where every step is good. So is an empty one, and so are the [`bytes`](crate::Plan::bytes) of the session's
    /// own plan. It need not repair all that can be repaired, and has at most as many steps as nodes are missing. Nothing is written,
    /// and the session stays.
    ///
    /// # Errors
    ///
    /// The first of these that is met:
    ///
    /// - 13, [`Refusal::NoSuchSession`]
    /// - 6, [`Refusal::BufferLength`]: the plan's length is no multiple of four
    /// - [`PlanError::BadStep`]: the number of the first step that is not good, from 1
    ///
    /// ```
    /// use mogtriz::{PlanError, SIMPLEX, Session};
    /// let session = Session::start(SIMPLEX, 3, 1, &[4, 5, 7])?;
    /// assert_eq!(session.check_plan(&[1, 3, 4, 7]), Ok(()));
    /// assert_eq!(session.check_plan(&[]), Ok(()));
    ///
    /// // node 1 is repaired in round 1, and serves from round 2 on
    /// let plan = [[1, 1, 4, 5], [2, 6, 1, 7]];
    /// assert_eq!(session.check_plan(plan.as_flattened()), Ok(()));
    /// let plan = [[1, 1, 4, 5], [1, 6, 1, 7]];
    /// assert_eq!(session.check_plan(plan.as_flattened()), Err(PlanError::BadStep(2)));
    /// # Ok::<(), mogtriz::Refusal>(())
    /// ```
    pub fn check_plan(&self, plan: &[u8]) -> Result<(), PlanError> {
        let answer = raw::check_plan(self.0, plan);
        PlanError::unless_accepted(answer.refusal, answer.bad_step)
    }

    /// A plan that was made elsewhere, checked as by [`check_plan`](Session::check_plan) and, where it is accepted, carried out.
    ///
    /// It takes the plan's steps, four bytes each, and a nodes buffer of exactly n × L bytes. The steps are made in the plan's order,
    /// each as [`step`](Session::step) makes one: the blocks of the repaired nodes are written, these are marked live, and every step is
    /// counted. Where the live blocks are an object's, so are the repaired ones. All other bytes stay.
    ///
    /// # Errors
    ///
    /// The first of these that is met; nothing is written then, not even by the steps before a bad one, and the session stays as it was.
    ///
    /// - 13, [`Refusal::NoSuchSession`]
    /// - 6, [`Refusal::BufferLength`]: the nodes buffer is not of its length, or the plan's is no multiple of four
    /// - [`PlanError::BadStep`]: the number of the first step that is not good, from 1
    ///
    /// ```
    /// use mogtriz::{PlanError, SIMPLEX, Session};
    /// let mut session = Session::start(SIMPLEX, 3, 1, &[4, 5, 7])?;
    /// let mut nodes = [0, 0, 0, 4, 5, 0, 7];
    ///
    /// // node 7 is read twice in round 2: not even node 1 is repaired
    /// let plan = [[1, 1, 4, 5], [2, 6, 1, 7], [2, 2, 5, 7]];
    /// assert_eq!(session.carry_plan(plan.as_flattened(), &mut nodes), Err(PlanError::BadStep(3)));
    /// assert_eq!((nodes, session.steps()), ([0, 0, 0, 4, 5, 0, 7], 0));
    ///
    /// let plan = [[1, 1, 4, 5], [2, 6, 1, 7], [3, 2, 5, 7]];
    /// session.carry_plan(plan.as_flattened(), &mut nodes)?;
    /// assert_eq!(nodes, [1, 2, 0, 4, 5, 6, 7]);
    /// assert!(session.missing_nodes().eq([3]));
    /// assert_eq!(session.steps(), 3);
    /// assert_eq!(session.reads()[..8], [0, 1, 0, 0, 1, 2, 0, 2]);
    /// # Ok::<(), PlanError>(())
    /// ```
    pub fn carry_plan(&mut self, plan: &[u8], nodes: &mut [u8]) -> Result<(), PlanError> {
        let answer = raw::carry_plan(self.0, plan, nodes);
        PlanError::unless_accepted(answer.refusal, answer.bad_step)?;
        self.0 = answer.session;
        Ok(())
    }
}

impl PlanError {
    /// The numbers of an answer as a result; no step has the number 0.
    fn unless_accepted(refusal: u8, bad_step: usize) -> Result<(), PlanError> {
        Refusal::unless_served(refusal)?;
        match bad_step {
            0 => Ok(()),
            number => Err(PlanError::BadStep(number)),
        }
    }
}

/// That of the refusal, or the number of the bad step.
impl fmt::Display for PlanError {
    fn fmt(&self, f: &mut fmt::Formatter) -> fmt::Result {
        match self {
            PlanError::Refused(refusal) => refusal.fmt(f),
            PlanError::BadStep(number) => write!(f, "step {number} of the plan is bad"),
        }
    }
}

impl Error for PlanError {}

/// So that `?` serves where calls that give a [`Refusal`] stand beside those of a plan.
///
/// ```
/// use mogtriz::{PlanError, Refusal};
/// assert_eq!(PlanError::from(Refusal::NoSuchSession), PlanError::Refused(Refusal::NoSuchSession));
/// ```
impl From<Refusal> for PlanError {
    fn from(refusal: Refusal) -> PlanError {
        PlanError::Refused(refusal)
    }
}
