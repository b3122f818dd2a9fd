//! A plan and its steps.
use crate::Repairs;

/// One repair of a plan: the node's block becomes the XOR of the pair's.
///
/// ```
/// use mogtriz::{SIMPLEX, Session, Step};
/// let mut session = Session::start(SIMPLEX, 3, 1, &[4, 5, 7])?;
/// let mut out = [0; mogtriz::PLAN_ROOM];
/// let first = session.plan(&mut out)?.steps().next();
/// assert_eq!(first, Some(Step { round: 1, node: 1, pair: [4, 5] }));
///
/// // a step of a plan, made by hand
/// let mut nodes = [0, 0, 0, 4, 5, 0, 7];
/// if let Some(Step { node, pair, .. }) = first {
///     session.step(&mut nodes, node, pair)?;
/// }
/// assert_eq!(nodes, [1, 0, 0, 4, 5, 0, 7]);
/// # Ok::<(), mogtriz::Refusal>(())
/// ```
#[derive(Clone, Copy, Debug, PartialEq, Eq, Hash)]
pub struct Step {
    /// The round in which it is made, the first being 1.
    pub round: usize,
    /// The node that is repaired.
    pub node: usize,
    /// The two nodes that it is repaired from, the smaller number first.
    pub pair: [usize; 2],
}

impl Step {
    /// A step from its four bytes in a plan: round, node, smaller, larger.
    ///
    /// ```
    /// let step = mogtriz::Step::from_bytes([4, 6, 1, 7]);
    /// assert_eq!((step.round, step.node, step.pair), (4, 6, [1, 7]));
    /// ```
    #[must_use]
    pub fn from_bytes(bytes: [u8; 4]) -> Step {
        let [round, node, smaller, larger] = bytes.map(usize::from);
        Step {
            round,
            node,
            pair: [smaller, larger],
        }
    }

    /// The step's four bytes in a plan: round, node, smaller, larger. `None` where a number is above 255, which is so in no good step.
    ///
    /// ```
    /// use mogtriz::Step;
    /// let steps = [Step { round: 1, node: 1, pair: [4, 5] }, Step { round: 2, node: 6, pair: [1, 7] }];
    /// let plan: Option<Vec<[u8; 4]>> = steps.into_iter().map(Step::to_bytes).collect();
    /// assert_eq!(plan.unwrap_or_default().as_flattened(), [1, 1, 4, 5, 2, 6, 1, 7]);
    ///
    /// assert_eq!(Step { round: 1, node: 256, pair: [4, 5] }.to_bytes(), None);
    /// ```
    #[must_use]
    pub fn to_bytes(self) -> Option<[u8; 4]> {
        let [smaller, larger] = self.pair;
        let mut bytes = [0; 4];
        for (byte, number) in bytes
            .iter_mut()
            .zip([self.round, self.node, smaller, larger])
        {
            *byte = u8::try_from(number).ok()?;
        }
        Some(bytes)
    }
}

/// A plan: its counts, and its steps, which stand in the destination that was lent to [`plan`](crate::Session::plan).
///
/// ```
/// let session = mogtriz::Session::start(mogtriz::SIMPLEX, 3, 1, &[4, 5, 7])?;
/// let mut out = [0; mogtriz::PLAN_ROOM];
/// let plan = session.plan(&mut out)?;
/// assert_eq!((plan.repairs.steps, plan.repairs.rounds, plan.repairs.left), (4, 4, 0));
/// assert!(plan.steps().map(|step| step.node).eq([1, 2, 3, 6]));
/// # Ok::<(), mogtriz::Refusal>(())
/// ```
#[derive(Clone, Copy, Debug, PartialEq, Eq)]
pub struct Plan<'out> {
    /// How many steps and rounds it has, and how many nodes are left.
    pub repairs: Repairs,
    bytes: &'out [u8],
}

impl<'out> Plan<'out> {
    /// The plan at the beginning of a destination.
    pub(crate) fn at_start_of(out: &'out [u8], repairs: Repairs) -> Plan<'out> {
        Plan {
            repairs,
            bytes: &out[..4 * repairs.steps],
        }
    }

    /// The steps in the order in which they are made: by round, and in a round by node.
    ///
    /// ```
    /// let session = mogtriz::Session::start(mogtriz::WEIGHT_TWO, 3, 1, &[4, 6])?;
    /// let mut out = [0; mogtriz::PLAN_ROOM];
    /// let mut steps = session.plan(&mut out)?.steps();
    /// assert_eq!(steps.len(), 1);
    /// assert_eq!(steps.next(), Some(mogtriz::Step { round: 1, node: 5, pair: [4, 6] }));
    /// # Ok::<(), mogtriz::Refusal>(())
    /// ```
    #[must_use]
    pub fn steps(self) -> impl ExactSizeIterator<Item = Step> + DoubleEndedIterator + Clone {
        let steps = self.bytes.chunks_exact(4);
        steps.map(|step| Step::from_bytes([step[0], step[1], step[2], step[3]]))
    }

    /// The steps as the destination holds them, four bytes each: round, node, smaller, larger.
    ///
    /// ```
    /// let session = mogtriz::Session::start(mogtriz::WEIGHT_TWO, 3, 1, &[4, 6])?;
    /// let mut out = [0; mogtriz::PLAN_ROOM];
    /// assert_eq!(session.plan(&mut out)?.bytes(), [1, 5, 4, 6]);
    /// # Ok::<(), mogtriz::Refusal>(())
    /// ```
    #[must_use]
    pub fn bytes(self) -> &'out [u8] {
        self.bytes
    }
}
