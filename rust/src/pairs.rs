//! The pairs that a node can be had from.
use crate::{Refusal, Session, raw};

/// The pairs of a node: two live nodes that are related to it, so that the XOR of their blocks is its block.
///
/// ```
/// use mogtriz::{Pairs, SIMPLEX, Session};
/// let session = Session::start(SIMPLEX, 3, 1, &[1, 2, 4, 5, 7])?;
/// // node 3 is related to 1 and 2, to 4 and 7, and to 5 and 6, of which 6 is missing
/// assert_eq!(session.pairs(3)?, Pairs { least: Some([1, 2]), count: 2 });
/// # Ok::<(), mogtriz::Refusal>(())
/// ```
#[derive(Clone, Copy, Debug, PartialEq, Eq, Hash)]
pub struct Pairs {
    /// The pair whose smaller number is least, that number first; `None` exactly where the count is 0.
    pub least: Option<[usize; 2]>,
    /// How many pairs there are: with all nodes live (n − 1) / 2 in simplex, k − 1 in weight-two and 6 in the tetrahedron, and never
    /// more.
    pub count: usize,
}

impl Session {
    /// The pairs of live nodes that a node can be had from, whether it is live or missing: the least one, and how many there are.
    ///
    /// A live node can be read as the XOR of a pair's blocks while its own drive rests. Round 1 of a [`plan`](Session::plan) repairs no
    /// missing node but those with a pair. It repairs the first of them from the pair given here; a later one may get another pair
    /// or have to wait, as a node is read once in a round.
    ///
    /// # Errors
    ///
    /// The first of these that is met:
    ///
    /// - 13, [`Refusal::NoSuchSession`]
    /// - 4, [`Refusal::NoSuchNode`]: it is 0 or above n
    ///
    /// ```
    /// use mogtriz::{Refusal, SIMPLEX, Session};
    /// let mut nodes = [1, 2, 0, 4, 5, 0, 7];
    /// let mut session = Session::start(SIMPLEX, 3, 1, &[1, 2, 4, 5, 7])?;
    ///
    /// // node 1 is live, and its block is had from two others as well
    /// let pairs = session.pairs(1)?;
    /// assert_eq!(pairs.count, 1);
    /// if let Some([smaller, larger]) = pairs.least {
    ///     assert_eq!(nodes[smaller - 1] ^ nodes[larger - 1], nodes[0]);
    /// }
    ///
    /// // node 6 is missing, and has two pairs to be repaired from
    /// let pairs = session.pairs(6)?;
    /// assert_eq!((pairs.least, pairs.count), (Some([1, 7]), 2));
    /// if let Some(pair) = pairs.least {
    ///     session.step(&mut nodes, 6, pair)?;
    /// }
    /// assert_eq!(nodes, [1, 2, 0, 4, 5, 6, 7]);
    ///
    /// assert_eq!(session.pairs(8), Err(Refusal::NoSuchNode));
    /// # Ok::<(), mogtriz::Refusal>(())
    /// ```
    pub fn pairs(&self, node: usize) -> Result<Pairs, Refusal> {
        let found = raw::pairs(self.0, node);
        Refusal::unless_served(found.refusal)?;
        Ok(Pairs {
            // C gives 0 for no node
            least: (found.count > 0).then_some([found.smaller, found.larger]),
            count: found.count,
        })
    }
}
