//! The session, and how it starts.
use crate::{Refusal, node_count, raw};
use core::fmt;

/// How many marks a session holds, by node number, and how many counts of reads; those for 0 and above n are never live, and never
/// counted.
///
/// ```
/// let session = mogtriz::Session::start(mogtriz::SIMPLEX, 3, 4, &[1, 2, 4])?;
/// assert_eq!(session.marks().len(), mogtriz::MARKS);
/// assert_eq!(session.reads().len(), mogtriz::MARKS);
/// # Ok::<(), mogtriz::Refusal>(())
/// ```
pub const MARKS: usize = raw::MARKS;

/// A family, k, L, and a mark for each node: live or missing. Besides, how often each node's block was read by steps, and how many
/// steps were made since the start.
///
/// [`start`](Session::start) makes one from a list of live nodes, [`check`](Session::check) and [`read`](Session::read) from
/// a box. [`step`](Session::step), [`run`](Session::run) and [`carry_plan`](Session::carry_plan) change it where they give `Ok`, and
/// leave it where they give an error; no other call changes it. They count too: [`steps`](Session::steps) says how many steps were
/// made, and [`reads`](Session::reads) how often each node was read.
///
/// A session is no `Copy`, so that a call cannot work on a copy from before another call by mistake. A clone is such a
/// copy, made on purpose.
///
/// ```
/// use mogtriz::{Refusal, SIMPLEX, Session};
/// let mut session = Session::start(SIMPLEX, 3, 1, &[4, 5, 7])?;
/// let mut nodes = [0, 0, 0, 4, 5, 0, 7];
/// session.step(&mut nodes, 1, [4, 5])?;
/// assert_eq!(session.step(&mut nodes, 2, [4, 7]), Err(Refusal::NotRelated));
/// session.step(&mut nodes, 6, [1, 7])?;
/// assert_eq!(nodes, [1, 0, 0, 4, 5, 6, 7]);
/// assert!(session.missing_nodes().eq([2, 3]));
///
/// // node 1 was made from 4 and 5, and node 6 from 1 and 7; the step that was turned away read nothing
/// assert_eq!(session.steps(), 2);
/// assert_eq!(session.reads()[..8], [0, 1, 0, 0, 1, 1, 0, 1]);
/// # Ok::<(), mogtriz::Refusal>(())
/// ```
#[derive(Clone, PartialEq, Eq, Hash)]
pub struct Session(pub(crate) raw::Session);

impl Session {
    /// A session in which the nodes of a list are live and all others missing.
    ///
    /// It takes a family, k, L in bytes, and the list, a byte a node, strictly rising; an empty list sets none live. Its counts are 0.
    ///
    /// # Errors
    ///
    /// The first of these that is met:
    ///
    /// - 1, [`Refusal::FamilyUnknown`]
    /// - 2, [`Refusal::KOutOfRange`]
    /// - 3, [`Refusal::LenOutOfRange`]
    /// - 4, [`Refusal::NoSuchNode`]: anywhere in the list
    /// - 5, [`Refusal::NotRising`]
    ///
    /// ```
    /// use mogtriz::{MOST_LEN, Refusal, SIMPLEX, Session};
    /// let session = Session::start(SIMPLEX, 3, MOST_LEN, &[1, 2, 7])?;
    /// assert!(session.is_live(7) && !session.is_live(3));
    /// assert_eq!((session.steps(), session.reads()), (0, &[0; mogtriz::MARKS]));
    ///
    /// assert_eq!(Session::start(SIMPLEX, 3, MOST_LEN + 1, &[1, 2, 7]), Err(Refusal::LenOutOfRange));
    /// # Ok::<(), mogtriz::Refusal>(())
    /// ```
    pub fn start(family: usize, k: usize, len: usize, list: &[u8]) -> Result<Session, Refusal> {
        Session::from_answer(&raw::start(family, k, len, list))
    }

    /// A session of any content, from a family, k, L, the steps since the start, the marks by node number, 1 live and 0 missing,
    /// and how often each node was read.
    ///
    /// Anything is taken here. Each call that the session is handed to turns it away with 13, [`Refusal::NoSuchSession`], where one
    /// of these holds, and in no other case, whether a start leads to the session or not:
    ///
    /// - the family, k or L is out of range
    /// - a mark for 0 or above n is live, or a mark is neither 0 nor 1
    /// - the reads do not sum to twice the steps
    /// - a read count stands against 0 or above n
    /// - the steps and the missing nodes of 1 to n together are more than n
    ///
    /// No sum wraps, however large the counts are. So there are at most n steps in a session that is taken, and a count is at most
    /// 510.
    ///
    /// ```
    /// use mogtriz::{MARKS, Refusal, SIMPLEX, Session};
    /// let (mut marks, mut reads) = ([0; MARKS], [0; MARKS]);
    /// marks[2] = 1;
    /// let session = Session::from_parts(SIMPLEX, 3, 4, 0, marks, reads);
    /// assert_eq!(session, Session::start(SIMPLEX, 3, 4, &[2])?);
    ///
    /// // a step reads two nodes, and here one was read twice: no start leads there, and the session is taken all the same
    /// reads[2] = 2;
    /// let session = Session::from_parts(SIMPLEX, 3, 4, 1, marks, reads);
    /// assert!(session.plan(&mut []).is_ok());
    ///
    /// // two steps read four times
    /// let session = Session::from_parts(SIMPLEX, 3, 4, 2, marks, reads);
    /// assert_eq!(session.plan(&mut []), Err(Refusal::NoSuchSession));
    /// // with four reads they agree, but two steps and six missing nodes are more than seven
    /// reads[2] = 4;
    /// let session = Session::from_parts(SIMPLEX, 3, 4, 2, marks, reads);
    /// assert_eq!(session.plan(&mut []), Err(Refusal::NoSuchSession));
    ///
    /// marks[2] = 2;
    /// let session = Session::from_parts(SIMPLEX, 3, 4, 0, marks, [0; MARKS]);
    /// assert_eq!(session.plan(&mut []), Err(Refusal::NoSuchSession));
    /// # Ok::<(), mogtriz::Refusal>(())
    /// ```
    ///
    /// A node that is lost later becomes missing where its mark is handed in as 0. The steps since the start stay then: a repair
    /// leaves the sum of steps and missing nodes as it was, a node that is lost adds one, and once the sum is above n the session is
    /// turned away. A [`start`](Session::start) with the list of the nodes still live begins again with zero counts;
    /// [`live_nodes`](Session::live_nodes) has them in a session of any content.
    ///
    /// ```
    /// use mogtriz::{Refusal, SIMPLEX, Session};
    /// let mut session = Session::start(SIMPLEX, 3, 1, &[4, 5, 7])?;
    /// let mut nodes = [0, 0, 0, 4, 5, 0, 7];
    /// session.run(&mut nodes)?;
    ///
    /// // after the four steps of the run four nodes are lost: together that is more than seven
    /// let (steps, mut marks, reads) = (session.steps(), *session.marks(), *session.reads());
    /// marks[4..].fill(0);
    /// let mut session = Session::from_parts(SIMPLEX, 3, 1, steps, marks, reads);
    /// assert_eq!(session.run(&mut nodes), Err(Refusal::NoSuchSession));
    ///
    /// let still_live: Vec<u8> = session.live_nodes().collect();
    /// let session = Session::start(SIMPLEX, 3, 1, &still_live)?;
    /// assert_eq!((session.steps(), session.missing_nodes().count()), (0, 4));
    /// # Ok::<(), mogtriz::Refusal>(())
    /// ```
    #[must_use]
    pub fn from_parts(
        family: usize,
        k: usize,
        len: usize,
        steps: usize,
        marks: [u8; MARKS],
        reads: [u16; MARKS],
    ) -> Session {
        Session(raw::Session {
            family,
            k,
            len,
            steps,
            live: marks,
            reads,
        })
    }

    /// The family's number.
    ///
    /// ```
    /// let session = mogtriz::Session::start(mogtriz::WEIGHT_TWO, 22, 64, &[])?;
    /// assert_eq!(session.family(), mogtriz::WEIGHT_TWO);
    /// # Ok::<(), mogtriz::Refusal>(())
    /// ```
    #[must_use]
    pub fn family(&self) -> usize {
        self.0.family
    }

    /// The number of data blocks.
    ///
    /// ```
    /// let session = mogtriz::Session::start(mogtriz::WEIGHT_TWO, 22, 64, &[])?;
    /// assert_eq!(session.k(), 22);
    /// # Ok::<(), mogtriz::Refusal>(())
    /// ```
    #[must_use]
    pub fn k(&self) -> usize {
        self.0.k
    }

    /// L, the length of a block in bytes.
    ///
    /// ```
    /// let session = mogtriz::Session::start(mogtriz::WEIGHT_TWO, 22, 64, &[])?;
    /// assert_eq!(session.block_len(), 64);
    /// # Ok::<(), mogtriz::Refusal>(())
    /// ```
    #[must_use]
    pub fn block_len(&self) -> usize {
        self.0.len
    }

    /// How many steps were accepted since the start, those of a run and of a plan that is carried out included.
    ///
    /// ```
    /// let mut session = mogtriz::Session::start(mogtriz::SIMPLEX, 3, 1, &[4, 5, 7])?;
    /// let mut nodes = [0, 0, 0, 4, 5, 0, 7];
    /// session.step(&mut nodes, 6, [1, 7]).unwrap_err();
    /// assert_eq!(session.steps(), 0);
    /// session.step(&mut nodes, 1, [4, 5])?;
    /// assert_eq!(session.steps(), 1);
    /// assert_eq!(session.run(&mut nodes)?.steps, 3);
    /// assert_eq!(session.steps(), 4);
    /// # Ok::<(), mogtriz::Refusal>(())
    /// ```
    #[must_use]
    pub fn steps(&self) -> usize {
        self.0.steps
    }

    /// The reads by node number: how often the node's block was read by the steps since the start, those of a run and of a plan that is
    /// carried out included. A step reads its two sources once each, so that the reads sum to twice the [`steps`](Session::steps). Calls
    /// other than step, run and carry plan count nothing: a read out and a write read blocks too, and are not in it.
    ///
    /// ```
    /// let mut session = mogtriz::Session::start(mogtriz::SIMPLEX, 3, 1, &[4, 5, 7])?;
    /// let mut nodes = [0, 0, 0, 4, 5, 0, 7];
    /// // nodes 1, 2, 3 and 6 are made from 4 and 5, 5 and 7, 1 and 2, and 1 and 7
    /// session.run(&mut nodes)?;
    /// session.read_out(&nodes, &mut [0; 3])?;
    /// assert_eq!(session.reads()[..8], [0, 2, 1, 0, 1, 2, 0, 2]);
    /// # Ok::<(), mogtriz::Refusal>(())
    /// ```
    #[must_use]
    pub fn reads(&self) -> &[u16; MARKS] {
        &self.0.reads
    }

    /// The marks by node number: 1 live, 0 missing.
    ///
    /// ```
    /// let session = mogtriz::Session::start(mogtriz::SIMPLEX, 2, 1, &[1, 3])?;
    /// assert_eq!(session.marks()[..4], [0, 1, 0, 1]);
    /// # Ok::<(), mogtriz::Refusal>(())
    /// ```
    #[must_use]
    pub fn marks(&self) -> &[u8; MARKS] {
        &self.0.live
    }

    /// Whether a number is marked live; one above 255 is not.
    ///
    /// ```
    /// let session = mogtriz::Session::start(mogtriz::SIMPLEX, 2, 1, &[1, 3])?;
    /// assert!(session.is_live(3) && !session.is_live(2) && !session.is_live(1000));
    /// # Ok::<(), mogtriz::Refusal>(())
    /// ```
    #[must_use]
    pub fn is_live(&self, node: usize) -> bool {
        self.0.live.get(node) == Some(&1)
    }

    /// The numbers that are marked live, rising, of a session of any content;
    /// [`live_nodes_into`](Session::live_nodes_into) makes a list of them for [`start`](Session::start) and
    /// [`write`](Session::write).
    ///
    /// ```
    /// let session = mogtriz::Session::start(mogtriz::SIMPLEX, 3, 1, &[4, 5, 7])?;
    /// assert_eq!(session.live_nodes().collect::<Vec<_>>(), [4, 5, 7]);
    /// # Ok::<(), mogtriz::Refusal>(())
    /// ```
    #[must_use]
    pub fn live_nodes(&self) -> impl DoubleEndedIterator<Item = u8> + Clone {
        (0..=255).filter(|&node| self.is_live(usize::from(node)))
    }

    /// The nodes that are not marked live, rising; none where the family or k is out of range.
    ///
    /// ```
    /// let session = mogtriz::Session::start(mogtriz::SIMPLEX, 3, 1, &[4, 5, 7])?;
    /// assert_eq!(session.missing_nodes().collect::<Vec<_>>(), [1, 2, 3, 6]);
    /// # Ok::<(), mogtriz::Refusal>(())
    /// ```
    #[must_use]
    pub fn missing_nodes(&self) -> impl DoubleEndedIterator<Item = u8> + Clone {
        let n = node_count(self.0.family, self.0.k).unwrap_or(0);
        let is_node = move |node: usize| (1..=n).contains(&node);
        (0..=255).filter(move |&node| is_node(node.into()) && !self.is_live(node.into()))
    }

    /// The session, unless there is a refusal beside it.
    pub(crate) fn from_answer(answer: &raw::Started) -> Result<Session, Refusal> {
        Refusal::unless_served(answer.refusal)?;
        Ok(Session(answer.session))
    }
}

/// Family, k, L, the marks that are not 0, the steps, and the reads that are not 0.
///
/// ```
/// let mut session = mogtriz::Session::start(mogtriz::SIMPLEX, 2, 1, &[1, 3])?;
/// session.run(&mut [1, 0, 3])?;
/// let text = "family 1 k 2 L 1 {1: 1, 2: 1, 3: 1} steps 1 reads {1: 1, 3: 1}";
/// assert_eq!(format!("{session:?}"), text);
/// # Ok::<(), mogtriz::Refusal>(())
/// ```
impl fmt::Debug for Session {
    fn fmt(&self, f: &mut fmt::Formatter) -> fmt::Result {
        self.0.fmt(f)
    }
}
