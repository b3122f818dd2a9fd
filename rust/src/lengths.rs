//! How many nodes there are, and how long the buffers of a call have to be.
use crate::{Refusal, Session, raw};

/// How many bytes stand before a box's node numbers.
const HEAD: usize = 8;

/// The largest L, the length of a block in bytes; the least is 1.
///
/// ```
/// use mogtriz::{MOST_LEN, Refusal, SIMPLEX, object_len};
/// assert_eq!(object_len(SIMPLEX, 3, MOST_LEN), Ok(3 * MOST_LEN));
/// assert_eq!(object_len(SIMPLEX, 3, MOST_LEN + 1), Err(Refusal::LenOutOfRange));
/// ```
pub const MOST_LEN: usize = 1536;

/// The largest k of any family, that of weight-two.
pub const MOST_K: usize = 22;

/// The largest n of any family with any k, that of simplex with k 8.
pub const MOST_NODES: usize = 255;

/// Room in bytes for the steps of any plan: four for each of [`MOST_NODES`].
///
/// ```
/// let session = mogtriz::Session::start(mogtriz::SIMPLEX, 8, 1, &[1, 2, 4, 8, 16, 32, 64, 128])?;
/// let mut out = [0; mogtriz::PLAN_ROOM];
/// assert_eq!(session.plan(&mut out)?.repairs.steps, 247);
/// # Ok::<(), mogtriz::Refusal>(())
/// ```
pub const PLAN_ROOM: usize = 4 * MOST_NODES;

/// n, the number of nodes of a family with k data blocks.
///
/// # Errors
///
/// The first of these that is met:
///
/// - 1, [`Refusal::FamilyUnknown`]
/// - 2, [`Refusal::KOutOfRange`]
///
/// ```
/// use mogtriz::{Refusal, SIMPLEX, node_count};
/// assert_eq!(node_count(SIMPLEX, 3), Ok(7));
/// assert_eq!(node_count(SIMPLEX, 9), Err(Refusal::KOutOfRange));
/// ```
pub fn node_count(family: usize, k: usize) -> Result<usize, Refusal> {
    // n does not go by L, of which 1 is in range
    check_numbers(family, k, 1)?;
    Ok(raw::mogtriz_node_count(family, k))
}

/// The length of a nodes buffer, n × L bytes.
///
/// # Errors
///
/// The first of these that is met:
///
/// - 1, [`Refusal::FamilyUnknown`]
/// - 2, [`Refusal::KOutOfRange`]
/// - 3, [`Refusal::LenOutOfRange`]
///
/// ```
/// assert_eq!(mogtriz::nodes_len(mogtriz::SIMPLEX, 3, 4), Ok(7 * 4));
/// ```
pub fn nodes_len(family: usize, k: usize, len: usize) -> Result<usize, Refusal> {
    check_numbers(family, k, len)?;
    Ok(raw::mogtriz_node_count(family, k) * len)
}

/// The length of an object, k × L bytes.
///
/// # Errors
///
/// The first of these that is met:
///
/// - 1, [`Refusal::FamilyUnknown`]
/// - 2, [`Refusal::KOutOfRange`]
/// - 3, [`Refusal::LenOutOfRange`]
///
/// ```
/// use mogtriz::{Refusal, SIMPLEX, object_len};
/// assert_eq!(object_len(SIMPLEX, 3, 1000), Ok(3000));
/// assert_eq!(object_len(SIMPLEX, 3, 0), Err(Refusal::LenOutOfRange));
/// ```
pub fn object_len(family: usize, k: usize, len: usize) -> Result<usize, Refusal> {
    check_numbers(family, k, len)?;
    Ok(k * len)
}

/// The length of a box that holds so many nodes, E of them: 8 + E + E × L bytes.
///
/// # Errors
///
/// The first of these that is met:
///
/// - 1, [`Refusal::FamilyUnknown`]
/// - 2, [`Refusal::KOutOfRange`]
/// - 3, [`Refusal::LenOutOfRange`]
/// - 9, [`Refusal::TooManyNodes`]: E is above n
///
/// ```
/// use mogtriz::{Refusal, SIMPLEX, box_len};
/// assert_eq!(box_len(SIMPLEX, 3, 4, 7), Ok(8 + 7 + 7 * 4));
/// assert_eq!(box_len(SIMPLEX, 3, 4, 8), Err(Refusal::TooManyNodes));
/// ```
pub fn box_len(family: usize, k: usize, len: usize, held: usize) -> Result<usize, Refusal> {
    check_numbers(family, k, len)?;
    if held > raw::mogtriz_node_count(family, k) {
        return Err(Refusal::TooManyNodes);
    }
    Ok(HEAD + held + held * len)
}

impl Session {
    /// n, the number of nodes.
    ///
    /// # Errors
    ///
    /// - 13, [`Refusal::NoSuchSession`]
    ///
    /// ```
    /// let session = mogtriz::Session::start(mogtriz::TETRAHEDRON, 4, 64, &[])?;
    /// assert_eq!(session.node_count()?, 14);
    /// # Ok::<(), mogtriz::Refusal>(())
    /// ```
    pub fn node_count(&self) -> Result<usize, Refusal> {
        self.check_session()?;
        node_count(self.0.family, self.0.k)
    }

    /// The length of the session's nodes buffer, n × L bytes.
    ///
    /// # Errors
    ///
    /// - 13, [`Refusal::NoSuchSession`]
    ///
    /// ```
    /// let session = mogtriz::Session::start(mogtriz::TETRAHEDRON, 4, 64, &[])?;
    /// assert_eq!(session.nodes_len()?, 14 * 64);
    /// # Ok::<(), mogtriz::Refusal>(())
    /// ```
    pub fn nodes_len(&self) -> Result<usize, Refusal> {
        self.check_session()?;
        nodes_len(self.0.family, self.0.k, self.0.len)
    }

    /// The length of the session's object, k × L bytes.
    ///
    /// # Errors
    ///
    /// - 13, [`Refusal::NoSuchSession`]
    ///
    /// ```
    /// let session = mogtriz::Session::start(mogtriz::TETRAHEDRON, 4, 64, &[])?;
    /// assert_eq!(session.object_len()?, 4 * 64);
    /// # Ok::<(), mogtriz::Refusal>(())
    /// ```
    pub fn object_len(&self) -> Result<usize, Refusal> {
        self.check_session()?;
        object_len(self.0.family, self.0.k, self.0.len)
    }

    /// The length of a box of so many of the session's nodes, E of them: 8 + E + E × L bytes.
    ///
    /// # Errors
    ///
    /// The first of these that is met:
    ///
    /// - 13, [`Refusal::NoSuchSession`]
    /// - 9, [`Refusal::TooManyNodes`]: E is above n
    ///
    /// ```
    /// let session = mogtriz::Session::start(mogtriz::TETRAHEDRON, 4, 64, &[1, 2, 14])?;
    /// let every_live_node = session.live_nodes().count();
    /// assert_eq!(session.box_len(every_live_node)?, 8 + 3 + 3 * 64);
    /// # Ok::<(), mogtriz::Refusal>(())
    /// ```
    pub fn box_len(&self, held: usize) -> Result<usize, Refusal> {
        self.check_session()?;
        box_len(self.0.family, self.0.k, self.0.len, held)
    }

    /// 13, or nothing. The library says which: a run has two checks, and as no nodes buffer is empty, one with an empty buffer
    /// gives 13 or 6 and goes no further.
    fn check_session(&self) -> Result<(), Refusal> {
        match Refusal::from_number(raw::run(self.0, &mut []).refusal) {
            Some(Refusal::NoSuchSession) => Err(Refusal::NoSuchSession),
            _ => Ok(()),
        }
    }
}

/// 1, 2 and 3, as a start with no node live gives them.
fn check_numbers(family: usize, k: usize, len: usize) -> Result<(), Refusal> {
    Refusal::unless_served(raw::start(family, k, len, &[]).refusal)
}
