//! The calls that fill a buffer, giving a `Vec` of just the length instead.
use crate::{MOST_NODES, PLAN_ROOM, Refusal, Repairs, Session, Step};
use crate::{deinterleave, encode, from_graded, interleave, nodes_len, object_len, to_graded};
use alloc::vec;
use alloc::vec::Vec;

/// [`encode`] into a nodes buffer of its own, n × L bytes, which it gives. With the feature `alloc`.
///
/// # Errors
///
/// The first of these that is met:
///
/// - 1, [`Refusal::FamilyUnknown`]
/// - 2, [`Refusal::KOutOfRange`]
/// - 3, [`Refusal::LenOutOfRange`]
/// - 6, [`Refusal::BufferLength`]: the object is not k × L bytes
///
/// ```
/// let nodes = mogtriz::encode_to_vec(mogtriz::SIMPLEX, 3, 1, &[1, 2, 4])?;
/// assert_eq!(nodes, [1, 2, 3, 4, 5, 6, 7]);
/// # Ok::<(), mogtriz::Refusal>(())
/// ```
pub fn encode_to_vec(
    family: usize,
    k: usize,
    len: usize,
    object: &[u8],
) -> Result<Vec<u8>, Refusal> {
    let mut nodes = vec![0; nodes_len(family, k, len)?];
    encode(family, k, len, object, &mut nodes)?;
    Ok(nodes)
}

/// The object that [`interleave`] makes of an object, to be encoded: k × L bytes. With the feature `alloc`.
///
/// # Errors
///
/// The first of these that is met:
///
/// - 1, [`Refusal::FamilyUnknown`]
/// - 2, [`Refusal::KOutOfRange`]
/// - 3, [`Refusal::LenOutOfRange`]
/// - 6, [`Refusal::BufferLength`]: the object is not k × L bytes
///
/// ```
/// let interleaved = mogtriz::interleave_to_vec(mogtriz::WEIGHT_TWO, 2, 3, b"abcdef")?;
/// assert_eq!(interleaved, b"acebdf");
/// # Ok::<(), mogtriz::Refusal>(())
/// ```
pub fn interleave_to_vec(
    family: usize,
    k: usize,
    len: usize,
    object: &[u8],
) -> Result<Vec<u8>, Refusal> {
    let mut out = vec![0; object_len(family, k, len)?];
    interleave(family, k, len, object, &mut out)?;
    Ok(out)
}

/// The object that [`deinterleave`] makes of an interleaved one that was read out: k × L bytes. With the feature `alloc`.
///
/// # Errors
///
/// The first of these that is met:
///
/// - 1, [`Refusal::FamilyUnknown`]
/// - 2, [`Refusal::KOutOfRange`]
/// - 3, [`Refusal::LenOutOfRange`]
/// - 6, [`Refusal::BufferLength`]: the object is not k × L bytes
///
/// ```
/// let object = mogtriz::deinterleave_to_vec(mogtriz::WEIGHT_TWO, 2, 3, b"acebdf")?;
/// assert_eq!(object, b"abcdef");
/// # Ok::<(), mogtriz::Refusal>(())
/// ```
pub fn deinterleave_to_vec(
    family: usize,
    k: usize,
    len: usize,
    object: &[u8],
) -> Result<Vec<u8>, Refusal> {
    let mut out = vec![0; object_len(family, k, len)?];
    deinterleave(family, k, len, object, &mut out)?;
    Ok(out)
}

/// The box that [`from_graded`] makes of a box in graded order, with our numbers. With the feature `alloc`.
///
/// # Errors
///
/// The first of these that is met:
///
/// - those of [`Session::check`], in its order
/// - 1, [`Refusal::FamilyUnknown`]: the box is of family 2 or 3
///
/// ```
/// // with k = 3, positions 3, 5 and 7 are nodes 4, 5 and 7
/// let theirs = *b"\x01\x03\x01\0\x03\0\0\0\x03\x05\x07def";
/// let ours = mogtriz::from_graded_to_vec(&theirs)?;
/// assert_eq!(ours, b"\x01\x03\x01\0\x03\0\0\0\x04\x05\x07def");
/// # Ok::<(), mogtriz::Refusal>(())
/// ```
pub fn from_graded_to_vec(bytes: &[u8]) -> Result<Vec<u8>, Refusal> {
    let mut out = vec![0; bytes.len()];
    from_graded(bytes, &mut out)?;
    Ok(out)
}

/// The box in graded order that [`to_graded`] makes of a box with our numbers. With the feature `alloc`.
///
/// # Errors
///
/// The first of these that is met:
///
/// - those of [`Session::check`], in its order
/// - 1, [`Refusal::FamilyUnknown`]: the box is of family 2 or 3
///
/// ```
/// let ours = *b"\x01\x03\x01\0\x03\0\0\0\x04\x05\x07def";
/// let theirs = mogtriz::to_graded_to_vec(&ours)?;
/// assert_eq!(theirs, b"\x01\x03\x01\0\x03\0\0\0\x03\x05\x07def");
/// assert_eq!(mogtriz::from_graded_to_vec(&theirs)?, ours);
/// # Ok::<(), mogtriz::Refusal>(())
/// ```
pub fn to_graded_to_vec(bytes: &[u8]) -> Result<Vec<u8>, Refusal> {
    let mut out = vec![0; bytes.len()];
    to_graded(bytes, &mut out)?;
    Ok(out)
}

impl Session {
    /// [`read`](Session::read) into a nodes buffer of its own, n × L bytes, which it gives beside the session; places of
    /// missing nodes are zero. With the feature `alloc`.
    ///
    /// # Errors
    ///
    /// Those of [`check`](Session::check), in its order.
    ///
    /// ```
    /// let bytes = [1, 3, 1, 0, 3, 0, 0, 0, 4, 5, 7, 4, 5, 7];
    /// let (session, nodes) = mogtriz::Session::read_to_vec(&bytes)?;
    /// assert!(session.live_nodes().eq([4, 5, 7]));
    /// assert_eq!(nodes, [0, 0, 0, 4, 5, 0, 7]);
    /// # Ok::<(), mogtriz::Refusal>(())
    /// ```
    pub fn read_to_vec(bytes: &[u8]) -> Result<(Session, Vec<u8>), Refusal> {
        let mut nodes = vec![0; Session::check(bytes)?.nodes_len()?];
        let session = Session::read(bytes, &mut nodes)?;
        Ok((session, nodes))
    }

    /// The box that [`write`](Session::write) makes of a nodes buffer of exactly n × L bytes and a list of live nodes, of which
    /// an empty one stands for no node. With the feature `alloc`.
    ///
    /// # Errors
    ///
    /// The first of these that is met:
    ///
    /// - 13, [`Refusal::NoSuchSession`]
    /// - 6, [`Refusal::BufferLength`]: the nodes buffer is not of its length
    /// - 4, [`Refusal::NoSuchNode`]: anywhere in the list
    /// - 5, [`Refusal::NotRising`]
    /// - 12, [`Refusal::NodeMissing`]: a listed node is missing
    ///
    /// ```
    /// let session = mogtriz::Session::start(mogtriz::SIMPLEX, 3, 1, &[4, 5, 7])?;
    /// let bytes = session.write_to_vec(b"...de.f", &[4, 7])?;
    /// assert_eq!(bytes, b"\x01\x03\x01\0\x02\0\0\0\x04\x07df");
    /// let empty = session.write_to_vec(b"...de.f", &[])?;
    /// assert_eq!(empty, b"\x01\x03\x01\0\0\0\0\0");
    /// # Ok::<(), mogtriz::Refusal>(())
    /// ```
    pub fn write_to_vec(&self, nodes: &[u8], list: &[u8]) -> Result<Vec<u8>, Refusal> {
        // a longer list is turned away before the destination is looked at
        let held = list.len().min(self.node_count()?);
        let mut out = vec![0; self.box_len(held)?];
        let length = self.write(nodes, list, &mut out)?;
        out.truncate(length);
        Ok(out)
    }

    /// The list that [`live_nodes_into`](Session::live_nodes_into) makes: the live nodes, rising, a byte each. With the feature
    /// `alloc`.
    ///
    /// # Errors
    ///
    /// - 13, [`Refusal::NoSuchSession`]
    ///
    /// ```
    /// let session = mogtriz::Session::start(mogtriz::SIMPLEX, 3, 1, &[4, 5, 7])?;
    /// let every_live_node = session.live_nodes_to_vec()?;
    /// let bytes = session.write_to_vec(b"...de.f", &every_live_node)?;
    /// assert_eq!(bytes, b"\x01\x03\x01\0\x03\0\0\0\x04\x05\x07def");
    /// # Ok::<(), mogtriz::Refusal>(())
    /// ```
    pub fn live_nodes_to_vec(&self) -> Result<Vec<u8>, Refusal> {
        let mut list = [0; MOST_NODES];
        let count = self.live_nodes_into(&mut list)?;
        Ok(list[..count].to_vec())
    }

    /// The object that [`read_out`](Session::read_out) copies from a nodes buffer of exactly n × L bytes: k × L bytes. With
    /// the feature `alloc`.
    ///
    /// # Errors
    ///
    /// The first of these that is met:
    ///
    /// - 13, [`Refusal::NoSuchSession`]
    /// - 6, [`Refusal::BufferLength`]: the nodes buffer is not of its length
    /// - 14, [`Refusal::BlockMissing`]: with the lowest data block whose node is missing
    ///
    /// ```
    /// let session = mogtriz::Session::start(mogtriz::SIMPLEX, 3, 1, &[1, 2, 4])?;
    /// assert_eq!(session.read_out_to_vec(b"ab.c...")?, b"abc");
    /// # Ok::<(), mogtriz::Refusal>(())
    /// ```
    pub fn read_out_to_vec(&self, nodes: &[u8]) -> Result<Vec<u8>, Refusal> {
        let mut object = vec![0; self.object_len()?];
        self.read_out(nodes, &mut object)?;
        Ok(object)
    }

    /// The counts and the steps of the [`plan`](Session::plan). With the feature `alloc`.
    ///
    /// # Errors
    ///
    /// - 13, [`Refusal::NoSuchSession`]
    ///
    /// ```
    /// let session = mogtriz::Session::start(mogtriz::WEIGHT_TWO, 3, 1, &[4, 6])?;
    /// let (repairs, steps) = session.plan_to_vec()?;
    /// assert_eq!((repairs.steps, repairs.rounds, repairs.left), (1, 1, 3));
    /// assert_eq!(steps, [mogtriz::Step { round: 1, node: 5, pair: [4, 6] }]);
    /// # Ok::<(), mogtriz::Refusal>(())
    /// ```
    pub fn plan_to_vec(&self) -> Result<(Repairs, Vec<Step>), Refusal> {
        let mut out = [0; PLAN_ROOM];
        let plan = self.plan(&mut out)?;
        Ok((plan.repairs, plan.steps().collect()))
    }
}
