//! Boxes: checked, read, written, one node's body found in one, and one converted from or to graded order; the live nodes listed;
//! and the object read out.
use crate::{Refusal, Session, raw};

/// The body of one node, as that part of the box; no copy is made.
///
/// It takes a box, of which [`Session::check`] says what it is, and a node's number, and gives the node's L bytes.
///
/// # Errors
///
/// The first of these that is met:
///
/// - those of [`Session::check`], in its order
/// - 4, [`Refusal::NoSuchNode`]
/// - 12, [`Refusal::NodeMissing`]: the node is not in the box
///
/// ```
/// let bytes = [1, 3, 2, 0, 2, 0, 0, 0, 4, 7, 0x40, 0x41, 0x70, 0x71];
/// assert_eq!(mogtriz::body(&bytes, 7)?, [0x70, 0x71]);
/// assert_eq!(mogtriz::body(&bytes, 5), Err(mogtriz::Refusal::NodeMissing));
/// # Ok::<(), mogtriz::Refusal>(())
/// ```
pub fn body(bytes: &[u8], node: usize) -> Result<&[u8], Refusal> {
    let part = raw::body(bytes, node);
    Refusal::unless_served(part.refusal)?;
    Ok(&bytes[part.from..part.from + part.length])
}

/// Converts a box in graded order to our numbers, and gives its length.
///
/// In graded order simplex nodes have other numbers, their positions from 1 to n: they stand by how many data blocks are in them,
/// and those with as many by the rising lists of the blocks' numbers, compared from the front. With k = 3 the nodes at
/// positions 1 to 7 are 1, 2, 4, 3, 5, 6, 7; a smaller k leaves out, of the order for k = 8, the columns of 2^k and above.
///
/// Each position becomes the node there. The numbers rise in the new box too, each body moves with its number, and the rest
/// stays. The new box is as long as the box handed in; of the destination what lies beyond it is not written.
///
/// Nothing in a box tells which of the two numberings it has: the caller has to know. Every call but this one takes a box to have our
/// numbers; one in graded order, or one that was converted twice the same way, is accepted there too, and its bodies can stand
/// beside wrong nodes.
///
/// # Errors
///
/// The first of these that is met; nothing is written then.
///
/// - those of [`Session::check`], in its order
/// - 1, [`Refusal::FamilyUnknown`]: the box is of family 2 or 3
/// - 6, [`Refusal::BufferLength`]: the destination is shorter than the box
///
/// ```
/// use mogtriz::{Refusal, from_graded};
/// // with k = 4, positions 4, 5 and 8 are nodes 8, 3 and 6
/// let theirs = *b"\x01\x04\x01\0\x03\0\0\0\x04\x05\x08abc";
/// let mut ours = [0xaa; 16];
/// assert_eq!(from_graded(&theirs, &mut ours)?, 14);
/// assert_eq!(ours, *b"\x01\x04\x01\0\x03\0\0\0\x03\x06\x08bca\xaa\xaa");
///
/// assert_eq!(from_graded(&theirs, &mut ours[..13]), Err(Refusal::BufferLength));
/// # Ok::<(), mogtriz::Refusal>(())
/// ```
pub fn from_graded(bytes: &[u8], out: &mut [u8]) -> Result<usize, Refusal> {
    converted(raw::from_graded(bytes, out))
}

/// Converts a box with our numbers to graded order, the reverse of [`from_graded`], and gives its length.
///
/// Each node becomes its position. A box that is converted there and back, either way round, has the same bytes.
///
/// # Errors
///
/// The first of these that is met; nothing is written then.
///
/// - those of [`Session::check`], in its order
/// - 1, [`Refusal::FamilyUnknown`]: the box is of family 2 or 3
/// - 6, [`Refusal::BufferLength`]: the destination is shorter than the box
///
/// ```
/// use mogtriz::{Refusal, to_graded};
/// let ours = *b"\x01\x04\x01\0\x03\0\0\0\x03\x06\x08bca";
/// let mut theirs = [0; 14];
/// assert_eq!(to_graded(&ours, &mut theirs)?, 14);
/// assert_eq!(theirs, *b"\x01\x04\x01\0\x03\0\0\0\x04\x05\x08abc");
///
/// let weight_two = [2, 4, 1, 0, 0, 0, 0, 0];
/// assert_eq!(to_graded(&weight_two, &mut theirs), Err(Refusal::FamilyUnknown));
/// # Ok::<(), mogtriz::Refusal>(())
/// ```
pub fn to_graded(bytes: &[u8], out: &mut [u8]) -> Result<usize, Refusal> {
    converted(raw::to_graded(bytes, out))
}

fn converted(answer: raw::Converted) -> Result<usize, Refusal> {
    Refusal::unless_served(answer.refusal)?;
    Ok(answer.length)
}

impl Session {
    /// A box checked alone, which gives its session: the box's family, k and L, the nodes that it names live, and no step or read
    /// counted.
    ///
    /// A box: byte 0 the family, byte 1 k, bytes 2 and 3 L, low byte first, byte 4 the number E of nodes held, bytes 5 to 7
    /// zero; then E node numbers, a byte each, strictly rising; then their E blocks of L bytes in the same order. Its length
    /// is 8 + E + E × L.
    ///
    /// # Errors
    ///
    /// The first of these that is met:
    ///
    /// - 7, [`Refusal::BoxLength`]: the box is under 8 bytes
    /// - 1, [`Refusal::FamilyUnknown`]
    /// - 2, [`Refusal::KOutOfRange`]
    /// - 3, [`Refusal::LenOutOfRange`]
    /// - 8, [`Refusal::NotZero`]
    /// - 9, [`Refusal::TooManyNodes`]: E is above n; the length is looked at after this
    /// - 7, [`Refusal::BoxLength`]: the length is not as the contents say
    /// - 4, [`Refusal::NoSuchNode`]: anywhere among its node numbers
    /// - 5, [`Refusal::NotRising`]
    ///
    /// ```
    /// use mogtriz::{Refusal, Session};
    /// let bytes = [1, 3, 1, 0, 3, 0, 0, 0, 4, 5, 7, 4, 5, 7];
    /// let session = Session::check(&bytes)?;
    /// assert_eq!((session.family(), session.k(), session.block_len()), (1, 3, 1));
    /// assert!(session.live_nodes().eq([4, 5, 7]));
    ///
    /// assert_eq!(Session::check(&bytes[..13]), Err(Refusal::BoxLength));
    /// let counts_8_of_7 = [1, 3, 1, 0, 8, 0, 0, 0, 4, 5, 7, 4, 5, 7];
    /// assert_eq!(Session::check(&counts_8_of_7), Err(Refusal::TooManyNodes));
    /// # Ok::<(), mogtriz::Refusal>(())
    /// ```
    pub fn check(bytes: &[u8]) -> Result<Session, Refusal> {
        Session::from_answer(&raw::check(bytes))
    }

    /// A box read into a nodes buffer of exactly n × L bytes, which gives the session that [`check`](Session::check) gives.
    /// Each body goes to its node's place; places of missing nodes keep their bytes, so that several boxes of one object can
    /// be read into one buffer. A [`start`](Session::start) with the nodes of all of them then gives the session.
    ///
    /// How long the buffer has to be is known from [`check`](Session::check) and [`nodes_len`](Session::nodes_len).
    ///
    /// # Errors
    ///
    /// The first of these that is met; nothing is written then.
    ///
    /// - those of [`check`](Session::check), in its order
    /// - 6, [`Refusal::BufferLength`]: the nodes buffer is not of its length
    ///
    /// ```
    /// let mut nodes = *b".......";
    /// let bytes = *b"\x01\x03\x01\0\x03\0\0\0\x04\x05\x07def";
    /// let session = mogtriz::Session::read(&bytes, &mut nodes)?;
    /// assert_eq!(&nodes, b"...de.f");
    /// assert!(session.is_live(7));
    /// # Ok::<(), mogtriz::Refusal>(())
    /// ```
    pub fn read(bytes: &[u8], nodes: &mut [u8]) -> Result<Session, Refusal> {
        Session::from_answer(&raw::read(bytes, nodes))
    }

    /// Writes a box and gives its length.
    ///
    /// It takes a nodes buffer of exactly n × L bytes; a list of live nodes, a byte each, strictly rising; and a destination, of
    /// which what lies beyond the box is not written. A box of E nodes takes 8 + E + E × L bytes
    /// ([`box_len`](Session::box_len)).
    ///
    /// An empty list stands for no node, and gives a box of 8 bytes with E = 0. Whoever wants every live node names them all, by
    /// [`live_nodes_into`](Session::live_nodes_into).
    ///
    /// # Errors
    ///
    /// The first of these that is met; nothing is written then.
    ///
    /// - 13, [`Refusal::NoSuchSession`]
    /// - 6, [`Refusal::BufferLength`]: the nodes buffer is not of its length
    /// - 4, [`Refusal::NoSuchNode`]: anywhere in the list
    /// - 5, [`Refusal::NotRising`]
    /// - 12, [`Refusal::NodeMissing`]: a listed node is missing
    /// - 6, [`Refusal::BufferLength`]: the destination is shorter than the box
    ///
    /// ```
    /// use mogtriz::{Refusal, SIMPLEX, Session};
    /// let session = Session::start(SIMPLEX, 3, 1, &[4, 5, 7])?;
    /// let mut out = [0xaa; 14];
    /// let length = session.write(b"...de.f", &[4, 7], &mut out)?;
    /// assert_eq!(out[..length], *b"\x01\x03\x01\0\x02\0\0\0\x04\x07df");
    /// assert_eq!(out[length..], [0xaa; 2]);
    ///
    /// let length = session.write(b"...de.f", &[], &mut out)?;
    /// assert_eq!(out[..length], *b"\x01\x03\x01\0\0\0\0\0");
    ///
    /// assert_eq!(session.write(b"...de.f", &[4, 6], &mut out), Err(Refusal::NodeMissing));
    /// # Ok::<(), mogtriz::Refusal>(())
    /// ```
    pub fn write(&self, nodes: &[u8], list: &[u8], out: &mut [u8]) -> Result<usize, Refusal> {
        let answer = raw::write(self.0, nodes, list, out);
        Refusal::unless_served(answer.refusal)?;
        Ok(answer.length)
    }

    /// Lists the live nodes, rising, a byte each, and gives their number. It is a list for [`start`](Session::start), and for
    /// [`write`](Session::write), which then makes a box of every live node.
    ///
    /// It takes a buffer, of which what lies beyond the list is not written; [`MOST_NODES`](crate::MOST_NODES) bytes are room for
    /// any. [`live_nodes`](Session::live_nodes) goes through the marks of a session of any content and never refuses.
    ///
    /// # Errors
    ///
    /// The first of these that is met; nothing is written then.
    ///
    /// - 13, [`Refusal::NoSuchSession`]
    /// - 6, [`Refusal::BufferLength`]: the buffer is shorter than the list
    ///
    /// ```
    /// use mogtriz::{MOST_NODES, Refusal, SIMPLEX, Session};
    /// let bytes = *b"\x01\x03\x01\0\x03\0\0\0\x04\x05\x07def";
    /// let mut nodes = [0; 7];
    /// let session = Session::read(&bytes, &mut nodes)?;
    ///
    /// // a box read and written with every live node has the same bytes
    /// let mut list = [0; MOST_NODES];
    /// let count = session.live_nodes_into(&mut list)?;
    /// assert_eq!(list[..count], [4, 5, 7]);
    /// let mut out = [0; 14];
    /// session.write(&nodes, &list[..count], &mut out)?;
    /// assert_eq!(out, bytes);
    ///
    /// assert_eq!(session.live_nodes_into(&mut list[..2]), Err(Refusal::BufferLength));
    /// # Ok::<(), mogtriz::Refusal>(())
    /// ```
    pub fn live_nodes_into(&self, out: &mut [u8]) -> Result<usize, Refusal> {
        let answer = raw::live_nodes(self.0, out);
        Refusal::unless_served(answer.refusal)?;
        Ok(answer.length)
    }

    /// Copies the k data blocks, block 1 first, from the nodes that hold one each, which all have to be live.
    ///
    /// It takes a nodes buffer of exactly n × L bytes and an object buffer of exactly k × L bytes, all of which is written.
    ///
    /// # Errors
    ///
    /// The first of these that is met; nothing is written then.
    ///
    /// - 13, [`Refusal::NoSuchSession`]
    /// - 6, [`Refusal::BufferLength`]: the nodes or the object buffer is not of its length
    /// - 14, [`Refusal::BlockMissing`]: with the lowest data block whose node is missing; the data blocks whose nodes are live
    ///   still stand in the places of these
    ///
    /// ```
    /// use mogtriz::{Refusal, SIMPLEX, Session};
    /// let mut object = [0; 3];
    /// let session = Session::start(SIMPLEX, 3, 1, &[1, 2, 4])?;
    /// session.read_out(b"ab.c...", &mut object)?;
    /// assert_eq!(&object, b"abc");
    ///
    /// let session = Session::start(SIMPLEX, 3, 1, &[1, 4])?;
    /// let refused = session.read_out(b"ab.c...", &mut object);
    /// assert_eq!(refused, Err(Refusal::BlockMissing { block: 2 }));
    /// # Ok::<(), mogtriz::Refusal>(())
    /// ```
    pub fn read_out(&self, nodes: &[u8], object: &mut [u8]) -> Result<(), Refusal> {
        let answer = raw::read_out(self.0, nodes, object);
        let served = Refusal::unless_served(answer.refusal);
        served.map_err(|refusal| refusal.with_block(answer.block))
    }
}
