//! The codes of the three families.
use crate::{Refusal, raw};

/// The number of the simplex family: k is 2 to 8, n is 2^k − 1, and node j's column is j.
///
/// ```
/// assert_eq!(mogtriz::node_count(mogtriz::SIMPLEX, 8), Ok(255));
/// ```
pub const SIMPLEX: usize = 1;

/// The number of the weight-two family: k is 2 to 22, n is k(k + 1) / 2, and a node is a data block or the XOR of two.
///
/// ```
/// assert_eq!(mogtriz::node_count(mogtriz::WEIGHT_TWO, 22), Ok(253));
/// ```
pub const WEIGHT_TWO: usize = 2;

/// The number of the tetrahedron's family: k is 4 and n is 14.
///
/// ```
/// assert_eq!(mogtriz::node_count(mogtriz::TETRAHEDRON, 4), Ok(14));
/// ```
pub const TETRAHEDRON: usize = 3;

/// Fills a nodes buffer from an object.
///
/// It takes a family, k, L in bytes, an object of exactly k × L bytes and a nodes buffer of exactly n × L bytes
/// ([`object_len`](crate::object_len), [`nodes_len`](crate::nodes_len)). Every byte of the nodes buffer is written: each
/// node's block.
///
/// # Errors
///
/// The first of these that is met; nothing is written then.
///
/// - 1, [`Refusal::FamilyUnknown`]
/// - 2, [`Refusal::KOutOfRange`]
/// - 3, [`Refusal::LenOutOfRange`]
/// - 6, [`Refusal::BufferLength`]: the object or the nodes buffer is not of its length
///
/// ```
/// let mut nodes = [0; 7];
/// mogtriz::encode(mogtriz::SIMPLEX, 3, 1, &[1, 2, 4], &mut nodes)?;
/// assert_eq!(nodes, [1, 2, 3, 4, 5, 6, 7]);
///
/// let refused = mogtriz::encode(mogtriz::SIMPLEX, 3, 1, &[1, 2], &mut nodes);
/// assert_eq!(refused, Err(mogtriz::Refusal::BufferLength));
/// # Ok::<(), mogtriz::Refusal>(())
/// ```
pub fn encode(
    family: usize,
    k: usize,
    len: usize,
    object: &[u8],
    nodes: &mut [u8],
) -> Result<(), Refusal> {
    Refusal::unless_served(raw::encode(family, k, len, object, nodes))
}

/// A node's column, a number of k bits: bit i − 1 is set when data block i is in that node. `None` where there is no
/// such family, k or node.
///
/// ```
/// assert_eq!(mogtriz::column(mogtriz::TETRAHEDRON, 4, 5), Some(0b0101));
/// assert_eq!(mogtriz::column(mogtriz::TETRAHEDRON, 4, 15), None);
/// ```
#[must_use]
pub fn column(family: usize, k: usize, node: usize) -> Option<usize> {
    unless_0(raw::mogtriz_column(family, k, node))
}

/// The node with a column; `None` where there is none, or no such family or k. Data block i alone is the node with column
/// 2^(i − 1).
///
/// ```
/// assert_eq!(mogtriz::node_of_column(mogtriz::WEIGHT_TWO, 3, 0b011), Some(4));
/// assert_eq!(mogtriz::node_of_column(mogtriz::WEIGHT_TWO, 3, 0b111), None);
/// ```
#[must_use]
pub fn node_of_column(family: usize, k: usize, column: usize) -> Option<usize> {
    unless_0(raw::mogtriz_node_of_column(family, k, column))
}

/// Whether three numbers are nodes and related: the XOR of their columns is 0, so that each one's block is the XOR of the
/// two others'. Where two are equal, or there is no such family, k or node, they are not.
///
/// ```
/// assert!(mogtriz::related(mogtriz::SIMPLEX, 3, [1, 4, 5]));
/// assert!(!mogtriz::related(mogtriz::SIMPLEX, 3, [1, 4, 7]));
/// ```
#[must_use]
pub fn related(family: usize, k: usize, nodes: [usize; 3]) -> bool {
    raw::related(family, k, nodes) == 1
}

/// 0 stands for nothing: it is no column and no node's number.
fn unless_0(number: usize) -> Option<usize> {
    (number != 0).then_some(number)
}
