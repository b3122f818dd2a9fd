//! Data blocks spread over nodes, each node the bytewise XOR of some of them; boxes of nodes; lost nodes repaired as
//! the XOR of two others.
//!
//! An object is k data blocks of L bytes, block 1 first; L is 1 to [`MOST_LEN`]. Nodes have numbers 1 to n; node j's block is the
//! part of the nodes buffer from (j − 1) × L up to j × L. In the last column are the nodes that may be lost, whichever they
//! are, so that all come back; this is tested and not proved.
//!
//! | family | code | k | n | may be lost |
//! |---|---|---|---|---|
//! | 1, [`SIMPLEX`] | simplex | 2 to 8 | 2^k − 1 | 2^(k − 1) − 1 |
//! | 2, [`WEIGHT_TWO`] | weight-two | 2 to 22 | k(k + 1) / 2 | k − 1 |
//! | 3, [`TETRAHEDRON`] | tetrahedron | 4 | 14 | 6 |
//!
//! The caller cuts what it stores into objects of exactly k × L bytes, pads the last one and keeps the true length: neither
//! nodes nor boxes have a place for it.
//!
//! # From an object to nodes and back
//!
//! ```
//! # #[cfg(feature = "alloc")] {
//! use mogtriz::{Refusal, SIMPLEX, Session};
//!
//! // an object of 3 blocks of 4 bytes becomes 7 nodes
//! let object = *b"dialect tape";
//! let mut nodes = mogtriz::encode_to_vec(SIMPLEX, 3, 4, &object)?;
//! assert_eq!(nodes.len(), 7 * 4);
//!
//! // nodes 1, 2, 3 and 6 are lost, and repaired from the others
//! for node in [1, 2, 3, 6] {
//!     nodes[(node - 1) * 4..node * 4].fill(0);
//! }
//! let mut session = Session::start(SIMPLEX, 3, 4, &[4, 5, 7])?;
//! let repairs = session.run(&mut nodes)?;
//! assert_eq!((repairs.steps, repairs.rounds, repairs.left), (4, 4, 0));
//!
//! // the object is read out of the nodes
//! assert_eq!(session.read_out_to_vec(&nodes)?, object);
//! # }
//! # Ok::<(), mogtriz::Refusal>(())
//! ```
//!
//! # Refusals
//!
//! Any number, buffer, box or session may be handed in: a call serves it or turns it away with a [`Refusal`], which has a
//! name and a number; a plan made elsewhere can besides have a bad step, which a [`PlanError`] tells. A call that is turned away writes no byte and leaves its session as it was. Each call says under
//! "Errors" which refusals it gives, in the order of its checks: it gives the first that is met. The library behind is
//! proved to do so; this package is its safe form in Rust.
//!
//! # Sessions
//!
//! A [`Session`] says which nodes are live. [`step`](Session::step), [`run`](Session::run) and
//! [`carry_plan`](Session::carry_plan) repair nodes and borrow it as mutable, to mark them live; [`plan`](Session::plan),
//! [`check_plan`](Session::check_plan), [`pairs`](Session::pairs), [`write`](Session::write),
//! [`live_nodes_into`](Session::live_nodes_into) and [`read_out`](Session::read_out) only look at it. After an encode every
//! node is at hand: a [`start`](Session::start) with the list 1 to n says so. For a node that is lost or found damaged later,
//! start anew without it.
//!
//! A busy node need not be read from its own drive: its block is the XOR of the blocks of any pair related to it.
//! [`pairs`](Session::pairs) says how many of its pairs are live, and gives one.
//!
//! A planner of one's own can choose other pairs than [`plan`](Session::plan) does. [`check_plan`](Session::check_plan) accepts its steps
//! or names the first that is bad, and [`carry_plan`](Session::carry_plan) carries them out where they are accepted. Both give a
//! [`PlanError`] where they are not.
//!
//! A session also counts, from 0 at the start: [`reads`](Session::reads) says how often each node's block was read by steps, those of
//! a run and of a plan that is carried out included, and [`steps`](Session::steps) how many steps there were. The counts can be read off
//! at any time.
//!
//! # Objects interleaved
//!
//! Damage to a data block falls on L bytes of the object in a row, or on every k-th byte where the object was interleaved.
//! [`interleave`] does that before the encode, and [`deinterleave`] puts the bytes back after a read out. A box does not tell whether
//! its object was interleaved: the caller has to know, and keeps that beside the true length.
//!
//! ```
//! # #[cfg(feature = "alloc")] {
//! use mogtriz::{SIMPLEX, Session};
//!
//! // an object of 3 blocks of 4 bytes is interleaved and becomes 7 nodes
//! let object = *b"dialect tape";
//! let interleaved = mogtriz::interleave_to_vec(SIMPLEX, 3, 4, &object)?;
//! assert_eq!(interleaved, *b"dltaie pacte");
//! let mut nodes = mogtriz::encode_to_vec(SIMPLEX, 3, 4, &interleaved)?;
//!
//! // node 1, which is data block 1, is lost, and repaired from the others
//! nodes[..4].fill(0);
//! let mut session = Session::start(SIMPLEX, 3, 4, &[2, 3, 4, 5, 6, 7])?;
//! assert_eq!(session.run(&mut nodes)?.left, 0);
//!
//! // what is read out is still interleaved
//! let read_out = session.read_out_to_vec(&nodes)?;
//! assert_eq!(read_out, interleaved);
//! assert_eq!(mogtriz::deinterleave_to_vec(SIMPLEX, 3, 4, &read_out)?, object);
//! # }
//! # Ok::<(), mogtriz::Refusal>(())
//! ```
//!
//! # Boxes with other node numbers
//!
//! Others number simplex nodes in graded order. [`from_graded`] converts such a box to our numbers and [`to_graded`] one with our
//! numbers to theirs. Nothing in a box tells which it has: every other call takes a box to have our numbers.
//!
//! # Buffers and features
//!
//! Calls write to buffers that the caller lends; [`nodes_len`], [`object_len`], [`box_len`], [`PLAN_ROOM`] and, for a list of
//! nodes, [`MOST_NODES`] say how long they have to be. With the feature `alloc`, which is on unless `default-features = false`
//! is said, encode, interleave and deinterleave, read, write, live nodes, read out, plan and the conversions have a second form
//! that gives a `Vec` instead, by the name with `_to_vec` at its end, as `write_to_vec` and `live_nodes_to_vec`. Without it the
//! package needs neither the standard library nor an allocator.
#![no_std]
#![deny(unsafe_code, missing_docs)]

#[cfg(feature = "alloc")]
extern crate alloc;

mod boxes;
mod carry;
mod codes;
mod interleaving;
mod lengths;
mod pairs;
mod plan;
#[allow(unsafe_code, missing_docs)]
#[doc(hidden)]
pub mod raw;
mod refusal;
mod repair;
mod session;
#[cfg(feature = "alloc")]
mod vecs;
mod version;

pub use boxes::{body, from_graded, to_graded};
pub use carry::PlanError;
pub use codes::{SIMPLEX, TETRAHEDRON, WEIGHT_TWO, column, encode, node_of_column, related};
pub use interleaving::{deinterleave, interleave};
pub use lengths::{
    MOST_K, MOST_LEN, MOST_NODES, PLAN_ROOM, box_len, node_count, nodes_len, object_len,
};
pub use pairs::Pairs;
pub use plan::{Plan, Step};
pub use refusal::Refusal;
pub use repair::Repairs;
pub use session::{MARKS, Session};
#[cfg(feature = "alloc")]
pub use vecs::{
    deinterleave_to_vec, encode_to_vec, from_graded_to_vec, interleave_to_vec, to_graded_to_vec,
};
pub use version::{VERSION, version};
