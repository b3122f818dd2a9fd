//! The C interface, include/mogtriz.h, as it stands: its calls and the layouts that cross them, declared for Rust here alone. The
//! only unsafe code of the package is these calls. Hidden, as the package's own types are for callers; what is held against the
//! library uses it too.
use core::fmt;

/// `MOGTRIZ_VERSION` of the header that this is declared from.
pub const VERSION: usize = 6;

/// How many marks a session holds, by node number, and how many counts of reads.
pub const MARKS: usize = 256;

/// The largest number that a refusal has; tables by number have a place for each up to it, and for 0.
pub const MOST_REFUSAL: usize = 14;

/// C's `mogtriz_session`: 1 marks a live node and 0 a missing one, `steps` and `reads` are counted since the start, and a caller may
/// hand in anything.
#[repr(C)]
#[derive(Clone, Copy, PartialEq, Eq, Hash)]
pub struct Session {
    pub family: usize,
    pub k: usize,
    pub len: usize,
    pub steps: usize,
    pub live: [u8; MARKS],
    pub reads: [u16; MARKS],
}

/// C's `mogtriz_started`: what a start or a box gives.
#[repr(C)]
#[derive(Clone, Copy, Debug, PartialEq, Eq)]
pub struct Started {
    pub refusal: u8,
    pub session: Session,
}

/// C's `mogtriz_written`: what writing a box and listing the live nodes give, with how many bytes are written.
#[repr(C)]
#[derive(Clone, Copy, Debug, PartialEq, Eq)]
pub struct Written {
    pub refusal: u8,
    pub length: usize,
    pub session: Session,
}

/// C's `mogtriz_read_out_answer`: what reading out gives, with the data block that goes with 14.
#[repr(C)]
#[derive(Clone, Copy, Debug, PartialEq, Eq)]
pub struct ReadOut {
    pub refusal: u8,
    pub block: usize,
    pub session: Session,
}

/// C's `mogtriz_pairs_found`: what looking for the pairs of a node gives, the least pair and how many there are.
#[repr(C)]
#[derive(Clone, Copy, Debug, PartialEq, Eq)]
pub struct PairsFound {
    pub refusal: u8,
    pub smaller: usize,
    pub larger: usize,
    pub count: usize,
    pub session: Session,
}

/// C's `mogtriz_stepped`: what a step gives, with the next session.
#[repr(C)]
#[derive(Clone, Copy, Debug, PartialEq, Eq)]
pub struct Stepped {
    pub refusal: u8,
    pub session: Session,
}

/// C's `mogtriz_repairs`: what a plan or a run gives, its counts, and the session, which for a run is the next one.
#[repr(C)]
#[derive(Clone, Copy, Debug, PartialEq, Eq)]
pub struct Repairs {
    pub refusal: u8,
    pub steps: usize,
    pub rounds: usize,
    pub left: usize,
    pub session: Session,
}

/// C's `mogtriz_plan_checked`: what checking a plan gives, with its first bad step, from 1, or 0 where there is none.
#[repr(C)]
#[derive(Clone, Copy, Debug, PartialEq, Eq)]
pub struct PlanChecked {
    pub refusal: u8,
    pub bad_step: usize,
    pub session: Session,
}

/// C's `mogtriz_carried`: what carrying out a plan gives, with its first bad step, and the session, which is the next one where there
/// is none.
#[repr(C)]
#[derive(Clone, Copy, Debug, PartialEq, Eq)]
pub struct Carried {
    pub refusal: u8,
    pub bad_step: usize,
    pub session: Session,
}

/// C's `mogtriz_part`, a part of a box: `length` bytes from place `from` on.
#[repr(C)]
#[derive(Clone, Copy, Debug, PartialEq, Eq)]
pub struct Part {
    pub refusal: u8,
    pub from: usize,
    pub length: usize,
}

/// C's `mogtriz_converted`: what converting a box gives, with its length.
#[repr(C)]
#[derive(Clone, Copy, Debug, PartialEq, Eq)]
pub struct Converted {
    pub refusal: u8,
    pub length: usize,
}

/// Family, k, L, the marks that are not 0, as most are, the steps, and the reads that are not 0.
impl fmt::Debug for Session {
    fn fmt(&self, f: &mut fmt::Formatter) -> fmt::Result {
        write!(f, "family {} k {} L {} ", self.family, self.k, self.len)?;
        let marked = self.live.iter().enumerate().filter(|(_, mark)| **mark != 0);
        f.debug_map().entries(marked).finish()?;
        write!(f, " steps {} reads ", self.steps)?;
        let read = self
            .reads
            .iter()
            .enumerate()
            .filter(|(_, count)| **count != 0);
        f.debug_map().entries(read).finish()
    }
}

unsafe extern "C" {
    fn mogtriz_encode(
        family: usize,
        k: usize,
        len: usize,
        object: *const u8,
        object_len: usize,
        nodes: *mut u8,
        nodes_len: usize,
    ) -> u8;
    fn mogtriz_interleave(
        family: usize,
        k: usize,
        len: usize,
        object: *const u8,
        object_len: usize,
        out: *mut u8,
        out_len: usize,
    ) -> u8;
    fn mogtriz_deinterleave(
        family: usize,
        k: usize,
        len: usize,
        object: *const u8,
        object_len: usize,
        out: *mut u8,
        out_len: usize,
    ) -> u8;
    pub safe fn mogtriz_version() -> usize;
    pub safe fn mogtriz_node_count(family: usize, k: usize) -> usize;
    pub safe fn mogtriz_column(family: usize, k: usize, node: usize) -> usize;
    pub safe fn mogtriz_node_of_column(family: usize, k: usize, column: usize) -> usize;
    safe fn mogtriz_related(family: usize, k: usize, a: usize, b: usize, c: usize) -> u8;
    fn mogtriz_start(
        family: usize,
        k: usize,
        len: usize,
        list: *const u8,
        list_len: usize,
    ) -> Started;
    fn mogtriz_check(bytes: *const u8, bytes_len: usize) -> Started;
    fn mogtriz_read(
        bytes: *const u8,
        bytes_len: usize,
        nodes: *mut u8,
        nodes_len: usize,
    ) -> Started;
    fn mogtriz_body(bytes: *const u8, bytes_len: usize, node: usize) -> Part;
    fn mogtriz_from_graded(
        bytes: *const u8,
        bytes_len: usize,
        out: *mut u8,
        out_len: usize,
    ) -> Converted;
    fn mogtriz_to_graded(
        bytes: *const u8,
        bytes_len: usize,
        out: *mut u8,
        out_len: usize,
    ) -> Converted;
    fn mogtriz_write(
        session: Session,
        nodes: *const u8,
        nodes_len: usize,
        list: *const u8,
        list_len: usize,
        out: *mut u8,
        out_len: usize,
    ) -> Written;
    fn mogtriz_live_nodes(session: Session, out: *mut u8, out_len: usize) -> Written;
    fn mogtriz_read_out(
        session: Session,
        nodes: *const u8,
        nodes_len: usize,
        object: *mut u8,
        object_len: usize,
    ) -> ReadOut;
    safe fn mogtriz_pairs(session: Session, node: usize) -> PairsFound;
    fn mogtriz_step(
        session: Session,
        nodes: *mut u8,
        nodes_len: usize,
        node: usize,
        first: usize,
        second: usize,
    ) -> Stepped;
    fn mogtriz_plan(session: Session, out: *mut u8, out_len: usize) -> Repairs;
    fn mogtriz_run(session: Session, nodes: *mut u8, nodes_len: usize) -> Repairs;
    fn mogtriz_check_plan(session: Session, plan: *const u8, plan_len: usize) -> PlanChecked;
    fn mogtriz_carry_plan(
        session: Session,
        plan: *const u8,
        plan_len: usize,
        nodes: *mut u8,
        nodes_len: usize,
    ) -> Carried;
}

/// 1 where three nodes are related, else 0.
#[must_use]
pub fn related(family: usize, k: usize, nodes: [usize; 3]) -> u8 {
    let [a, b, c] = nodes;
    mogtriz_related(family, k, a, b, c)
}

/// The least pair of a node, and how many it has.
#[must_use]
pub fn pairs(session: Session, node: usize) -> PairsFound {
    mogtriz_pairs(session, node)
}

// SAFETY, for every call below: each pointer comes with the length of its slice, also of an empty one, and a slice
// that is borrowed as mutable overlaps no other. Every number and every session may be handed in, by the header.

pub fn encode(family: usize, k: usize, len: usize, object: &[u8], nodes: &mut [u8]) -> u8 {
    // SAFETY: as above.
    unsafe {
        mogtriz_encode(
            family,
            k,
            len,
            object.as_ptr(),
            object.len(),
            nodes.as_mut_ptr(),
            nodes.len(),
        )
    }
}

pub fn interleave(family: usize, k: usize, len: usize, object: &[u8], out: &mut [u8]) -> u8 {
    // SAFETY: as above.
    unsafe {
        mogtriz_interleave(
            family,
            k,
            len,
            object.as_ptr(),
            object.len(),
            out.as_mut_ptr(),
            out.len(),
        )
    }
}

pub fn deinterleave(family: usize, k: usize, len: usize, object: &[u8], out: &mut [u8]) -> u8 {
    // SAFETY: as above.
    unsafe {
        mogtriz_deinterleave(
            family,
            k,
            len,
            object.as_ptr(),
            object.len(),
            out.as_mut_ptr(),
            out.len(),
        )
    }
}

#[must_use]
pub fn start(family: usize, k: usize, len: usize, list: &[u8]) -> Started {
    // SAFETY: as above.
    unsafe { mogtriz_start(family, k, len, list.as_ptr(), list.len()) }
}

#[must_use]
pub fn check(bytes: &[u8]) -> Started {
    // SAFETY: as above.
    unsafe { mogtriz_check(bytes.as_ptr(), bytes.len()) }
}

pub fn read(bytes: &[u8], nodes: &mut [u8]) -> Started {
    // SAFETY: as above.
    unsafe { mogtriz_read(bytes.as_ptr(), bytes.len(), nodes.as_mut_ptr(), nodes.len()) }
}

#[must_use]
pub fn body(bytes: &[u8], node: usize) -> Part {
    // SAFETY: as above.
    unsafe { mogtriz_body(bytes.as_ptr(), bytes.len(), node) }
}

pub fn from_graded(bytes: &[u8], out: &mut [u8]) -> Converted {
    // SAFETY: as above.
    unsafe { mogtriz_from_graded(bytes.as_ptr(), bytes.len(), out.as_mut_ptr(), out.len()) }
}

pub fn to_graded(bytes: &[u8], out: &mut [u8]) -> Converted {
    // SAFETY: as above.
    unsafe { mogtriz_to_graded(bytes.as_ptr(), bytes.len(), out.as_mut_ptr(), out.len()) }
}

pub fn write(session: Session, nodes: &[u8], list: &[u8], out: &mut [u8]) -> Written {
    // SAFETY: as above.
    unsafe {
        mogtriz_write(
            session,
            nodes.as_ptr(),
            nodes.len(),
            list.as_ptr(),
            list.len(),
            out.as_mut_ptr(),
            out.len(),
        )
    }
}

pub fn live_nodes(session: Session, out: &mut [u8]) -> Written {
    // SAFETY: as above.
    unsafe { mogtriz_live_nodes(session, out.as_mut_ptr(), out.len()) }
}

pub fn read_out(session: Session, nodes: &[u8], object: &mut [u8]) -> ReadOut {
    // SAFETY: as above.
    unsafe {
        mogtriz_read_out(
            session,
            nodes.as_ptr(),
            nodes.len(),
            object.as_mut_ptr(),
            object.len(),
        )
    }
}

/// The triple is the node to repair and the two that it comes from.
pub fn step(session: Session, nodes: &mut [u8], triple: [usize; 3]) -> Stepped {
    let [node, first, second] = triple;
    // SAFETY: as above.
    unsafe {
        mogtriz_step(
            session,
            nodes.as_mut_ptr(),
            nodes.len(),
            node,
            first,
            second,
        )
    }
}

pub fn plan(session: Session, out: &mut [u8]) -> Repairs {
    // SAFETY: as above.
    unsafe { mogtriz_plan(session, out.as_mut_ptr(), out.len()) }
}

pub fn run(session: Session, nodes: &mut [u8]) -> Repairs {
    // SAFETY: as above.
    unsafe { mogtriz_run(session, nodes.as_mut_ptr(), nodes.len()) }
}

#[must_use]
pub fn check_plan(session: Session, plan: &[u8]) -> PlanChecked {
    // SAFETY: as above.
    unsafe { mogtriz_check_plan(session, plan.as_ptr(), plan.len()) }
}

pub fn carry_plan(session: Session, plan: &[u8], nodes: &mut [u8]) -> Carried {
    // SAFETY: as above.
    unsafe {
        mogtriz_carry_plan(
            session,
            plan.as_ptr(),
            plan.len(),
            nodes.as_mut_ptr(),
            nodes.len(),
        )
    }
}
