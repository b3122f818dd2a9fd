//! The package where there is no standard library and no allocator. It would not be linked if the package took either: two
//! panic handlers are one too many, and with `alloc` an allocator has to be named. Its exit status is 0, or the number of
//! the refusal that it met.
#![no_std]
#![no_main]

use core::ffi::c_int;
use core::panic::PanicInfo;
use mogtriz::{MOST_NODES, PLAN_ROOM, PlanError, Refusal, SIMPLEX, Session};

const OBJECT: &[u8; 24] = b"vowels of one disc, 1952";

// what the library needs of C, and what starts the program
#[link(name = "c")]
unsafe extern "C" {
    safe fn abort() -> !;
}

#[panic_handler]
fn panic(_: &PanicInfo) -> ! {
    abort()
}

// `core` comes compiled for programs that unwind, and names this; nothing here unwinds
#[unsafe(no_mangle)]
extern "C" fn rust_eh_personality() {}

#[unsafe(no_mangle)]
extern "C" fn main() -> c_int {
    store_and_repair().map_or_else(|refusal| refusal.number().into(), |()| 0)
}

fn store_and_repair() -> Result<(), Refusal> {
    let mut interleaved = [0; 24];
    mogtriz::interleave(SIMPLEX, 3, 8, OBJECT, &mut interleaved)?;
    let mut nodes = [0; 7 * 8];
    mogtriz::encode(SIMPLEX, 3, 8, &interleaved, &mut nodes)?;
    let mut bytes = [0; 8 + 3 + 3 * 8];
    let session = Session::start(SIMPLEX, 3, 8, &[4, 5, 7])?;
    let mut list = [0; MOST_NODES];
    let count = session.live_nodes_into(&mut list)?;
    let length = session.write(&nodes, &list[..count], &mut bytes)?;
    assert!(length == session.box_len(3)?);

    // to graded order and back
    let mut theirs = [0; 8 + 3 + 3 * 8];
    assert!(mogtriz::to_graded(&bytes, &mut theirs)? == length);
    assert!(theirs[8..11] == [3, 5, 7]);
    assert!(mogtriz::from_graded(&theirs, &mut bytes)? == length);

    nodes.fill(0);
    let mut session = Session::read(&bytes, &mut nodes)?;
    let mut out = [0; PLAN_ROOM];
    let plan = session.plan(&mut out)?;
    assert!(plan.steps().map(|step| step.node).eq([1, 2, 3, 6]));
    assert!(session.pairs(1)?.least == Some([4, 5]) && session.pairs(6)?.count == 0);

    // the plan as if it had been made elsewhere, on other nodes; a step that comes twice is bad
    let (mut other_session, mut other_nodes) = (session.clone(), nodes);
    assert!(session.check_plan(&[1, 1, 4, 5, 2, 1, 4, 5]) == Err(PlanError::BadStep(2)));
    assert!(session.check_plan(plan.bytes()) == Ok(()));
    assert!(other_session.carry_plan(plan.bytes(), &mut other_nodes) == Ok(()));

    assert!(session.run(&mut nodes)? == plan.repairs);
    assert!(session.steps() == 4 && session.reads()[..8] == [0, 2, 1, 0, 1, 2, 0, 2]);
    assert!(session == other_session && nodes == other_nodes);

    let mut read_out = [0; 24];
    session.read_out(&nodes, &mut read_out)?;
    assert!(read_out == interleaved);
    let mut object = [0; 24];
    mogtriz::deinterleave(SIMPLEX, 3, 8, &read_out, &mut object)?;
    assert!(object == *OBJECT);
    Ok(())
}
