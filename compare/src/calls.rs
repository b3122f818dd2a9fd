//! One call made of the library and of the papers' model: what it gives and every byte lent have to agree.
//! Each function gives the call's number; step, run, plan, pairs and those of plans made elsewhere give the answer. As the Rust package
//! leaves out a part of each answer, every call is made of C besides: it writes the same bytes again.
use crate::guarded::Guarded;
use crate::interleaving::Interleaving;
use crate::samples::Shape;
use crate::{boxes, graded, interleaving, library, pairs, plan_checks, planner};
use mogtriz::raw::{self, Carried, Converted, PairsFound, PlanChecked, Repairs, Session, Stepped};

/// The bytes of a message, cut where they would fill the screen.
fn shown(bytes: &[u8]) -> String {
    let first = &bytes[..bytes.len().min(48)];
    format!("{} bytes {first:02x?}", bytes.len())
}

/// A destination after a call: its bytes as the model left them, its guards as they were.
fn written_as(lent: &Guarded, wanted: &[u8]) -> bool {
    lent.bytes() == wanted && lent.guards_untouched()
}

/// The numbers may be out of range, and the lengths any.
pub fn interleave(shape: Shape, object: &[u8], out_len: usize) -> u8 {
    let calls = [library::interleave, raw::interleave];
    let model = interleaving::interleave;
    move_bytes("interleave", shape, object, out_len, model, calls)
}

/// The same for the reverse.
pub fn deinterleave(shape: Shape, object: &[u8], out_len: usize) -> u8 {
    let calls = [library::deinterleave, raw::deinterleave];
    let model = interleaving::deinterleave;
    move_bytes("deinterleave", shape, object, out_len, model, calls)
}

fn move_bytes(
    name: &str,
    shape: Shape,
    object: &[u8],
    out_len: usize,
    model: Interleaving,
    calls: [Interleaving; 2],
) -> u8 {
    let Shape { family, k, len } = shape;
    let lent = Guarded::holding(object);
    let mut out = Guarded::filled(out_len);
    let mut expected = out.bytes().to_vec();
    let wanted = model(family, k, len, object, &mut expected);
    let place = || format!("{name} {shape:?} {} into {out_len}", shown(object));
    for call in calls {
        out.restore();
        let got = call(family, k, len, lent.bytes(), out.bytes_mut());
        assert_eq!(got, wanted, "{}", place());
        let as_wanted = written_as(&out, &expected);
        assert!(as_wanted, "{}: the bytes differ", place());
    }
    assert!(lent.untouched(), "{}: the object was written to", place());
    wanted
}

pub fn start(family: usize, k: usize, len: usize, list: &[u8]) -> u8 {
    let lent = Guarded::holding(list);
    let wanted = boxes::start(family, k, len, list);
    let place = || format!("start family {family} k {k} L {len} list {}", shown(list));
    for start in [library::start, raw::start] {
        let got = start(family, k, len, lent.bytes());
        assert_eq!(got, wanted, "{}", place());
    }
    assert!(lent.untouched(), "{}: the list was written to", place());
    wanted.refusal
}

pub fn check(bytes: &[u8]) -> u8 {
    let lent = Guarded::holding(bytes);
    let wanted = boxes::check(bytes);
    let place = || format!("check {}", shown(bytes));
    for check in [library::check, raw::check] {
        assert_eq!(check(lent.bytes()), wanted, "{}", place());
    }
    assert!(lent.untouched(), "{}: the box was written to", place());
    wanted.refusal
}

pub fn read(bytes: &[u8], nodes_len: usize) -> u8 {
    let lent = Guarded::holding(bytes);
    let mut nodes = Guarded::filled(nodes_len);
    let mut expected = nodes.bytes().to_vec();
    let wanted = boxes::read(bytes, &mut expected);
    let place = || format!("read {} into {nodes_len}", shown(bytes));
    for read in [library::read, raw::read] {
        let got = read(lent.bytes(), nodes.bytes_mut());
        assert_eq!(got, wanted, "{}", place());
        let as_wanted = written_as(&nodes, &expected);
        assert!(as_wanted, "{}: the nodes differ", place());
    }
    assert!(lent.untouched(), "{}: the box was written to", place());
    wanted.refusal
}

pub fn body(bytes: &[u8], node: usize) -> u8 {
    let lent = Guarded::holding(bytes);
    let wanted = boxes::body(bytes, node);
    let place = || format!("body {node} of {}", shown(bytes));
    for body in [library::body, raw::body] {
        assert_eq!(body(lent.bytes(), node), wanted, "{}", place());
    }
    assert!(lent.untouched(), "{}: the box was written to", place());
    wanted.refusal
}

type Conversion = fn(&[u8], &mut [u8]) -> Converted;

pub fn from_graded(bytes: &[u8], out_len: usize) -> u8 {
    let calls = [library::from_graded, raw::from_graded];
    convert("from graded", bytes, out_len, graded::from_graded, calls)
}

pub fn to_graded(bytes: &[u8], out_len: usize) -> u8 {
    let calls = [library::to_graded, raw::to_graded];
    convert("to graded", bytes, out_len, graded::to_graded, calls)
}

fn convert(
    name: &str,
    bytes: &[u8],
    out_len: usize,
    model: Conversion,
    calls: [Conversion; 2],
) -> u8 {
    let lent = Guarded::holding(bytes);
    let mut out = Guarded::filled(out_len);
    let mut expected = out.bytes().to_vec();
    let wanted = model(bytes, &mut expected);
    let place = || format!("{name} {} into {out_len}", shown(bytes));
    for call in calls {
        out.restore();
        assert_eq!(call(lent.bytes(), out.bytes_mut()), wanted, "{}", place());
        let as_wanted = written_as(&out, &expected);
        assert!(as_wanted, "{}: the new box differs", place());
    }
    assert!(lent.untouched(), "{}: the box was written to", place());
    wanted.refusal
}

pub fn write(session: Session, nodes: &[u8], list: &[u8], out_len: usize) -> u8 {
    let [lent_nodes, lent_list] = [nodes, list].map(Guarded::holding);
    let mut out = Guarded::filled(out_len);
    let mut expected = out.bytes().to_vec();
    let wanted = boxes::write(session, nodes, list, &mut expected);
    let place = || {
        let (nodes, list) = (nodes.len(), shown(list));
        format!("write {session:?} nodes {nodes} list {list} into {out_len}")
    };
    for write in [library::write, raw::write] {
        let [nodes, list] = [&lent_nodes, &lent_list].map(Guarded::bytes);
        let got = write(session, nodes, list, out.bytes_mut());
        assert_eq!(got, wanted, "{}", place());
        let as_wanted = written_as(&out, &expected);
        assert!(as_wanted, "{}: the box differs", place());
    }
    let kept = lent_nodes.untouched() && lent_list.untouched();
    assert!(kept, "{}: the nodes or the list were written to", place());
    wanted.refusal
}

pub fn live_nodes(session: Session, out_len: usize) -> u8 {
    let mut out = Guarded::filled(out_len);
    let mut expected = out.bytes().to_vec();
    let wanted = boxes::list_live(session, &mut expected);
    let place = || format!("live nodes {session:?} into {out_len}");
    for live_nodes in [library::live_nodes, raw::live_nodes] {
        assert_eq!(live_nodes(session, out.bytes_mut()), wanted, "{}", place());
        let as_wanted = written_as(&out, &expected);
        assert!(as_wanted, "{}: the list differs", place());
    }
    wanted.refusal
}

pub fn read_out(session: Session, nodes: &[u8], object_len: usize) -> u8 {
    let lent = Guarded::holding(nodes);
    let mut object = Guarded::filled(object_len);
    let mut expected = object.bytes().to_vec();
    let wanted = boxes::read_out(session, nodes, &mut expected);
    let place = || {
        let nodes = nodes.len();
        format!("read out {session:?} nodes {nodes} into {object_len}")
    };
    for read_out in [library::read_out, raw::read_out] {
        let got = read_out(session, lent.bytes(), object.bytes_mut());
        assert_eq!(got, wanted, "{}", place());
        let as_wanted = written_as(&object, &expected);
        assert!(as_wanted, "{}: the object differs", place());
    }
    assert!(lent.untouched(), "{}: the nodes were written to", place());
    wanted.refusal
}

/// The node's number may be any.
pub fn pairs(session: Session, node: usize) -> PairsFound {
    let wanted = pairs::pairs(session, node);
    for pairs in [library::pairs, raw::pairs] {
        assert_eq!(pairs(session, node), wanted, "pairs {node} {session:?}");
    }
    wanted
}

/// The nodes are left as the call leaves them.
pub fn step(session: Session, nodes: &mut [u8], triple: [usize; 3]) -> Stepped {
    let mut lent = Guarded::holding(nodes);
    let wanted = planner::step(session, nodes, triple);
    let place = || format!("step {triple:?} {session:?} nodes {}", nodes.len());
    for step in [library::step, raw::step] {
        let got = step(session, lent.bytes_mut(), triple);
        assert_eq!(got, wanted, "{}", place());
        let as_wanted = written_as(&lent, nodes);
        assert!(as_wanted, "{}: the nodes differ", place());
    }
    wanted
}

/// The nodes are left as the call leaves them.
pub fn run(session: Session, nodes: &mut [u8]) -> Repairs {
    let mut lent = Guarded::holding(nodes);
    let wanted = planner::run(session, nodes);
    let place = || format!("run {session:?} nodes {}", nodes.len());
    for run in [library::run, raw::run] {
        assert_eq!(run(session, lent.bytes_mut()), wanted, "{}", place());
        let as_wanted = written_as(&lent, nodes);
        assert!(as_wanted, "{}: the nodes differ", place());
    }
    wanted
}

pub fn plan(session: Session, out_len: usize) -> Repairs {
    let mut out = Guarded::filled(out_len);
    let mut expected = out.bytes().to_vec();
    let wanted = planner::plan(session, &mut expected);
    let place = || format!("plan {session:?} into {out_len}");
    for plan in [library::plan, raw::plan] {
        assert_eq!(plan(session, out.bytes_mut()), wanted, "{}", place());
        let as_wanted = written_as(&out, &expected);
        let bytes = || [out.bytes(), &expected].map(shown).join(", not ");
        assert!(as_wanted, "{}: {}", place(), bytes());
    }
    wanted
}

/// The plan may have any length and any bytes.
pub fn check_plan(session: Session, plan: &[u8]) -> PlanChecked {
    let lent = Guarded::holding(plan);
    let wanted = plan_checks::check_plan(session, plan);
    let place = || format!("check plan {} {session:?}", shown(plan));
    for check_plan in [library::check_plan, raw::check_plan] {
        let got = check_plan(session, lent.bytes());
        assert_eq!(got, wanted, "{}", place());
    }
    assert!(lent.untouched(), "{}: the plan was written to", place());
    wanted
}

/// The nodes are left as the call leaves them.
pub fn carry_plan(session: Session, plan: &[u8], nodes: &mut [u8]) -> Carried {
    let lent = Guarded::holding(plan);
    let mut lent_nodes = Guarded::holding(nodes);
    let wanted = plan_checks::carry_plan(session, plan, nodes);
    let place = || {
        let (plan, nodes) = (shown(plan), nodes.len());
        format!("carry plan {plan} {session:?} nodes {nodes}")
    };
    for carry_plan in [library::carry_plan, raw::carry_plan] {
        lent_nodes.restore();
        let got = carry_plan(session, lent.bytes(), lent_nodes.bytes_mut());
        assert_eq!(got, wanted, "{}", place());
        let as_wanted = written_as(&lent_nodes, nodes);
        assert!(as_wanted, "{}: the nodes differ", place());
    }
    assert!(lent.untouched(), "{}: the plan was written to", place());
    wanted
}
