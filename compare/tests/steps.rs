//! Single steps, plans and runs against the papers' model, over sessions, nodes and buffers of every content
//! and length.
use compare::boxes::check_session;
use compare::calls;
use compare::planner::plan_of;
use compare::random::Random;
use compare::samples::{
    Nodes, Shape, any_session, length_near, nodes_in, shapes, sound_session, with_each_mark,
    wrong_length,
};
use compare::tally::{Tally, repeat};
use compare::triples::{any_triple, right_triple};
use mogtriz::raw::Session;

/// What is done with a session, given a length for its nodes buffer.
type Visit<'a> = &'a mut dyn FnMut(Shape, Session, usize, &mut Random) -> u8;

/// Makes calls with sound sessions and buffers, with wrong buffers, with sessions of any content, and with each
/// mark changed.
fn over_every_kind(tally: &mut Tally, times: usize, visit: Visit) {
    let random = &mut Random::seeded();
    repeat(tally, "sound", 4 * times, |shape| {
        let session = sound_session(shape, random);
        visit(shape, session, shape.nodes_len(), random)
    });
    repeat(tally, "nodes buffers", times, |shape| {
        let session = sound_session(shape, random);
        let length = wrong_length(shape.nodes_len(), random);
        visit(shape, session, length, random)
    });
    repeat(tally, "sessions", 4 * times, |shape| {
        let session = any_session(shape, random);
        let length = length_near(shape.nodes_len(), random);
        visit(shape, session, length, random)
    });
    tally.begin("each mark");
    for shape in shapes().into_iter().filter(|shape| shape.len == 1) {
        for session in with_each_mark(sound_session(shape, random)) {
            tally.add(visit(shape, session, shape.nodes_len(), random));
        }
    }
}

#[test]
fn steps_are_made_as_the_papers_say() {
    let mut tally = Tally::of("step");
    let bytes = Nodes::new(&mut Random::seeded());
    over_every_kind(&mut tally, 500, &mut |shape, session, length, random| {
        let triple = any_triple(shape, random);
        let mut nodes = bytes.some(length, random).to_vec();
        calls::step(session, &mut nodes, triple).refusal
    });
    let random = &mut Random::seeded();
    repeat(&mut tally, "right triples", 500, |shape| {
        let session = sound_session(shape, random);
        let right = right_triple(&session, random);
        let triple = right.unwrap_or_else(|| any_triple(shape, random));
        let mut nodes = bytes.some(shape.nodes_len(), random).to_vec();
        calls::step(session, &mut nodes, triple).refusal
    });
    tally.begin("every triple");
    step_with_every_triple(&mut tally, random);
    tally.report(&[0, 4, 6, 10, 11, 12, 13], 300_000);
}

/// In codes of up to seven nodes, every set of live nodes with every three numbers from 0 to n + 1.
fn step_with_every_triple(tally: &mut Tally, random: &mut Random) {
    for (family, k) in [(1, 2), (1, 3), (2, 2), (2, 3)] {
        let shape = Shape { family, k, len: 2 };
        let nodes = random.bytes(shape.nodes_len());
        for bits in 0..1 << shape.n() {
            let session = shape.session(&nodes_in(bits));
            for triple in triples_up_to(shape.n() + 1) {
                tally.add(calls::step(session, &mut nodes.clone(), triple).refusal);
            }
        }
    }
}

fn triples_up_to(most: usize) -> impl Iterator<Item = [usize; 3]> {
    let base = most + 1;
    (0..base.pow(3)).map(move |i| [i / base / base, i / base % base, i % base])
}

#[test]
fn nodes_are_run_as_the_papers_say() {
    let mut tally = Tally::of("run");
    let bytes = Nodes::new(&mut Random::seeded());
    over_every_kind(&mut tally, 150, &mut |_, session, length, random| {
        let mut nodes = bytes.some(length, random).to_vec();
        calls::run(session, &mut nodes).refusal
    });
    tally.report(&[0, 6, 13], 50_000);
}

#[test]
fn repairs_are_planned_as_the_papers_say() {
    let mut tally = Tally::of("plan");
    over_every_kind(&mut tally, 150, &mut |shape, session, _, random| {
        let room = room_for(&session, shape, random);
        calls::plan(session, room).refusal
    });
    tally.report(&[0, 6, 13], 50_000);
}

/// Room for the steps: enough, just so much, one byte short, or less.
fn room_for(session: &Session, shape: Shape, random: &mut Random) -> usize {
    let most = 4 * shape.n();
    let exact = match check_session(session) {
        Ok(_) => 4 * plan_of(session).steps.len(),
        Err(_) => most,
    };
    let short = random.below(exact.max(1));
    *random.of(&[exact, exact + 1, most, exact.saturating_sub(1), short])
}
