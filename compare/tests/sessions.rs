//! Starting, writing a box, listing the live nodes and reading out, against the papers' model, over sessions, lists and buffers of
//! every content and length.
use compare::boxes::{self, box_len, live_nodes};
use compare::calls;
use compare::counted::agreeing;
use compare::papers::code;
use compare::random::Random;
use compare::samples::{
    Nodes, Shape, THREE_NODES, any_session, length_near, long_list, shapes, short_lists, some_of,
    sound_session, spoiled, spoiled_session, with_each_mark, wrong_len, wrong_length, wrong_number,
};
use compare::tally::{Tally, repeat};
use mogtriz::raw::Session;

/// Some of the nodes, with a fault or two in most lists.
fn any_list(shape: Shape, random: &mut Random) -> Vec<u8> {
    let list = some_of(&shape.all_nodes(), random);
    match random.below(40) {
        0 => long_list(shape.n(), random),
        1..10 => list,
        _ => spoiled(&list, random),
    }
}

#[test]
fn sessions_start_as_the_papers_say() {
    let mut random = Random::seeded();
    let mut tally = Tally::of("start");
    let start = |shape: Shape, list: &[u8]| calls::start(shape.family, shape.k, shape.len, list);
    repeat(&mut tally, "sound", 500, |shape| {
        start(shape, &some_of(&shape.all_nodes(), &mut random))
    });
    repeat(&mut tally, "node lists", 1500, |shape| {
        start(shape, &any_list(shape, &mut random))
    });
    repeat(&mut tally, "long lists", 100, |shape| {
        start(shape, &long_list(shape.n(), &mut random))
    });
    repeat(&mut tally, "numbers", 2500, |shape| {
        let list = any_list(shape, &mut random);
        start(with_wrong_numbers(shape, &mut random), &list)
    });
    tally.begin("short lists");
    for list in short_lists() {
        for shape in THREE_NODES {
            tally.add(start(shape, &list));
        }
    }
    tally.report(&[0, 1, 2, 3, 4, 5], 150_000);
}

/// One to three of the numbers out of range, or at another place in it.
fn with_wrong_numbers(shape: Shape, random: &mut Random) -> Shape {
    let mut wrong = shape;
    for _ in 0..1 + random.below(3) {
        match random.below(3) {
            0 => wrong.family = wrong_number(shape.family, random),
            1 => wrong.k = wrong_number(shape.k, random),
            _ => wrong.len = wrong_len(shape.len, random),
        }
    }
    wrong
}

/// A list for writing: none, all or some of the live nodes, perhaps with a missing one, perhaps faulty.
fn list_to_write(shape: Shape, session: &Session, random: &mut Random) -> Vec<u8> {
    let live = live_nodes(session);
    match random.below(8) {
        0 | 1 => vec![],
        2 => live,
        3 | 4 => some_of(&live, random),
        5 => with_another(some_of(&live, random), shape, random),
        6 => spoiled(&live, random),
        _ => any_list(shape, random),
    }
}

/// One more node in its place, live or missing.
fn with_another(mut list: Vec<u8>, shape: Shape, random: &mut Random) -> Vec<u8> {
    let node = 1 + random.below(shape.n()) as u8;
    if let Err(place) = list.binary_search(&node) {
        list.insert(place, node);
    }
    list
}

/// Room for a box of the list: enough, one short, or another length.
fn room_for(shape: Shape, list: &[u8], random: &mut Random) -> usize {
    let exact = box_len(list.len().min(shape.n()), shape.len);
    let short = random.below(exact);
    let long = exact + random.below(100);
    *random.of(&[exact, exact, long, long, exact + 1, exact - 1, short])
}

#[test]
fn boxes_are_written_as_the_papers_say() {
    let mut random = Random::seeded();
    let mut tally = Tally::of("write");
    let nodes = Nodes::new(&mut random);
    let write = |shape: Shape, session: Session, nodes_len: usize, random: &mut Random| {
        let list = list_to_write(shape, &session, random);
        let room = room_for(shape, &list, random);
        calls::write(session, nodes.some(nodes_len, random), &list, room)
    };
    repeat(&mut tally, "sound", 4000, |shape| {
        let session = sound_session(shape, &mut random);
        write(shape, session, shape.nodes_len(), &mut random)
    });
    repeat(&mut tally, "nodes buffers", 500, |shape| {
        let session = sound_session(shape, &mut random);
        let length = wrong_length(shape.nodes_len(), &mut random);
        write(shape, session, length, &mut random)
    });
    repeat(&mut tally, "sessions", 2500, |shape| {
        let session = any_session(shape, &mut random);
        let length = length_near(shape.nodes_len(), &mut random);
        write(shape, session, length, &mut random)
    });
    tally.begin("each mark");
    for (shape, session) in sessions_with_each_mark(&mut random) {
        tally.add(write(shape, session, shape.nodes_len(), &mut random));
    }
    tally.begin("short lists");
    write_every_short_list(&mut tally, &mut random);
    tally.report(&[0, 4, 5, 6, 12, 13], 300_000);
}

/// In codes of three nodes, every set of live nodes and every list of up to three, into room from none to
/// more than enough.
fn write_every_short_list(tally: &mut Tally, random: &mut Random) {
    let mut lists = short_lists();
    lists.retain(|list| list.len() <= 3);
    for shape in THREE_NODES {
        let nodes = random.bytes(shape.nodes_len());
        let starts =
            |live: &&Vec<u8>| boxes::start(shape.family, shape.k, shape.len, live).refusal == 0;
        for live in lists.iter().filter(starts) {
            for list in &lists {
                for room in 0..=box_len(3, shape.len) + 1 {
                    tally.add(calls::write(shape.session(live), &nodes, list, room));
                }
            }
        }
    }
}

#[test]
fn live_nodes_are_listed_or_turned_away() {
    let mut random = Random::seeded();
    let mut tally = Tally::of("live nodes");
    let list = |session: Session, random: &mut Random| {
        let exact = live_nodes(&session).len();
        let [less, more] = [random.below(exact + 1), exact + random.below(100)];
        let room = *random.of(&[exact, exact.saturating_sub(1), less, more]);
        calls::live_nodes(session, room)
    };
    repeat(&mut tally, "sound", 2000, |shape| {
        list(sound_session(shape, &mut random), &mut random)
    });
    repeat(&mut tally, "sessions", 2000, |shape| {
        list(any_session(shape, &mut random), &mut random)
    });
    tally.begin("each mark");
    for (_, session) in sessions_with_each_mark(&mut random) {
        tally.add(list(session, &mut random));
    }
    tally.begin("each count");
    for shape in THREE_NODES.into_iter().chain(shapes()) {
        list_each_count(shape, &mut tally);
    }
    tally.report(&[0, 6, 13], 200_000);
}

/// So many of the first nodes live, then so many of the last, into a byte less than enough, enough, and a byte more.
fn list_each_count(shape: Shape, tally: &mut Tally) {
    let all = shape.all_nodes();
    for count in 0..=all.len() {
        for live in [&all[..count], &all[all.len() - count..]] {
            for room in count.saturating_sub(1)..=count + 1 {
                tally.add(calls::live_nodes(shape.session(live), room));
            }
        }
    }
}

/// Sessions that are taken, in which each mark in turn is made live, missing or no mark.
fn sessions_with_each_mark(random: &mut Random) -> Vec<(Shape, Session)> {
    let mut sessions = Vec::new();
    for shape in shapes().into_iter().filter(|shape| shape.len <= 2) {
        let sound = session_to_read_out(shape, random);
        sessions.extend(with_each_mark(sound).map(|session| (shape, session)));
    }
    sessions
}

/// A session that is taken, in which all or all but a few of the data blocks' nodes are live.
fn session_to_read_out(shape: Shape, random: &mut Random) -> Session {
    let mut session = shape.session(&some_of(&shape.all_nodes(), random));
    let code = code(shape.family, shape.k);
    let missing = random.below(2 * shape.k.min(8));
    for block in 1..=shape.k {
        let lost = random.below(2 * shape.k) < missing;
        session.live[usize::from(code.data_node(block))] = u8::from(!lost);
    }
    agreeing(session, shape.n(), random)
}

#[test]
fn objects_are_read_out_as_the_papers_say() {
    let mut random = Random::seeded();
    let mut tally = Tally::of("read out");
    let nodes = Nodes::new(&mut random);
    let exact = |shape: Shape| (shape.nodes_len(), shape.object_len());
    let read_out = |session: Session, lengths: (usize, usize), random: &mut Random| {
        calls::read_out(session, nodes.some(lengths.0, random), lengths.1)
    };
    repeat(&mut tally, "sound", 2000, |shape| {
        let session = session_to_read_out(shape, &mut random);
        read_out(session, exact(shape), &mut random)
    });
    repeat(&mut tally, "buffers", 1000, |shape| {
        let session = session_to_read_out(shape, &mut random);
        let (nodes, object) = exact(shape);
        let lengths = [nodes, object].map(|exact| length_near(exact, &mut random));
        read_out(session, lengths.into(), &mut random)
    });
    repeat(&mut tally, "sessions", 1000, |shape| {
        let sound = session_to_read_out(shape, &mut random);
        let session = spoiled_session(sound, shape.n(), &mut random);
        let (nodes, object) = exact(shape);
        read_out(
            session,
            (nodes, length_near(object, &mut random)),
            &mut random,
        )
    });
    repeat(&mut tally, "random sessions", 500, |shape| {
        let session = any_session(shape, &mut random);
        read_out(session, exact(shape), &mut random)
    });
    tally.begin("each mark");
    for (shape, session) in sessions_with_each_mark(&mut random) {
        tally.add(read_out(session, exact(shape), &mut random));
    }
    tally.report(&[0, 6, 13, 14], 150_000);
}
