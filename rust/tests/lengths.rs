//! The lengths are those that the calls ask for: a buffer of just so many bytes is served, and one byte more or less is
//! turned away.
use mogtriz::{
    MARKS, MOST_LEN, PLAN_ROOM, PlanError, Refusal, SIMPLEX, Session, Step, TETRAHEDRON,
    WEIGHT_TWO, box_len, deinterleave, encode, from_graded, interleave, node_count, nodes_len,
    object_len, to_graded,
};

const LENGTHS: [usize; 4] = [1, 2, 255, MOST_LEN];

fn every_code() -> Vec<(usize, usize)> {
    let simplex = (2..=8).map(|k| (SIMPLEX, k));
    let weight_two = (2..=22).map(|k| (WEIGHT_TWO, k));
    simplex
        .chain(weight_two)
        .chain([(TETRAHEDRON, 4)])
        .collect()
}

/// A session of every code and some L, with all nodes live.
fn full_sessions() -> impl Iterator<Item = Session> {
    let codes = every_code().into_iter();
    codes.flat_map(|(family, k)| {
        LENGTHS.map(|len| {
            let n = node_count(family, k).expect("a code");
            let all: Vec<u8> = (1..=255).take(n).collect();
            Session::start(family, k, len, &all).expect("a sound start")
        })
    })
}

#[test]
fn encode_asks_for_the_lengths_of_object_and_nodes() -> Result<(), Refusal> {
    for session in full_sessions() {
        let (family, k, len) = (session.family(), session.k(), session.block_len());
        let [object, nodes] = [object_len(family, k, len)?, nodes_len(family, k, len)?];
        assert_eq!(
            [session.object_len()?, session.nodes_len()?],
            [object, nodes]
        );
        for (object_len, nodes_len, wanted) in [
            (object, nodes, Ok(())),
            (object - 1, nodes, Err(Refusal::BufferLength)),
            (object + 1, nodes, Err(Refusal::BufferLength)),
            (object, nodes - 1, Err(Refusal::BufferLength)),
            (object, nodes + 1, Err(Refusal::BufferLength)),
        ] {
            let (object, mut nodes) = (vec![7; object_len], vec![0; nodes_len]);
            let encoded = encode(family, k, len, &object, &mut nodes);
            assert_eq!(encoded, wanted, "{session:?}");
        }
    }
    Ok(())
}

#[test]
fn interleaving_asks_for_the_length_of_the_object_twice() -> Result<(), Refusal> {
    for session in full_sessions() {
        let (family, k, len) = (session.family(), session.k(), session.block_len());
        let exact = object_len(family, k, len)?;
        for (object_len, out_len, wanted) in [
            (exact, exact, Ok(())),
            (exact - 1, exact, Err(Refusal::BufferLength)),
            (exact + 1, exact, Err(Refusal::BufferLength)),
            (exact, exact - 1, Err(Refusal::BufferLength)),
            (exact, exact + 1, Err(Refusal::BufferLength)),
        ] {
            let (object, mut out) = (vec![7; object_len], vec![0; out_len]);
            for call in [interleave, deinterleave] {
                let answer = call(family, k, len, &object, &mut out);
                assert_eq!(answer, wanted, "{session:?}");
            }
        }
    }
    Ok(())
}

/// The list that is made of the live nodes, in just enough room; a byte less is turned away.
fn every_live_node(session: &Session) -> Result<Vec<u8>, Refusal> {
    let count = session.live_nodes().count();
    let mut list = vec![0; count];
    if count > 0 {
        let refused = session.live_nodes_into(&mut list[1..]);
        assert_eq!(refused, Err(Refusal::BufferLength), "{session:?}");
    }
    assert_eq!(session.live_nodes_into(&mut list)?, count, "{session:?}");
    Ok(list)
}

/// A box of simplex nodes is converted into its own length, and a byte less is turned away; one of the others never is.
fn convert_asks_for_the_length_of_the_box(family: usize, bytes: &[u8]) {
    let (mut out, length) = (vec![0; bytes.len()], bytes.len());
    for convert in [from_graded, to_graded] {
        let wanted = match family {
            SIMPLEX => [Ok(length), Err(Refusal::BufferLength)],
            _ => [Err(Refusal::FamilyUnknown); 2],
        };
        let converted = [length, length - 1].map(|room| convert(bytes, &mut out[..room]));
        assert_eq!(converted, wanted, "family {family}, {length} bytes");
    }
}

#[test]
fn write_asks_for_the_length_of_the_box() -> Result<(), Refusal> {
    for session in full_sessions() {
        let (family, k, len) = (session.family(), session.k(), session.block_len());
        let n = session.node_count()?;
        assert_eq!(node_count(family, k)?, n);
        assert_eq!(session.live_nodes().count(), n);
        let nodes = vec![7; session.nodes_len()?];
        let all = every_live_node(&session)?;
        for (list, held) in [(&[][..], 0), (&[1], 1), (&[1, 3], 2), (&all, n)] {
            let length = session.box_len(held)?;
            assert_eq!(box_len(family, k, len, held)?, length);
            let mut out = vec![0; length];
            assert_eq!(session.write(&nodes, list, &mut out)?, length);
            let refused = session.write(&nodes, list, &mut out[1..]);
            assert_eq!(refused, Err(Refusal::BufferLength), "{session:?}");
            assert_eq!(Session::check(&out)?.live_nodes().count(), held);
            convert_asks_for_the_length_of_the_box(family, &out);
        }
        for held in [n + 1, usize::MAX] {
            assert_eq!(session.box_len(held), Err(Refusal::TooManyNodes));
            let refused = box_len(family, k, len, held);
            assert_eq!(refused, Err(Refusal::TooManyNodes));
        }
    }
    Ok(())
}

/// A start with these numbers says what is wrong with them.
#[test]
fn numbers_out_of_range_are_refused_as_by_a_start() {
    let large = 1 << 32;
    let families = [0, 4, 257, large + 1, usize::MAX];
    let ks = [0, 1, 9, 23, 258, large + 2, usize::MAX];
    let lens = [0, MOST_LEN + 1, 65_537, large + 1, usize::MAX];
    for family in [SIMPLEX, WEIGHT_TWO, TETRAHEDRON]
        .into_iter()
        .chain(families)
    {
        for k in [4].into_iter().chain(ks) {
            let start = Session::start(family, k, 1, &[]);
            let n = start.and_then(|session| session.node_count());
            assert_eq!(node_count(family, k), n, "family {family} k {k}");
            for len in [1, MOST_LEN].into_iter().chain(lens) {
                let wanted = Session::start(family, k, len, &[]).map(|_| ());
                let place = format!("family {family} k {k} L {len}");
                assert_eq!(object_len(family, k, len).map(|_| ()), wanted, "{place}");
                assert_eq!(nodes_len(family, k, len).map(|_| ()), wanted, "{place}");
                assert_eq!(box_len(family, k, len, 0).map(|_| ()), wanted, "{place}");
                // empty buffers have no length that is asked for, but that is looked at last
                let wanted = wanted.and(Err(Refusal::BufferLength));
                for call in [encode, interleave, deinterleave] {
                    assert_eq!(call(family, k, len, &[], &mut []), wanted, "{place}");
                }
            }
        }
    }
}

/// Sessions with a number out of range, with marks that none has, and with counts that do not agree.
#[test]
fn a_session_that_is_turned_away_has_no_lengths() {
    let with_numbers = |family: usize, k: usize, len: usize| {
        Session::from_parts(family, k, len, 0, [0; MARKS], [0; MARKS])
    };
    let with_mark = |node: usize, mark: u8| {
        let mut marks = [0; MARKS];
        marks[node] = mark;
        Session::from_parts(SIMPLEX, 3, 1, 0, marks, [0; MARKS])
    };
    let with_reads = |live: usize, steps: usize, node: usize, count: u16| {
        let (mut marks, mut reads) = ([0; MARKS], [0; MARKS]);
        marks[1..=live].fill(1);
        reads[node] = count;
        Session::from_parts(SIMPLEX, 3, 1, steps, marks, reads)
    };
    assert_eq!(with_reads(7, 1, 7, 2).node_count(), Ok(7));
    assert_eq!(with_reads(3, 3, 7, 6).node_count(), Ok(7));
    let strange = [
        with_numbers(0, 3, 1),
        with_numbers(SIMPLEX, 9, 1),
        with_numbers(SIMPLEX, 3, MOST_LEN + 1),
        with_numbers(SIMPLEX, 3, usize::MAX),
        with_mark(0, 1),
        with_mark(8, 1),
        with_mark(3, 2),
        with_reads(7, 1, 7, 1),
        with_reads(7, 1, 7, 3),
        with_reads(7, 1 << 63, 7, 0),
        with_reads(7, 1, 0, 2),
        with_reads(7, 1, 8, 2),
        with_reads(3, 4, 7, 8),
    ];
    for session in strange {
        let refused = Err(Refusal::NoSuchSession);
        assert_eq!(session.node_count(), refused, "{session:?}");
        assert_eq!(session.nodes_len(), refused, "{session:?}");
        assert_eq!(session.object_len(), refused, "{session:?}");
        assert_eq!(session.box_len(0), refused, "{session:?}");
    }
}

/// Round, node, smaller, larger.
fn step_of(bytes: &[u8]) -> Step {
    let number = |place: usize| usize::from(bytes[place]);
    Step {
        round: number(0),
        node: number(1),
        pair: [number(2), number(3)],
    }
}

#[test]
fn there_is_room_for_every_plan() -> Result<(), Refusal> {
    let (mut out, mut most) = ([0; PLAN_ROOM], 0);
    for (family, k) in every_code() {
        for live in 1..=255 {
            // every node up to one, which leaves few or many to repair
            let list: Vec<u8> = (1..=live).collect();
            let Ok(session) = Session::start(family, k, 1, &list) else {
                break;
            };
            let plan = session.plan(&mut out)?;
            assert_eq!(plan.bytes().len(), 4 * plan.repairs.steps);
            assert_eq!(plan.steps().len(), plan.repairs.steps);
            let of_bytes = plan.bytes().chunks(4).map(step_of);
            assert!(plan.steps().eq(of_bytes), "{session:?}");
            let missing = session.missing_nodes().count();
            assert_eq!(plan.repairs.steps + plan.repairs.left, missing);
            most = most.max(plan.bytes().len());
        }
    }
    assert!(most > 0 && most <= PLAN_ROOM, "{most} bytes");
    Ok(())
}

/// A plan of just so many bytes as steps take, and a nodes buffer of its length; any other is turned away, whatever it holds.
#[test]
fn a_plan_that_is_handed_in_has_four_bytes_a_step() -> Result<(), PlanError> {
    for session in full_sessions() {
        let exact = session.nodes_len()?;
        // all nodes are live: a first step of any bytes is bad
        for length in 0..=1028 {
            let plan = vec![1; length];
            let wanted = match (length % 4, length) {
                (0, 0) => Ok(()),
                (0, _) => Err(PlanError::BadStep(1)),
                _ => Err(PlanError::Refused(Refusal::BufferLength)),
            };
            assert_eq!(session.check_plan(&plan), wanted, "{session:?}");
        }
        for (length, wanted) in [
            (exact, Ok(())),
            (exact - 1, Err(Refusal::BufferLength)),
            (exact + 1, Err(Refusal::BufferLength)),
        ] {
            let carried = session.clone().carry_plan(&[], &mut vec![0; length]);
            assert_eq!(carried, wanted.map_err(PlanError::from), "{session:?}");
        }
    }
    Ok(())
}

/// Each plan, its bytes made into steps and these into bytes again, is accepted and carried out as a run does it.
#[test]
fn a_sessions_own_plan_is_accepted() -> Result<(), PlanError> {
    let mut out = [0; PLAN_ROOM];
    for (family, k) in every_code() {
        let n = node_count(family, k)?;
        for apart in 1..=4 {
            let live: Vec<u8> = (1..=255).take(n).step_by(apart).collect();
            let [mut session, mut by_run] =
                [(); 2].map(|()| Session::start(family, k, 2, &live).expect("a sound start"));
            let plan = session.plan(&mut out)?;
            let bytes: Option<Vec<[u8; 4]>> = plan.steps().map(Step::to_bytes).collect();
            let bytes = bytes.expect("numbers of a byte").concat();
            assert_eq!(bytes, plan.bytes(), "{session:?}");
            assert_eq!(session.check_plan(&bytes), Ok(()), "{session:?}");
            let [mut nodes, mut run_nodes] =
                [(); 2].map(|()| (0..=250).cycle().take(2 * n).collect::<Vec<u8>>());
            session.carry_plan(&bytes, &mut nodes)?;
            by_run.run(&mut run_nodes)?;
            assert_eq!((&session, nodes), (&by_run, run_nodes));
            assert_eq!(session.check_plan(&bytes).is_ok(), bytes.is_empty());
        }
    }
    Ok(())
}

#[test]
fn live_and_missing_nodes_are_all_nodes() -> Result<(), Refusal> {
    for (family, k) in every_code() {
        let n = node_count(family, k)?;
        let all: Vec<u8> = (1..=255).take(n).collect();
        let third: Vec<u8> = all.iter().copied().step_by(3).collect();
        let session = Session::start(family, k, 1, &third)?;
        assert!(session.live_nodes().eq(third.iter().copied()));
        let missing = |node: &u8| !third.contains(node);
        let others = all.iter().copied().filter(missing);
        assert!(session.missing_nodes().eq(others.clone()));
        assert!(session.missing_nodes().rev().eq(others.rev()));
        let list = every_live_node(&session)?;
        assert!(session.live_nodes().eq(list.iter().copied()));
        assert_eq!(Session::start(family, k, 1, &list)?, session);
    }
    Ok(())
}
