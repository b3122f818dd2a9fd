//! Every refusal is met by some call, with its number and its own sentence, and a call that is turned away leaves its
//! session. So does a plan with a bad step.
use mogtriz::raw::{self, MOST_REFUSAL};
use mogtriz::{MARKS, MOST_LEN, PlanError, Refusal, SIMPLEX, Session, body};
use std::collections::BTreeSet;

fn session(live: &[u8]) -> Session {
    Session::start(SIMPLEX, 3, 1, live).expect("a sound start")
}

fn start(family: usize, k: usize, len: usize, list: &[u8]) -> Refusal {
    Session::start(family, k, len, list).unwrap_err()
}

fn check(bytes: &[u8]) -> Refusal {
    Session::check(bytes).unwrap_err()
}

/// A step in a session with nodes 4, 5 and 7 live.
fn step(node: usize, pair: [usize; 2]) -> Refusal {
    session(&[4, 5, 7])
        .step(&mut [0; 7], node, pair)
        .unwrap_err()
}

/// A call for each refusal, in the order of their numbers.
fn one_of_each() -> [Refusal; MOST_REFUSAL] {
    let strange = Session::from_parts(SIMPLEX, 3, 1, 0, [3; MARKS], [0; MARKS]);
    [
        start(usize::MAX, 3, 1, &[]),
        start(SIMPLEX, 9, 1, &[]),
        start(SIMPLEX, 3, MOST_LEN + 1, &[]),
        start(SIMPLEX, 3, 1, &[8]),
        start(SIMPLEX, 3, 1, &[3, 3]),
        session(&[]).run(&mut []).unwrap_err(),
        check(&[]),
        check(&[1, 3, 1, 0, 0, 0, 1, 0]),
        check(&[&[1, 3, 1, 0, 8, 0, 0, 0][..], &[1; 16]].concat()),
        step(1, [4, 7]),
        step(4, [1, 5]),
        step(6, [1, 7]),
        strange.plan(&mut []).unwrap_err(),
        session(&[1, 4]).read_out(&[0; 7], &mut [0; 3]).unwrap_err(),
    ]
}

#[test]
fn every_refusal_has_its_number() {
    let numbers = one_of_each().map(|refusal| usize::from(refusal.number()));
    assert!(numbers.into_iter().eq(1..=MOST_REFUSAL), "{numbers:?}");
}

#[test]
fn every_refusal_has_its_own_sentence() {
    let texts = one_of_each().map(|refusal| refusal.to_string());
    for (text, number) in texts.iter().zip(1..) {
        assert!(text.starts_with(&format!("refused {number}: ")), "{text}");
    }
    let sentence = |text: &String| text.split(": ").nth(1).map(String::from);
    let sentences: BTreeSet<_> = texts.iter().map(sentence).collect();
    assert_eq!(sentences.len(), MOST_REFUSAL);
    assert!(texts[13].ends_with("block 2"), "{}", texts[13]);
}

#[test]
fn every_number_is_a_refusal_with_that_number() {
    assert_eq!(Refusal::from_number(0), None);
    for number in 1..=u8::MAX {
        let refusal = Refusal::from_number(number).expect("a refusal");
        assert_eq!(refusal.number(), number);
        let named = !matches!(refusal, Refusal::Unnamed { .. });
        assert_eq!(named, usize::from(number) <= MOST_REFUSAL, "{refusal}");
    }
}

#[test]
fn a_refusal_is_the_one_of_its_number() {
    for refusal in one_of_each() {
        let of_number = Refusal::from_number(refusal.number());
        let wanted = match refusal {
            Refusal::BlockMissing { .. } => Refusal::BlockMissing { block: 0 },
            other => other,
        };
        assert_eq!(of_number, Some(wanted));
    }
}

#[test]
fn a_number_without_a_name_is_told() {
    let refusal = Refusal::from_number(200).expect("a refusal");
    let text = "refused 200: a reason that has no name in this package";
    assert_eq!(refusal.to_string(), text);
}

#[test]
fn a_block_that_is_not_known_is_not_told() {
    let refusal = Refusal::from_number(14).expect("a refusal");
    let text = "refused 14: the node of a data block is missing";
    assert_eq!(refusal.to_string(), text);
}

/// Two words, where a session beside it would be 100.
#[test]
fn a_refusal_is_small() {
    assert!(size_of::<Refusal>() <= 16);
    assert!(size_of::<PlanError>() <= 16);
}

#[test]
fn a_refused_call_leaves_its_session() {
    let of_any_content =
        Session::from_parts(usize::MAX, 0, 5, usize::MAX, [255; MARKS], [65_535; MARKS]);
    let mut counted = session(&[2, 4, 7]);
    counted.step(&mut [0; 7], 5, [2, 7]).expect("a sound step");
    for before in [of_any_content, session(&[4, 5, 7]), counted] {
        let mut after = before.clone();
        after.run(&mut [0; 3]).unwrap_err();
        assert_eq!(after, before);
        after.step(&mut [0; 3], 1, [4, 5]).unwrap_err();
        assert_eq!(after, before);
        after.step(&mut [0; 7], 6, [1, 7]).unwrap_err();
        assert_eq!(after, before);
        after.carry_plan(&[], &mut [0; 3]).unwrap_err();
        assert_eq!(after, before);
        after.carry_plan(&[1, 6, 1], &mut [0; 7]).unwrap_err();
        assert_eq!(after, before);
        after.carry_plan(&[1, 6, 1, 7], &mut [0; 7]).unwrap_err();
        assert_eq!(after, before);
    }
}

/// In a session with nodes 4, 5 and 7 live.
#[test]
fn a_plan_is_refused_or_its_bad_step_told() {
    let mut session = session(&[4, 5, 7]);
    let mut nodes = [0, 0, 0, 4, 5, 0, 7];
    let strange = Session::from_parts(SIMPLEX, 3, 1, 0, [3; MARKS], [0; MARKS]);
    let refused = |refusal: Refusal| Err(PlanError::Refused(refusal));
    assert_eq!(strange.check_plan(&[1]), refused(Refusal::NoSuchSession));
    assert_eq!(session.check_plan(&[1]), refused(Refusal::BufferLength));

    // node 1 is repaired in the round in which it is read
    let plan = [[1, 1, 4, 5], [1, 6, 1, 7]];
    let told = Err(PlanError::BadStep(2));
    assert_eq!(session.check_plan(plan.as_flattened()), told);
    let carried = session.carry_plan(plan.as_flattened(), &mut nodes);
    assert_eq!((carried, nodes), (told, [0, 0, 0, 4, 5, 0, 7]));
}

#[test]
fn a_plans_error_says_what_its_refusal_says() {
    for refusal in one_of_each() {
        let error = PlanError::from(refusal);
        assert_eq!(error.to_string(), refusal.to_string());
    }
    let bad_step = PlanError::BadStep(usize::MAX).to_string();
    assert_eq!(bad_step, format!("step {} of the plan is bad", usize::MAX));
}

/// From C, as the package has no session beside a refusal.
#[test]
fn a_refused_start_or_box_gives_a_session_of_zeros() {
    let zeros = raw::Session {
        family: 0,
        k: 0,
        len: 0,
        steps: 0,
        live: [0; MARKS],
        reads: [0; MARKS],
    };
    assert_eq!(raw::start(SIMPLEX, 3, 1, &[3, 3]).session, zeros);
    assert_eq!(raw::check(&[]).session, zeros);
    assert_eq!(raw::read(&[], &mut []).session, zeros);
}

#[test]
fn a_body_is_a_part_of_its_box() {
    let bytes = [1, 3, 2, 0, 2, 0, 0, 0, 4, 7, 0x40, 0x41, 0x70, 0x71];
    let part = body(&bytes, 7).expect("node 7 is held");
    assert_eq!(part.as_ptr(), bytes[12..].as_ptr());
}
