//! The library's plans by the words of document 02, K11, step by step: every set of the small codes, and many of the others. In a round
//! no node is read twice, each round repairs a node, and a missing node has the least pair that may still be read when its turn comes,
//! or waits where there is none. A plan that differs in a step or a round is told from it.
use compare::library;
use compare::live_sets::{
    CHOICES, LiveSets, OTHER_CODES, SETS_OF_SMALL, is_small, other_sets, small_sets,
};
use compare::papers::{Code, every_code};
use compare::planner::{self, Step, plan_of, waves_of};
use compare::rounds;
use compare::samples::Shape;
use mogtriz::raw::Session;
use std::collections::BTreeMap;

/// What the library planned.
#[derive(Default)]
struct Seen {
    sets: usize,
    steps: usize,
    /// Nodes from another pair than the least one that was live when their round began.
    from_another: usize,
    /// Nodes that had a pair when a round began and waited.
    waited: usize,
    /// By how many rounds a plan has.
    rounds: BTreeMap<usize, usize>,
}

impl Seen {
    fn add(&mut self, session: Session, steps: &[Step]) {
        let rounds = steps.last().map_or(0, |step| step[0].into());
        self.sets += 1;
        self.steps += steps.len();
        *self.rounds.entry(rounds).or_default() += 1;
        let mut began = session;
        for number in 1..=rounds {
            let in_round = |step: &&Step| usize::from(step[0]) == number;
            let in_round: Vec<Step> = steps.iter().filter(in_round).copied().collect();
            let in_wave = waves_of(&began).steps;
            let in_wave = in_wave.iter().filter(|step| step[0] == 1);
            // a wave has all nodes with a pair, each from the least
            let with_pair: BTreeMap<u8, [u8; 2]> =
                in_wave.map(|step| (step[1], [step[2], step[3]])).collect();
            self.waited += with_pair.len() - in_round.len();
            for [_, node, smaller, larger] in in_round {
                self.from_another += usize::from(with_pair[&node] != [smaller, larger]);
                began.live[usize::from(node)] = 1;
            }
        }
    }

    /// Prints the counts. There have to be plans with every number of rounds up to so many.
    fn report(&self, kind: &str, rounds: usize) {
        let Seen { sets, steps, .. } = self;
        let mut text = format!("{sets} sets of {kind}, {steps} steps\n");
        text += &format!("{} from a pair that is not the least\n", self.from_another);
        text += &format!("{} times a node with a pair waited\n", self.waited);
        for (rounds, count) in &self.rounds {
            text += &format!("{count} plans had {rounds} rounds\n");
        }
        println!("{text}");
        assert!(self.from_another > 0 && self.waited > 0);
        assert!((0..=rounds).all(|rounds| self.rounds.contains_key(&rounds)));
    }
}

fn session_of(code: &Code, live: &[u8]) -> Session {
    let (family, k) = (code.family, code.k);
    Shape { family, k, len: 1 }.session(live)
}

/// The library's plan by the words, and by the model.
fn compare_set(code: &Code, live: &[u8], seen: &mut Seen) {
    let session = session_of(code, live);
    let (steps, plan) = library::planned(session);
    assert_eq!(plan.refusal, 0, "{session:?}");
    let checked = rounds::check(&session, &steps, plan.rounds);
    assert_eq!(checked, Ok(()), "{session:?} {steps:?}");
    assert_eq!(steps, plan_of(&session).steps, "{session:?}");
    seen.add(session, &steps);
}

#[test]
fn plans_of_the_small_codes_are_as_the_request_says() {
    let mut seen = Seen::default();
    small_sets(|code, live| compare_set(code, &live, &mut seen));
    assert_eq!(seen.sets, SETS_OF_SMALL);
    seen.report("the small codes", 5);
}

/// How many sets of each other code are chosen in each way.
const TIMES: usize = 10;

#[test]
fn plans_of_the_other_codes_are_as_the_request_says() {
    let mut seen = Seen::default();
    other_sets(TIMES, |code, live| compare_set(code, &live, &mut seen));
    assert_eq!(seen.sets, OTHER_CODES * CHOICES.len() * TIMES);
    for code in every_code().iter().filter(|code| !is_small(code)) {
        for live in structured(code) {
            compare_set(code, &live, &mut seen);
        }
    }
    seen.report("the other codes", 11);
}

/// The data blocks' nodes, paths, all nodes but the data blocks' and every second node.
fn structured(code: &Code) -> Vec<Vec<u8>> {
    let (family, k) = (code.family, code.k);
    let mut data: Vec<u8> = (1..=k).map(|block| code.data_node(block)).collect();
    data.sort();
    let all: Vec<u8> = (1..=255).take(code.n()).collect();
    let is_data = |node: &u8| data.contains(node);
    let others = all.iter().copied().filter(|node| !is_data(node));
    let halves = [0, 1].map(|from| all[from..].iter().copied().step_by(2).collect());
    let mut sets = vec![others.collect(), data.clone()];
    sets.extend(halves);
    sets.extend(LiveSets { family, k }.paths());
    sets
}

/// The model's plans by the words: what is held against the library is not held against itself alone.
#[test]
fn the_models_plans_are_as_the_request_says() {
    let mut sets = 0;
    let mut compare = |code: &Code, live: Vec<u8>| {
        let session = session_of(code, &live);
        let planner::Plan { steps, rounds, .. } = plan_of(&session);
        let checked = rounds::check(&session, &steps, rounds);
        assert_eq!(checked, Ok(()), "{session:?} {steps:?}");
        sets += 1;
    };
    small_sets(&mut compare);
    other_sets(TIMES, &mut compare);
    println!("{sets} plans of the model");
    assert_eq!(sets, SETS_OF_SMALL + OTHER_CODES * CHOICES.len() * TIMES);
}

/// The right steps with a round too many or too few.
#[test]
fn a_number_of_rounds_that_differs_is_told() {
    small_sets(|code, live| {
        let session = session_of(code, &live);
        let planner::Plan { steps, rounds, .. } = plan_of(&session);
        assert!(rounds::check(&session, &steps, rounds + 1).is_err());
        let fewer = rounds.checked_sub(1);
        assert!(fewer.is_none_or(|fewer| rounds::check(&session, &steps, fewer).is_err()));
    });
}

/// A plan's steps made into others; they stay where there is nothing to change so.
type Change = fn(&Session, Vec<Step>) -> Vec<Step>;

/// The first step that is not the first of its round.
fn second_of_a_round(steps: &[Step]) -> Option<usize> {
    (1..steps.len()).find(|&i| steps[i][0] == steps[i - 1][0])
}

/// A step is put off to the next round, and so are those after it in its own.
fn put_off(_: &Session, mut steps: Vec<Step>) -> Vec<Step> {
    if let Some(place) = second_of_a_round(&steps) {
        let number = steps[place][0];
        let later = steps[place..].iter_mut();
        let of_round = later.take_while(|step| step[0] == number);
        of_round.for_each(|step| step[0] += 1);
        steps.sort();
    }
    steps
}

/// Rounds 1 and 2 become one.
fn join(_: &Session, mut steps: Vec<Step>) -> Vec<Step> {
    let later = steps.iter_mut().filter(|step| step[0] > 1);
    later.for_each(|step| step[0] -= 1);
    steps.sort();
    steps
}

fn drop_last(_: &Session, mut steps: Vec<Step>) -> Vec<Step> {
    steps.pop();
    steps
}

/// The last round gets the next number, so that its own has no step.
fn skip_a_round(_: &Session, mut steps: Vec<Step>) -> Vec<Step> {
    let last = steps.last().map_or(0, |step| step[0]);
    let of_last = steps.iter_mut().filter(|step| step[0] == last);
    of_last.for_each(|step| step[0] += 1);
    steps
}

/// Two steps of a round in the other order.
fn exchange(_: &Session, mut steps: Vec<Step>) -> Vec<Step> {
    if let Some(place) = second_of_a_round(&steps) {
        steps.swap(place - 1, place);
    }
    steps
}

/// The first step's node from the last of its pairs.
fn from_the_greatest(session: &Session, mut steps: Vec<Step>) -> Vec<Step> {
    if let Some([_, node, smaller, larger]) = steps.first_mut() {
        let pairs = planner::pairs(session, *node);
        [*smaller, *larger] = *pairs.last().expect("the node has a pair");
    }
    steps
}

/// Document 01's rounds, in which a node is read by any number of repairs.
fn in_waves(session: &Session, _: Vec<Step>) -> Vec<Step> {
    waves_of(session).steps
}

/// The first step is made twice.
fn twice(_: &Session, mut steps: Vec<Step>) -> Vec<Step> {
    steps.extend(steps.first().copied());
    steps.sort();
    steps
}

const CHANGES: [(&str, Change); 8] = [
    ("put off", put_off),
    ("joined", join),
    ("cut", drop_last),
    ("with an empty round", skip_a_round),
    ("exchanged", exchange),
    ("from the greatest pair", from_the_greatest),
    ("in waves", in_waves),
    ("with a step twice", twice),
];

#[test]
fn a_plan_that_differs_is_told() {
    let mut changed = [0; CHANGES.len()];
    small_sets(|code, live| {
        let session = session_of(code, &live);
        let plan = plan_of(&session);
        for ((name, change), count) in CHANGES.iter().zip(&mut changed) {
            let steps = change(&session, plan.steps.clone());
            if steps == plan.steps {
                continue;
            }
            let rounds = steps.last().map_or(0, |step| step[0].into());
            let checked = rounds::check(&session, &steps, rounds);
            assert!(checked.is_err(), "{name}: {steps:?} {session:?}");
            *count += 1;
        }
    });
    for ((name, _), count) in CHANGES.iter().zip(changed) {
        println!("{count} plans {name}");
        assert!(count > 0, "{name}");
    }
}
