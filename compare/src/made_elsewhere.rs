//! Plans to be checked: some by planners that prefer other pairs than the least, and plans changed in one way each.
use crate::boxes::missing_nodes;
use crate::papers::{columns_of, node_count};
use crate::planner::{Step, pairs, waves_of};
use crate::random::Random;
use mogtriz::raw::Session;

/// Which of its pairs a node is repaired from.
#[derive(Clone, Copy)]
enum Taste {
    Greatest,
    /// Two nodes on one shelf of eight, where there are such.
    SameShelf,
    Any,
}

impl Taste {
    fn choose(self, pairs: &[[u8; 2]], random: &mut Random) -> [u8; 2] {
        let shelf = |node: u8| node / 8;
        let same_shelf = |pair: &&[u8; 2]| shelf(pair[0]) == shelf(pair[1]);
        match self {
            Taste::Greatest => pairs[pairs.len() - 1],
            Taste::SameShelf => *pairs.iter().find(same_shelf).unwrap_or(&pairs[0]),
            Taste::Any => *random.of(pairs),
        }
    }
}

/// A plan that is to be accepted, by one of many planners: missing nodes come in any order, each from a pair of the planner's taste; a
/// round may end before all that could be repaired in it is, and the plan before no pair is left.
pub fn other_plan(session: &Session, random: &mut Random) -> Vec<Step> {
    let taste = *random.of(&[Taste::Greatest, Taste::SameShelf, Taste::Any]);
    // one in so many missing nodes is passed over in a round, or ends the plan
    let passes_over = *random.of(&[2, 5, usize::MAX]);
    let ends = *random.of(&[10, usize::MAX, usize::MAX]);
    let (mut now, mut steps) = (*session, Vec::new());
    for round in 1..=u8::MAX {
        let mut free = now;
        let mut missing = missing_nodes(&now);
        shuffle(&mut missing, random);
        for node in missing {
            if random.below(ends) == 0 {
                return steps;
            }
            let pairs = pairs(&free, node);
            // the first step of a round is made whenever there is one, as no round is left out
            let is_first = steps.last().is_none_or(|step: &Step| step[0] < round);
            let passed_over = !is_first && random.below(passes_over) == 0;
            if pairs.is_empty() || passed_over {
                continue;
            }
            let [smaller, larger] = taste.choose(&pairs, random);
            steps.push([round, node, smaller, larger]);
            now.live[usize::from(node)] = 1;
            for read in [smaller, larger] {
                free.live[usize::from(read)] = 0;
            }
        }
        if steps.last().is_none_or(|step| step[0] < round) {
            break;
        }
    }
    steps
}

fn shuffle(numbers: &mut [u8], random: &mut Random) {
    for i in 1..numbers.len() {
        numbers.swap(i, random.below(i + 1));
    }
}

/// What a change makes of an accepted plan of a step or more.
#[derive(Clone, Copy, Debug, PartialEq)]
pub enum Becomes {
    Accepted,
    Bad,
    /// One or the other.
    Either,
}

/// The plan of a session changed; `None` where there is nothing to change so.
type Change = fn(&Session, &[Step], &mut Random) -> Option<Vec<Step>>;

pub const CHANGES: [(&str, Becomes, Change); 21] = [
    ("two rounds merged", Becomes::Either, merge_rounds),
    ("a round split", Becomes::Accepted, split_round),
    ("a round for each", Becomes::Accepted, round_for_each),
    ("put off", Becomes::Either, put_off),
    ("a round skipped", Becomes::Bad, skip_round),
    ("rounds from 0", Becomes::Bad, |_, steps, _| {
        shifted(steps, 0, -1)
    }),
    ("rounds from 2", Becomes::Bad, |_, steps, _| {
        shifted(steps, 0, 1)
    }),
    ("neighbours swapped", Becomes::Either, swap_neighbours),
    ("any two swapped", Becomes::Either, swap_any),
    ("backwards", Becomes::Either, backwards),
    ("a step dropped", Becomes::Either, drop_one),
    ("cut", Becomes::Accepted, cut),
    ("a step doubled", Becomes::Bad, double),
    ("a step again later", Becomes::Bad, again_later),
    ("the plan twice", Becomes::Bad, |_, steps, _| {
        Some([steps, steps].concat())
    }),
    ("a pair exchanged", Becomes::Bad, exchange_pair),
    ("another pair", Becomes::Either, another_pair),
    ("another node", Becomes::Bad, another_node),
    ("no node", Becomes::Bad, no_node),
    ("in waves", Becomes::Either, in_waves),
    (
        "waves, a round each",
        Becomes::Accepted,
        waves_round_for_each,
    ),
];

/// The steps from a place on with their rounds one more or one less.
fn shifted(steps: &[Step], from: usize, by: i8) -> Option<Vec<Step>> {
    let mut steps = steps.to_vec();
    for step in &mut steps[from..] {
        step[0] = step[0].checked_add_signed(by)?;
    }
    Some(steps)
}

/// A place by chance of those where this holds, if there is one.
fn any_place(steps: &[Step], random: &mut Random, holds: impl Fn(usize) -> bool) -> Option<usize> {
    let places: Vec<usize> = (0..steps.len()).filter(|&i| holds(i)).collect();
    (!places.is_empty()).then(|| *random.of(&places))
}

fn is_first_of_round(steps: &[Step], i: usize) -> bool {
    i == 0 || steps[i - 1][0] != steps[i][0]
}

fn merge_rounds(_: &Session, steps: &[Step], random: &mut Random) -> Option<Vec<Step>> {
    let place = any_place(steps, random, |i| i > 0 && is_first_of_round(steps, i))?;
    shifted(steps, place, -1)
}

/// The tail of a round one later, and the later rounds with it.
fn split_round(_: &Session, steps: &[Step], random: &mut Random) -> Option<Vec<Step>> {
    let place = any_place(steps, random, |i| !is_first_of_round(steps, i))?;
    shifted(steps, place, 1)
}

fn round_for_each(_: &Session, steps: &[Step], _: &mut Random) -> Option<Vec<Step>> {
    let numbered = steps.iter().zip(1..);
    let steps = numbered.map(|(&[_, node, smaller, larger], round)| [round, node, smaller, larger]);
    Some(steps.collect())
}

/// The tail of a round becomes the front of the next.
fn put_off(_: &Session, steps: &[Step], random: &mut Random) -> Option<Vec<Step>> {
    let place = any_place(steps, random, |i| !is_first_of_round(steps, i))?;
    let mut steps = steps.to_vec();
    let round = steps[place][0];
    let tail = steps[place..].iter_mut();
    tail.take_while(|step| step[0] == round)
        .for_each(|step| step[0] += 1);
    Some(steps)
}

fn skip_round(_: &Session, steps: &[Step], random: &mut Random) -> Option<Vec<Step>> {
    let place = any_place(steps, random, |i| is_first_of_round(steps, i))?;
    shifted(steps, place, 1)
}

fn swap_neighbours(_: &Session, steps: &[Step], random: &mut Random) -> Option<Vec<Step>> {
    let place = any_place(steps, random, |i| i > 0)?;
    let mut steps = steps.to_vec();
    steps.swap(place - 1, place);
    Some(steps)
}

fn swap_any(_: &Session, steps: &[Step], random: &mut Random) -> Option<Vec<Step>> {
    let [one, other] = [(); 2].map(|()| random.below(steps.len()));
    let mut steps = steps.to_vec();
    steps.swap(one, other);
    Some(steps)
}

fn backwards(_: &Session, steps: &[Step], _: &mut Random) -> Option<Vec<Step>> {
    Some(steps.iter().rev().copied().collect())
}

fn drop_one(_: &Session, steps: &[Step], random: &mut Random) -> Option<Vec<Step>> {
    let mut steps = steps.to_vec();
    steps.remove(random.below(steps.len()));
    Some(steps)
}

fn cut(_: &Session, steps: &[Step], random: &mut Random) -> Option<Vec<Step>> {
    Some(steps[..random.below(steps.len())].to_vec())
}

fn double(_: &Session, steps: &[Step], random: &mut Random) -> Option<Vec<Step>> {
    let mut steps = steps.to_vec();
    let place = random.below(steps.len());
    steps.insert(place, steps[place]);
    Some(steps)
}

/// A step a second time, in a round after the last.
fn again_later(_: &Session, steps: &[Step], random: &mut Random) -> Option<Vec<Step>> {
    let [_, node, smaller, larger] = *random.of(steps);
    let last = steps[steps.len() - 1][0];
    Some([steps, &[[last + 1, node, smaller, larger]]].concat())
}

fn exchange_pair(_: &Session, steps: &[Step], random: &mut Random) -> Option<Vec<Step>> {
    let mut steps = steps.to_vec();
    let place = random.below(steps.len());
    steps[place].swap(2, 3);
    Some(steps)
}

/// A step's node from any two nodes that are related to it, live or missing.
fn another_pair(session: &Session, steps: &[Step], random: &mut Random) -> Option<Vec<Step>> {
    let mut steps = steps.to_vec();
    let place = random.below(steps.len());
    let mut all_live = *session;
    let n = node_count(session.family, session.k);
    all_live.live[1..=n].fill(1);
    let [smaller, larger] = *random.of(&pairs(&all_live, steps[place][1]));
    steps[place][2] = smaller;
    steps[place][3] = larger;
    Some(steps)
}

/// Another node from a step's pair: it is related to one alone.
fn another_node(session: &Session, steps: &[Step], random: &mut Random) -> Option<Vec<Step>> {
    let n = node_count(session.family, session.k);
    let mut steps = steps.to_vec();
    let place = random.below(steps.len());
    let other = usize::from(steps[place][1]) + random.below(n - 1);
    steps[place][1] = (other % n + 1) as u8;
    Some(steps)
}

/// One of a step's three numbers is 0 or above n.
fn no_node(session: &Session, steps: &[Step], random: &mut Random) -> Option<Vec<Step>> {
    let n = node_count(session.family, session.k);
    let mut steps = steps.to_vec();
    let place = random.below(steps.len());
    let above = if n < 255 { [n + 1, 255] } else { [0; 2] };
    steps[place][1 + random.below(3)] = *random.of(&[0, above[0], above[1]]) as u8;
    Some(steps)
}

/// Document 01's rounds, in which a node is read by any number of repairs.
fn in_waves(session: &Session, _: &[Step], _: &mut Random) -> Option<Vec<Step>> {
    Some(waves_of(session).steps)
}

fn waves_round_for_each(session: &Session, _: &[Step], random: &mut Random) -> Option<Vec<Step>> {
    round_for_each(session, &waves_of(session).steps, random)
}

/// The plan with one byte changed in every way: at each place 0, 1, one more, one less, n, one above it, 255 and any.
pub fn with_each_byte(
    n: usize,
    steps: &[Step],
    random: &mut Random,
) -> impl Iterator<Item = Vec<u8>> {
    let bytes = steps.concat();
    let mut random = random.beside();
    (0..bytes.len()).flat_map(move |place| {
        let byte = bytes[place];
        let near = [byte.wrapping_add(1), byte.wrapping_sub(1)];
        let ends = [0, 1, n as u8, n.wrapping_add(1) as u8, 255];
        let values = ends.into_iter().chain(near).chain(random.bytes(1));
        let changed = |value: u8| {
            let mut bytes = bytes.clone();
            bytes[place] = value;
            bytes
        };
        values
            .filter(|&value| value != byte)
            .map(changed)
            .collect::<Vec<_>>()
    })
}

/// Steps of any bytes, or of such as numbers up to one above n and few rounds have, some of them related.
pub fn any_steps(session: &Session, count: usize, random: &mut Random) -> Vec<u8> {
    let columns = columns_of(session.family, session.k);
    let n = columns.len();
    let near = random.below(3);
    let step = |_| {
        if near == 0 {
            return random.bytes(4);
        }
        let round = random.below(3) as u8;
        let [mut a, mut b] = [(); 2].map(|()| random.below(n + 2));
        let column = |node: usize| node.checked_sub(1).and_then(|i| columns.get(i));
        let third = column(a).zip(column(b)).map(|(a, b)| a ^ b);
        let related = third.and_then(|third| columns.iter().position(|&it| it == third));
        let node = related.map_or(random.below(n + 2), |place| place + 1);
        if near == 1 && a > b {
            (a, b) = (b, a);
        }
        vec![round, node as u8, a as u8, b as u8]
    };
    (0..count).flat_map(step).collect()
}
