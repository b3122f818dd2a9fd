//! The wave of each node, as repairs by pairs have it, against the one in which it returns by the columns alone, and how many waves
//! there are at most at a k (document 02, K9): every set of the small codes, and many of the others. The library's plans leave the nodes
//! that waves leave, and have each other missing node once, in its wave or in a later round (K11). A run has its plan's counts.
use compare::boxes::missing_nodes;
use compare::library;
use compare::live_sets::{CHOICES, LiveSets, OTHER_CODES, SETS_OF_SMALL, other_sets, small_sets};
use compare::papers::{Code, FAMILIES, every_code};
use compare::planner::{Step, waves_of};
use compare::random::Random;
use compare::waves::{fewest, fewest_by_choices, most_waves, waves};
use mogtriz::raw::{self, MARKS, Repairs, Session};
use std::collections::BTreeMap;

/// What the sets came to.
#[derive(Default)]
struct Seen {
    sets: usize,
    /// By wave, how many nodes return in it.
    repaired: BTreeMap<usize, usize>,
    /// Nodes that a plan repairs in the round of their wave's number, and in a later one.
    in_time: usize,
    later: usize,
    left: usize,
    /// By family and k, the most waves of a set and the most rounds of its plan.
    most: BTreeMap<(usize, usize), [usize; 2]>,
}

impl Seen {
    fn add(&mut self, code: &Code, expected: &Expected, (steps, plan): &(Vec<Step>, Repairs)) {
        self.sets += 1;
        let rounds = rounds_by_node(steps);
        for (node, wave) in expected.repaired() {
            *self.repaired.entry(wave).or_default() += 1;
            match rounds[node] == [wave] {
                true => self.in_time += 1,
                false => self.later += 1,
            }
        }
        self.left += expected.left.len();
        let most = self.most.entry((code.family, code.k)).or_default();
        let here = [expected.last(), plan.rounds];
        *most = [0, 1].map(|i| here[i].max(most[i]));
    }

    /// Prints the counts. Nodes have to return in every wave up to the most and in none above it, some set of each of so many codes
    /// has to have as many waves as there are at its k, and some nodes have to wait for a later round.
    fn report(&self, kind: &str, codes: usize, most: usize) {
        let mut text = format!("{} sets of {kind}\n", self.sets);
        for (wave, count) in &self.repaired {
            text += &format!("{count} nodes returned in wave {wave}\n");
        }
        let Seen { in_time, later, .. } = self;
        text += &format!("{in_time} were planned for the round of that number, {later} later\n");
        text += &format!("{} nodes were left\n", self.left);
        text += &FAMILIES.map(|family| self.most_of(family)).concat();
        println!("{text}");
        assert!(self.repaired.keys().copied().eq(1..=most));
        assert_eq!(self.most.len(), codes);
        for (&(family, k), &[waves, _]) in &self.most {
            assert_eq!(waves, most_waves(k), "family {family} k {k}");
        }
        assert!(*in_time > 0 && *later > 0);
    }

    /// A line with each k, its most waves and its most rounds, for a family that was seen.
    fn most_of(&self, family: usize) -> String {
        let of_family = self.most.iter().filter(|((other, _), _)| *other == family);
        let each = of_family.map(|((_, k), [waves, rounds])| format!(" {k}:{waves},{rounds}"));
        match each.collect::<String>() {
            none if none.is_empty() => none,
            each => format!("family {family}, k, the most waves and the most rounds:{each}\n"),
        }
    }
}

/// By node number, the rounds of all steps that repair the node.
fn rounds_by_node(steps: &[Step]) -> Vec<Vec<usize>> {
    let mut rounds = vec![Vec::new(); MARKS];
    for &[round, node, ..] in steps {
        rounds[usize::from(node)].push(round.into());
    }
    rounds
}

/// What is to come of a set by the columns alone.
struct Expected {
    /// By node number, the wave of a missing node that returns.
    waves: Vec<Option<usize>>,
    /// The nodes that do not return.
    left: Vec<u8>,
}

impl Expected {
    fn of(code: &Code, live: &[u8]) -> Expected {
        let mut waves_by_node = vec![None; MARKS];
        let mut left = Vec::new();
        for (node, wave) in (1..=255).zip(waves(code.family, code.k, live)) {
            assert_eq!(wave == Some(0), live.contains(&node), "{live:?}");
            match wave {
                Some(0) => {}
                Some(wave) => waves_by_node[usize::from(node)] = Some(wave),
                None => left.push(node),
            }
        }
        Expected {
            waves: waves_by_node,
            left,
        }
    }

    /// The missing nodes that return, each with its wave.
    fn repaired(&self) -> impl Iterator<Item = (usize, usize)> {
        let waves = self.waves.iter().enumerate();
        waves.filter_map(|(node, wave)| Some((node, (*wave)?)))
    }

    /// How many waves there are.
    fn last(&self) -> usize {
        self.repaired().map(|(_, wave)| wave).max().unwrap_or(0)
    }
}

/// Repairs by pairs have each node in its wave, and leave those that do not return.
fn compare_waves(expected: &Expected, session: &Session, place: &str) {
    let plan = waves_of(session);
    let rounds = rounds_by_node(&plan.steps);
    for (node, rounds) in rounds.iter().enumerate() {
        let wave = Vec::from_iter(expected.waves[node]);
        assert_eq!(*rounds, wave, "node {node}, {place}");
    }
    assert_eq!(plan.rounds, expected.last(), "{place}");
    assert_eq!(missing_nodes(&plan.session), expected.left, "{place}");
}

/// A plan repairs each node that returns once, in its wave or in a later round, and no other node.
fn compare_plan(expected: &Expected, (steps, plan): &(Vec<Step>, Repairs), place: &str) {
    for (node, rounds) in rounds_by_node(steps).iter().enumerate() {
        let as_wanted = match (expected.waves[node], &rounds[..]) {
            (Some(wave), [round]) => wave <= *round,
            (wave, rounds) => wave.is_none() && rounds.is_empty(),
        };
        assert!(as_wanted, "node {node} in {rounds:?}, {place}");
    }
    assert!(expected.last() <= plan.rounds, "{place}");
    assert!(plan.rounds <= plan.steps, "{place}");
    let counts = [plan.refusal.into(), plan.steps, plan.left];
    let wanted = [0, expected.repaired().count(), expected.left.len()];
    assert_eq!(counts, wanted, "{place}");
}

/// Takes a set in waves, and plans and runs it.
fn compare_set(code: &Code, live: &[u8], seen: &mut Seen) {
    let (family, k) = (code.family, code.k);
    let place = format!("family {family} k {k} {live:?}");
    let started = library::start(family, k, 1, live);
    assert_eq!(started.refusal, 0, "{place}");
    let expected = Expected::of(code, live);
    assert!(expected.last() <= most_waves(k), "{place}");
    compare_waves(&expected, &started.session, &place);
    let planned = library::planned(started.session);
    compare_plan(&expected, &planned, &place);
    for run in [library::run, raw::run] {
        let run = run(started.session, &mut vec![0x5a; code.n()]);
        assert_eq!(missing_nodes(&run.session), expected.left, "{place}");
        let session = started.session;
        assert_eq!(Repairs { session, ..run }, planned.1, "{place}");
    }
    seen.add(code, &expected, &planned);
}

/// How many sets of each other code are chosen in each way.
const TIMES: usize = 10;

#[test]
fn nodes_of_the_small_codes_return_in_their_waves() {
    let mut seen = Seen::default();
    small_sets(|code, live| compare_set(code, &live, &mut seen));
    seen.report("the small codes", 6, most_waves(4));
    assert_eq!(seen.sets, SETS_OF_SMALL);
    assert!(seen.left > 0);
}

#[test]
fn nodes_of_the_other_codes_return_in_their_waves() {
    let mut seen = Seen::default();
    other_sets(TIMES, |code, live| compare_set(code, &live, &mut seen));
    seen.report("the other codes", OTHER_CODES, most_waves(22));
    assert_eq!(seen.sets, OTHER_CODES * CHOICES.len() * TIMES);
    assert!(seen.left > 0);
}

/// A set from which all nodes return, some of them as late as any can: the data blocks' nodes, or where every other node is a pair of
/// those, and so would return at once, a chain through the data blocks.
fn slowest(code: &Code, random: &mut Random) -> Vec<u8> {
    let (family, k) = (code.family, code.k);
    if family == 2 {
        return LiveSets { family, k }.chain(random);
    }
    let mut nodes: Vec<u8> = (1..=k).map(|block| code.data_node(block)).collect();
    nodes.sort();
    nodes
}

#[test]
fn every_code_takes_as_many_waves_as_it_may() {
    let mut random = Random::seeded();
    let mut seen = Seen::default();
    for code in &every_code() {
        compare_set(code, &slowest(code, &mut random), &mut seen);
    }
    seen.report("chains and data blocks", 29, most_waves(22));
    assert_eq!(seen.left, 0);
}

/// So many live nodes have few enough choices to go through.
const FEW: usize = 12;

#[test]
fn breadth_first_finds_the_fewest_nodes() {
    let mut seen = BTreeMap::new();
    let mut compare = |code: &Code, live: &[u8]| {
        let (family, k) = (code.family, code.k);
        let counts = fewest(family, k, live);
        let wanted = fewest_by_choices(family, k, live);
        assert_eq!(counts, wanted, "family {family} k {k} {live:?}");
        for count in counts {
            *seen.entry(count).or_insert(0) += 1;
        }
    };
    small_sets(|code, live| compare(code, &live));
    other_sets(TIMES, |code, mut live| {
        live.truncate(FEW);
        compare(code, &live);
    });
    let mut text = String::new();
    for (count, nodes) in &seen {
        text += &match count {
            Some(count) => format!("{nodes} nodes are the XOR of {count} live ones\n"),
            None => format!("{nodes} nodes are the XOR of no live ones\n"),
        };
    }
    println!("{text}");
    let counts = (1..=FEW).map(Some);
    assert!(seen.keys().copied().eq([None].into_iter().chain(counts)));
}
