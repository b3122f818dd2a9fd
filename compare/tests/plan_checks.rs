//! Plans made elsewhere, checked and carried out (document 02, K10): our own plans, those of planners that prefer other pairs, plans with
//! a byte or a step changed, every next step after some, long ones and plans of any bytes. Each is held against the request's rules, one
//! step at a time, and an accepted one against the library's own steps.
use compare::boxes::{block_at, live_nodes, missing_nodes};
use compare::live_sets::{
    CHOICES, LiveSets, OTHER_CODES, SETS_OF_SMALL, is_small, other_sets, small_sets,
};
use compare::made_elsewhere::{Becomes, CHANGES, any_steps, other_plan, with_each_byte};
use compare::papers::{Code, every_code};
use compare::plan_checks::{RULES, broken_rules};
use compare::planner::{Step, steps_in};
use compare::random::Random;
use compare::samples::{Shape, nodes_in};
use compare::{calls, library};
use mogtriz::raw::{PlanChecked, Session};
use std::collections::BTreeMap;

/// What the library said of plans.
#[derive(Default)]
struct Seen {
    plans: usize,
    accepted: usize,
    /// Accepted plans that are not the session's own, and those that leave a node that could be repaired.
    not_ours: usize,
    unfinished: usize,
    steps_made: usize,
    /// By the rule that the first bad step breaks, where it breaks one alone, and how often it breaks several.
    broken_alone: BTreeMap<&'static str, usize>,
    several_broken: usize,
    /// The number of the first bad step that was farthest from the front.
    farthest: usize,
    /// By what was changed in an accepted plan, how many were then bad and how many accepted.
    changed: BTreeMap<&'static str, [usize; 2]>,
}

impl Seen {
    fn add(&mut self, session: &Session, plan: &[u8], bad_step: usize) {
        self.plans += 1;
        self.farthest = self.farthest.max(bad_step);
        match broken_rules(session, &steps_in(plan))[..] {
            [] => self.accepted += 1,
            [rule] => *self.broken_alone.entry(rule).or_default() += 1,
            _ => self.several_broken += 1,
        }
    }

    fn print(&self, kind: &str) {
        let Seen {
            plans, accepted, ..
        } = self;
        let mut text = format!("{plans} plans: {kind}\n{accepted} were accepted\n");
        if self.steps_made > 0 {
            text += &format!("and carried out, with {} steps in all; ", self.steps_made);
            text += &format!("{} were not our own, ", self.not_ours);
            text += &format!("{} left what could be repaired\n", self.unfinished);
        }
        for rule in &RULES {
            let count = self.broken_alone.get(rule.name).unwrap_or(&0);
            text += &format!("{count} broke: {}\n", rule.name);
        }
        text += &format!("{} broke more than one of these\n", self.several_broken);
        text += &format!("the farthest bad step was number {}\n", self.farthest);
        for (name, [bad, accepted]) in &self.changed {
            text += &format!("{name}: {bad} bad, {accepted} accepted\n");
        }
        println!("{text}");
    }

    /// Prints the counts. There have to be accepted plans that are not our own, for each rule some with a step that breaks it alone, and for
    /// each change plans that become what they can.
    fn report(&self, kind: &str) {
        self.print(kind);
        assert!(self.accepted > 0 && self.not_ours > 0 && self.unfinished > 0);
        for rule in &RULES {
            let name = rule.name;
            assert!(self.broken_alone.contains_key(name), "{name}");
        }
        assert!(self.several_broken > 0 && self.farthest > 1);
        for (name, becomes, _) in CHANGES {
            let [bad, accepted] = self.changed[name].map(|count| count > 0);
            let wanted = match becomes {
                Becomes::Accepted => [false, true],
                Becomes::Bad => [true, false],
                Becomes::Either => [true, true],
            };
            assert_eq!([bad, accepted], wanted, "{name}");
        }
    }
}

/// A set of live nodes, with a nodes buffer that has the blocks of an object in their places and other bytes elsewhere.
struct Case {
    session: Session,
    object: Vec<u8>,
    nodes: Vec<u8>,
    /// The session's own plan.
    own: Vec<Step>,
}

impl Case {
    fn new(code: &Code, live: &[u8], random: &mut Random) -> Case {
        let (family, k, len) = (code.family, code.k, any_len(random));
        let shape = Shape { family, k, len };
        let session = library::start(family, k, len, live).session;
        assert_eq!(session, shape.session(live));
        let object = code.multiply(len, &random.bytes(k * len));
        let mut nodes = random.bytes(object.len());
        copy_blocks(live, len, &object, &mut nodes);
        Case {
            session,
            object,
            nodes,
            own: library::planned(session).0,
        }
    }

    fn n(&self) -> usize {
        self.nodes.len() / self.session.len
    }

    /// The plan checked, and carried out where it is accepted; says whether it is.
    fn compare(&self, plan: &[u8], seen: &mut Seen) -> bool {
        let checked = calls::check_plan(self.session, plan);
        let PlanChecked { bad_step, .. } = checked;
        assert_eq!(checked.refusal, 0, "{:?}", self.session);
        let mut nodes = self.nodes.clone();
        let carried = calls::carry_plan(self.session, plan, &mut nodes);
        assert_eq!((carried.refusal, carried.bad_step), (0, bad_step));
        seen.add(&self.session, plan, bad_step);
        if bad_step > 0 {
            assert!(nodes == self.nodes && carried.session == self.session);
            return false;
        }
        self.compare_with_steps(plan, carried.session, &nodes);
        let mut expected = self.nodes.clone();
        let live = live_nodes(&carried.session);
        copy_blocks(&live, self.session.len, &self.object, &mut expected);
        assert!(nodes == expected, "a block is not the object's: {plan:?}");
        let steps = plan.len() / 4;
        assert!(steps <= missing_nodes(&self.session).len());
        seen.steps_made += steps;
        seen.not_ours += usize::from(steps_in(plan) != self.own);
        seen.unfinished += usize::from(steps < self.own.len());
        true
    }

    /// The library's own steps in the plan's order are all accepted, and leave the same.
    fn compare_with_steps(&self, plan: &[u8], carried: Session, nodes: &[u8]) {
        let (mut session, mut by_steps) = (self.session, self.nodes.clone());
        for [_, node, smaller, larger] in steps_in(plan) {
            let triple = [node, smaller, larger].map(usize::from);
            let stepped = library::step(session, &mut by_steps, triple);
            assert_eq!(stepped.refusal, 0, "{triple:?} {session:?}");
            session = stepped.session;
        }
        assert_eq!(session, carried, "{plan:?}");
        assert!(nodes == by_steps, "{plan:?}");
        let reads = carried.reads.iter().map(|&count| usize::from(count));
        assert_eq!(carried.steps, self.session.steps + plan.len() / 4);
        assert_eq!(reads.sum::<usize>(), 2 * carried.steps);
    }

    /// Our own plan is accepted and leaves what a run leaves; made once, it is bad from its first step on. An empty plan is accepted.
    fn compare_own(&self, seen: &mut Seen) {
        let plan = self.own.concat();
        assert!(self.compare(&plan, seen), "{:?}", self.session);
        let [mut nodes, mut run_nodes] = [(); 2].map(|()| self.nodes.clone());
        let carried = library::carry_plan(self.session, &plan, &mut nodes);
        let run = library::run(self.session, &mut run_nodes);
        assert_eq!(carried.session, run.session, "{:?}", self.session);
        assert!(nodes == run_nodes, "{:?}", self.session);
        let again = calls::check_plan(carried.session, &plan);
        let wanted = usize::from(!plan.is_empty());
        assert_eq!(again.bad_step, wanted, "{:?}", self.session);
        assert!(self.compare(&[], seen), "{:?}", self.session);
    }

    /// A plan of another planner, which is accepted.
    fn compare_other(&self, random: &mut Random, seen: &mut Seen) -> Vec<Step> {
        let steps = other_plan(&self.session, random);
        assert!(self.compare(&steps.concat(), seen), "{steps:?}");
        steps
    }

    /// Each change that can be made of a plan of a step or more.
    fn compare_changes(&self, steps: &[Step], random: &mut Random, seen: &mut Seen) {
        if steps.is_empty() {
            return;
        }
        for (name, becomes, change) in CHANGES {
            let Some(changed) = change(&self.session, steps, random) else {
                continue;
            };
            let accepted = self.compare(&changed.concat(), seen);
            let wanted = match becomes {
                Becomes::Accepted => true,
                Becomes::Bad => false,
                Becomes::Either => accepted,
            };
            assert_eq!(accepted, wanted, "{name}: {changed:?} {:?}", self.session);
            seen.changed.entry(name).or_default()[usize::from(accepted)] += 1;
        }
    }
}

/// A short L, now and then one that is not.
fn any_len(random: &mut Random) -> usize {
    match random.below(50) {
        0 => *random.of(&[63, 64, 65, 200, 257]),
        _ => 1 + random.below(9),
    }
}

fn copy_blocks(list: &[u8], len: usize, from: &[u8], to: &mut [u8]) {
    for &node in list {
        let place = block_at(node, len);
        to[place.clone()].copy_from_slice(&from[place]);
    }
}

/// Every set: our own plan, another one, and each change of both.
#[test]
fn plans_of_the_small_codes_are_checked_and_carried_out() {
    let random = &mut Random::seeded();
    let (mut seen, mut sets) = (Seen::default(), 0);
    small_sets(|code, live| {
        let case = Case::new(code, &live, random);
        case.compare_own(&mut seen);
        let other = case.compare_other(random, &mut seen);
        case.compare_changes(&case.own, random, &mut seen);
        case.compare_changes(&other, random, &mut seen);
        sets += 1;
    });
    assert_eq!(sets, SETS_OF_SMALL);
    seen.report("of every set of the small codes");
}

/// How many sets of each other code are chosen in each way.
const TIMES: usize = 2;

#[test]
fn plans_of_the_other_codes_are_checked_and_carried_out() {
    let random = &mut Random::seeded();
    let (mut seen, mut sets) = (Seen::default(), 0);
    other_sets(TIMES, |code, live| {
        let case = Case::new(code, &live, random);
        case.compare_own(&mut seen);
        let other = case.compare_other(random, &mut seen);
        case.compare_changes(&case.own, random, &mut seen);
        case.compare_changes(&other, random, &mut seen);
        sets += 1;
    });
    assert_eq!(sets, OTHER_CODES * CHOICES.len() * TIMES);
    seen.report("of sets of the other codes");
    // more steps than some narrow number has room for
    assert!(seen.farthest > 200);
}

/// The data blocks' nodes of a code, and a chain.
fn hard_sets(code: &Code, random: &mut Random) -> [Vec<u8>; 2] {
    let (family, k) = (code.family, code.k);
    let mut data: Vec<u8> = (1..=k).map(|block| code.data_node(block)).collect();
    data.sort();
    [data, LiveSets { family, k }.chain(random)]
}

/// Our own plan and another one, with one byte changed at every place.
#[test]
fn a_byte_that_is_changed_is_told() {
    let random = &mut Random::seeded();
    let mut seen = Seen::default();
    for code in every_code().iter().filter(|code| code.n() <= 7) {
        for bits in 0..1 << code.n() {
            let case = Case::new(code, &nodes_in(bits), random);
            let other = other_plan(&case.session, random);
            for steps in [&case.own, &other] {
                for plan in with_each_byte(case.n(), steps, random) {
                    case.compare(&plan, &mut seen);
                }
            }
        }
    }
    let large = [(1, 4), (1, 6), (1, 8), (2, 5), (2, 10), (2, 22), (3, 4)];
    let codes = every_code();
    let is_large = |code: &&Code| large.contains(&(code.family, code.k));
    for code in codes.iter().filter(is_large) {
        for live in hard_sets(code, random) {
            let case = Case::new(code, &live, random);
            let other = other_plan(&case.session, random);
            for steps in [&case.own, &other] {
                // one in so many, where there are many
                let apart = 1 + steps.len() / 20;
                let from = random.below(apart);
                let changed = with_each_byte(case.n(), steps, random);
                for plan in changed.skip(from).step_by(apart) {
                    case.compare(&plan, &mut seen);
                }
            }
        }
    }
    seen.print("with a byte changed");
    assert!(seen.accepted > 0 && seen.broken_alone.len() >= 7);
    assert!(seen.farthest > 200);
}

/// In the small codes every step of these rounds and of numbers from 0 to n + 1, after some accepted plans.
#[test]
fn every_next_step_is_judged() {
    let random = &mut Random::seeded();
    let (mut seen, mut plans) = (Seen::default(), 0);
    for code in every_code().iter().filter(|code| is_small(code)) {
        let (family, k, base) = (code.family, code.k, code.n() + 2);
        let times = if code.n() <= 7 { 40 } else { 8 };
        for _ in 0..times {
            let live = LiveSets { family, k }.any(random);
            let session = library::start(family, k, 1, &live).session;
            let before = other_plan(&session, random);
            let before = &before[..random.below(before.len() + 1)];
            let last = before.last().map_or(0, |step| step[0]);
            let rounds = [0, last.saturating_sub(1), last, last + 1, last + 2, 255];
            let triples = (0..base.pow(3)).map(|i| [i / base / base, i / base % base, i % base]);
            for [node, a, b] in triples.map(|triple| triple.map(|number| number as u8)) {
                for round in rounds {
                    let plan = [before, &[[round, node, a, b]]].concat().concat();
                    let checked = calls::check_plan(session, &plan);
                    seen.add(&session, &plan, checked.bad_step);
                    let is_last = [0, before.len() + 1].contains(&checked.bad_step);
                    assert!(is_last, "{plan:?} {session:?}");
                }
            }
            plans += 1;
        }
    }
    seen.print(&format!("each next step after {plans}"));
    assert!(seen.accepted > 0 && seen.broken_alone.len() == RULES.len());
}

/// Steps of any bytes, up to some hundred; and after an accepted plan, which is then good up to there.
#[test]
fn plans_of_any_bytes_are_judged() {
    let random = &mut Random::seeded();
    let mut seen = Seen::default();
    let mut compare = |code: &Code, live: Vec<u8>, random: &mut Random| {
        let case = Case::new(code, &live, random);
        for count in [1, 2, 3, 1 + random.below(100)] {
            let any = any_steps(&case.session, count, random);
            case.compare(&any, &mut seen);
            let after_others = [other_plan(&case.session, random).concat(), any].concat();
            case.compare(&after_others, &mut seen);
        }
    };
    for code in &every_code() {
        let (family, k) = (code.family, code.k);
        for choose in CHOICES {
            for _ in 0..20 {
                let live = choose(LiveSets { family, k }, random);
                compare(code, live, random);
            }
        }
    }
    seen.print("with steps of any bytes");
    assert!(seen.accepted > 0 && seen.broken_alone.len() >= 7);
}

/// Plans of more steps than there are nodes: the first bad step is told, however many come after it.
#[test]
fn long_plans_are_told_at_their_first_bad_step() {
    let random = &mut Random::seeded();
    let mut plans = 0;
    for code in &every_code() {
        let [data, chain] = hard_sets(code, random);
        for live in [data, chain, vec![]] {
            let case = Case::new(code, &live, random);
            let own = case.own.concat();
            // lengths that are short once cut to 8 or 16 bits, in bytes and in steps
            for more in [63, 64, 255, 256, 257, 10_000, 16_384, 65_536] {
                let zeros = vec![0; 4 * more];
                let last = case.own.last().copied().unwrap_or([1, 1, 2, 3]);
                let again = last.repeat(more);
                let any = any_steps(&case.session, more, random);
                for rest in [zeros, again] {
                    let plan = [&own[..], &rest].concat();
                    let checked = calls::check_plan(case.session, &plan);
                    assert_eq!(checked.bad_step, case.own.len() + 1, "{:?}", case.session);
                    let mut nodes = case.nodes.clone();
                    let carried = calls::carry_plan(case.session, &plan, &mut nodes);
                    assert_eq!(carried.bad_step, checked.bad_step);
                    assert!(nodes == case.nodes);
                    plans += 1;
                }
                let checked = calls::check_plan(case.session, &[&any[..], &own].concat());
                assert_ne!(checked.bad_step, 0);
                // one byte too many, and too few
                for length in [any.len() - 1, any.len() - 3] {
                    let checked = calls::check_plan(case.session, &any[..length]);
                    assert_eq!((checked.refusal, checked.bad_step), (6, 0));
                }
            }
        }
    }
    println!("{plans} plans of up to 65,536 steps more than our own");
}
