//! Lists of steps, runs and plans that are carried out, right and wrong ones, each getting the session that the one before gave back: what
//! is missing once no pair is left are the nodes that were open at the start, and runs and plans count just these. A node's count of reads
//! is how many of the accepted steps read it.
use compare::boxes::{check_session, live_nodes, missing_nodes};
use compare::calls;
use compare::counted::agreeing;
use compare::live_sets::LiveSets;
use compare::made_elsewhere::{any_steps, other_plan};
use compare::open::open_nodes;
use compare::papers::every_code;
use compare::planner::{pairs, plan_of, steps_in};
use compare::random::Random;
use compare::samples::{Shape, any_session, length_near};
use compare::tally::Tally;
use compare::triples::{any_triple, right_triple};
use mogtriz::raw::{MARKS, Session};

/// Room for the steps of any plan.
const ROOM: usize = 4 * 255;

/// How many calls of each operation got each number, and what the lists came to.
struct Seen {
    step: Tally,
    run: Tally,
    carry: Tally,
    plan: Tally,
    lists: usize,
    empty: usize,
    turned_away: usize,
    with_reads: usize,
    at_the_end: usize,
    by_steps_alone: usize,
    with_open: usize,
    runs_after_steps: usize,
    carried: usize,
    with_bad_step: usize,
}

impl Seen {
    fn new() -> Seen {
        Seen {
            step: Tally::of("step"),
            run: Tally::of("run"),
            carry: Tally::of("carry plan"),
            plan: Tally::of("plan"),
            lists: 0,
            empty: 0,
            turned_away: 0,
            with_reads: 0,
            at_the_end: 0,
            by_steps_alone: 0,
            with_open: 0,
            runs_after_steps: 0,
            carried: 0,
            with_bad_step: 0,
        }
    }

    fn begin(&mut self, kind: &'static str) {
        let Seen {
            step,
            run,
            carry,
            plan,
            ..
        } = self;
        for tally in [step, run, carry, plan] {
            tally.begin(kind);
        }
    }

    fn report(&self) {
        let counts = [
            ("lists", self.lists),
            ("of no call", self.empty),
            ("from a session that gives 13", self.turned_away),
            ("with reads counted", self.with_reads),
            ("ended with no pair left", self.at_the_end),
            ("of these by steps alone, some made", self.by_steps_alone),
            ("of these with open nodes", self.with_open),
            ("runs accepted after steps", self.runs_after_steps),
            ("plans carried out, of a step or more", self.carried),
            ("plans with a bad step", self.with_bad_step),
        ];
        for (name, count) in counts {
            println!("{count:>8} {name}");
            assert!(count > 0, "{name}");
        }
        assert!(self.lists >= 100_000);
        self.step.report(&[0, 4, 6, 10, 11, 12, 13], 300_000);
        self.run.report(&[0, 6, 13], 30_000);
        self.carry.report(&[0, 6, 13], 30_000);
        self.plan.report(&[0, 6, 13], 100_000);
    }
}

/// A list under way: the session and nodes as the last call left them.
struct List {
    shape: Shape,
    session: Session,
    nodes: Vec<u8>,
    /// The open nodes, unless the first session is turned away.
    open: Option<Vec<u8>>,
    /// The counts of the first session, and what the accepted steps since then add to them.
    counted_steps: usize,
    counted_reads: [u16; MARKS],
    steps: usize,
    runs: usize,
    carried: usize,
}

impl List {
    fn from(session: Session, shape: Shape, random: &mut Random) -> List {
        let open = |_| open_nodes(session.family, session.k, &live_nodes(&session));
        List {
            shape,
            session,
            nodes: random.bytes(shape.nodes_len()),
            open: check_session(&session).ok().map(open),
            counted_steps: session.steps,
            counted_reads: session.reads,
            steps: 0,
            runs: 0,
            carried: 0,
        }
    }

    /// Lends a nodes buffer: for the most part the one that the last call left, else one of another length or
    /// of other bytes.
    fn lend<Answer>(
        &mut self,
        random: &mut Random,
        call: impl FnOnce(&mut [u8]) -> Answer,
    ) -> Answer {
        if random.below(8) > 0 {
            return call(&mut self.nodes);
        }
        let length = length_near(self.nodes.len(), random);
        call(&mut random.bytes(length))
    }

    fn step(&mut self, triple: [usize; 3], random: &mut Random, seen: &mut Seen) {
        let session = self.session;
        let stepped = self.lend(random, |nodes| calls::step(session, nodes, triple));
        self.session = stepped.session;
        if stepped.refusal == 0 {
            self.steps += 1;
            self.count([triple[1], triple[2]]);
        }
        seen.step.add(stepped.refusal);
    }

    /// A step that reads two nodes is accepted.
    fn count(&mut self, pair: [usize; 2]) {
        self.counted_steps += 1;
        for node in pair {
            self.counted_reads[node] += 1;
        }
    }

    fn run(&mut self, random: &mut Random, seen: &mut Seen) {
        let session = self.session;
        let run = self.lend(random, |nodes| calls::run(session, nodes));
        self.session = run.session;
        seen.run.add(run.refusal);
        if run.refusal == 0 {
            self.compare_left(run.left);
            for [_, _, smaller, larger] in plan_of(&session).steps {
                self.count([smaller, larger].map(usize::from));
            }
            self.runs += 1;
            seen.runs_after_steps += usize::from(self.steps > 0);
        }
    }

    /// A plan that was made elsewhere: one that is accepted if the buffer is, or any, of which some lack a byte.
    fn carry(&mut self, random: &mut Random, seen: &mut Seen) {
        let session = self.session;
        let mut plan = match (&self.open, random.below(4)) {
            (Some(_), 1..) => other_plan(&session, random).concat(),
            _ => any_steps(&self.shape.session(&[]), 2, random),
        };
        if random.below(10) == 0 {
            plan.pop();
        }
        let carried = self.lend(random, |nodes| calls::carry_plan(session, &plan, nodes));
        self.session = carried.session;
        seen.carry.add(carried.refusal);
        seen.with_bad_step += usize::from(carried.bad_step > 0);
        if (carried.refusal, carried.bad_step) == (0, 0) {
            for [_, _, smaller, larger] in steps_in(&plan) {
                self.count([smaller, larger].map(usize::from));
            }
            self.carried += 1;
            seen.carried += usize::from(!plan.is_empty());
        }
    }

    /// What an accepted run or plan gives as left is the number of open nodes.
    fn compare_left(&self, left: usize) {
        let open = self.open.as_ref().expect("a session that is taken");
        assert_eq!(left, open.len(), "{:?} open {open:?}", self.session);
    }

    /// Any call, right or wrong.
    fn any_call(&mut self, random: &mut Random, seen: &mut Seen) {
        match random.below(10) {
            0 => self.run(random, seen),
            1 => self.carry(random, seen),
            2..5 => self.right_step(random, seen),
            _ => self.step(any_triple(self.shape, random), random, seen),
        }
    }

    /// A step that is accepted if the buffer is, or any where there is none.
    fn right_step(&mut self, random: &mut Random, seen: &mut Seen) {
        let right = match self.open {
            Some(_) => right_triple(&self.session, random),
            None => None,
        };
        let triple = right.unwrap_or_else(|| any_triple(self.shape, random));
        self.step(triple, random, seen);
    }

    fn pair_left(&self) -> bool {
        let missing = missing_nodes(&self.session);
        missing
            .iter()
            .any(|&node| !pairs(&self.session, node).is_empty())
    }

    /// What holds after a list.
    fn finish(self, random: &mut Random, seen: &mut Seen) {
        seen.lists += 1;
        self.compare_plans(random, seen);
        self.compare_counts();
        let Some(open) = &self.open else {
            seen.turned_away += 1;
            return;
        };
        let sum: usize = self
            .session
            .reads
            .iter()
            .map(|&count| usize::from(count))
            .sum();
        assert_eq!(sum, 2 * self.session.steps, "{:?}", self.session);
        seen.with_reads += usize::from(sum > 0);
        if self.pair_left() {
            return;
        }
        assert_eq!(&missing_nodes(&self.session), open, "{:?}", self.session);
        seen.at_the_end += 1;
        let by_steps_alone = self.runs == 0 && self.carried == 0 && self.steps > 0;
        seen.by_steps_alone += usize::from(by_steps_alone);
        seen.with_open += usize::from(!open.is_empty());
    }

    /// What is counted are the accepted steps and their reads, and nothing where the first session is turned away.
    fn compare_counts(&self) {
        let Session { steps, reads, .. } = &self.session;
        assert_eq!(*steps, self.counted_steps, "{:?}", self.session);
        assert_eq!(reads, &self.counted_reads, "{:?}", self.session);
    }

    /// Plans made after the list, with room enough and with some that may be too little.
    fn compare_plans(&self, random: &mut Random, seen: &mut Seen) {
        let plan = calls::plan(self.session, ROOM);
        let exact = 4 * plan.steps;
        let short = random.below(exact + 1);
        let room = *random.of(&[exact, exact.saturating_sub(1), short]);
        for plan in [plan, calls::plan(self.session, room)] {
            seen.plan.add(plan.refusal);
            if plan.refusal == 0 {
                self.compare_left(plan.left);
            }
        }
    }
}

/// Any set of live nodes, most of about k.
fn any_set(shape: Shape, random: &mut Random) -> Vec<u8> {
    let (family, k) = (shape.family, shape.k);
    let choices = [
        LiveSets::about_k,
        LiveSets::chain,
        LiveSets::tree,
        LiveSets::broken,
        LiveSets::of_low_rank,
        LiveSets::any,
    ];
    random.of(&choices)(LiveSets { family, k }, random)
}

/// Lists from a start in one of these shapes, of up to so many calls.
fn short_lists(count: usize, shapes: &[Shape], most: usize, random: &mut Random, seen: &mut Seen) {
    for _ in 0..count {
        let shape = *random.of(shapes);
        let session = shape.session(&any_set(shape, random));
        let mut list = List::from(session, shape, random);
        let calls = random.below(most + 1);
        seen.empty += usize::from(calls == 0);
        (0..calls).for_each(|_| list.any_call(random, seen));
        list.finish(random, seen);
    }
}

/// Lists of steps in any order until no pair is left, with other calls between them, few of them runs or plans.
fn lists_to_the_end(count: usize, shapes: &[Shape], random: &mut Random, seen: &mut Seen) {
    for _ in 0..count {
        let shape = *random.of(shapes);
        let session = shape.session(&any_set(shape, random));
        let mut list = List::from(session, shape, random);
        while list.pair_left() {
            match random.below(60) {
                0 => list.run(random, seen),
                1 => list.carry(random, seen),
                2..11 => list.step(any_triple(shape, random), random, seen),
                _ => list.right_step(random, seen),
            }
        }
        list.finish(random, seen);
    }
}

/// Lists from a session with counts that agree, whether a start leads to it or not.
fn lists_from_counts(count: usize, shapes: &[Shape], random: &mut Random, seen: &mut Seen) {
    for _ in 0..count {
        let shape = *random.of(shapes);
        let start = shape.session(&any_set(shape, random));
        let session = agreeing(start, shape.n(), random);
        let mut list = List::from(session, shape, random);
        (0..6).for_each(|_| list.any_call(random, seen));
        list.finish(random, seen);
    }
}

/// Lists from a session of any content.
fn lists_from_any_session(count: usize, shapes: &[Shape], random: &mut Random, seen: &mut Seen) {
    for _ in 0..count {
        let shape = *random.of(shapes);
        let session = any_session(shape, random);
        let mut list = List::from(session, shape, random);
        (0..3).for_each(|_| list.any_call(random, seen));
        list.finish(random, seen);
    }
}

/// Every code with so many nodes, at a few L.
fn shapes(nodes: std::ops::RangeInclusive<usize>) -> Vec<Shape> {
    let mut shapes = Vec::new();
    for code in every_code().iter().filter(|code| nodes.contains(&code.n())) {
        let (family, k) = (code.family, code.k);
        shapes.extend([1, 2, 3, 9].map(|len| Shape { family, k, len }));
    }
    shapes
}

#[test]
fn lists_of_calls_leave_the_open_nodes() {
    let mut random = Random::seeded();
    let random = &mut random;
    let mut seen = Seen::new();
    let [few, some, many] = [3..=15, 3..=36, 45..=255].map(shapes);
    seen.begin("short lists");
    short_lists(100_000, &some, 8, random, &mut seen);
    seen.begin("lists to the end");
    lists_to_the_end(40_000, &few, random, &mut seen);
    seen.begin("counts");
    lists_from_counts(15_000, &some, random, &mut seen);
    lists_from_counts(1000, &many, random, &mut seen);
    seen.begin("any session");
    lists_from_any_session(15_000, &some, random, &mut seen);
    seen.begin("codes of many nodes");
    short_lists(5000, &many, 6, random, &mut seen);
    seen.begin("many, to the end");
    lists_to_the_end(200, &many, random, &mut seen);
    seen.report();
}
