//! A start and a list of calls, each getting the session that the one before gave back; after it, what is missing once no
//! pair is left are the nodes that were open at the start, and what is counted are the accepted steps and their reads.
use crate::counts::{beside, counted};
use crate::handed_plan::handed_plan;
use crate::input::{Input, MOST_BYTES};
use crate::seen::Operation::{BadStep, CarryPlan, CheckPlan};
use crate::seen::Operation::{LiveNodes, Pairs, Plan, ReadOut, Run, Start, Step, Write};
use crate::seen::count;
use compare::boxes::{self, HEAD, box_len, live_nodes, missing_nodes};
use compare::calls;
use compare::open::open_nodes;
use compare::papers::MOST_LENGTH;
use compare::planner::{self, pairs, plan_of, steps_in, waves_of};
use compare::rounds;
use compare::waves::{most_waves, waves};
use mogtriz::raw::{MARKS, Repairs, Session};

struct List {
    session: Session,
    /// As the last call left them.
    nodes: Vec<u8>,
    /// The nodes open at the start, unless the session was changed since then in more than its counts.
    open: Option<Vec<u8>>,
    /// The counts that the session had when it was last changed, and what the accepted steps since then add to them.
    steps: usize,
    reads: [u16; MARKS],
}

pub fn compare(input: &mut Input) {
    List::start(input).make_calls(input);
}

/// The same from a session with counts, after calls with other counts beside them.
pub fn compare_counted(input: &mut Input) {
    let mut list = List::start(input);
    list.go_on_with(counted(list.session, input));
    let call = input.byte();
    for session in beside(list.session) {
        list.call_once(call, session);
    }
    list.make_calls(input);
}

impl List {
    fn make_calls(mut self, input: &mut Input) {
        while !input.is_empty() {
            self.call(input);
        }
        self.finish();
    }

    fn start(input: &mut Input) -> List {
        let [family, k, len] = [(); 3].map(|()| input.number());
        let live = input.list();
        let number = count(Start, calls::start(family, k, len, &live));
        let session = boxes::start(family, k, len, &live).session;
        let nodes_len = input.nodes_len(&session);
        List {
            session,
            nodes: (0..nodes_len).map(|place| (place * 31 + 7) as u8).collect(),
            open: (number == 0).then(|| open_nodes(family, k, &live)),
            steps: session.steps,
            reads: session.reads,
        }
    }

    /// One call with another session, after which the list goes on as before.
    fn call_once(&self, call: u8, session: Session) {
        let object_len = session.k.saturating_mul(session.len).min(MOST_BYTES);
        let plan = [1, 3, 1, 2];
        let number = match call % 9 {
            0 => calls::step(session, &mut self.nodes.clone(), [1, 2, 3]).refusal,
            1 => calls::run(session, &mut self.nodes.clone()).refusal,
            2 => calls::plan(session, 4 * 255).refusal,
            3 => calls::write(session, &self.nodes, &[], HEAD),
            4 => calls::read_out(session, &self.nodes, object_len),
            5 => calls::live_nodes(session, 255),
            6 => calls::pairs(session, 3).refusal,
            7 => calls::check_plan(session, &plan).refusal,
            _ => calls::carry_plan(session, &plan, &mut self.nodes.clone()).refusal,
        };
        let operations = [
            Step, Run, Plan, Write, ReadOut, LiveNodes, Pairs, CheckPlan, CarryPlan,
        ];
        count(operations[usize::from(call % 9)], number);
    }

    fn go_on_with(&mut self, session: Session) {
        self.session = session;
        self.steps = session.steps;
        self.reads = session.reads;
    }

    /// A step that reads two nodes is accepted.
    fn count_step(&mut self, pair: [usize; 2]) {
        self.steps += 1;
        for node in pair {
            self.reads[node] += 1;
        }
    }

    fn call(&mut self, input: &mut Input) {
        match input.byte() % 13 {
            0 => self.step([(); 3].map(|()| input.number())),
            1 | 2 => self.right_step(input),
            3 => self.run(),
            4 => self.plan(input),
            5 => self.write(input),
            6 => self.read_out(input),
            7 => {
                let length = input.nodes_len(&self.session);
                self.nodes.resize(length, 0xa5);
            }
            8 => self.change(input),
            9 => self.live_nodes(input),
            10 => self.pairs(input.number()),
            11 => self.check_plan(&handed_plan(&self.session, input)),
            _ => self.carry_plan(&handed_plan(&self.session, input)),
        }
    }

    fn step(&mut self, triple: [usize; 3]) {
        let stepped = calls::step(self.session, &mut self.nodes, triple);
        self.session = stepped.session;
        if count(Step, stepped.refusal) == 0 {
            self.count_step([triple[1], triple[2]]);
        }
    }

    /// A step that is accepted if the nodes are, where there is one.
    fn right_step(&mut self, input: &mut Input) {
        let [which, pair] = [(); 2].map(|()| usize::from(input.byte()));
        if self.open.is_none() {
            return;
        }
        let missing = missing_nodes(&self.session);
        let Some(&node) = missing.get(which % missing.len().max(1)) else {
            return;
        };
        let pairs = pairs(&self.session, node);
        if let Some(&[first, second]) = pairs.get(pair % pairs.len().max(1)) {
            self.step([node, first, second].map(usize::from));
        }
    }

    fn run(&mut self) {
        let before = self.session;
        let run = calls::run(before, &mut self.nodes);
        self.session = run.session;
        if count(Run, run.refusal) == 0 {
            self.compare_left(run.left);
            for [_, _, smaller, larger] in plan_of(&before).steps {
                self.count_step([smaller, larger].map(usize::from));
            }
        }
    }

    fn plan(&mut self, input: &mut Input) {
        let plan = calls::plan(self.session, 4 * 255);
        if count(Plan, plan.refusal) == 0 {
            self.compare_left(plan.left);
            self.compare_rounds(&plan);
            let room = input.length_near(4 * plan.steps);
            count(Plan, calls::plan(self.session, room).refusal);
        }
    }

    /// Nodes left are the open ones, where the session came from a start.
    fn compare_left(&self, left: usize) {
        if let Some(open) = &self.open {
            assert_eq!(left, open.len(), "{:?}", self.session);
        }
    }

    /// The plan is as K11 says, step by step. There are no more waves than K9 allows, and as many rounds as waves or more.
    fn compare_rounds(&self, plan: &Repairs) {
        let steps = plan_of(&self.session).steps;
        let checked = rounds::check(&self.session, &steps, plan.rounds);
        assert_eq!(checked, Ok(()), "{:?}", self.session);
        let in_waves = waves_of(&self.session);
        let most = most_waves(self.session.k).min(plan.rounds);
        assert!(in_waves.rounds <= most, "{:?}", self.session);
        // above, too many numbers have k digits
        if self.session.k <= 8 {
            self.compare_waves(&in_waves.steps, &steps);
        }
    }

    /// Each node returns in the wave that the columns give, and is planned for that round or a later one; the others are left.
    fn compare_waves(&self, in_waves: &[planner::Step], in_rounds: &[planner::Step]) {
        let Session { family, k, .. } = self.session;
        let live = live_nodes(&self.session);
        let waves = waves(family, k, &live);
        for steps in [in_waves, in_rounds] {
            let returned = waves.iter().flatten().count();
            assert_eq!(live.len() + steps.len(), returned, "{:?}", self.session);
        }
        let wave_of = |node: u8| waves[usize::from(node) - 1];
        for &[wave, node, ..] in in_waves {
            assert_eq!(wave_of(node), Some(wave.into()), "{:?}", self.session);
        }
        for &[round, node, ..] in in_rounds {
            let in_time = wave_of(node).is_some_and(|wave| wave <= round.into());
            assert!(in_time, "node {node} {:?}", self.session);
        }
    }

    fn write(&mut self, input: &mut Input) {
        let list = input.list();
        let exact = box_len(list.len(), self.session.len.min(MOST_LENGTH));
        let room = input.length_near(exact);
        count(Write, calls::write(self.session, &self.nodes, &list, room));
    }

    fn live_nodes(&mut self, input: &mut Input) {
        let room = input.length_near(live_nodes(&self.session).len());
        count(LiveNodes, calls::live_nodes(self.session, room));
    }

    /// Where they are given they are those that a step can be made from.
    fn pairs(&self, node: usize) {
        // the other numbers are the first again once cut to 8, 16 or 32 bits
        for raise in [1 << 8, 1 << 16, 1 << 32] {
            let found = calls::pairs(self.session, node.wrapping_add(raise));
            count(Pairs, found.refusal);
        }
        let found = calls::pairs(self.session, node);
        if count(Pairs, found.refusal) == 0 {
            let pairs = pairs(&self.session, node as u8);
            let least = pairs.first().map_or([0; 2], |pair| pair.map(usize::from));
            let given = ([found.smaller, found.larger], found.count);
            assert_eq!(given, (least, pairs.len()), "{node} {:?}", self.session);
        }
    }

    fn check_plan(&self, plan: &[u8]) {
        let checked = calls::check_plan(self.session, plan);
        count(CheckPlan, checked.refusal);
        if checked.bad_step > 0 {
            count(BadStep, 0);
        }
    }

    fn carry_plan(&mut self, plan: &[u8]) {
        let carried = calls::carry_plan(self.session, plan, &mut self.nodes);
        self.session = carried.session;
        let refusal = count(CarryPlan, carried.refusal);
        if carried.bad_step > 0 {
            count(BadStep, 0);
        } else if refusal == 0 {
            for [_, _, smaller, larger] in steps_in(plan) {
                self.count_step([smaller, larger].map(usize::from));
            }
        }
    }

    fn read_out(&mut self, input: &mut Input) {
        let exact = self.session.k.saturating_mul(self.session.len);
        let room = input.length_near(exact);
        count(ReadOut, calls::read_out(self.session, &self.nodes, room));
    }

    /// A session of any content, to go on with.
    fn change(&mut self, input: &mut Input) {
        let mut session = self.session;
        let which = input.byte() % 5;
        match which {
            0 => session.family = input.number(),
            1 => session.k = input.number(),
            2 => session.len = input.number(),
            3 => session.live[usize::from(input.byte())] = input.byte(),
            _ => session = counted(session, input),
        }
        // which nodes are open does not go by the counts
        if which < 4 {
            self.open = None;
        }
        self.go_on_with(session);
    }

    fn finish(self) {
        let Session { steps, reads, .. } = &self.session;
        let counted = (*steps, reads) == (self.steps, &self.reads);
        assert!(counted, "{:?}", self.session);
        let Some(open) = self.open else {
            return;
        };
        let missing = missing_nodes(&self.session);
        let pair_left = missing
            .iter()
            .any(|&node| !pairs(&self.session, node).is_empty());
        if !pair_left {
            assert_eq!(missing, open, "{:?}", self.session);
        }
    }
}
