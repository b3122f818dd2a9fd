//! Plans made elsewhere, checked and carried out (document 02, K10, and of K11 that its check refuses a second read in a round), from the
//! words alone: a step is judged by the steps before it, and no marks are kept on the way.
use crate::boxes::{check_nodes, check_session};
use crate::papers::{columns_of, node_count};
use crate::planner::{Step, step, steps_in};
use mogtriz::raw::{Carried, PlanChecked, Session};

pub fn check_plan(session: Session, plan: &[u8]) -> PlanChecked {
    let checked = check_session(&session).and_then(|_| check_length(plan));
    let (refusal, bad_step) = match checked {
        Ok(()) => (0, first_bad_step(&session, &steps_in(plan)).unwrap_or(0)),
        Err(refusal) => (refusal, 0),
    };
    PlanChecked {
        refusal,
        bad_step,
        session,
    }
}

/// An accepted plan is carried out by steps, each of which has to be accepted.
pub fn carry_plan(session: Session, plan: &[u8], nodes: &mut [u8]) -> Carried {
    let checked = check_nodes(&session, nodes).and_then(|_| check_length(plan));
    let mut carried = Carried {
        refusal: checked.err().unwrap_or(0),
        bad_step: 0,
        session,
    };
    if carried.refusal > 0 {
        return carried;
    }
    let steps = steps_in(plan);
    if let Some(number) = first_bad_step(&session, &steps) {
        carried.bad_step = number;
        return carried;
    }
    for [_, node, smaller, larger] in steps {
        let triple = [node, smaller, larger].map(usize::from);
        let stepped = step(carried.session, nodes, triple);
        assert_eq!(stepped.refusal, 0, "{triple:?} {:?}", carried.session);
        carried.session = stepped.session;
    }
    carried
}

fn check_length(plan: &[u8]) -> Result<(), u8> {
    match plan.len() % 4 {
        0 => Ok(()),
        _ => Err(6),
    }
}

/// The number, from 1, of the first step that breaks a rule, in a session that is taken.
pub fn first_bad_step(session: &Session, steps: &[Step]) -> Option<usize> {
    let is_bad = |&i: &usize| RULES.iter().any(|rule| !rule.holds(session, steps, i));
    (0..steps.len()).find(is_bad).map(|i| i + 1)
}

/// The names of the rules that a plan's first bad step breaks; none where the plan is accepted.
pub fn broken_rules(session: &Session, steps: &[Step]) -> Vec<&'static str> {
    let Some(number) = first_bad_step(session, steps) else {
        return Vec::new();
    };
    let broken = |rule: &&Rule| !rule.holds(session, steps, number - 1);
    RULES.iter().filter(broken).map(|rule| rule.name).collect()
}

/// What is asked of a step. Of numbers that are no node's nothing more is asked than that they are.
pub struct Rule {
    pub name: &'static str,
    test: fn(&Judged) -> bool,
}

pub const RULES: [Rule; 9] = [
    Rule {
        name: "rounds begin at 1",
        test: |step| !step.before.is_empty() || step.round() == 1,
    },
    Rule {
        name: "rounds never fall",
        test: |step| step.round_before().is_none_or(|it| step.round() >= it),
    },
    Rule {
        name: "rounds rise by at most 1",
        test: |step| step.round_before().is_none_or(|it| step.round() <= it + 1),
    },
    Rule {
        name: "node numbers are 1 to n",
        test: |step| step.has_nodes(),
    },
    Rule {
        name: "the smaller before the larger",
        test: |step| {
            let [smaller, larger] = step.pair();
            smaller < larger
        },
    },
    Rule {
        name: "the node is missing",
        test: |step| !step.is_live_now(step.node()),
    },
    Rule {
        name: "the pair is related to it",
        test: |step| step.is_related(),
    },
    Rule {
        name: "both were live when the round began",
        test: |step| !step.has_nodes() || step.pair().iter().all(|&node| step.served(node)),
    },
    Rule {
        name: "neither was read in the round",
        test: |step| !step.pair().iter().any(|&node| step.was_read(node)),
    },
];

impl Rule {
    /// Of step i, from 0, of a plan.
    fn holds(&self, session: &Session, steps: &[Step], i: usize) -> bool {
        (self.test)(&Judged {
            session,
            before: &steps[..i],
            step: steps[i],
        })
    }
}

/// A step with all that stood before it.
struct Judged<'a> {
    session: &'a Session,
    before: &'a [Step],
    step: Step,
}

impl Judged<'_> {
    fn round(&self) -> usize {
        self.step[0].into()
    }

    fn node(&self) -> u8 {
        self.step[1]
    }

    fn pair(&self) -> [u8; 2] {
        [self.step[2], self.step[3]]
    }

    fn round_before(&self) -> Option<usize> {
        self.before.last().map(|step| step[0].into())
    }

    fn has_nodes(&self) -> bool {
        let n = node_count(self.session.family, self.session.k);
        let is_node = |&number: &u8| (1..=n).contains(&number.into());
        self.step[1..].iter().all(is_node)
    }

    fn is_related(&self) -> bool {
        let columns = columns_of(self.session.family, self.session.k);
        let column = |&node: &u8| columns[usize::from(node) - 1];
        let sum = || self.step[1..].iter().map(column).fold(0, |a, b| a ^ b);
        !self.has_nodes() || sum() == 0
    }

    fn is_live_in_session(&self, node: u8) -> bool {
        self.session.live[usize::from(node)] == 1
    }

    fn is_live_now(&self, node: u8) -> bool {
        self.is_live_in_session(node) || self.before.iter().any(|step| step[1] == node)
    }

    /// Whether a node was live when the step's round began.
    fn served(&self, node: u8) -> bool {
        let earlier = |step: &&Step| step[0] < self.step[0];
        let mut repaired = self.before.iter().filter(earlier).map(|step| step[1]);
        self.is_live_in_session(node) || repaired.any(|other| other == node)
    }

    /// Whether a node was read by a step before it in the same round.
    fn was_read(&self, node: u8) -> bool {
        let of_round = |step: &&Step| step[0] == self.step[0];
        let mut of_round = self.before.iter().filter(of_round);
        of_round.any(|step| step[2..].contains(&node))
    }
}
