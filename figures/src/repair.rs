//! Repairs as the library plans them: a column for each round, and lines from a repaired node to its pair in the column
//! before, whose nodes were live when the round began.
use crate::svg::{Anchor, Drawing, Point, Stroke, Type, at};
use mogtriz::{Repairs, SIMPLEX, Session, Step, WEIGHT_TWO, column, node_count};

struct Case {
    title: &'static str,
    family: usize,
    k: usize,
    live: &'static [u8],
}

const CASES: [Case; 3] = [
    Case {
        title: "Simplex 3, live 4, 5, 7",
        family: SIMPLEX,
        k: 3,
        live: &[4, 5, 7],
    },
    // data block 1 and the pairs 1 2, 2 3, 3 4 and 4 5
    Case {
        title: "Weight-two 5, a path",
        family: WEIGHT_TWO,
        k: 5,
        live: &[1, 6, 10, 13, 15],
    },
    Case {
        title: "The path without block 1",
        family: WEIGHT_TWO,
        k: 5,
        live: &[6, 10, 13, 15],
    },
];

const WIDTH: f64 = 1040.0;
const HEIGHT: f64 = 610.0;
const TOP: f64 = 92.0;
const NODE_HEIGHT: f64 = 32.0;
const ROUND_WIDTH: f64 = 64.0;
const LABEL_WIDTH: f64 = 74.0;
const LEGEND_HEIGHT: f64 = 28.0;
const RADIUS: f64 = 11.5;
const GREY: &str = "#555555";

/// How a node is drawn: light or dark apart too, for print without colours.
#[derive(Clone, Copy)]
struct Look {
    fill: &'static str,
    edge: &'static str,
    number: &'static str,
}

const MISSING: Look = Look {
    fill: "#ffffff",
    edge: "#888888",
    number: "#666666",
};

/// At the start, then by round.
const LIVE: [Look; 5] = [
    Look {
        fill: "#111111",
        edge: "#111111",
        number: "#ffffff",
    },
    Look {
        fill: "#2b6cb0",
        edge: "#1d4f86",
        number: "#ffffff",
    },
    Look {
        fill: "#f5a742",
        edge: "#a85b00",
        number: "#111111",
    },
    Look {
        fill: "#c9efc4",
        edge: "#2f7d32",
        number: "#111111",
    },
    Look {
        fill: "#b07cc6",
        edge: "#6b3a80",
        number: "#111111",
    },
];

/// A plan: its steps and its counts.
struct Plan {
    n: usize,
    steps: Vec<Step>,
    repairs: Repairs,
}

impl Case {
    fn plan(&self) -> Plan {
        let n = node_count(self.family, self.k).expect("a code");
        let session = Session::start(self.family, self.k, 1, self.live).expect("a sound start");
        let (repairs, steps) = session.plan_to_vec().expect("a sound call");
        Plan { n, steps, repairs }
    }

    /// The round from which a node is live, 0 being the start; none where it is left.
    fn live_from(&self, plan: &Plan, node: usize) -> Option<usize> {
        if self.live.iter().any(|&live| usize::from(live) == node) {
            return Some(0);
        }
        let step = plan.steps.iter().find(|step| step.node == node);
        step.map(|step| step.round)
    }

    /// The data blocks in a node.
    fn blocks(&self, node: usize) -> String {
        let column = column(self.family, self.k, node).expect("a node");
        let blocks = (0..self.k).filter(|i| column >> i & 1 == 1);
        let blocks: Vec<String> = blocks.map(|i| (i + 1).to_string()).collect();
        blocks.join(" ")
    }
}

pub fn draw() -> String {
    let mut drawing = Drawing::new(WIDTH, HEIGHT);
    let mut left = 4.0;
    for case in &CASES {
        let plan = case.plan();
        panel(&mut drawing, left + LABEL_WIDTH, case, &plan);
        left += LABEL_WIDTH + ROUND_WIDTH * plan.repairs.rounds as f64 + 32.0;
    }
    // under the first case, which has the fewest nodes
    legend(&mut drawing, at(24.0, 400.0));
    drawing.finish()
}

fn panel(drawing: &mut Drawing, left: f64, case: &Case, plan: &Plan) {
    let place = |round: usize, node: usize| {
        at(
            left + ROUND_WIDTH * round as f64,
            TOP + NODE_HEIGHT * (node - 1) as f64,
        )
    };
    let middle = left + ROUND_WIDTH * plan.repairs.rounds as f64 / 2.0 - LABEL_WIDTH / 4.0;
    let title = Type::new(15.0, Anchor::Middle).bold();
    drawing.text(at(middle, 28.0), case.title, title);
    let head = Type::new(13.0, Anchor::Middle);
    for round in 0..=plan.repairs.rounds {
        let word = match round {
            0 => "start".to_string(),
            _ => format!("round {round}"),
        };
        drawing.text(at(place(round, 1).x, TOP - 30.0), &word, head);
    }
    let label = Type::new(12.0, Anchor::End).in_colour(GREY);
    drawing.text(at(left - 24.0, TOP - 30.0), "blocks", label);
    for node in 1..=plan.n {
        let middle = place(0, node);
        drawing.text(at(left - 24.0, middle.y + 4.0), &case.blocks(node), label);
    }
    for &Step { round, node, pair } in &plan.steps {
        for source in pair {
            let (from, to) = (place(round, node), place(round - 1, source));
            drawing.line(from, to, Stroke::new(LIVE[round].edge, 1.5));
        }
    }
    for node in 1..=plan.n {
        let live_from = case.live_from(plan, node);
        for round in 0..=plan.repairs.rounds {
            let look = match live_from {
                Some(from) if from <= round => LIVE[from],
                _ => MISSING,
            };
            circle(drawing, place(round, node), look, &node.to_string());
        }
    }
    let counts = format!(
        "{} steps, {} rounds, {} left",
        plan.repairs.steps, plan.repairs.rounds, plan.repairs.left
    );
    let below = place(0, plan.n).y + 36.0;
    drawing.text(at(middle, below), &counts, head);
}

fn circle(drawing: &mut Drawing, centre: Point, look: Look, number: &str) {
    drawing.circle(centre, RADIUS, look.fill, Stroke::new(look.edge, 1.5));
    let kind = Type::new(12.0, Anchor::Middle).in_colour(look.number);
    drawing.text(at(centre.x, centre.y + 4.2), number, kind);
}

fn legend(drawing: &mut Drawing, corner: Point) {
    let word = |round: usize| match round {
        0 => "live at the start".to_string(),
        _ => format!("repaired in round {round}"),
    };
    let live = LIVE.into_iter().zip((0..).map(word));
    let words = live.chain([(MISSING, "missing".to_string())]);
    let mut height = 0.0;
    for (look, word) in words {
        let middle = at(corner.x + RADIUS, corner.y + height);
        circle(drawing, middle, look, "");
        let kind = Type::new(13.0, Anchor::Start);
        drawing.text(at(middle.x + 20.0, middle.y + 4.5), &word, kind);
        height += LEGEND_HEIGHT;
    }
    let note = ["A line leads from a repaired node", "to each of its pair."];
    for (i, line) in note.into_iter().enumerate() {
        let place = at(corner.x, corner.y + height + 10.0 + 17.0 * i as f64);
        drawing.text(place, line, Type::new(13.0, Anchor::Start));
    }
}
