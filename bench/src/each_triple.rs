//! The instructions and conditional jumps of a relation, for every triple of weight-two 22, and of a column, for every node
//! of every weight-two k, by callgrind.
use crate::callgrind::{self, Dump, Jumps};
use compare::papers::code;
use mogtriz::WEIGHT_TWO;
use std::hint::black_box;
use std::io;

const K: usize = 22;

/// The word with which this program asks for every triple and every column, for callgrind to count.
pub const ONCE: &str = "--each-once";

/// All triples of weight-two 22 that have so many data blocks and are related or not.
struct Class {
    data_blocks: usize,
    related: bool,
    triples: Vec<[u8; 3]>,
}

/// Every triple, equal numbers included, by its class; classes with no triple are left out.
fn classes() -> Vec<Class> {
    let columns = code(WEIGHT_TWO, K).columns();
    let n = columns.len();
    let mut classes: Vec<Class> = (0..8)
        .map(|i| Class {
            data_blocks: i / 2,
            related: i % 2 == 1,
            triples: vec![],
        })
        .collect();
    for a in 1..=n {
        for b in 1..=n {
            for c in 1..=n {
                let triple = [a, b, c];
                let data_blocks = triple.iter().filter(|&&node| node <= K).count();
                let related = columns[a - 1] ^ columns[b - 1] == columns[c - 1];
                let class = &mut classes[2 * data_blocks + usize::from(related)];
                class.triples.push(triple.map(|node| node as u8));
            }
        }
    }
    classes.retain(|class| !class.triples.is_empty());
    classes
}

/// Every k of weight-two.
fn each_k() -> impl Iterator<Item = usize> {
    2..=K
}

/// What callgrind counts: a call for each triple, class by class, and one for each column, k by k.
pub fn call_each_once() {
    for class in classes() {
        for triple in class.triples {
            let related = mogtriz::related(WEIGHT_TWO, K, black_box(triple.map(usize::from)));
            assert_eq!(related, class.related, "nodes {triple:?}");
        }
        end_of_part();
    }
    for k in each_k() {
        for node in 1..=code(WEIGHT_TWO, k).n() {
            black_box(mogtriz::column(WEIGHT_TWO, k, black_box(node)));
        }
        end_of_part();
    }
}

/// A name that callgrind knows: it writes down what it has counted.
#[inline(never)]
fn end_of_part() {
    black_box(());
}

/// What callgrind counted in a part of the calls.
struct Part {
    calls: usize,
    instructions: usize,
    conditional: usize,
    jumps: Jumps,
}

impl Part {
    fn of((dump, calls): (&Dump, usize)) -> Part {
        assert_eq!(dump.total("Bi"), 0, "an indirect jump");
        Part {
            calls,
            instructions: dump.total("Ir"),
            conditional: dump.total("Bc"),
            jumps: dump.jumps(),
        }
    }

    /// All calls of some parts.
    fn sum(parts: &[Part]) -> Part {
        let sum = |number: fn(&Part) -> usize| parts.iter().map(number).sum();
        Part {
            calls: sum(|part| part.calls),
            instructions: sum(|part| part.instructions),
            conditional: sum(|part| part.conditional),
            jumps: Jumps::sum(parts.iter().map(|part| &part.jumps)),
        }
    }

    /// What a call takes of each, and whether each conditional jump is taken in every call or in none.
    fn text(&self) -> String {
        let a_call = |number: usize| match number % self.calls {
            0 => (number / self.calls).to_string(),
            _ => format!("{:.2}", number as f64 / self.calls as f64),
        };
        let [instructions, conditional, taken] =
            [self.instructions, self.conditional, self.jumps.taken()].map(a_call);
        let one_way = if self.jumps.go_one_way(self.calls) {
            "yes"
        } else {
            "NO"
        };
        format!("{instructions:>13} {conditional:>12} {taken:>12} {one_way:>8}")
    }
}

const COSTS: &str = " instructions   cond.jumps  jumps taken  one way";

/// Prints what a call takes for the triples of each class, and for the nodes of each k.
pub fn print_costs() -> io::Result<()> {
    let options = [
        "--toggle-collect=mogtriz_related",
        "--toggle-collect=mogtriz_column",
        "--dump-after=bench::each_triple::end_of_part",
        "--branch-sim=yes",
        "--collect-jumps=yes",
        "--dump-instr=yes",
    ];
    let dumps = callgrind::dumps(&options, ONCE)?;
    let classes = classes();
    assert_eq!(dumps.len(), classes.len() + each_k().count());
    let (of_triples, of_columns) = dumps.split_at(classes.len());
    println!("what a call takes; one way: each conditional jump is taken in every call or in none");
    print_triples(&classes, of_triples);
    print_columns(of_columns);
    Ok(())
}

fn print_triples(classes: &[Class], dumps: &[Dump]) {
    println!("\nmogtriz_related, weight-two 22, every triple\n");
    println!("data blocks  related    triples{COSTS}");
    let calls = classes.iter().map(|class| class.triples.len());
    let parts: Vec<Part> = dumps.iter().zip(calls).map(Part::of).collect();
    for (class, part) in classes.iter().zip(&parts) {
        let related = if class.related { "yes" } else { "no" };
        let head = format!("{:>11} {related:>8}", class.data_blocks);
        println!("{head} {:>10}{}", part.calls, part.text());
    }
    let all = Part::sum(&parts);
    println!("{:>20} {:>10}{}", "all", all.calls, all.text());
}

fn print_columns(dumps: &[Dump]) {
    println!("\nmogtriz_column, weight-two, every node\n");
    println!("{:>20} {:>10}{COSTS}", "k", "nodes");
    for (k, dump) in each_k().zip(dumps) {
        let part = Part::of((dump, code(WEIGHT_TWO, k).n()));
        println!("{k:>20} {:>10}{}", part.calls, part.text());
    }
}
