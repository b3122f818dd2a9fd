//! How many calls of one operation got each number, by kind of input.
use crate::samples::{Shape, shapes};
use mogtriz::raw::MOST_REFUSAL;

/// How many numbers there are: 0 and the refusals.
pub const NUMBERS: usize = MOST_REFUSAL + 1;

pub struct Tally {
    operation: &'static str,
    kinds: Vec<(&'static str, [usize; NUMBERS])>,
}

impl Tally {
    pub fn of(operation: &'static str) -> Tally {
        Tally {
            operation,
            kinds: Vec::new(),
        }
    }

    /// Counts what follows as of this kind.
    pub fn begin(&mut self, kind: &'static str) {
        self.kinds.push((kind, [0; NUMBERS]));
    }

    pub fn add(&mut self, number: u8) {
        let (_, counts) = self.kinds.last_mut().expect("a kind has begun");
        counts[usize::from(number)] += 1;
    }

    /// Prints the counts. There have to be so many calls, some of every kind, and among them all of these
    /// numbers and no others.
    pub fn report(&self, numbers: &[usize], at_least: usize) {
        let sum = |number: usize| self.kinds.iter().map(|(_, counts)| counts[number]).sum();
        let totals: [usize; NUMBERS] = std::array::from_fn(sum);
        let calls: usize = totals.iter().sum();
        println!("{}", self.table(numbers, &totals));
        for (number, &count) in totals.iter().enumerate() {
            let operation = self.operation;
            let wanted = numbers.contains(&number);
            assert_eq!(
                count > 0,
                wanted,
                "{count} calls of {operation} gave {number}"
            );
        }
        for (kind, counts) in &self.kinds {
            assert!(counts.iter().sum::<usize>() > 0, "no calls with {kind}");
        }
        assert!(calls >= at_least, "{calls} calls of {}", self.operation);
    }

    /// One text, as tests that run at once would mix their lines.
    fn table(&self, numbers: &[usize], totals: &[usize; NUMBERS]) -> String {
        let row = |name: &str, cell: &dyn Fn(usize) -> usize| {
            let cells = numbers
                .iter()
                .map(|&number| format!(" {:>8}", cell(number)));
            format!("{name:<18}{}\n", cells.collect::<String>())
        };
        let mut table = row(self.operation, &|number| number);
        for (kind, counts) in &self.kinds {
            table += &row(kind, &|number| counts[number]);
        }
        let calls: usize = totals.iter().sum();
        table + &row("all", &|number| totals[number]) + &format!("{calls} calls\n")
    }
}

/// Makes a kind's calls a number of times for each shape.
pub fn repeat(
    tally: &mut Tally,
    kind: &'static str,
    times: usize,
    mut call: impl FnMut(Shape) -> u8,
) {
    tally.begin(kind);
    for shape in shapes() {
        for _ in 0..times {
            tally.add(call(shape));
        }
    }
}
