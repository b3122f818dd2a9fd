//! Times of several ways to fill one buffer, or the instructions that they take.
use std::hint::black_box;
use std::time::Instant;
use std::vec::IntoIter;

/// Repetitions of each way.
pub const ROUNDS: usize = 2001;

/// Fills a buffer from another.
pub type Way<'a> = &'a dyn Fn(&[u8], &mut [u8]);

/// A buffer that starts at a multiple of 64.
pub struct Aligned {
    bytes: Vec<u8>,
    start: usize,
    len: usize,
}

impl Aligned {
    /// A buffer to be filled: every byte is one that a way has to write over.
    pub fn unfilled(len: usize) -> Aligned {
        let bytes = vec![0xa5; len + 63];
        let start = bytes.as_ptr().align_offset(64);
        Aligned { bytes, start, len }
    }

    pub fn holding(content: &[u8]) -> Aligned {
        let mut buffer = Aligned::unfilled(content.len());
        buffer.bytes_mut().copy_from_slice(content);
        buffer
    }

    pub fn bytes(&self) -> &[u8] {
        &self.bytes[self.start..self.start + self.len]
    }

    pub fn bytes_mut(&mut self) -> &mut [u8] {
        &mut self.bytes[self.start..self.start + self.len]
    }
}

// Runs behind one reading of the clock.
const RUNS: u32 = 4;

/// What is found out about each way.
pub enum Meter {
    /// The microseconds of its runs, in rising order.
    Clock,
    /// Nothing: it is called once for callgrind to count, outside this process.
    Once,
    /// How many instructions it took, as callgrind counted them in the same order.
    Counted(IntoIter<f64>),
}

impl Meter {
    /// What the meter finds out, by way, once each way gave the expected bytes from a place on, with the buffer as it is
    /// now before each.
    pub fn compare_and_measure(
        &mut self,
        ways: &[Way],
        source: &[u8],
        filled: &mut Aligned,
        expected: &[u8],
        from: usize,
    ) -> Vec<Vec<f64>> {
        self.compare_in_rounds(ROUNDS, ways, source, filled, expected, from)
    }

    /// The same with so many repetitions.
    pub fn compare_in_rounds(
        &mut self,
        rounds: usize,
        ways: &[Way],
        source: &[u8],
        filled: &mut Aligned,
        expected: &[u8],
        from: usize,
    ) -> Vec<Vec<f64>> {
        let filled = filled.bytes_mut();
        let before = filled.to_vec();
        for (i, way) in ways.iter().enumerate() {
            filled.copy_from_slice(&before);
            way(source, filled);
            let same = filled[from..] == expected[from..];
            assert!(same, "way {} gives other bytes", i + 1);
        }
        match self {
            Meter::Clock => measure(rounds, ways, source, filled),
            Meter::Once => {
                ways.iter()
                    .for_each(|way| count_this_call(way, source, filled));
                vec![vec![]; ways.len()]
            }
            Meter::Counted(counts) => {
                let counts = ways.iter().map(|_| counts.next());
                let count = |count: Option<f64>| vec![count.expect("a count for each call")];
                counts.map(count).collect()
            }
        }
    }
}

/// A call by a name that callgrind knows: what happens in here is what it counts.
#[inline(never)]
fn count_this_call(way: Way, source: &[u8], filled: &mut [u8]) {
    way(black_box(source), black_box(filled));
}

/// The ways take turns, and each round begins with another, so that what slows the machine down slows all of
/// them.
fn measure(rounds: usize, ways: &[Way], source: &[u8], filled: &mut [u8]) -> Vec<Vec<f64>> {
    let mut times = vec![Vec::with_capacity(rounds); ways.len()];
    for round in 0..rounds {
        for turn in 0..ways.len() {
            let i = (round + turn) % ways.len();
            times[i].push(time(ways[i], source, filled));
        }
    }
    for of_way in &mut times {
        of_way.sort_by(f64::total_cmp);
    }
    times
}

fn time(way: Way, source: &[u8], filled: &mut [u8]) -> f64 {
    // once without the clock, so that the caches hold what this way needs
    way(black_box(source), filled);
    let start = Instant::now();
    for _ in 0..RUNS {
        way(black_box(source), black_box(filled));
    }
    start.elapsed().as_secs_f64() * 1e6 / f64::from(RUNS)
}
