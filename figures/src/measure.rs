//! Times of encode, plan and run as n and L grow. All nodes but the data blocks' are missing, so that a run makes all
//! that encoding makes.
use mogtriz::{SIMPLEX, Session, WEIGHT_TWO, node_count, node_of_column};
use std::hint::black_box;
use std::process::Command;
use std::time::Instant;
use std::{fs, io};

/// Passes through all codes, so that a code's times are not all from one moment of a busy machine.
const PASSES: usize = 20;
/// Readings of the clock for an operation in a pass.
const READINGS: usize = 10;
/// Calls behind one reading.
const CALLS: u32 = 8;
/// The L at which n grows.
const LEN: usize = 1536;
const LENGTHS: [usize; 6] = [64, 128, 256, 512, 1024, LEN];

/// A family with its largest k, at which L grows.
#[derive(Clone, Copy)]
struct Family {
    name: &'static str,
    number: usize,
    most_k: usize,
}

const FAMILIES: [Family; 2] = [
    Family {
        name: "simplex",
        number: SIMPLEX,
        most_k: 8,
    },
    Family {
        name: "weight-two",
        number: WEIGHT_TWO,
        most_k: 22,
    },
];

/// A code with its L, and the microseconds of calls of encode, plan and run.
struct Case {
    family: Family,
    k: usize,
    len: usize,
    times: [Vec<f64>; 3],
}

/// A line that says where and when it was measured, the names of the columns, and a line for each case.
pub fn csv() -> io::Result<String> {
    let mut cases = cases();
    for _ in 0..PASSES {
        cases.iter_mut().for_each(Case::measure);
    }
    let mut text = format!(
        "# {}, {}, load {}; microseconds a call, the fastest tenth of {} readings\n",
        cpu_model()?,
        today()?,
        load()?,
        PASSES * READINGS
    );
    text += "family,k,n,L,encode,plan,run\n";
    for case in cases {
        text += &case.line();
    }
    Ok(text)
}

/// Every k at one L, then the largest at the other L.
fn cases() -> Vec<Case> {
    let mut cases = Vec::new();
    for family in FAMILIES {
        let case = |k: usize, len: usize| Case {
            family,
            k,
            len,
            times: Default::default(),
        };
        cases.extend((2..=family.most_k).map(|k| case(k, LEN)));
        let others = LENGTHS.into_iter().filter(|&len| len != LEN);
        cases.extend(others.map(|len| case(family.most_k, len)));
    }
    cases
}

impl Case {
    fn n(&self) -> usize {
        node_count(self.family.number, self.k).expect("a code")
    }

    fn measure(&mut self) {
        let (family, k, len, n) = (self.family.number, self.k, self.len, self.n());
        let data_node = |i: usize| node_of_column(family, k, 1 << i).expect("a data node");
        let live: Vec<u8> = (0..k).map(|i| data_node(i) as u8).collect();
        let session = Session::start(family, k, len, &live).expect("a sound start");
        let object: Vec<u8> = (0..k * len).map(|i| (i * 167 / 8) as u8).collect();
        let mut nodes = vec![0; n * len];
        let mut steps = vec![0; 4 * n];
        let [encode, plan, run] = &mut self.times;
        encode.extend(readings(|| {
            mogtriz::encode(family, k, len, black_box(&object), &mut nodes).is_ok()
        }));
        plan.extend(readings(|| black_box(&session).plan(&mut steps).is_ok()));
        run.extend(readings(|| {
            black_box(&session).clone().run(&mut nodes).is_ok()
        }));
    }

    fn line(self) -> String {
        let (n, Case { family, k, len, .. }) = (self.n(), &self);
        let name = family.name;
        let [encode, plan, run] = self.times.each_ref().map(|times| fastest_tenth(times));
        format!("{name},{k},{n},{len},{encode:.3},{plan:.3},{run:.3}\n")
    }
}

/// The time that a tenth stay under: other work on the machine disturbs it less than a median.
fn fastest_tenth(times: &[f64]) -> f64 {
    let mut times = times.to_vec();
    times.sort_by(f64::total_cmp);
    times[times.len() / 10]
}

/// The microseconds of a call, which has to be served.
fn readings(mut call: impl FnMut() -> bool) -> Vec<f64> {
    // once without the clock, so that the caches hold what the call needs
    call();
    let mut reading = || {
        let start = Instant::now();
        for _ in 0..CALLS {
            assert!(call(), "a sound call");
        }
        start.elapsed().as_secs_f64() * 1e6 / f64::from(CALLS)
    };
    (0..READINGS).map(|_| reading()).collect()
}

fn cpu_model() -> io::Result<String> {
    let about = fs::read_to_string("/proc/cpuinfo")?;
    let line = about.lines().find(|line| line.starts_with("model name"));
    let model = line.and_then(|line| line.split_once(": "));
    Ok(model
        .map_or("a CPU without a name", |(_, model)| model)
        .to_string())
}

fn today() -> io::Result<String> {
    let date = Command::new("date").arg("-I").output()?;
    Ok(String::from_utf8_lossy(&date.stdout).trim().to_string())
}

/// How many processes wanted a core in the last minute, of how many cores.
fn load() -> io::Result<String> {
    let about = fs::read_to_string("/proc/loadavg")?;
    let last_minute = about.split(' ').next().unwrap_or("unknown");
    let cores = std::thread::available_parallelism()?;
    Ok(format!("{last_minute} on {cores} cores"))
}
