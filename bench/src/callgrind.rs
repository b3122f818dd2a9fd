//! What callgrind writes down of this program.
use std::collections::BTreeMap;
use std::path::Path;
use std::process::Command;
use std::{env, fs, io};

/// A file of callgrind's.
pub struct Dump(String);

/// The files that callgrind writes when it runs this program with a word: one each time that an option `--dump-after` asks
/// for, in this order.
pub fn dumps(options: &[&str], word: &str) -> io::Result<Vec<Dump>> {
    let folder = env::temp_dir().join(format!("mogtriz-count-{}", std::process::id()));
    fs::create_dir(&folder)?;
    let dumps = dumps_in(&folder, options, word);
    fs::remove_dir_all(&folder)?;
    dumps
}

fn dumps_in(folder: &Path, options: &[&str], word: &str) -> io::Result<Vec<Dump>> {
    let out = folder.join("out");
    let output = Command::new("valgrind")
        .arg("--tool=callgrind")
        .args(options)
        .arg(format!("--callgrind-out-file={}", out.display()))
        .arg(env::current_exe()?)
        .arg(word)
        .output()?;
    if !output.status.success() {
        let why = String::from_utf8_lossy(&output.stderr);
        return Err(io::Error::other(format!("callgrind failed: {why}")));
    }
    // numbered from 1; what comes after the last is in a file without a number
    let files = (1..).map(|number| folder.join(format!("out.{number}")));
    let files = files.take_while(|file| file.exists());
    files
        .map(|file| Ok(Dump(fs::read_to_string(file)?)))
        .collect()
}

impl Dump {
    fn line(&self, name: &str) -> &str {
        let mut lines = self.0.lines();
        let line = lines.find_map(|line| line.strip_prefix(name));
        line.unwrap_or_else(|| panic!("callgrind wrote no line `{name}`"))
    }

    /// How often an event was counted, as `Ir` for an instruction and `Bc` for a conditional jump.
    pub fn total(&self, event: &str) -> usize {
        let mut events = self.line("events: ").split_whitespace();
        let place = events.position(|name| name == event);
        let place = place.unwrap_or_else(|| panic!("callgrind counts no {event}"));
        let total = self.line("totals: ").split_whitespace().nth(place);
        // a line leaves zeros at its end out
        total.map_or(0, |number| number.parse().expect("a number"))
    }

    /// How often each conditional jump was taken. Callgrind writes `jcnd=`, how often, a slash and how often it was come to, and
    /// in the next line its address, or how far that lies beyond the last one; of a jump that was never taken it writes nothing.
    pub fn jumps(&self) -> Jumps {
        let mut jumps = Jumps::default();
        let mut address = 0;
        let mut taken = None;
        for line in self.0.lines() {
            if let Some(jump) = line.strip_prefix("jcnd=") {
                let (count, _) = jump.split_once('/').expect("two counts");
                taken = Some(count.parse().expect("a number"));
            } else if let Some(next) = address_after(address, line) {
                address = next;
                jumps.add(address, taken.take().unwrap_or(0));
            }
        }
        jumps
    }
}

/// The address of a line with counts, from that of the one before; `None` for any other line.
fn address_after(before: usize, line: &str) -> Option<usize> {
    let word = line.split_whitespace().next()?;
    let distance = || word[1..].parse::<usize>().expect("a distance");
    match word.as_bytes()[0] {
        b'0' => usize::from_str_radix(word.strip_prefix("0x")?, 16).ok(),
        b'+' => Some(before + distance()),
        b'-' => Some(before - distance()),
        b'*' => Some(before),
        _ => None,
    }
}

/// How often each conditional jump was taken, by its address.
#[derive(Default)]
pub struct Jumps(BTreeMap<usize, usize>);

impl Jumps {
    fn add(&mut self, address: usize, taken: usize) {
        if taken > 0 {
            *self.0.entry(address).or_default() += taken;
        }
    }

    pub fn sum<'a>(parts: impl Iterator<Item = &'a Jumps>) -> Jumps {
        let mut sum = Jumps::default();
        parts
            .flat_map(|part| &part.0)
            .for_each(|(&address, &taken)| sum.add(address, taken));
        sum
    }

    pub fn taken(&self) -> usize {
        self.0.values().sum()
    }

    /// Whether each was taken once in every call or never.
    pub fn go_one_way(&self, calls: usize) -> bool {
        self.0.values().all(|&taken| taken == calls)
    }
}
