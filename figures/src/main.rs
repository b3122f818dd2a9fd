//! What of the figures the library is needed for: repairs as it plans them, drawn here, and with `--measure` the times of
//! its calls in docs/figures/cost.csv, which figures/cost.gnuplot draws.
mod measure;
mod repair;
mod svg;

use std::{env, fs, io, process};

fn main() -> io::Result<()> {
    let words: Vec<String> = env::args().skip(1).collect();
    let measuring = match words.iter().map(String::as_str).collect::<Vec<_>>()[..] {
        [] => false,
        ["--measure"] => true,
        _ => {
            eprintln!("usage: bash figures/draw [--measure]");
            process::exit(2);
        }
    };
    if measuring {
        fs::write("docs/figures/cost.csv", measure::csv()?)?;
    }
    fs::write("docs/figures/repair.svg", repair::draw())
}
