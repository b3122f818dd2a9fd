//! Encoding, interleaving, boxes, lists of live nodes, plans made and checked, pairs, runs, plans carried out and relations, timed against
//! other ways to fill the same buffers; with `--count`, the instructions of one call of each; with `--related`, what a relation takes for
//! every triple of weight-two 22.
mod boxes;
mod callgrind;
mod checker;
mod counting;
mod each_triple;
mod encoding;
mod handed_plans;
mod interleaving;
mod isal;
mod relations;
mod repairs;
mod rivals;
mod table;
mod timing;
mod wide;

use compare::random::Random;
use std::{env, io, process};
use table::Table;
use timing::{Meter, ROUNDS};

fn main() -> io::Result<()> {
    let words: Vec<String> = env::args().skip(1).collect();
    match words.iter().map(String::as_str).collect::<Vec<_>>()[..] {
        [] => print_times(&tables(Meter::Clock)),
        ["--count"] => {
            let counts = counting::counts()?;
            print_counts(&tables(Meter::Counted(counts.into_iter())));
        }
        ["--related"] => each_triple::print_costs()?,
        [counting::ONCE] => drop(tables(Meter::Once)),
        [each_triple::ONCE] => each_triple::call_each_once(),
        _ => {
            eprintln!("usage: bash bench/run [--count | --related]");
            process::exit(2);
        }
    }
    Ok(())
}

fn tables(mut meter: Meter) -> [Table; 15] {
    let mut random = Random::seeded();
    // chosen first, so that they are the same whatever numbers the tables take
    let some_lost = repairs::with_some_lost(&mut random);
    let [read, write] = boxes::tables(&mut random, &mut meter);
    let encode = encoding::table(&mut random, &mut meter);
    let plan = repairs::plans(&some_lost, &mut meter);
    let run = repairs::runs(&mut random, &mut meter);
    let step = repairs::steps(&mut random, &mut meter);
    let relate = relations::table(&mut random, &mut meter);
    let list = boxes::live_lists(&mut random, &mut meter);
    let [from_graded, to_graded] = boxes::conversions(&mut random, &mut meter);
    let [interleave, deinterleave] = interleaving::tables(&mut random, &mut meter);
    let pairs = repairs::pairs(&some_lost, &mut meter);
    let check_plan = handed_plans::checks(&some_lost[0], &mut meter);
    let carry_plan = handed_plans::carried(&mut random, &mut meter);
    [
        encode,
        interleave,
        deinterleave,
        read,
        write,
        from_graded,
        to_graded,
        list,
        plan,
        check_plan,
        pairs,
        run,
        carry_plan,
        step,
        relate,
    ]
}

fn print_times(tables: &[Table]) {
    println!("all ways gave the same bytes; times in microseconds, {ROUNDS} repetitions by turns,");
    let (calls, relations) = (repairs::FEWER_ROUNDS, relations::ROUNDS);
    println!("{calls} of all steps and of all nodes' pairs, {relations} of a million relations");
    println!("\nmedians");
    tables.iter().for_each(|table| table.print(2));
    println!("\nthe fastest tenth, which other work on the machine disturbs less");
    tables.iter().for_each(|table| table.print(10));
}

fn print_counts(tables: &[Table]) {
    println!("all ways gave the same bytes; instructions of one call, by callgrind\n");
    tables.iter().for_each(Table::print_counts);
}
