// Compares both calls of the library with plain Rust, which is written apart from it: answers, places and whole outputs.
// Built by: rustc -O desk/compare.rs -L target/staticlib -l static=host --out-dir target/desk
// Run by: target/desk/compare and one of
//     check SEED COUNT     hand-written logs, COUNT random move files and COUNT random logs, many of them damaged
//     samples DIRECTORY    the move files and logs of a directory
//     small                every small input, and every damage of one byte to some, with every room
//     long                 more of check and of small, for some minutes
//     time                 how long both take on full files

mod calls;
mod command;
mod damage;
mod fixed_logs;
mod full_logs;
mod full_moves;
mod hex;
mod library;
mod numbers;
mod paths;
mod plain;
mod plain_judge;
mod random;
mod random_logs;
mod random_moves;
mod rooms;
mod small;
mod table;
mod tally;
mod times;

use calls::{difference, outcome, Calls, ENTRY, GUARD, JUDGES, RUNS};
use fixed_logs::{fixed_logs, Fixed};
use paths::paths;
use random::Random;
use random_logs::random_log;
use random_moves::random_move_file;
use rooms::fills;
use small::Bounds;
use std::error::Error;
use std::ops::RangeInclusive;
use std::path::Path;
use std::process::ExitCode;
use tally::Tally;

// Where so few bytes are needed, every room is tried.
const FEW_BYTES: usize = 32;

const SMALL: Bounds = Bounds {
    string_bytes: 6,
    moves: 13,
    events: 10,
    one_damaged_in: 4_001,
};
const LONG: Bounds = Bounds {
    string_bytes: 8,
    moves: 17,
    events: 12,
    one_damaged_in: 8_009,
};
const LONG_SEEDS: RangeInclusive<u64> = 101..=105;
const LONG_COUNT: usize = 100_000;

// Compares what is expected of a hand-written log with what comes on an output that holds this before.
fn check_fixed(fixed: &Fixed, fill: &[u8]) -> Result<(), String> {
    let entries = fixed.entries.iter().flat_map(|entry| entry.to_le_bytes());
    let entries: Vec<u8> = entries.collect();
    let mut lent = fill.to_vec();
    lent[GUARD..GUARD + entries.len()].copy_from_slice(&entries);
    let expected = ((fixed.number << 32) + fixed.place, lent);
    for (name, call) in JUDGES.made {
        let got = outcome(*call, &fixed.log, fill);
        if got != expected {
            let found = difference(&fixed.log, [("expected", &expected), (name, &got)]);
            return Err(format!("{}\n{found}", fixed.name));
        }
    }
    Ok(())
}

// Compares at a random room, with the most room, and where few bytes are needed in every room. Gives the answer at the first.
fn check_random(calls: &Calls, input: &[u8], random: &mut Random) -> Result<u64, String> {
    let needed = calls.needed(input);
    let room = if random.one_in(6) {
        random.below(needed + 1)
    } else {
        needed + random.below(3 * calls.unit)
    };
    let answer = calls.agreed(input, room, random)?;
    calls.agreed(input, calls.most_bytes, random)?;
    if needed <= FEW_BYTES {
        calls.in_every_room(input, random)?;
    }
    Ok(answer)
}

// Compares the runs of random move files and the judges on the logs that they write.
fn check_moves(count: usize, random: &mut Random) -> Result<Tally, String> {
    let mut tally = Tally::of_moves();
    for _ in 0..count {
        let file = random_move_file(random);
        tally.add(&file, check_random(&RUNS, &file, random)?);
        if let Ok(log) = plain::log_of(&file) {
            check_random(&JUDGES, &log, random)?;
        }
    }
    Ok(tally)
}

fn check_logs(count: usize, random: &mut Random) -> Result<Tally, String> {
    let mut tally = Tally::of_logs();
    for _ in 0..count {
        let log = random_log(random);
        tally.add(&log, check_random(&JUDGES, &log, random)?);
    }
    Ok(tally)
}

// Compares, prints what came among the random files, and fails where some of it came too seldom.
fn check(seed: u64, count: usize) -> Result<String, String> {
    let mut random = Random::new(seed);
    let fixed = fixed_logs();
    for log in &fixed {
        let [fill, turned] = fills(&mut random, ENTRY * log.room);
        check_fixed(log, &fill)?;
        check_fixed(log, &turned)?;
    }
    let tallies = [
        check_moves(count, &mut random)?,
        check_logs(count, &mut random)?,
    ];
    tallies.iter().for_each(Tally::print);
    tallies.iter().try_for_each(Tally::check_bars)?;
    let fixed = fixed.len();
    Ok(format!(
        "{fixed} hand-written logs, {count} random move files and {count} random logs, all agree"
    ))
}

// Compares one sample as a move file and as a log.
fn compare_sample(sample: &Path, random: &mut Random) -> Result<(), Box<dyn Error>> {
    let bytes = std::fs::read(sample)?;
    for calls in [RUNS, JUDGES] {
        calls.in_some_rooms(&bytes, random)?;
        if calls.needed(&bytes) <= FEW_BYTES {
            calls.in_every_room(&bytes, random)?;
        }
    }
    Ok(())
}

fn compare_samples(directory: &str) -> Result<String, Box<dyn Error>> {
    let samples = paths(directory, &["moves", "log"])?;
    let mut random = Random::new(1);
    for sample in &samples {
        let found = compare_sample(sample, &mut random);
        found.map_err(|found| format!("{}\n{found}", sample.display()))?;
    }
    match samples.len() {
        0 => Err(format!("{directory}: no sample").into()),
        compared => Ok(format!("{compared} samples, all agree")),
    }
}

fn compare_long() -> Result<String, String> {
    for seed in LONG_SEEDS {
        println!("{}", check(seed, LONG_COUNT)?);
    }
    small::compare(&LONG)
}

fn run(arguments: &[&str]) -> Result<String, Box<dyn Error>> {
    match arguments {
        ["check", seed, count] => Ok(check(seed.parse()?, count.parse()?)?),
        ["samples", directory] => compare_samples(directory),
        ["small"] => Ok(small::compare(&SMALL)?),
        ["long"] => Ok(compare_long()?),
        ["time"] => Ok(times::print()?),
        _ => Err("wanted: check SEED COUNT, samples DIRECTORY, small, long, or time".into()),
    }
}

fn main() -> ExitCode {
    command::main_of("compare", run)
}
