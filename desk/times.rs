// Times both calls of the library beside plain Rust, on full files and in interleaved rounds.

use crate::calls::{ENTRY, JUDGES, RUNS};
use crate::full_logs::{full_log, Kind};
use crate::full_moves::full_move_file;
use crate::library;
use crate::plain;
use crate::plain_judge::judge_forward;
use crate::random::Random;
use crate::table::{LONGEST, MOST_READS};
use std::hint::black_box;
use std::ops::RangeInclusive;
use std::os::raw::c_long;

extern "C" {
    // The processor time of this program in microseconds, as POSIX has it: what else runs on the machine counts little.
    fn clock() -> c_long;
}

// In a round each is called for about so long, and once at least.
const MICROSECONDS_A_ROUND: f64 = 5_000.0;
const ROUNDS: usize = 101;

const KINDS: [(&str, Kind); 3] = [
    ("reads only", Kind::ReadsOnly),
    ("mixed", Kind::Mixed),
    ("newest", Kind::Newest),
];

const SMALL: RangeInclusive<u32> = 0..=99;
const FIVE_BYTES: RangeInclusive<u32> = 1 << 31..=u32::MAX;

// A name for the words, the words, and the width.
const SIZES: [(&str, RangeInclusive<u32>, usize); 6] = [
    ("small", SMALL, 1),
    ("small", SMALL, 4),
    ("small", SMALL, 8),
    ("5-byte", FIVE_BYTES, 1),
    ("5-byte", FIVE_BYTES, 4),
    ("5-byte", FIVE_BYTES, 8),
];

// The microseconds that each of so many calls takes.
fn microseconds(call: &mut dyn FnMut() -> u64, calls: usize) -> f64 {
    let start = unsafe { clock() };
    for _ in 0..calls {
        black_box(call());
    }
    let end = unsafe { clock() };
    (end - start) as f64 / calls as f64
}

fn calls_a_round(call: &mut dyn FnMut() -> u64) -> usize {
    let once = microseconds(call, 5);
    1 + (MICROSECONDS_A_ROUND / once.max(1.0)) as usize
}

fn median(mut times: Vec<f64>) -> f64 {
    times.sort_by(f64::total_cmp);
    times[times.len() / 2]
}

// Calls both in turn and gives the median microseconds of each, and their ratio.
fn columns(mut plain: impl FnMut() -> u64, mut ours: impl FnMut() -> u64) -> String {
    let calls = [calls_a_round(&mut plain), calls_a_round(&mut ours)];
    let round = |_| {
        let plain = microseconds(&mut plain, calls[0]);
        (plain, microseconds(&mut ours, calls[1]))
    };
    let (of_plain, of_ours) = (0..ROUNDS).map(round).unzip();
    let (plain, ours) = (median(of_plain), median(of_ours));
    format!("{plain:8.1}  {ours:9.1}  {:7.2}", ours / plain)
}

fn run_columns(file: &[u8]) -> String {
    let [mut log, mut other] = [(); 2].map(|()| vec![0; LONGEST]);
    columns(
        || plain::run(black_box(file), black_box(&mut log)),
        || library::run(black_box(file), black_box(&mut other)),
    )
}

fn judge_columns(log: &[u8]) -> String {
    let (mut numbers, mut bytes) = (vec![0; MOST_READS], vec![0; ENTRY * MOST_READS]);
    columns(
        || judge_forward(black_box(log), black_box(&mut numbers)),
        || library::judge(black_box(log), black_box(&mut bytes)),
    )
}

fn print_runs(random: &mut Random) -> Result<(), String> {
    println!("run         n  words   bytes    log  plain us    ours us    ratio");
    for (size, words, n) in &SIZES {
        let file = full_move_file(*n, words);
        let log = RUNS.in_some_rooms(&file, random)?;
        let columns = run_columns(&file);
        println!(
            "4096 moves  {n}  {size:6}  {:5}  {log:5}  {columns}",
            file.len()
        );
    }
    Ok(())
}

fn print_judges(name: &str, kind: Kind, random: &mut Random) -> Result<(), String> {
    for (size, words, n) in &SIZES {
        let log = full_log(kind, *n, words);
        let reads = JUDGES.in_some_rooms(&log, random)?;
        let columns = judge_columns(&log);
        println!(
            "{name:10}  {n}  {size:6}  {:5}  {reads:5}  {columns}",
            log.len()
        );
    }
    Ok(())
}

pub fn print() -> Result<String, String> {
    let mut random = Random::new(1);
    print_runs(&mut random)?;
    println!("log         n  words   bytes  reads  plain us    ours us    ratio");
    for (name, kind) in KINDS {
        print_judges(name, kind, &mut random)?;
    }
    Ok(format!("medians of {ROUNDS} interleaved rounds"))
}
