// Compares what the programs `bench` and `judge` print with what plain Rust says that they print.
// Built by: rustc -O desk/printed.rs --out-dir target/desk
// Run by: target/desk/printed target/bin and one of
//     samples DIRECTORY    the move files and logs of a directory
//     check SEED COUNT     fixed files, whole and in pieces, COUNT random move files and COUNT random logs
//
// Both programs get every file. What bench prints for NAME.moves may be stored in NAME.moves.printed, and what judge prints for NAME.log in
// NAME.log.printed.

mod command;
mod damage;
mod full_logs;
mod full_moves;
mod hex;
mod numbers;
mod paths;
// Of these two the call with a lent output and the other judge are for other programs.
#[allow(dead_code)]
mod plain;
#[allow(dead_code)]
mod plain_judge;
mod plain_text;
mod programs;
mod random;
mod random_logs;
mod random_moves;
mod table;

use full_logs::{full_log, Kind};
use full_moves::full_move_file;
use paths::paths;
use programs::{programs, Program};
use random::Random;
use random_logs::random_log;
use random_moves::random_move_file;
use std::error::Error;
use std::ops::RangeInclusive;
use std::path::{Path, PathBuf};
use std::process::ExitCode;
use table::LONGEST;

// An input in pieces comes in about so many.
const PIECES: usize = 40;

const LARGEST_WORD: RangeInclusive<u32> = u32::MAX..=u32::MAX;

const P6: [u8; 19] = [1, 0, 2, 7, 8, 13, 0, 0, 0, 0, 0, 1, 0, 0, 0, 1, 0, 1, 1];

type Programs = [Program; 2];

// Compares what both print for an input that is handed over at once.
fn compare(programs: &mut Programs, input: &[u8]) -> Result<(), Box<dyn Error>> {
    for program in programs {
        program.compare(input, input.len().max(1))?;
    }
    Ok(())
}

fn compare_in_pieces(programs: &mut Programs, input: &[u8]) -> Result<(), Box<dyn Error>> {
    for program in programs {
        program.compare(input, 1 + input.len() / PIECES)?;
    }
    Ok(())
}

// P6, the empty file, and files that are as full or as long as the limits allow, and longer.
fn fixed_files() -> Vec<Vec<u8>> {
    let five_bytes = 1 << 31..=u32::MAX;
    let mut files = vec![
        P6.to_vec(),
        Vec::new(),
        full_move_file(8, &LARGEST_WORD),
        full_move_file(8, &five_bytes),
        full_move_file(1, &(0..=99)),
        full_log(Kind::ReadsOnly, 1, &LARGEST_WORD),
        full_log(Kind::ReadsOnly, 8, &LARGEST_WORD),
        full_log(Kind::Mixed, 1, &five_bytes),
        full_log(Kind::Newest, 8, &five_bytes),
    ];
    files.extend([LONGEST, LONGEST + 1, 100_000].map(|length| vec![1; length]));
    files
}

fn compare_fixed(programs: &mut Programs) -> Result<usize, Box<dyn Error>> {
    let files = fixed_files();
    for file in &files {
        compare(programs, file)?;
        compare_in_pieces(programs, file)?;
    }
    Ok(files.len())
}

fn check(programs: &mut Programs, seed: u64, count: usize) -> Result<String, Box<dyn Error>> {
    let fixed = compare_fixed(programs)?;
    let mut random = Random::new(seed);
    for _ in 0..count {
        compare(programs, &random_move_file(&mut random))?;
        compare(programs, &random_log(&mut random))?;
    }
    Ok(format!(
        "{fixed} fixed files, {count} random move files and {count} random logs"
    ))
}

fn compare_sample(programs: &mut Programs, sample: &Path) -> Result<(), Box<dyn Error>> {
    compare(programs, &std::fs::read(sample)?)
}

// Compares a stored text with what the program that it is for prints for the sample beside it.
fn compare_stored(programs: &mut Programs, stored: &Path) -> Result<(), Box<dyn Error>> {
    let sample = stored.with_extension("");
    let extension = sample.extension().unwrap_or_default();
    let mut programs = programs.iter_mut();
    let program = programs.find(|program| extension == program.extension);
    let program = program.ok_or("neither for a move file nor for a log")?;
    let input = std::fs::read(&sample).map_err(|error| format!("its sample: {error}"))?;
    let printed = program.compare(&input, input.len().max(1))?;
    if std::fs::read_to_string(stored)? != printed {
        return Err(format!("but {} prints\n{printed}", program.name).into());
    }
    Ok(())
}

// Compares the files at some paths, each in this way.
fn compare_all(
    programs: &mut Programs,
    paths: &[PathBuf],
    compare: fn(&mut Programs, &Path) -> Result<(), Box<dyn Error>>,
) -> Result<usize, Box<dyn Error>> {
    for path in paths {
        compare(programs, path).map_err(|found| format!("{}: {found}", path.display()))?;
    }
    Ok(paths.len())
}

fn samples(programs: &mut Programs, directory: &str) -> Result<String, Box<dyn Error>> {
    let samples = paths(directory, &["moves", "log"])?;
    let samples = compare_all(programs, &samples, compare_sample)?;
    let stored = paths(directory, &["printed"])?;
    let stored = compare_all(programs, &stored, compare_stored)?;
    Ok(format!("{samples} samples and {stored} stored texts"))
}

fn run(arguments: &[&str]) -> Result<String, Box<dyn Error>> {
    let [directory, arguments @ ..] = arguments else {
        return Err("wanted: the directory of the programs, and what to compare".into());
    };
    let mut programs = programs(Path::new(directory));
    let compared = match arguments {
        ["samples", directory] => samples(&mut programs, directory)?,
        ["check", seed, count] => check(&mut programs, seed.parse()?, count.parse()?)?,
        _ => return Err("wanted: samples DIRECTORY, or check SEED COUNT".into()),
    };
    for program in &programs {
        println!("{}", program.check_numbers()?);
    }
    Ok(format!("{compared}, all printed as they are to be"))
}

fn main() -> ExitCode {
    command::main_of("printed", run)
}
