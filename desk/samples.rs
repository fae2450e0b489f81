// Runs every sample through the library and compares what it answers and writes with the answer file beside it.
// Built by: rustc -O desk/samples.rs -L target/staticlib -l static=host --out-dir target/desk
// Run by: target/desk/samples samples
//
// A sample is a move file (NAME.moves), which is run, or a log (NAME.log), which is judged. Its answer file (NAME.moves.answer,
// NAME.log.answer) has a line `NUMBER PLACE` of the refusal table. Where something is written a line follows: the bytes of a move file's
// log in hex, or a log's placing in decimal; `fnv1a` and the hash where these are above 64 bytes, four bytes an entry. A first line
// `room N` lends N bytes for the log, or N entries for the placing; without it 24,576 bytes or 2,048 entries are lent.
//
// It is also the example of both calls in Rust, and uses no other file, so that one can start from it.

use std::error::Error;
use std::path::{Path, PathBuf};
use std::process::ExitCode;

extern "C" {
    fn kantsufel_run(moves: *const u8, moves_len: usize, log: *mut u8, log_len: usize) -> u64;
    fn kantsufel_judge(log: *const u8, log_len: usize, entries: *mut u8, entries_len: usize)
        -> u64;
}

type Call = unsafe extern "C" fn(*const u8, usize, *mut u8, usize) -> u64;

const LOG_BYTES: usize = 24_576;
const ENTRIES: usize = 2_048;
const LAST_NUMBER: u64 = 11;
const LONGEST_IN_FULL: usize = 64;

// Bytes before and after the lent output, which no call may touch.
const GUARD: usize = 64;

// An output is lent twice, so that a byte that is written differs from one of the two.
const FILLS: [u8; 2] = [0x55, 0xaa];

fn fnv1a(bytes: &[u8]) -> u64 {
    bytes.iter().fold(0xcbf2_9ce4_8422_2325, |hash, &byte| {
        (hash ^ u64::from(byte)).wrapping_mul(0x0100_0000_01b3)
    })
}

// The bytes of a log in hex.
fn in_hex(log: &[u8]) -> String {
    let hex: Vec<String> = log.iter().map(|byte| format!("{byte:02x}")).collect();
    hex.join(" ")
}

// Entries of four bytes, lowest first, in decimal.
fn in_decimal(entries: &[u8]) -> String {
    let number = |entry: &[u8]| {
        entry
            .iter()
            .rfold(0, |high, &byte| high << 8 | u32::from(byte))
    };
    let decimal: Vec<String> = entries
        .chunks(4)
        .map(|entry| number(entry).to_string())
        .collect();
    decimal.join(" ")
}

fn answer_line(answer: u64) -> String {
    format!("{} {}", answer >> 32, answer & 0xffff_ffff)
}

// Makes a call on an output that holds the fill, and gives its answer and the first part of the output that it may write: so many bytes
// for each that the place counts.
fn call(
    call: Call,
    input: &[u8],
    room: usize,
    unit: usize,
    fill: u8,
) -> Result<(u64, Vec<u8>), String> {
    let mut lent = vec![fill; GUARD + room + GUARD];
    let out = unsafe { lent.as_mut_ptr().add(GUARD) };
    let answer = unsafe { call(input.as_ptr(), input.len(), out, room) };
    let line = answer_line(answer);
    let accepted = answer >> 32 == 0;
    let written = if accepted { unit * answer as usize } else { 0 };
    if written > room {
        return Err(format!("{line}, more than the {room} bytes lent"));
    }
    let (before, rest) = lent.split_at(GUARD);
    let (out, after) = rest.split_at(written);
    if before.iter().chain(after).any(|&byte| byte != fill) {
        return Err(format!(
            "{line}, with a byte altered outside what is to be written"
        ));
    }
    Ok((answer, out.to_vec()))
}

// An answer as an answer file has it.
fn answer_lines(answer: u64, written: &[u8], in_full: fn(&[u8]) -> String) -> String {
    let line = answer_line(answer);
    if answer >> 32 > 0 || written.is_empty() {
        line
    } else if written.len() > LONGEST_IN_FULL {
        format!("{line}\nfnv1a {:016x}", fnv1a(written))
    } else {
        format!("{line}\n{}", in_full(written))
    }
}

// Judges a log with room for so many entries.
fn judge(log: &[u8], entries: usize, fill: u8) -> Result<String, String> {
    let (answer, placing) = call(kantsufel_judge, log, 4 * entries, 4, fill)?;
    Ok(answer_lines(answer, &placing, in_decimal))
}

// Runs a move file. The log that it writes must be accepted by the judge.
fn run(moves: &[u8], room: usize, fill: u8) -> Result<String, String> {
    let (answer, log) = call(kantsufel_run, moves, room, 1, fill)?;
    let accepted = answer >> 32 == 0;
    if accepted {
        let verdict = judge(&log, ENTRIES, fill)?;
        if !verdict.starts_with("0 ") {
            return Err(format!(
                "{}, but its log is judged {verdict}",
                answer_line(answer)
            ));
        }
    }
    Ok(answer_lines(answer, &log, in_hex))
}

fn extension_of(path: &Path) -> &str {
    let extension = path.extension().and_then(|extension| extension.to_str());
    extension.unwrap_or_default()
}

// The room that an answer file states, if any, and its other lines.
fn split_room(answer: &str) -> Result<(Option<usize>, &str), Box<dyn Error>> {
    match answer.strip_prefix("room ") {
        None => Ok((None, answer)),
        Some(rest) => {
            let (room, lines) = rest.split_once('\n').ok_or("a room but no answer")?;
            Ok((Some(room.parse()?), lines))
        }
    }
}

// Compares one sample and gives the number that is expected of it, or says how it differs.
fn compare(sample: &Path) -> Result<u64, Box<dyn Error>> {
    let bytes = std::fs::read(sample)?;
    let answer = std::fs::read_to_string(format!("{}.answer", sample.display()))
        .map_err(|error| format!("its answer file: {error}"))?;
    let (room, expected) = split_room(answer.trim_end())?;
    for fill in FILLS {
        let got = match extension_of(sample) {
            "moves" => run(&bytes, room.unwrap_or(LOG_BYTES), fill)?,
            "log" => judge(&bytes, room.unwrap_or(ENTRIES), fill)?,
            _ => return Err("neither a sample nor the answer of one".into()),
        };
        if got != expected {
            let difference = format!("expected {expected}, got {got}");
            return Err(difference.replace('\n', " / ").into());
        }
    }
    let number = expected.split(' ').next().unwrap_or_default();
    Ok(number.parse()?)
}

// Whether a file is the answer of a sample, or what a program prints for one, which printed.rs compares.
fn is_beside_a_sample(path: &Path) -> bool {
    ["answer", "printed"].contains(&extension_of(path)) && path.with_extension("").is_file()
}

// Compares all samples of a directory, prints a line for each that differs, and gives how many they are.
fn compare_all(directory: &Path) -> Result<usize, Box<dyn Error>> {
    let entries: Result<Vec<_>, _> = std::fs::read_dir(directory)?.collect();
    let mut paths: Vec<PathBuf> = entries?.iter().map(|entry| entry.path()).collect();
    paths.retain(|path| !is_beside_a_sample(path));
    paths.sort();
    let mut numbers = Vec::new();
    for path in &paths {
        match compare(path) {
            Ok(number) => numbers.push(number),
            Err(difference) => println!("{}: {difference}", path.display()),
        }
    }
    if numbers.len() < paths.len() {
        return Err("not all as expected".into());
    }
    match (0..=LAST_NUMBER).find(|number| !numbers.contains(number)) {
        Some(number) => Err(format!("none has the number {number}").into()),
        None => Ok(numbers.len()),
    }
}

fn main() -> ExitCode {
    let Some(directory) = std::env::args().nth(1) else {
        println!("samples: the samples directory is wanted as the argument");
        return ExitCode::FAILURE;
    };
    match compare_all(Path::new(&directory)) {
        Ok(compared) => {
            println!("samples: {compared} compared, all as expected");
            ExitCode::SUCCESS
        }
        Err(error) => {
            println!("samples: {error}");
            ExitCode::FAILURE
        }
    }
}
