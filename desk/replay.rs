// Tries every file of a directory on a call, as desk/fuzz.rs tries what libFuzzer makes, but needs no clang.
// Built by: rustc -O desk/replay.rs -L target/staticlib -l static=host --out-dir target/desk
// Run by: target/desk/replay run desk/corpus/run, or target/desk/replay judge desk/corpus/judge.

mod calls;
mod command;
mod hex;
mod library;
mod numbers;
mod plain;
#[allow(dead_code)] // The width of a log that was read is for other programs.
mod plain_judge;
#[allow(dead_code)] // Only its bytes are wanted here, no choices.
mod random;
mod table;
mod trial;

use std::error::Error;
use std::process::ExitCode;
use trial::{call_named, Call};

// The number of files, or the first on which the call is wrong.
fn replay(call: &Call, directory: &str) -> Result<usize, Box<dyn Error>> {
    let mut files = 0;
    for entry in std::fs::read_dir(directory)? {
        let path = entry?.path();
        let input = std::fs::read(&path)?;
        call.try_input(&input)
            .map_err(|found| format!("{}\n{found}", path.display()))?;
        files += 1;
    }
    Ok(files)
}

fn run(arguments: &[&str]) -> Result<String, Box<dyn Error>> {
    let wanted = "wanted: run or judge, and a directory";
    let &[name, directory] = arguments else {
        return Err(wanted.into());
    };
    let files = replay(call_named(name).ok_or(wanted)?, directory)?;
    match files {
        0 => Err(format!("{directory}: no file").into()),
        _ => Ok(format!("{files} inputs of {name} tried, all agree")),
    }
}

fn main() -> ExitCode {
    command::main_of("replay", run)
}
