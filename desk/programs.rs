// The two programs: what each is to print, and whether it prints that.

use crate::hex::in_hex;
use crate::plain_text;
use std::error::Error;
use std::io::{ErrorKind, Write};
use std::path::{Path, PathBuf};
use std::process::{ChildStdin, Command, Output, Stdio};
use std::time::Duration;

pub struct Program {
    pub name: &'static str,
    // What the names of its samples end in.
    pub extension: &'static str,
    path: PathBuf,
    text: fn(&[u8]) -> String,
    // The numbers of the refusal table that it can print.
    refusals: &'static [usize],
    // How often it printed each, and at 0 how often `ok`.
    printed: [usize; 12],
}

// The pause behind a piece of the input, so that the program gets it in a short read.
const PAUSE: Duration = Duration::from_millis(1);

// Hands over the input. A program may stop reading where the input is too long for it.
fn feed(mut program: ChildStdin, input: &[u8], piece: usize) -> std::io::Result<()> {
    for piece in input.chunks(piece) {
        match program.write_all(piece) {
            Err(error) if error.kind() == ErrorKind::BrokenPipe => return Ok(()),
            written => written?,
        }
        if piece.len() < input.len() {
            program.flush()?;
            std::thread::sleep(PAUSE);
        }
    }
    Ok(())
}

// Runs a program on an input that comes in pieces of so many bytes.
fn output_of(program: &Path, input: &[u8], piece: usize) -> Result<Output, Box<dyn Error>> {
    let mut child = Command::new(program)
        .stdin(Stdio::piped())
        .stdout(Stdio::piped())
        .stderr(Stdio::piped())
        .spawn()?;
    let stdin = child.stdin.take().ok_or("it has no standard input")?;
    std::thread::scope(|scope| {
        let fed = scope.spawn(move || feed(stdin, input, piece));
        let output = child.wait_with_output()?;
        fed.join().map_err(|_| "the input is not handed over")??;
        Ok(output)
    })
}

// The first line that differs, numbered from 1.
fn first_difference(expected: &str, got: &str) -> String {
    let [expected, got] = [expected, got].map(|text| text.split_inclusive('\n'));
    let same = expected.clone().zip(got.clone());
    let same = same.take_while(|(line, other)| line == other).count();
    let [line, other] = [expected, got].map(|mut lines| lines.nth(same).unwrap_or_default());
    format!("line {}: expected {line:?}, got {other:?}", same + 1)
}

// Whether a program printed just this, and ended well.
fn check_output(expected: &str, output: &Output) -> Result<(), String> {
    if output.stdout != expected.as_bytes() {
        let got = String::from_utf8_lossy(&output.stdout);
        return Err(first_difference(expected, &got));
    }
    if !output.stderr.is_empty() {
        let said = String::from_utf8_lossy(&output.stderr);
        return Err(format!("on standard error: {said}"));
    }
    if !output.status.success() {
        return Err(output.status.to_string());
    }
    Ok(())
}

// The number behind `no`, or 0.
fn number_of(text: &str) -> usize {
    let mut parts = text.split(' ');
    match (parts.next(), parts.next()) {
        (Some("no"), Some(number)) => number.parse().unwrap_or(0),
        _ => 0,
    }
}

pub fn programs(directory: &Path) -> [Program; 2] {
    let bench = Program {
        name: "bench",
        extension: "moves",
        path: directory.join("bench"),
        text: plain_text::of_bench,
        refusals: &[1, 2, 3, 4, 5, 6, 7, 8],
        printed: [0; 12],
    };
    let judge = Program {
        name: "judge",
        extension: "log",
        path: directory.join("judge"),
        text: plain_text::of_judge,
        refusals: &[1, 2, 3, 4, 5, 6, 7, 9, 11],
        printed: [0; 12],
    };
    [bench, judge]
}

impl Program {
    // Compares what it prints for an input that comes in pieces of so many bytes with what it is to print, and gives that.
    pub fn compare(&mut self, input: &[u8], piece: usize) -> Result<String, Box<dyn Error>> {
        let expected = (self.text)(input);
        let output = output_of(&self.path, input, piece)
            .map_err(|error| format!("{}: {error}", self.path.display()))?;
        check_output(&expected, &output)
            .map_err(|found| format!("{}: {found}\ninput {}", self.name, in_hex(input)))?;
        self.printed[number_of(&expected)] += 1;
        Ok(expected)
    }

    // Says how often it printed each number, and fails where one that it can print never came.
    pub fn check_numbers(&self) -> Result<String, String> {
        let (name, printed) = (self.name, &self.printed);
        match self.refusals.iter().find(|&&number| printed[number] == 0) {
            Some(number) => Err(format!("{name} never printed the number {number}")),
            None => Ok(format!(
                "{name} printed ok, and the numbers from 1: {printed:?}"
            )),
        }
    }
}
