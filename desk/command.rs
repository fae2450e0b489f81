// What `main` is in the programs that take arguments and say how it went.

use std::error::Error;
use std::process::ExitCode;

// Runs a program on its arguments, prints what it says behind its name, and fails where that is an error.
pub fn main_of(name: &str, run: fn(&[&str]) -> Result<String, Box<dyn Error>>) -> ExitCode {
    let arguments: Vec<String> = std::env::args().skip(1).collect();
    let arguments: Vec<&str> = arguments.iter().map(String::as_str).collect();
    let (said, code) = match run(&arguments) {
        Ok(said) => (said, ExitCode::SUCCESS),
        Err(error) => (error.to_string(), ExitCode::FAILURE),
    };
    println!("{name}: {said}");
    code
}
