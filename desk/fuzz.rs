// Both calls of the library beside the plain implementation, on the inputs that libFuzzer makes. Built and run by desk/fuzz;
// the environment variable CALL names the call. At the end it says how often each answer came.

#![no_main]

mod calls;
mod hex;
mod library;
mod mutator;
mod numbers;
mod plain;
#[allow(dead_code)] // The width of a log that was read is for other programs.
mod plain_judge;
#[allow(dead_code)] // Some of its choices are for other programs.
mod random;
mod table;
mod trial;

use random::Random;
use std::sync::atomic::{AtomicU64, Ordering::Relaxed};
use std::sync::OnceLock;
use table::{number_of, NAMES};
use trial::{call_named, Call, CHOICE};

static CALL: OnceLock<&Call> = OnceLock::new();

static ANSWERS: [AtomicU64; 12] = [const { AtomicU64::new(0) }; 12];

extern "C" {
    fn atexit(function: extern "C" fn()) -> i32;
    fn LLVMFuzzerMutate(data: *mut u8, size: usize, room: usize) -> usize;
}

extern "C" fn print_answers() {
    let answers: Vec<u64> = ANSWERS.iter().map(|count| count.load(Relaxed)).collect();
    let all: u64 = answers.iter().sum();
    for (name, &count) in NAMES.iter().zip(&answers).filter(|(_, &count)| count > 0) {
        let share = count as f64 * 100.0 / all as f64;
        eprintln!("{name:8} {count:10} {share:6.2} %");
    }
    eprintln!("all      {all:10}");
}

fn call() -> &'static Call {
    let named = || std::env::var("CALL").ok().as_deref().and_then(call_named);
    CALL.get_or_init(|| named().expect("CALL is to be run or judge"))
}

#[no_mangle]
pub extern "C" fn LLVMFuzzerInitialize(_: *mut i32, _: *mut *mut *mut u8) -> i32 {
    call();
    unsafe { atexit(print_answers) }
}

// libFuzzer lends `size` bytes at `data`.
#[no_mangle]
pub unsafe extern "C" fn LLVMFuzzerTestOneInput(data: *const u8, size: usize) -> i32 {
    let input = unsafe { std::slice::from_raw_parts(data, size) };
    match call().try_input(input) {
        Ok(answer) => ANSWERS[number_of(answer) as usize].fetch_add(1, Relaxed),
        Err(found) => {
            eprintln!("{found}");
            std::process::abort();
        }
    };
    0
}

// Half of the inputs are changed by libFuzzer, byte by byte, the others number by number. There is room for `room` bytes.
#[no_mangle]
pub unsafe extern "C" fn LLVMFuzzerCustomMutator(
    data: *mut u8,
    size: usize,
    room: usize,
    seed: u32,
) -> usize {
    let mut random = Random::new(u64::from(seed));
    if random.one_in(2) || size < CHOICE {
        return unsafe { LLVMFuzzerMutate(data, size, room) };
    }
    let bytes = unsafe { std::slice::from_raw_parts_mut(data, room) };
    if random.one_in(4) {
        (bytes[0], bytes[1]) = (random.next() as u8, random.next() as u8);
    }
    let mend = match call().writes_logs {
        true => mutator::mended_moves,
        false => mutator::mended_log,
    };
    let changed = mutator::changed(mend, &bytes[CHOICE..size], &mut random);
    let length = changed.len().min(room - CHOICE);
    bytes[CHOICE..CHOICE + length].copy_from_slice(&changed[..length]);
    CHOICE + length
}
