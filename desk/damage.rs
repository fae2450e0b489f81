// Damages to files, in one number or in the bytes. Nothing is assumed about the fault that one gives.

use crate::numbers::put;
use crate::random::Random;
use crate::table::LONGEST;

// What a damage has to know of a file.
pub struct File {
    pub numbers: Vec<u32>,
    // Where among the numbers its counts stand, each with its limit.
    pub counts: Vec<(usize, u32)>,
    // Where its codes stand, and the last that is listed.
    pub codes: Vec<usize>,
    pub last_code: u32,
}

// A place among the numbers, and the bytes to be stored there.
type Stored = (usize, Vec<u8>);

fn in_bytes(number: u32) -> Vec<u8> {
    let mut bytes = Vec::new();
    put(&mut bytes, number);
    bytes
}

fn other_width(random: &mut Random) -> Stored {
    let widths = [0, 9, 9, 10, 1 << 7, 257, random.next(), 8];
    (0, in_bytes(random.one_of(&widths)))
}

fn other_count(random: &mut Random, file: &File) -> Stored {
    let (place, limit) = random.one_of(&file.counts);
    let (count, any) = (file.numbers[place], random.next());
    let within = [count + 1, count.saturating_sub(1), limit];
    let above = [limit + 1, limit + 1, limit + 128, 2 * limit, any];
    let counts = [&within[..], &above].concat();
    (place, in_bytes(random.one_of(&counts)))
}

fn other_code(random: &mut Random, file: &File) -> Stored {
    let (next, any) = (file.last_code + 1, random.next());
    let (listed, same_byte) = (any % next, 256 + any % next);
    let codes = [next, next, next + 1, 127, 128, listed, same_byte, any];
    let place = random.one_of(&file.codes);
    (place, in_bytes(random.one_of(&codes)))
}

// A number above 32 bits, one whose fifth byte goes on, or one that is not shortest.
fn other_form(random: &mut Random, file: &File) -> Stored {
    let place = random.below(file.numbers.len());
    let mut bytes = in_bytes(file.numbers[place]);
    let any = 0x80 | random.next() as u8;
    match random.below(4) {
        0 => bytes = vec![any, any, any, any, 0x10 << random.below(3) | any & 0x0f],
        1 => bytes = vec![any; 5],
        _ => {
            let last = bytes.len() - 1;
            bytes[last] |= 0x80;
            bytes.push(0);
        }
    }
    (place, bytes)
}

fn other_number(random: &mut Random, file: &File) -> Stored {
    match random.below(4) {
        0 => other_width(random),
        1 => other_count(random, file),
        2 if !file.codes.is_empty() => other_code(random, file),
        _ => other_form(random, file),
    }
}

fn with_stored(file: &File, stored: Option<Stored>) -> Vec<u8> {
    let mut bytes = Vec::new();
    for (place, &number) in file.numbers.iter().enumerate() {
        match &stored {
            Some((at, stored)) if *at == place => bytes.extend(stored),
            _ => put(&mut bytes, number),
        }
    }
    bytes
}

fn flip_bits(random: &mut Random, bytes: &mut [u8]) {
    for _ in 0..=random.below(3) {
        bytes[random.below(bytes.len())] ^= 1 << random.below(8);
    }
}

// Cuts the bytes, changes, inserts or removes one, flips bits, or lengthens them, at times to about the longest.
fn damage_bytes(random: &mut Random, bytes: &mut Vec<u8>) {
    let at = random.below(bytes.len());
    let any = random.next() as u8;
    match random.below(12) {
        0..=2 => bytes.truncate(at),
        3 => bytes[at] = any,
        4 => bytes.insert(at, any),
        5 => drop(bytes.remove(at)),
        6 => flip_bits(random, bytes),
        7 | 8 => bytes.extend(&random.bytes(4)[random.below(4)..]),
        _ => bytes.resize(LONGEST - 4 + random.below(40), any),
    }
}

// The bytes of a file that may be damaged in one number and in its bytes, each apart from the other.
pub fn may_be_damaged(random: &mut Random, file: &File) -> Vec<u8> {
    let stored = if random.one_in(4) {
        Some(other_number(random, file))
    } else {
        None
    };
    let mut bytes = with_stored(file, stored);
    if random.one_in(4) {
        damage_bytes(random, &mut bytes);
    }
    bytes
}
