// The limits of files and the refusal table, as 01 has them. No program uses all of them.
#![allow(dead_code)]

// Bytes of a move file or a log.
pub const LONGEST: usize = 24_576;

pub const MOST_ITEMS: usize = 255;
pub const MOST_MOVES: usize = 4_096;
pub const MOST_EVENTS: usize = 4_096;

// At most half of the events of a log finish a read.
pub const MOST_READS: usize = MOST_EVENTS / 2;

pub const LONG: u64 = 1;
pub const CUT: u64 = 2;
pub const FORM: u64 = 3;
pub const WIDTH: u64 = 4;
pub const COUNT: u64 = 5;
pub const CODE: u64 = 6;
pub const TRAILING: u64 = 7;
pub const ITEMS: u64 = 8;
pub const TURN: u64 = 9;
pub const ROOM: u64 = 10;
pub const NO_PLACE: u64 = 11;

// The names by number, of those that the two calls answer.
pub const NAMES: [&str; 12] = [
    "accepted", "LONG", "CUT", "FORM", "WIDTH", "COUNT", "CODE", "TRAILING", "ITEMS", "TURN",
    "ROOM", "NO PLACE",
];

// The answer with this number and place.
pub fn refused(number: u64, place: usize) -> u64 {
    (number << 32) + place as u64
}

pub fn number_of(answer: u64) -> u64 {
    answer >> 32
}

pub fn place_of(answer: u64) -> usize {
    answer as u32 as usize
}
