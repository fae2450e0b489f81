// One input tried on a call: the library and plain Rust get the same file and the same lent bytes, and must answer and leave the
// same. Some things must hold of the answer without plain Rust.

use crate::calls::{Calls, Outcome, ENTRY, GUARD, JUDGES, RUNS};
use crate::hex::in_hex;
use crate::library;
use crate::random::Random;
use crate::table::{number_of, place_of, LONGEST, MOST_EVENTS, MOST_MOVES, MOST_READS};
use crate::table::{CODE, COUNT, CUT, FORM, ITEMS, LONG, NO_PLACE, ROOM, TRAILING, TURN, WIDTH};

// An input begins with so many bytes that choose the room. The rest is the file.
pub const CHOICE: usize = 2;

pub struct Call {
    pub name: &'static str,
    pub writes_logs: bool,
    calls: Calls,
    // The refusals that this call has and the other has not, each with the places that it may have.
    own: &'static [(u64, usize, usize)],
}

static CALLS: [Call; 2] = [
    Call {
        name: "run",
        writes_logs: true,
        calls: RUNS,
        own: &[(ITEMS, 0, MOST_MOVES - 1)],
    },
    Call {
        name: "judge",
        writes_logs: false,
        calls: JUDGES,
        own: &[(TURN, 0, MOST_EVENTS - 1), (NO_PLACE, 1, MOST_READS)],
    },
];

pub fn call_named(name: &str) -> Option<&'static Call> {
    CALLS.iter().find(|call| call.name == name)
}

impl Call {
    // How many bytes are lent: none, a few, about what is needed, or the most that can be.
    fn room(&self, choice: &[u8], file: &[u8]) -> usize {
        let byte = |index| choice.get(index).map_or(0, |&byte| usize::from(byte));
        let (kind, number) = (byte(0), byte(1));
        match kind % 6 {
            0 => 0,
            1 => number,
            2 => self.calls.needed(file).saturating_sub(1 + number % ENTRY),
            3 => self.calls.needed(file),
            4 => self.calls.needed(file) + 1 + number % ENTRY,
            _ => self.calls.most_bytes,
        }
    }

    // Whether the place is one that the answer's number may have.
    fn is_within_limits(&self, answer: u64, file: &[u8], room: usize) -> bool {
        let (number, place) = (number_of(answer), place_of(answer));
        let bytes = self.calls.unit * place;
        match number {
            0 => bytes <= self.calls.most_bytes && bytes <= room,
            LONG => place == LONGEST && file.len() > LONGEST,
            CUT => place <= file.len(),
            FORM | WIDTH | COUNT | CODE | TRAILING => place < file.len(),
            ROOM => bytes <= self.calls.most_bytes && bytes > room,
            _ => {
                let allows = |&(own, least, most)| own == number && least <= place && place <= most;
                self.own.iter().any(allows)
            }
        }
    }

    // The answer of all to an input, or what is wrong with it.
    pub fn try_input(&self, input: &[u8]) -> Result<u64, String> {
        let (choice, file) = input.split_at(input.len().min(CHOICE));
        let room = self.room(choice, file);
        let before = noise(input, GUARD + room + GUARD);
        let outcome = self.calls.agreed_on(file, &before)?;
        let (answer, lent) = &outcome;
        let fault = if !self.is_within_limits(*answer, file, room) {
            Some("no such number, or its place is outside the limits")
        } else {
            self.fault_in_bytes(&outcome, &before)
        };
        match fault {
            None => Ok(*answer),
            Some(fault) => Err(format!(
                "{fault}\ninput {}\n{room} bytes lent\nanswer: {} {}\nlent bytes with guards {}",
                in_hex(file),
                number_of(*answer),
                place_of(*answer),
                in_hex(lent),
            )),
        }
    }

    // Only the first part of the lent bytes may be altered, and an accepted run must have written a log that is accepted.
    fn fault_in_bytes(&self, (answer, lent): &Outcome, before: &[u8]) -> Option<&'static str> {
        let accepted = number_of(*answer) == 0;
        let filled = if accepted { place_of(*answer) } else { 0 };
        let end = GUARD + self.calls.unit * filled;
        if lent[..GUARD] != before[..GUARD] || lent[end..] != before[end..] {
            return Some("bytes outside the answer are altered");
        }
        if accepted && self.writes_logs && !is_placed(&lent[GUARD..end]) {
            return Some("the log of an accepted run is not accepted");
        }
        None
    }
}

// Whether the library's judge accepts a log with room for all the entries that there can be.
fn is_placed(log: &[u8]) -> bool {
    let mut entries = [0; ENTRY * MOST_READS];
    number_of(library::judge(log, &mut entries)) == 0
}

// Bytes that look random and are the same for the same input.
fn noise(input: &[u8], length: usize) -> Vec<u8> {
    let fold = |sum: u64, &byte: &u8| sum.wrapping_mul(31).wrapping_add(u64::from(byte));
    Random::new(input.iter().fold(0, fold)).bytes(length)
}
