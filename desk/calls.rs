// The two calls, each as plain Rust makes it and as the library does, and whether they agree: in the answer with its place, and in every
// byte of what was lent and of the guards around it.

use crate::hex::in_hex;
use crate::table::{number_of, place_of, LONGEST, MOST_READS, ROOM};
use crate::{library, plain, plain_judge};

// An input, and the bytes that are lent for the output.
pub type Call = fn(&[u8], &mut [u8]) -> u64;

// An answer, and what is then in the lent bytes and their guards.
pub type Outcome = (u64, Vec<u8>);

pub struct Calls {
    // The bytes of one thing that the place counts when all is accepted: a byte of a log, or an entry.
    pub unit: usize,
    pub most_bytes: usize,
    pub made: &'static [(&'static str, Call)],
}

// The bytes of an entry.
pub const ENTRY: usize = 4;

pub const RUNS: Calls = Calls {
    unit: 1,
    most_bytes: LONGEST,
    made: &[("plain", plain::run), ("ours", library::run)],
};

pub const JUDGES: Calls = Calls {
    unit: ENTRY,
    most_bytes: ENTRY * MOST_READS,
    made: &[
        ("plain", plain),
        ("plain forward", plain_forward),
        ("ours", library::judge),
    ],
};

// Bytes before and after the lent ones, which no call may touch. They are odd, so that entries do not stand at multiples of four.
pub const GUARD: usize = 29;

// A judge on as many numbers as the bytes hold whole, each put into four of them, lowest first.
fn in_bytes(judge: fn(&[u8], &mut [u32]) -> u64, log: &[u8], entries: &mut [u8]) -> u64 {
    let mut numbers = vec![0; entries.len() / ENTRY];
    let answer = judge(log, &mut numbers);
    let placed = match number_of(answer) {
        0 => &numbers[..place_of(answer)],
        _ => &[],
    };
    for (entry, number) in entries.chunks_exact_mut(ENTRY).zip(placed) {
        entry.copy_from_slice(&number.to_le_bytes());
    }
    answer
}

fn plain(log: &[u8], entries: &mut [u8]) -> u64 {
    in_bytes(plain_judge::judge, log, entries)
}

fn plain_forward(log: &[u8], entries: &mut [u8]) -> u64 {
    in_bytes(plain_judge::judge_forward, log, entries)
}

// Makes a call on an output that holds this before it.
pub fn outcome(call: Call, input: &[u8], fill: &[u8]) -> Outcome {
    let mut lent = fill.to_vec();
    let room = GUARD..fill.len() - GUARD;
    (call(input, &mut lent[room]), lent)
}

fn answer_line((name, (answer, _)): (&str, &Outcome)) -> String {
    format!("{name}: {} {}", number_of(*answer), place_of(*answer))
}

// Says how two outcomes differ, with all that is needed to see it again.
pub fn difference(input: &[u8], of: [(&str, &Outcome); 2]) -> String {
    let [(_, (_, lent)), (_, (_, other))] = of;
    let room = lent.len() - 2 * GUARD;
    let mut lines = vec![format!("input {}", in_hex(input))];
    lines.push(format!("{room} bytes lent"));
    lines.extend(of.map(answer_line));
    if let Some(at) = (0..lent.len()).find(|&at| lent[at] != other[at]) {
        let from_start = at as isize - GUARD as isize;
        let bytes = in_hex(&[lent[at], other[at]]);
        lines.push(format!("at {from_start} of the lent bytes: {bytes}"));
    }
    lines.join("\n")
}

impl Calls {
    // The outcome of all on an output that holds this before, or how one differs from the first.
    pub fn agreed_on(&self, input: &[u8], fill: &[u8]) -> Result<Outcome, String> {
        let (first_name, first_call) = self.made[0];
        let first = outcome(first_call, input, fill);
        for (name, call) in &self.made[1..] {
            let other = outcome(*call, input, fill);
            if other != first {
                return Err(difference(input, [(first_name, &first), (name, &other)]));
            }
        }
        Ok(first)
    }

    // The bytes that the output has to have, 0 where the input is refused before that is asked.
    pub fn needed(&self, input: &[u8]) -> usize {
        let (_, first_call) = self.made[0];
        let answer = first_call(input, &mut []);
        match number_of(answer) {
            ROOM => self.unit * place_of(answer),
            _ => 0,
        }
    }
}
