// Changes a move file or a log number by number, and mends what the change spoils, so that more files come to be run or judged.

use crate::numbers::put;
use crate::random::Random;
use crate::table::{MOST_ITEMS, MOST_MOVES};

// Limits, their neighbours, and words of one to five bytes.
const NUMBERS: [u32; 20] = [
    0,
    1,
    2,
    3,
    4,
    7,
    8,
    9,
    127,
    128,
    255,
    256,
    4_096,
    4_097,
    16_383,
    16_384,
    2_097_152,
    268_435_456,
    2_147_483_648,
    4_294_967_295,
];

const MOST_CHANGES: usize = 3;
const SHORT_RANGE: usize = 24;

// The numbers of a file, whatever their form; of one that is too great the upper bits are lost.
fn numbers_of(file: &[u8]) -> Vec<u32> {
    let mut numbers = Vec::with_capacity(file.len());
    let (mut value, mut shift) = (0, 0);
    for &byte in file {
        value |= u64::from(byte & 127) << shift;
        shift += 7;
        if byte < 128 || shift == 35 {
            numbers.push(value as u32);
            (value, shift) = (0, 0);
        }
    }
    numbers
}

// Replaces a number, or removes, repeats or moves a range of them.
fn change(numbers: &mut Vec<u32>, random: &mut Random) {
    let at = random.below(numbers.len() + 1);
    let rest = numbers.len() - at;
    let limit = if random.one_in(8) { rest } else { SHORT_RANGE };
    let length = random.below(limit.min(rest) + 1);
    let kind = random.below(6);
    match kind {
        0 | 1 if at < numbers.len() => {
            numbers[at] = match random.below(3) {
                0 => random.one_of(&NUMBERS),
                1 => random.one_of(numbers),
                _ => numbers[at] ^ 1,
            }
        }
        2 => drop(numbers.drain(at..at + length)),
        3 => numbers.insert(at, random.one_of(&NUMBERS)),
        _ => {
            let range: Vec<u32> = numbers[at..at + length].to_vec();
            if kind == 4 {
                numbers.drain(at..at + length);
            }
            let to = random.below(numbers.len() + 1);
            numbers.splice(to..to, range);
        }
    }
}

// Puts a width and the initial item. Gives the width.
fn mend_head(from: &mut dyn Iterator<Item = u32>, to: &mut Vec<u32>) -> usize {
    let n = match from.next() {
        Some(n) if (1..=8).contains(&n) => n,
        n => n.unwrap_or(0) % 8 + 1,
    };
    to.push(n);
    to.extend(from.take(n as usize));
    to.resize(1 + n as usize, 0);
    n as usize
}

// A move file with true counts. Mostly the reader makes the moves for which the writer would have no item.
pub fn mended_moves(numbers: &[u32], random: &mut Random) -> Vec<u32> {
    let enough = !random.one_in(3);
    let mut from = numbers.iter().copied();
    let mut to = Vec::with_capacity(numbers.len() + 16);
    let n = mend_head(&mut from, &mut to);
    let mut items = from.next().unwrap_or(0) as usize % (MOST_ITEMS + 1);
    items = items.min(from.len() / n);
    to.push(items as u32);
    to.extend(from.by_ref().take(items * n));
    from.next();
    to.push(from.len().min(MOST_MOVES) as u32);
    let mut writer_moves = 0;
    for side in from.take(MOST_MOVES) {
        let spent = enough && writer_moves == items * (n + 4);
        to.push(if spent { 1 } else { side % 2 });
        writer_moves += usize::from(side % 2 == 0 && !spent);
    }
    to
}

// What is known of a log while its events are mended.
struct Mender {
    n: usize,
    lawful: bool,
    // The initial item, and those of the writes.
    writes: Vec<Vec<u32>>,
    // Whether a write is open, and whether a read is.
    open: [bool; 2],
}

impl Mender {
    // The words behind a code, as many as it wants.
    fn item(&self, code: u32, from: &mut dyn Iterator<Item = u32>) -> Vec<u32> {
        let words = if matches!(code, 0 | 3) { self.n } else { 0 };
        let mut item: Vec<u32> = from.take(words).collect();
        item.resize(words, 0);
        item
    }

    // The numbers of one event. Where all is to be lawful, an event out of turn has none, and some reads get the item of a write shortly
    // before.
    fn event(&mut self, code: u32, mut item: Vec<u32>, random: &mut Random) -> Vec<u32> {
        let (side, returns) = (code as usize / 2, code % 2 == 1);
        if self.lawful && self.open[side] != returns {
            return Vec::new();
        }
        self.open[side] = !returns;
        if code == 0 {
            self.writes.push(item.clone());
        } else if self.lawful && code == 3 && random.one_in(2) {
            let newest = self.writes.len() - 1;
            item = self.writes[newest - random.below(self.writes.len().min(3))].clone();
        }
        item.insert(0, code);
        item
    }
}

// A log with a true count. Mostly it is made lawful.
pub fn mended_log(numbers: &[u32], random: &mut Random) -> Vec<u32> {
    let lawful = !random.one_in(3);
    let mut from = numbers.iter().copied();
    let mut to = Vec::with_capacity(numbers.len() + 16);
    let n = mend_head(&mut from, &mut to);
    let mut mender = Mender {
        n,
        lawful,
        writes: vec![to[1..].to_vec()],
        open: [false; 2],
    };
    let mut count = 0;
    from.next();
    to.push(0);
    while let Some(code) = from.next() {
        let item = mender.item(code % 4, &mut from);
        let event = mender.event(code % 4, item, random);
        count += u32::from(!event.is_empty());
        to.extend(event);
    }
    to[1 + n] = count;
    to
}

type Mend = fn(&[u32], &mut Random) -> Vec<u32>;

// The file changed in a few places, and mostly mended.
pub fn changed(mend: Mend, file: &[u8], random: &mut Random) -> Vec<u8> {
    let mut numbers = numbers_of(file);
    for _ in 0..=random.below(MOST_CHANGES) {
        change(&mut numbers, random);
    }
    if !random.one_in(5) {
        numbers = mend(&numbers, random);
    }
    let mut bytes = Vec::with_capacity(file.len() + 64);
    numbers.iter().for_each(|&number| put(&mut bytes, number));
    bytes
}
