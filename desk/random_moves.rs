// Random move files, lawful and damaged.

use crate::damage::{may_be_damaged, File};
use crate::random::Random;
use crate::table::{MOST_ITEMS, MOST_MOVES};

const WRITER: u32 = 0;
const READER: u32 = 1;

// Words of one to five bytes.
fn word(random: &mut Random) -> u32 {
    match random.below(16) {
        0 => random.one_of(&[0, 127, 128, u32::MAX]),
        _ => random.next() >> random.below(32),
    }
}

fn words(random: &mut Random, count: usize) -> Vec<u32> {
    (0..count).map(|_| word(random)).collect()
}

// How the sides follow each other.
struct Order {
    // Of eight bursts the writer's, unless they take turns.
    share: usize,
    turns: bool,
    // The moves of a burst, at most or always.
    longest: usize,
    always: bool,
}

fn random_order(random: &mut Random, n: usize) -> Order {
    Order {
        share: random.one_of(&[0, 1, 2, 3, 4, 4, 5, 6, 7, 8]),
        turns: random.one_in(4),
        longest: random.one_of(&[1, 1, 2, 4, n + 3, n + 4, 2 * n + 9]),
        always: random.one_in(2),
    }
}

fn random_sides(random: &mut Random, order: &Order, count: usize) -> Vec<u32> {
    let (mut sides, mut side) = (Vec::new(), READER);
    while sides.len() < count {
        side = if order.turns {
            WRITER + READER - side
        } else if random.below(8) < order.share {
            WRITER
        } else {
            READER
        };
        let burst = if order.always {
            order.longest
        } else {
            1 + random.below(order.longest)
        };
        sides.resize(count.min(sides.len() + burst), side);
    }
    sides
}

// Gives the reader all moves of the writer after so many.
fn limit_writer(sides: &mut [u32], most: usize) {
    let of_writer = sides.iter_mut().filter(|side| **side == WRITER);
    of_writer.skip(most).for_each(|side| *side = READER);
}

fn random_count(random: &mut Random) -> usize {
    match random.below(32) {
        0 | 1 => random.below(6),
        2..=5 => random.below(400),
        6 => MOST_MOVES - random.one_of(&[0, 0, 1]) * random.below(2_000),
        _ => random.below(60),
    }
}

// As many items as writes are called, or fewer, or more.
fn random_items(random: &mut Random, called: usize) -> usize {
    let items = match random.below(8) {
        0 => MOST_ITEMS,
        1 => called + 1 + random.below(20),
        2..=4 => random.below(called + 1),
        _ => called,
    };
    items.min(MOST_ITEMS)
}

fn file_of(random: &mut Random, n: usize, items: usize, sides: &[u32]) -> File {
    let mut numbers = vec![n as u32];
    numbers.extend(words(random, n));
    numbers.push(items as u32);
    numbers.extend(words(random, n * items));
    numbers.push(sides.len() as u32);
    let first_move = numbers.len();
    numbers.extend(sides);
    File {
        counts: vec![
            (n + 1, MOST_ITEMS as u32),
            (first_move - 1, MOST_MOVES as u32),
        ],
        codes: (first_move..numbers.len()).collect(),
        last_code: READER,
        numbers,
    }
}

// A move file. Where too few items are left, mostly the reader moves instead of the writer.
pub fn random_move_file(random: &mut Random) -> Vec<u8> {
    let n = 1 + random.below(8);
    let order = random_order(random, n);
    let count = random_count(random);
    let mut sides = random_sides(random, &order, count);
    let of_writer = sides.iter().filter(|&&side| side == WRITER).count();
    let items = random_items(random, of_writer.div_ceil(n + 4));
    if !random.one_in(3) {
        limit_writer(&mut sides, items * (n + 4));
    }
    let file = file_of(random, n, items, &sides);
    may_be_damaged(random, &file)
}
