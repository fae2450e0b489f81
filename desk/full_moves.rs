// Makes move files that are as full as the limits allow.

use crate::numbers::put;
use crate::random::Random;
use crate::table::{MOST_ITEMS, MOST_MOVES};
use std::ops::RangeInclusive;

fn put_words(file: &mut Vec<u8>, count: usize, words: &RangeInclusive<u32>, random: &mut Random) {
    for _ in 0..count {
        put(file, random.within(words));
    }
}

// A move file of 255 items with such words and 4,096 moves in a pseudo-random order, the reader's where no item is left.
pub fn full_move_file(n: usize, words: &RangeInclusive<u32>) -> Vec<u8> {
    let mut random = Random::new(1);
    let mut file = vec![n as u8];
    put_words(&mut file, n, words, &mut random);
    put(&mut file, MOST_ITEMS as u32);
    put_words(&mut file, MOST_ITEMS * n, words, &mut random);
    put(&mut file, MOST_MOVES as u32);
    let mut writer_moves = MOST_ITEMS * (n + 4);
    for _ in 0..MOST_MOVES {
        let writer = random.one_in(2) && writer_moves > 0;
        writer_moves -= usize::from(writer);
        file.push(u8::from(!writer));
    }
    file
}
