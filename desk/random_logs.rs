// Random logs, lawful and damaged.

use crate::damage::{may_be_damaged, File};
use crate::full_logs::numbers_of;
use crate::numbers::Item;
use crate::plain_judge::{Event, Log};
use crate::random::Random;
use crate::table::MOST_EVENTS;

// Words of one to five bytes; the last three have five.
const WORDS: [u32; 12] = [
    0,
    1,
    2,
    7,
    127,
    128,
    16_383,
    16_384,
    2_097_152,
    268_435_456,
    2_147_483_648,
    4_294_967_295,
];

// What is known of a log while its events are made.
struct Maker<'a> {
    random: &'a mut Random,
    n: usize,
    words: [u32; 3],
    writes: Vec<Item>,
    write_open: bool,
    read_open: bool,
    returned: usize,
    low: usize,
    // The number that the read before was meant for.
    last: usize,
    // Whether a read may give an item that it was not meant for.
    slips: bool,
}

impl Maker<'_> {
    // An item that some write has, or one that differs from it in a single word, mostly the last, or any item.
    fn item(&mut self) -> Item {
        match self.random.below(4) {
            0 if !self.writes.is_empty() => self.random.one_of(&self.writes),
            1 if !self.writes.is_empty() => {
                let item = self.random.one_of(&self.writes);
                self.near_miss(item)
            }
            _ => {
                let mut item = [0; 8];
                for word in &mut item[..self.n] {
                    *word = self.random.one_of(&self.words);
                }
                item
            }
        }
    }

    fn near_miss(&mut self, mut item: Item) -> Item {
        let any = self.random.below(self.n);
        let word = self.random.one_of(&[self.n - 1, self.n - 1, any]);
        item[word] = if self.random.one_in(2) {
            item[word] ^ 1 << self.random.below(32)
        } else {
            self.random.one_of(&self.words)
        };
        item
    }

    // The item of a write from low to high and not before the last read's, or sometimes another.
    fn item_read(&mut self) -> Item {
        let (low, high) = (self.low, self.writes.len() - 1);
        let first = low.max(self.last);
        let number = first + self.random.below(high + 1 - first);
        if self.slips && self.random.one_in(8) {
            return match self.random.below(4) {
                0 => self.item(),
                1 => self.near_miss(self.writes[number]),
                2 => self.writes[low + self.random.below(high + 1 - low)],
                _ => self.writes[low.saturating_sub(1)],
            };
        }
        self.last = number;
        self.writes[number]
    }

    fn writer_event(&mut self) -> Event {
        self.write_open = !self.write_open;
        if self.write_open {
            let item = self.item();
            self.writes.push(item);
            return Event::WriteCalled(item);
        }
        self.returned += 1;
        Event::WriteReturned
    }

    fn reader_event(&mut self) -> Event {
        self.read_open = !self.read_open;
        if self.read_open {
            self.low = self.returned;
            return Event::ReadCalled;
        }
        Event::ReadReturned(self.item_read())
    }
}

fn random_count(random: &mut Random) -> usize {
    match random.below(256) {
        0..=47 => random.below(14),
        48..=63 => 60 + random.below(140),
        64..=67 => MOST_EVENTS - random.one_of(&[0, 1]) * random.below(3_800),
        _ => 14 + random.below(46),
    }
}

// A log that is read as lawful, though its reads may have no placing. Calls may be open at its end.
fn lawful_log(random: &mut Random) -> Log {
    let n = 1 + random.below(8);
    let choices = if random.one_in(8) {
        &WORDS[9..]
    } else {
        &WORDS
    };
    let words = [(); 3].map(|()| random.one_of(choices));
    let count = random_count(random);
    let writer_share = 2 + random.below(5);
    let slips = random.one_in(3);
    let mut maker = Maker {
        random,
        n,
        words,
        writes: Vec::new(),
        write_open: false,
        read_open: false,
        returned: 0,
        low: 0,
        last: 0,
        slips,
    };
    let initial = maker.item();
    maker.writes.push(initial);
    let mut events = Vec::with_capacity(count);
    for _ in 0..count {
        events.push(if maker.random.below(8) < writer_share {
            maker.writer_event()
        } else {
            maker.reader_event()
        });
    }
    Log { n, initial, events }
}

// Swaps two events, drops one or doubles one.
fn damage_events(random: &mut Random, events: &mut Vec<Event>) {
    let Some(last) = events.len().checked_sub(1) else {
        return;
    };
    let at = random.below(last + 1);
    match random.below(4) {
        0 => drop(events.remove(at)),
        1 => events.insert(at, events[at]),
        2 => events.swap(at, last.min(at + 1)),
        _ => events.swap(at, random.below(last + 1)),
    }
}

fn words_of(n: usize, event: &Event) -> usize {
    match event {
        Event::WriteCalled(_) | Event::ReadReturned(_) => n,
        Event::WriteReturned | Event::ReadCalled => 0,
    }
}

fn file_of(log: &Log) -> File {
    let mut next = log.n + 2;
    let mut codes = Vec::new();
    for event in &log.events {
        codes.push(next);
        next += 1 + words_of(log.n, event);
    }
    File {
        numbers: numbers_of(log),
        counts: vec![(log.n + 1, MOST_EVENTS as u32)],
        codes,
        last_code: 3,
    }
}

// A log that may be damaged in its events, in one number and in its bytes, each apart from the others.
pub fn random_log(random: &mut Random) -> Vec<u8> {
    let mut log = lawful_log(random);
    if random.one_in(6) {
        damage_events(random, &mut log.events);
    }
    may_be_damaged(random, &file_of(&log))
}
