// Writes logs, and makes those that are as full as the limits allow.

use crate::numbers::{put, Item};
use crate::plain_judge::{Event, Log};
use crate::random::Random;
use crate::table::LONGEST;
use std::ops::RangeInclusive;

// The numbers that a log's file has, in order.
pub fn numbers_of(log: &Log) -> Vec<u32> {
    let mut numbers = vec![log.n as u32];
    numbers.extend(&log.initial[..log.n]);
    numbers.push(log.events.len() as u32);
    for event in &log.events {
        let (code, words) = match event {
            Event::WriteCalled(item) => (0, &item[..log.n]),
            Event::WriteReturned => (1, &[][..]),
            Event::ReadCalled => (2, &[][..]),
            Event::ReadReturned(item) => (3, &item[..log.n]),
        };
        numbers.push(code);
        numbers.extend(words);
    }
    numbers
}

pub fn bytes_of(log: &Log) -> Vec<u8> {
    let mut bytes = Vec::new();
    for number in numbers_of(log) {
        put(&mut bytes, number);
    }
    bytes
}

#[derive(Clone, Copy)]
pub enum Kind {
    // Reads of the initial item and nothing else.
    ReadsOnly,
    // Each write has a read across its return, which gives its item.
    Mixed,
    // All writes come first, and every read gives the item of the last, which stays open.
    Newest,
}

// The events of so many rounds, each of one write and one read, or of two reads.
fn events_of(kind: Kind, items: &[Item], rounds: usize) -> Vec<Event> {
    let read = |item| [Event::ReadCalled, Event::ReadReturned(item)];
    let written = items[1..=rounds].iter().copied();
    match kind {
        Kind::ReadsOnly => read(items[0]).repeat(2 * rounds),
        Kind::Mixed => {
            let round = |item| {
                let [read_called, read_returned] = read(item);
                let called = Event::WriteCalled(item);
                [called, read_called, Event::WriteReturned, read_returned]
            };
            written.flat_map(round).collect()
        }
        Kind::Newest => {
            let write = |item| [Event::WriteCalled(item), Event::WriteReturned];
            let mut events: Vec<Event> = written.flat_map(write).collect();
            events.pop();
            events.extend(read(items[rounds]).repeat(rounds));
            events
        }
    }
}

fn random_item(n: usize, words: &RangeInclusive<u32>, random: &mut Random) -> Item {
    let mut item = [0; 8];
    for word in &mut item[..n] {
        *word = random.within(words);
    }
    item
}

// A log of the kind with such words and up to 1,024 rounds, as many as 24,576 bytes hold.
pub fn full_log(kind: Kind, n: usize, words: &RangeInclusive<u32>) -> Vec<u8> {
    let mut random = Random::new(1);
    let items: Vec<Item> = (0..=1_024)
        .map(|_| random_item(n, words, &mut random))
        .collect();
    let log_with = |rounds| {
        let (initial, events) = (items[0], events_of(kind, &items, rounds));
        bytes_of(&Log { n, initial, events })
    };
    let mut logs = (0..=1_024).rev().map(log_with);
    logs.find(|log| log.len() <= LONGEST).unwrap_or_default()
}
