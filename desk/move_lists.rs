// Every list of so many moves through the library: its run, and the judgement of the run's log.

use crate::library;
use crate::numbers::put;
use crate::procedures::{Procedures, Side, SIDES, SIMPSON};
use crate::search::in_rows;
use crate::tagged::{Event, State};
use crate::tagged_logs::{bytes_of, item_of, put_all, Word};

// No list that has more moves can be tried to the end. None has so many reads.
pub const LONGEST_LIST: usize = 40;

// The items that are written: all distinct, or all equal to the initial one.
#[derive(Clone, Copy)]
struct Items {
    distinct: bool,
    word: Word,
}

const DISTINCT: Items = Items {
    distinct: true,
    word: |number, place| u32::from(number) * 8 + place as u32,
};

const EQUAL: Items = Items {
    distinct: false,
    word: |_, place| place as u32,
};

#[derive(Default)]
struct Count {
    lists: usize,
    reads: usize,
    placed_below: usize,
}

struct Lists {
    procedures: Procedures,
    length: usize,
    items: Items,
    // The move file up to its moves.
    head: Vec<u8>,
    moves: Vec<Side>,
    events: Vec<Event>,
    count: Count,
}

// A move file up to its moves, with an item for every write that so many moves can call.
fn head_of(n: usize, length: usize, items: Items) -> Vec<u8> {
    let writes = length.div_ceil(n + 4);
    let mut head = vec![n as u8];
    put_all(&mut head, &item_of(n, 0, items.word));
    put(&mut head, writes as u32);
    for number in 1..=writes {
        put_all(&mut head, &item_of(n, number as u8, items.word));
    }
    put(&mut head, length as u32);
    head
}

fn true_numbers(events: &[Event]) -> Vec<Option<u8>> {
    let numbers = events.iter().filter_map(|event| match event {
        Event::ReadReturned(read) => Some(read.true_number()),
        _ => None,
    });
    numbers.collect()
}

impl Lists {
    fn new(n: usize, length: usize, items: Items) -> Lists {
        Lists {
            procedures: SIMPSON.with_words(n),
            length,
            items,
            head: head_of(n, length, items),
            moves: Vec::new(),
            events: Vec::new(),
            count: Count::default(),
        }
    }

    // Tries every list that goes on from here.
    fn go_on(&mut self, state: &State) -> Result<(), String> {
        if self.moves.len() == self.length {
            let said = self.check_list();
            return said.map_err(|what| format!("{what}\nafter {}", in_rows(&self.moves)));
        }
        for side in SIDES {
            let (next, event) = state.step(&self.procedures, side);
            let events = self.events.len();
            self.events.extend(event);
            self.moves.push(side);
            self.go_on(&next)?;
            self.moves.pop();
            self.events.truncate(events);
        }
        Ok(())
    }

    // The run must be accepted and write the log that the tags give, in exactly its room.
    fn check_list(&mut self) -> Result<(), String> {
        let mut file = self.head.clone();
        let code = |side: &Side| u8::from(*side == Side::Reader);
        file.extend(self.moves.iter().map(code));
        let expected = bytes_of(self.procedures.n, &self.events, self.items.word);
        let mut log = vec![0; expected.len()];
        let answer = library::run(&file, &mut log);
        if answer != expected.len() as u64 || log != expected {
            return Err(format!(
                "the run answers {answer:x} with {log:x?}, not {expected:x?}"
            ));
        }
        self.count.lists += 1;
        self.check_placing(&log)
    }

    // The judge must place every read.
    fn check_placing(&mut self, log: &[u8]) -> Result<(), String> {
        let numbers = true_numbers(&self.events);
        let mut entries = [0; 4 * LONGEST_LIST];
        let answer = library::judge(log, &mut entries);
        if answer != numbers.len() as u64 {
            return Err(format!("the judge answers {answer:x} to {log:x?}"));
        }
        for (entry, number) in entries.chunks_exact(4).zip(&numbers) {
            let placed = u32::from_le_bytes([entry[0], entry[1], entry[2], entry[3]]);
            let number = number.ok_or("a read has no true number")?;
            self.check_entry(placed, u32::from(number))?;
        }
        Ok(())
    }

    // No entry is above its read's true number; where the items are distinct it is that number.
    fn check_entry(&mut self, placed: u32, number: u32) -> Result<(), String> {
        if placed > number || self.items.distinct && placed < number {
            return Err(format!(
                "a read with the true number {number} is placed at {placed}"
            ));
        }
        self.count.reads += 1;
        self.count.placed_below += usize::from(placed < number);
        Ok(())
    }
}

fn counted(n: usize, length: usize, items: Items) -> Result<Count, String> {
    let mut lists = Lists::new(n, length, items);
    lists.go_on(&State::fresh())?;
    Ok(lists.count)
}

pub fn check(n: usize, length: usize) -> Result<String, String> {
    let Count { lists, reads, .. } = counted(n, length, DISTINCT)?;
    let below = counted(n, length, EQUAL)?.placed_below;
    Ok(format!(
        "n = {n}: all {lists} lists of {length} moves, with {reads} finished reads, run and placed, \
         with distinct items at the true numbers, with equal ones at or below them ({below} below)"
    ))
}
