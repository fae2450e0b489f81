// Every small input of both calls, and every damage of one byte to some of them, each with every room.

use crate::calls::{Calls, JUDGES, RUNS};
use crate::numbers::put;
use crate::plain;
use crate::random::Random;
use crate::table::{number_of, TURN};

// How far each part goes.
pub struct Bounds {
    pub string_bytes: u32,
    pub moves: u32,
    pub events: u8,
    // Of so many move files one is damaged, and its log.
    pub one_damaged_in: usize,
}

// What strings are made of: codes, widths and counts, a word, and bytes that go on.
const BYTES: [u8; 7] = [0x00, 0x01, 0x02, 0x03, 0x07, 0x80, 0xff];

// The words of the initial item and of two that are written.
const WORDS: [[u32; 2]; 3] = [[1, 2], [7, 300], [u32::MAX, 8]];

// What may come as an event of a log that has width 1 and initial item 0.
const EVENTS: [&[u8]; 7] = [&[0, 7], &[0, 8], &[1], &[2], &[3, 0], &[3, 7], &[3, 8]];

fn string(length: u32, number: u32) -> Vec<u8> {
    let digit = |place| number / 7u32.pow(place) % 7;
    (0..length)
        .map(|place| BYTES[digit(place) as usize])
        .collect()
}

fn strings(most: u32) -> impl Iterator<Item = Vec<u8>> {
    let of_length = |length| (0..7u32.pow(length)).map(move |number| string(length, number));
    (0..=most).flat_map(of_length)
}

fn put_items(file: &mut Vec<u8>, n: usize, items: &[[u32; 2]]) {
    let words = items.iter().flat_map(|item| &item[..n]);
    words.for_each(|&word| put(file, word));
}

// A move file whose moves are the lowest bits of a number.
fn move_file(n: usize, items: usize, count: u32, moves: u32) -> Vec<u8> {
    let mut file = vec![n as u8];
    put_items(&mut file, n, &WORDS[..1]);
    file.push(items as u8);
    put_items(&mut file, n, &WORDS[1..=items]);
    file.push(count as u8);
    file.extend((0..count).map(|place| (moves >> place & 1) as u8));
    file
}

// Every move file of width 1 or 2 with up to two items and so many moves.
fn move_files(most: u32) -> impl Iterator<Item = Vec<u8>> {
    let heads = (0..6).map(|head| (1 + head % 2, head / 2));
    let counts = move |(n, items)| (0..=most).map(move |count| (n, items, count));
    let lists =
        |(n, items, count)| (0..1u32 << count).map(move |moves| move_file(n, items, count, moves));
    heads.flat_map(counts).flat_map(lists)
}

// Every string that has a byte put in here, or changed, or taken out, or that is cut here.
fn damages_at(file: &[u8], at: usize) -> Vec<Vec<u8>> {
    let (before, after) = file.split_at(at);
    let behind = after.get(1..).unwrap_or_default();
    let put_in = (0..=255).map(|byte| [before, &[byte], after].concat());
    let changed = (0..=255).map(|byte| [before, &[byte], behind].concat());
    let shorter = [[before, behind].concat(), before.to_vec()];
    put_in.chain(changed).chain(shorter).collect()
}

fn compare_strings(most: u32, random: &mut Random) -> Result<usize, String> {
    let mut compared = 0;
    for string in strings(most) {
        RUNS.in_every_room(&string, random)?;
        JUDGES.in_every_room(&string, random)?;
        compared += 1;
    }
    Ok(compared)
}

// Compares the runs of all small move files, and the judges on the logs that they write.
fn compare_move_files(most: u32, random: &mut Random) -> Result<usize, String> {
    let mut compared = 0;
    for file in move_files(most) {
        RUNS.in_every_room(&file, random)?;
        if let Ok(log) = plain::log_of(&file) {
            JUDGES.in_every_room(&log, random)?;
        }
        compared += 1;
    }
    Ok(compared)
}

// Compares the judges on the logs of these lists of events, and gives every list of one event more whose beginning is lawful.
fn compare_lists(
    lists: &[Vec<u8>],
    count: u8,
    random: &mut Random,
) -> Result<Vec<Vec<u8>>, String> {
    let mut longer = Vec::new();
    for events in lists {
        let log = [&[1, 0, count], &events[..]].concat();
        if number_of(JUDGES.in_every_room(&log, random)?) != TURN {
            longer.extend(EVENTS.iter().map(|event| [events, *event].concat()));
        }
    }
    Ok(longer)
}

fn compare_logs(most: u8, random: &mut Random) -> Result<usize, String> {
    let (mut compared, mut lists) = (0, vec![Vec::new()]);
    for count in 0..=most {
        compared += lists.len();
        lists = compare_lists(&lists, count, random)?;
    }
    Ok(compared)
}

// Compares on every damage of one byte to a file.
fn compare_damages(calls: &Calls, file: &[u8], random: &mut Random) -> Result<usize, String> {
    let mut compared = 0;
    for damaged in (0..=file.len()).flat_map(|at| damages_at(file, at)) {
        calls.in_every_room(&damaged, random)?;
        compared += 1;
    }
    Ok(compared)
}

fn compare_damaged_files(bounds: &Bounds, random: &mut Random) -> Result<usize, String> {
    let mut compared = 0;
    for file in move_files(bounds.moves).step_by(bounds.one_damaged_in) {
        compared += compare_damages(&RUNS, &file, random)?;
        if let Ok(log) = plain::log_of(&file) {
            compared += compare_damages(&JUDGES, &log, random)?;
        }
    }
    Ok(compared)
}

pub fn compare(bounds: &Bounds) -> Result<String, String> {
    let mut random = Random::new(1);
    let strings = compare_strings(bounds.string_bytes, &mut random)?;
    let move_files = compare_move_files(bounds.moves, &mut random)?;
    let logs = compare_logs(bounds.events, &mut random)?;
    let damaged = compare_damaged_files(bounds, &mut random)?;
    Ok(format!(
        "{strings} strings, {move_files} move files, {logs} logs and {damaged} damaged ones, all agree in every room"
    ))
}
