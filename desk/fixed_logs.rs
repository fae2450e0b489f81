// Logs written by hand, each with the answer and the entries that the rules give it.

use crate::full_logs::{bytes_of, full_log, Kind};
use crate::plain_judge::{Event, Log};
use crate::table::LONGEST;

pub struct Fixed {
    pub name: &'static str,
    pub log: Vec<u8>,
    pub room: usize,
    pub number: u64,
    pub place: u64,
    pub entries: Vec<u32>,
}

// Name, bytes in hex, room, number and place of the answer, entries.
type Line = (&'static str, &'static str, usize, u64, u64, &'static [u32]);

#[rustfmt::skip]
const LINES: &[Line] = &[
    ("P3 empty input", "", 0, 2, 0, &[]),
    ("P4", "01 00 04 00 07 01 02 03 07", 1, 0, 1, &[1]),
    ("P5", "01 00 04 02 00 07 01 03 00", 1, 0, 1, &[0]),
    ("P6", "01 00 05 00 07 01 02 00 08 03 08", 1, 0, 1, &[2]),
    ("P7", "01 00 04 00 07 01 02 03 00", 1, 11, 1, &[]),
    ("P8", "01 00 06 00 07 01 00 07 01 02 03 07", 1, 0, 1, &[2]),
    ("P9", "01 00 05 00 07 02 03 07 02 03 00", 2, 11, 2, &[]),
    ("P10", "01 07 07 02 00 08 01 00 07 03 07 02 03 08", 2, 0, 2, &[0, 1]),
    ("P11", "01 00 00", 0, 0, 0, &[]),
    ("P11 with room", "01 00 00", 3, 0, 0, &[]),
    ("P12", "01 00 01 03 00", 1, 9, 0, &[]),
    ("a read still open", "01 00 03 00 07 01 02", 0, 0, 0, &[]),
    ("P4, more room", "01 00 04 00 07 01 02 03 07", 3, 0, 1, &[1]),
    ("P4, no room", "01 00 04 00 07 01 02 03 07", 0, 10, 1, &[]),
    ("P7, ROOM before NO PLACE", "01 00 04 00 07 01 02 03 00", 0, 10, 1, &[]),
    ("P9, ROOM before NO PLACE", "01 00 05 00 07 02 03 07 02 03 00", 1, 10, 2, &[]),
    ("P12, TURN before ROOM", "01 00 01 03 00", 0, 9, 0, &[]),
    ("a write called twice", "01 00 02 00 07 00 07", 0, 9, 1, &[]),
    ("a write returned twice", "01 00 03 00 07 01 01", 0, 9, 2, &[]),
    ("a read called twice", "01 00 02 02 02", 0, 9, 1, &[]),
    ("a read returned twice", "01 00 03 02 03 00 03 00", 2, 9, 2, &[]),
    ("CODE before TURN", "01 00 02 03 00 04", 1, 6, 5, &[]),
    ("TRAILING before TURN", "01 00 01 03 00 00", 1, 7, 5, &[]),
    ("CUT before TURN", "01 00 02 03 00 03", 1, 2, 6, &[]),
    ("the last of eight words differs",
        "08 01 02 03 04 05 06 07 08 02 02 03 01 02 03 04 05 06 07 09", 1, 11, 1, &[]),
    ("the last of eight words decides",
        "08 01 02 03 04 05 06 07 08 03 02 00 01 02 03 04 05 06 07 09 03 01 02 03 04 05 06 07 09",
        1, 0, 1, &[1]),
    ("the top bit of a word decides",
        "01 80 80 80 80 08 04 02 00 00 03 00 01", 1, 0, 1, &[1]),
    ("a write called after the read returned", "01 00 04 02 03 07 00 07 01", 1, 11, 1, &[]),
    ("the first of three that fit", "01 00 07 02 00 07 01 00 07 01 00 07 03 07", 1, 0, 1, &[1]),
    ("the first of two without a place", "01 00 04 02 03 07 02 03 08", 2, 11, 1, &[]),
    ("width 0", "00 00", 0, 4, 0, &[]),
    ("width 9", "09 00", 0, 4, 0, &[]),
    ("width 8 and no more", "08", 0, 2, 1, &[]),
    ("a width not shortest", "81 00 00 00", 0, 3, 0, &[]),
    ("the largest word", "01 ff ff ff ff 0f 00", 0, 0, 0, &[]),
    ("a word above the largest", "01 ff ff ff ff 10 00", 0, 3, 1, &[]),
    ("a sixth byte wanted", "01 80 80 80 80 80 00", 0, 3, 1, &[]),
    ("a word not shortest", "01 80 00 00", 0, 3, 1, &[]),
    ("a word cut", "01 80", 0, 2, 1, &[]),
    ("4,096 events and none there", "01 00 80 20", 0, 2, 4, &[]),
    ("4,097 events", "01 00 81 20", 0, 5, 2, &[]),
    ("a code not listed", "01 00 01 04", 0, 6, 3, &[]),
    ("a code not shortest", "01 00 01 82 00", 0, 3, 3, &[]),
    ("a byte after the last event", "01 00 00 00", 0, 7, 3, &[]),
];

fn from_hex(hex: &str) -> Vec<u8> {
    let bytes = hex.split_whitespace();
    bytes
        .map(|byte| u8::from_str_radix(byte, 16).expect("two hex digits"))
        .collect()
}

// A log with 2,046 reads. It has 24,576 bytes where the last word, of its one write, takes four of them.
fn longest_log(last_word: u32) -> Vec<u8> {
    let initial = [u32::MAX, u32::MAX, 0, 0, 0, 0, 0, 0];
    let written = [u32::MAX, last_word, 0, 0, 0, 0, 0, 0];
    let mut events = [Event::ReadCalled, Event::ReadReturned(initial)].repeat(2_046);
    events.extend([Event::WriteCalled(written), Event::WriteReturned]);
    bytes_of(&Log {
        n: 2,
        initial,
        events,
    })
}

// A log of 2,048 reads whose count of events is stored as this.
fn with_count(stored: [u8; 2]) -> Vec<u8> {
    let mut log = full_log(Kind::ReadsOnly, 1, &(5..=5));
    log[2..4].copy_from_slice(&stored);
    log
}

fn full_logs() -> Vec<Fixed> {
    let with = |name, log: &[u8], room, number, place, entries: &[u32]| Fixed {
        name,
        log: log.to_vec(),
        room,
        number,
        place,
        entries: entries.to_vec(),
    };
    let (reads, zeros) = (full_log(Kind::ReadsOnly, 1, &(5..=5)), [0; 2_048]);
    let mixed = full_log(Kind::Mixed, 1, &(5..=5));
    let numbers: Vec<u32> = (0..1_024).collect();
    let newest = full_log(Kind::Newest, 1, &(1 << 31..=u32::MAX));
    let longest = longest_log(1 << 21);
    assert!(longest.len() == LONGEST, "the longest log");
    vec![
        with("2,048 reads", &reads, 2_048, 0, 2_048, &zeros),
        with("2,048 reads, more room", &reads, 2_049, 0, 2_048, &zeros),
        with("2,048 reads, short room", &reads, 2_047, 10, 2_048, &[]),
        with("4,097 events", &with_count([0x81, 0x20]), 2_048, 5, 2, &[]),
        with(
            "4,095 events",
            &with_count([0xff, 0x1f]),
            2_048,
            7,
            6_146,
            &[],
        ),
        with("1,024 writes", &mixed, 1_024, 0, 1_024, &numbers),
        with("the newest", &newest, 1_024, 0, 1_024, &[1_024; 1_024]),
        with("24,576 bytes", &longest, 2_048, 0, 2_046, &zeros[2..]),
        with("24,576 bytes, no room", &longest, 0, 10, 2_046, &[]),
        with("24,577 bytes", &longest_log(1 << 28), 2_048, 1, 24_576, &[]),
        with("LONG first", &[0xff; LONGEST + 1], 1, 1, 24_576, &[]),
        with("not LONG", &[0xff; LONGEST], 1, 3, 0, &[]),
    ]
}

pub fn fixed_logs() -> Vec<Fixed> {
    let lines = LINES
        .iter()
        .map(|&(name, hex, room, number, place, entries)| Fixed {
            name,
            log: from_hex(hex),
            room,
            number,
            place,
            entries: entries.to_vec(),
        });
    lines.chain(full_logs()).collect()
}
