// The control invariant: what holds between the control bits, pairs and indexes and the stages of the two cores, whatever n is.
// It is inductive by itself: no move of any control state that has it, reached or not, leads to one that has it not.

use crate::tagged::{Control, Core};

#[derive(Clone, Copy, Debug, PartialEq, Eq, PartialOrd, Ord)]
pub enum WriterStage {
    Idle,
    HasPair,
    // From its index on until slot[pair] is set.
    HasIndex,
    HasSet,
}

#[derive(Clone, Copy, Debug, PartialEq, Eq, PartialOrd, Ord)]
pub enum ReaderStage {
    Idle,
    HasPair,
    Announced,
    HasIndex,
}

pub const WRITER_STAGES: [WriterStage; 4] = [
    WriterStage::Idle,
    WriterStage::HasPair,
    WriterStage::HasIndex,
    WriterStage::HasSet,
];

pub const READER_STAGES: [ReaderStage; 4] = [
    ReaderStage::Idle,
    ReaderStage::HasPair,
    ReaderStage::Announced,
    ReaderStage::HasIndex,
];

#[derive(Clone, Copy, Debug)]
pub struct Staged {
    pub control: Control,
    pub writer: WriterStage,
    pub reader: ReaderStage,
}

impl Staged {
    fn reading_is_rp(&self) -> bool {
        self.control.reading == self.control.reader.pair
    }
}

// The parts of the control invariant by name; wp, wi, rp and ri are the pair and the index of the writer and of the reader.
pub const CONTROL: [(&str, fn(&Staged) -> bool); 5] = [
    ("announced: reading = rp", announced),
    ("writer has its index: wi = not slot[wp]", writer_index),
    ("both at one pair: ri = slot[rp]", both_at_one_pair),
    ("pair only, rp not latest: reading = rp", reader_former),
    (
        "a write is open, wp not latest: reading = latest",
        writer_former,
    ),
];

fn announced(s: &Staged) -> bool {
    s.reader < ReaderStage::Announced || s.reading_is_rp()
}

fn writer_index(s: &Staged) -> bool {
    let Core { pair, index } = s.control.writer;
    s.writer != WriterStage::HasIndex || index != s.control.slot_of(pair)
}

// The reader has its index, the writer its pair or its index, and rp = wp.
fn both_at_one_pair(s: &Staged) -> bool {
    let Core { pair, index } = s.control.reader;
    let writer = [WriterStage::HasPair, WriterStage::HasIndex].contains(&s.writer);
    let both = s.reader == ReaderStage::HasIndex && writer && pair == s.control.writer.pair;
    !both || index == s.control.slot_of(pair)
}

fn reader_former(s: &Staged) -> bool {
    let at_latest = s.control.reader.pair == s.control.latest;
    s.reader != ReaderStage::HasPair || at_latest || s.reading_is_rp()
}

fn writer_former(s: &Staged) -> bool {
    let at_latest = s.control.writer.pair == s.control.latest;
    s.writer == WriterStage::Idle || at_latest || s.control.reading == s.control.latest
}
