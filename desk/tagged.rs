// The machine with a tag for each word, the number of the write that stored it, and with the numbers that the invariants speak of.

use crate::procedures::{Action, Procedure, Procedures, Side};

// The tags of an item's words; those past n stay 0.
pub type Tags = [u8; 8];

#[derive(Clone, Copy, Debug, Default, PartialEq, Eq, Hash)]
pub struct Core {
    pub pair: bool,
    pub index: bool,
}

// The control bits, and the pair and the index of each core.
#[derive(Clone, Copy, Debug, Default, PartialEq, Eq, Hash)]
pub struct Control {
    pub latest: bool,
    pub reading: bool,
    pub slot: [bool; 2],
    pub writer: Core,
    pub reader: Core,
}

impl Control {
    pub fn slot_of(&self, pair: bool) -> bool {
        self.slot[usize::from(pair)]
    }

    pub fn act(&mut self, action: Action) {
        match action {
            Action::WriterPair => self.writer.pair = !self.reading,
            Action::WriterIndex => self.writer.index = !self.slot_of(self.writer.pair),
            Action::WriterIndexAgain => self.writer.index = !self.slot_of(!self.reading),
            Action::SetSlot => self.slot[usize::from(self.writer.pair)] = self.writer.index,
            Action::SetLatest => self.latest = self.writer.pair,
            Action::ReaderPair => self.reader.pair = self.latest,
            Action::Announce => self.reading = self.reader.pair,
            Action::ReaderIndex => self.reader.index = self.slot_of(self.reader.pair),
            Action::Store(_) | Action::Load(_) | Action::Nothing => {}
        }
    }
}

// A finished read: the tags of its n words, its low and high, and the true number of the read before, 0 where there is none.
pub struct Read {
    pub n: usize,
    pub tags: Tags,
    pub low: u8,
    pub high: u8,
    pub before: u8,
}

impl Read {
    // The one write that all n words come from, where there is one.
    pub fn true_number(&self) -> Option<u8> {
        let first = self.tags[0];
        let common = self.tags[..self.n].iter().all(|&tag| tag == first);
        common.then_some(first)
    }
}

pub enum Event {
    WriteCalled(u8),
    WriteReturned,
    ReadCalled,
    ReadReturned(Read),
}

#[derive(Clone, PartialEq, Eq, Hash)]
pub struct State {
    pub control: Control,
    pub writer_phase: u8,
    pub reader_phase: u8,
    pub slots: [[Tags; 2]; 2],
    pub loaded: Tags,
    pub called: u8,
    pub returned: u8,
    // The number of the write that last set slot[p], for each pair p.
    pub shows: [u8; 2],
    // The number that the last read took with its index.
    pub taken: u8,
    // The low of the open read or, where none is open, of the last.
    pub low: u8,
    // The true number of the last finished read.
    pub before: u8,
}

impl State {
    pub fn fresh() -> State {
        State {
            control: Control::default(),
            writer_phase: 0,
            reader_phase: 0,
            slots: [[[0; 8]; 2]; 2],
            loaded: [0; 8],
            called: 0,
            returned: 0,
            shows: [0; 2],
            taken: 0,
            low: 0,
            before: 0,
        }
    }

    pub fn shown_by(&self, pair: bool) -> u8 {
        self.shows[usize::from(pair)]
    }

    pub fn tags_at(&self, core: Core) -> &Tags {
        &self.slots[usize::from(core.pair)][usize::from(core.index)]
    }

    // The state after a move of that side, and the move's event.
    pub fn step(&self, procedures: &Procedures, side: Side) -> (State, Option<Event>) {
        let mut next = self.clone();
        let event = match side {
            Side::Writer => next.writer_move(&procedures.writer),
            Side::Reader => next.reader_move(&procedures.reader, procedures.n),
        };
        (next, event)
    }

    fn writer_move(&mut self, procedure: &Procedure) -> Option<Event> {
        let call = self.writer_phase == 0;
        self.called += u8::from(call);
        self.act(procedure.moves[usize::from(self.writer_phase)]);
        self.writer_phase = phase_after(self.writer_phase, procedure);
        if call {
            return Some(Event::WriteCalled(self.called));
        }
        if self.writer_phase > 0 {
            return None;
        }
        self.returned += 1;
        Some(Event::WriteReturned)
    }

    fn reader_move(&mut self, procedure: &Procedure, n: usize) -> Option<Event> {
        let call = self.reader_phase == 0;
        if call {
            self.low = self.returned;
        }
        self.act(procedure.moves[usize::from(self.reader_phase)]);
        self.reader_phase = phase_after(self.reader_phase, procedure);
        if call {
            return Some(Event::ReadCalled);
        }
        if self.reader_phase > 0 {
            return None;
        }
        let read = Read {
            n,
            tags: self.loaded,
            low: self.low,
            high: self.called,
            before: self.before,
        };
        self.before = read.true_number().unwrap_or(self.before);
        Some(Event::ReadReturned(read))
    }

    fn act(&mut self, action: Action) {
        self.control.act(action);
        let Control { writer, reader, .. } = self.control;
        match action {
            Action::Store(word) => {
                self.slots[usize::from(writer.pair)][usize::from(writer.index)][word] = self.called
            }
            Action::Load(word) => self.loaded[word] = self.tags_at(reader)[word],
            Action::SetSlot => self.shows[usize::from(writer.pair)] = self.called,
            Action::ReaderIndex => self.taken = self.shown_by(reader.pair),
            _ => {}
        }
    }
}

fn phase_after(phase: u8, procedure: &Procedure) -> u8 {
    (phase + 1) % procedure.moves.len() as u8
}

// Both cores have the same slot, and each has a phase such as this.
fn both_in_one_slot(
    state: &State,
    procedures: &Procedures,
    such: impl Fn(&Procedure, usize) -> bool,
) -> bool {
    state.control.writer == state.control.reader
        && such(&procedures.writer, usize::from(state.writer_phase))
        && such(&procedures.reader, usize::from(state.reader_phase))
}

// "A core occupies a slot from just after its first word move until just after its last word move."
pub fn both_occupy(state: &State, procedures: &Procedures) -> bool {
    both_in_one_slot(state, procedures, |procedure, phase| {
        procedure.first_word < phase && phase < procedure.first_word + procedures.n
    })
}

// The next move of either is a word of the slot.
pub fn both_at_words(state: &State, procedures: &Procedures) -> bool {
    both_in_one_slot(state, procedures, |procedure, phase| {
        procedure.first_word <= phase && phase < procedure.first_word + procedures.n
    })
}
