// What holds in every state that a run from fresh reaches, and of every read that it finishes, each by name.

use crate::procedures::Procedures;
use crate::stages::{ReaderStage, Staged, WriterStage, CONTROL};
use crate::tagged::{both_at_words, both_occupy, Core, Event, Read, State, Tags};

// A state with the procedures of its machine and the stages of its cores.
struct View<'a> {
    procedures: &'a Procedures,
    state: &'a State,
    staged: Staged,
}

type Named = (&'static str, fn(&View) -> bool);

// shows[p] is the number of the write that last set slot[p], taken what the last read took with its index.
const NUMBERS: [Named; 9] = [
    ("returned <= shows[latest]", |v| {
        v.state.returned <= v.shown_by_latest()
    }),
    ("shows[p] <= called", |v| {
        v.state.shows.iter().all(|&number| number <= v.state.called)
    }),
    ("writer has set: shows[wp] = called", |v| {
        v.staged.writer != WriterStage::HasSet || v.shown_by_writers() == v.state.called
    }),
    ("a write is open: returned < called", |v| {
        v.staged.writer == WriterStage::Idle || v.state.returned < v.state.called
    }),
    ("taken <= shows[latest]", |v| {
        v.state.taken <= v.shown_by_latest()
    }),
    ("pair and no index: taken <= shows[rp]", |v| {
        !v.before_index() || v.state.taken <= v.shown_by_readers()
    }),
    ("pair and no index: low <= shows[rp]", |v| {
        !v.before_index() || v.state.low <= v.shown_by_readers()
    }),
    ("pair and no index: shows[rp] <= shows[latest]", |v| {
        !v.before_index() || v.shown_by_readers() <= v.shown_by_latest()
    }),
    ("reader has its index: low <= taken", |v| {
        !v.reader_has_index() || v.state.low <= v.state.taken
    }),
];

const WORDS: [Named; 4] = [
    ("slot (p, slot[p]) is tagged shows[p]", slots_in_view),
    ("words stored so far are the write's", stored_so_far),
    ("the slot of a read with its index is tagged taken", |v| {
        !v.reader_has_index()
            || v.all_tagged(v.state.tags_at(v.state.control.reader), v.state.taken)
    }),
    ("words loaded so far are tagged taken", loaded_so_far),
];

const SLOTS: [Named; 2] = [
    ("the cores never occupy the same slot", |v| {
        !both_occupy(v.state, v.procedures)
    }),
    ("no store into the slot of a read with its index", |v| {
        !both_at_words(v.state, v.procedures)
    }),
];

impl View<'_> {
    fn all_tagged(&self, tags: &Tags, number: u8) -> bool {
        first_tagged(tags, self.procedures.n, number)
    }

    // The reader has its pair and not yet its index.
    fn before_index(&self) -> bool {
        [ReaderStage::HasPair, ReaderStage::Announced].contains(&self.staged.reader)
    }

    fn reader_has_index(&self) -> bool {
        self.staged.reader == ReaderStage::HasIndex
    }

    fn shown_by_writers(&self) -> u8 {
        self.state.shown_by(self.state.control.writer.pair)
    }

    fn shown_by_readers(&self) -> u8 {
        self.state.shown_by(self.state.control.reader.pair)
    }

    fn shown_by_latest(&self) -> u8 {
        self.state.shown_by(self.state.control.latest)
    }
}

// So many words have this tag.
fn first_tagged(tags: &Tags, words: usize, number: u8) -> bool {
    tags[..words].iter().all(|&tag| tag == number)
}

fn slots_in_view(v: &View) -> bool {
    [false, true].iter().all(|&pair| {
        let index = v.state.control.slot_of(pair);
        v.all_tagged(
            v.state.tags_at(Core { pair, index }),
            v.state.shown_by(pair),
        )
    })
}

fn stored_so_far(v: &View) -> bool {
    let first_word = v.procedures.writer.first_word;
    let stored = usize::from(v.state.writer_phase).saturating_sub(first_word);
    let tags = v.state.tags_at(v.state.control.writer);
    first_tagged(tags, stored.min(v.procedures.n), v.state.called)
}

fn loaded_so_far(v: &View) -> bool {
    let first_word = v.procedures.reader.first_word;
    let loaded = usize::from(v.state.reader_phase).saturating_sub(first_word);
    first_tagged(&v.state.loaded, loaded, v.state.taken)
}

// The stages of Simpson's two procedures.
fn staged(procedures: &Procedures, state: &State) -> Staged {
    let last = procedures.writer.moves.len() as u8 - 1;
    Staged {
        control: state.control,
        writer: match state.writer_phase {
            0 => WriterStage::Idle,
            1 => WriterStage::HasPair,
            phase if phase < last => WriterStage::HasIndex,
            _ => WriterStage::HasSet,
        },
        reader: match state.reader_phase {
            0 => ReaderStage::Idle,
            1 => ReaderStage::HasPair,
            2 => ReaderStage::Announced,
            _ => ReaderStage::HasIndex,
        },
    }
}

// Every invariant in a state of Simpson's procedures, or the name of the first that fails.
fn check_state(procedures: &Procedures, state: &State) -> Result<(), String> {
    let staged = staged(procedures, state);
    if let Some((name, _)) = CONTROL.iter().find(|(_, holds)| !holds(&staged)) {
        return Err(format!("control, {name}"));
    }
    let view = View {
        procedures,
        state,
        staged,
    };
    for (kind, named) in [
        ("numbers", &NUMBERS[..]),
        ("words", &WORDS),
        ("slots", &SLOTS),
    ] {
        if let Some((name, _)) = named.iter().find(|(_, holds)| !holds(&view)) {
            return Err(format!("{kind}, {name}"));
        }
    }
    Ok(())
}

// A read's true number, between low and high and not below that of the read before, or what it lacks.
pub fn check_read(read: &Read) -> Result<u8, String> {
    let Read {
        low, high, before, ..
    } = read;
    match read.true_number() {
        None => Err(format!("no true number, tags {:?}", &read.tags[..read.n])),
        Some(number) if number < *low => Err(format!("true number {number}, low {low}")),
        Some(number) if number > *high => Err(format!("true number {number}, high {high}")),
        Some(number) if number < *before => {
            Err(format!("true number {number}, the read before {before}"))
        }
        Some(number) => Ok(number),
    }
}

// A move of Simpson's procedures: the invariants in the state after it, and what a finished read has taken.
pub fn check_move(
    procedures: &Procedures,
    state: &State,
    event: Option<&Event>,
) -> Result<(), String> {
    if let Some(Event::ReadReturned(read)) = event {
        let number = check_read(read).map_err(|lacking| format!("finished read: {lacking}"))?;
        if number != state.taken {
            let taken = state.taken;
            return Err(format!(
                "finished read: true number {number}, taken {taken}"
            ));
        }
    }
    check_state(procedures, state)
}
