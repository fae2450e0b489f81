// The writer's and the reader's procedure as lists of actions: Simpson's two, and wrong ones that are near to them.

use self::Action::*;

#[derive(Clone, Copy, PartialEq, Eq)]
pub enum Side {
    Writer,
    Reader,
}

pub const SIDES: [Side; 2] = [Side::Writer, Side::Reader];

// What one move does.
#[derive(Clone, Copy)]
pub enum Action {
    // pair := not reading
    WriterPair,
    // index := not slot[pair]
    WriterIndex,
    // index := not slot[not reading], in a wrong procedure
    WriterIndexAgain,
    // a word of the item goes into the slot (pair, index)
    Store(usize),
    // slot[pair] := index
    SetSlot,
    // latest := pair
    SetLatest,
    // pair := latest
    ReaderPair,
    // reading := pair
    Announce,
    // index := slot[pair]
    ReaderIndex,
    // a word of the slot (pair, index) is taken
    Load(usize),
    // no assignment, in a wrong procedure
    Nothing,
}

// The moves of a call, and how many come before its first word.
pub struct Procedure {
    pub moves: Vec<Action>,
    pub first_word: usize,
}

impl Procedure {
    fn new(opening: &[Action], words: impl Iterator<Item = Action>, closing: &[Action]) -> Self {
        let mut moves = opening.to_vec();
        moves.extend(words);
        moves.extend(closing);
        let first_word = opening.len();
        Procedure { moves, first_word }
    }
}

pub struct Procedures {
    pub n: usize,
    pub writer: Procedure,
    pub reader: Procedure,
}

// Both procedures without their words.
pub struct Outline {
    pub name: &'static str,
    writer_opening: &'static [Action],
    writer_closing: &'static [Action],
    reader_opening: &'static [Action],
}

impl Outline {
    pub fn with_words(&self, n: usize) -> Procedures {
        let (stores, loads) = ((0..n).map(Store), (0..n).map(Load));
        Procedures {
            n,
            writer: Procedure::new(self.writer_opening, stores, self.writer_closing),
            reader: Procedure::new(self.reader_opening, loads, &[]),
        }
    }
}

pub const SIMPSON: Outline = Outline {
    name: "Simpson's",
    writer_opening: &[WriterPair, WriterIndex],
    writer_closing: &[SetSlot, SetLatest],
    reader_opening: &[ReaderPair, Announce, ReaderIndex],
};

pub const WRONG: [Outline; 5] = [
    Outline {
        name: "latest set before slot[pair]",
        writer_closing: &[SetLatest, SetSlot],
        ..SIMPSON
    },
    Outline {
        name: "reading looked at again for the index",
        writer_opening: &[WriterPair, WriterIndexAgain],
        ..SIMPSON
    },
    Outline {
        name: "reading looked at again before slot[pair] is set",
        writer_closing: &[WriterPair, SetSlot, SetLatest],
        ..SIMPSON
    },
    Outline {
        name: "the announcement left out",
        reader_opening: &[ReaderPair, ReaderIndex],
        ..SIMPSON
    },
    Outline {
        name: "the announcement a move that does nothing",
        reader_opening: &[ReaderPair, Nothing, ReaderIndex],
        ..SIMPSON
    },
];
