// A list of moves one by one: what each does, and the control bits and the numbers of the four slots after it.

use crate::procedures::{Action, Procedures, Side};
use crate::tagged::{Core, Event, State};

const HEADING: &str =
    "move                           latest  reading  slot   numbers in 00 01 10 11   event";

// So many moves call fewer writes than a tag can count.
const MOST_MOVES: usize = 1_000;

// The moves of rows such as w5, five of the writer, and r2, two of the reader.
pub fn in_moves(rows: &[&str]) -> Result<Vec<Side>, String> {
    let mut moves = Vec::new();
    for row in rows {
        let (side, count) = match row.split_at_checked(1) {
            Some(("w", count)) => (Side::Writer, count),
            Some(("r", count)) => (Side::Reader, count),
            _ => return Err(format!("{row}: wanted a row such as w5 or r2")),
        };
        let count: u8 = count.parse().map_err(|error| format!("{row}: {error}"))?;
        moves.extend(std::iter::repeat(side).take(usize::from(count)));
    }
    if moves.len() > MOST_MOVES {
        return Err(format!("at most {MOST_MOVES} moves are shown"));
    }
    Ok(moves)
}

fn does(action: Action) -> String {
    match action {
        Action::WriterPair => "pair := not reading".to_string(),
        Action::WriterIndex => "index := not slot[pair]".to_string(),
        Action::Store(word) => format!("store word {word}"),
        Action::SetSlot => "slot[pair] := index".to_string(),
        Action::SetLatest => "latest := pair".to_string(),
        Action::ReaderPair => "pair := latest".to_string(),
        Action::Announce => "reading := pair".to_string(),
        Action::ReaderIndex => "index := slot[pair]".to_string(),
        Action::Load(word) => format!("load word {word}"),
        Action::WriterIndexAgain | Action::Nothing => "a wrong move".to_string(),
    }
}

fn event_of(event: Option<Event>) -> String {
    match event {
        None => String::new(),
        Some(Event::WriteCalled(number)) => format!("write {number} called"),
        Some(Event::WriteReturned) => "write returned".to_string(),
        Some(Event::ReadCalled) => "read called".to_string(),
        Some(Event::ReadReturned(read)) => match read.true_number() {
            Some(number) => format!(
                "read of {number} returned, low {} high {}",
                read.low, read.high
            ),
            None => "torn read returned".to_string(),
        },
    }
}

// The numbers of the words of each slot, 00 to 11 by pair and index.
fn numbers(state: &State, n: usize) -> String {
    let slot = |place: u8| {
        let core = Core {
            pair: place > 1,
            index: place % 2 == 1,
        };
        let tags = &state.tags_at(core)[..n];
        tags.iter().map(u8::to_string).collect::<Vec<_>>().join(".")
    };
    (0..4).map(slot).collect::<Vec<_>>().join("  ")
}

pub fn table(procedures: &Procedures, moves: &[Side]) -> String {
    let mut lines = vec![format!("n = {}", procedures.n), HEADING.to_string()];
    let mut state = State::fresh();
    for (place, &side) in moves.iter().enumerate() {
        let (letter, procedure, phase) = match side {
            Side::Writer => ('w', &procedures.writer, state.writer_phase),
            Side::Reader => ('r', &procedures.reader, state.reader_phase),
        };
        let what = does(procedure.moves[usize::from(phase)]);
        let (next, event) = state.step(procedures, side);
        state = next;
        let control = &state.control;
        let [latest, reading] = [control.latest, control.reading].map(u8::from);
        let [slot0, slot1] = control.slot.map(u8::from);
        let line = format!(
            "{place:4} {letter} {what:24} {latest:6} {reading:8}  {slot0} {slot1}   {:>22}   {}",
            numbers(&state, procedures.n),
            event_of(event)
        );
        lines.push(line.trim_end().to_string());
    }
    lines.join("\n")
}
