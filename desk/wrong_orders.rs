// Finds out each wrong procedure: the shortest list of moves after which a read is wrong, and after which both cores are in one slot.

use crate::invariants::check_read;
use crate::library;
use crate::log_lines::{events_line, items_line};
use crate::plain_judge;
use crate::procedures::{Outline, Procedures, Side, WRONG};
use crate::search::{in_rows, search, Found, Reached};
use crate::table::{refused, MOST_READS, NO_PLACE};
use crate::tagged::{both_at_words, both_occupy, Event, State};
use crate::tagged_logs::bytes_of;

// A list that calls more writes than this is longer than any that is found: six writes alone take 30 moves or more.
const WRITES: u8 = 6;
const WIDTHS: [usize; 2] = [1, 2];

// Each write has its number for words, so all items are distinct.
fn word(number: u8, _place: usize) -> u32 {
    u32::from(number)
}

fn events_of(procedures: &Procedures, moves: &[Side]) -> Vec<Event> {
    let (mut state, mut events) = (State::fresh(), Vec::new());
    for &side in moves {
        let (next, event) = state.step(procedures, side);
        state = next;
        events.extend(event);
    }
    events
}

// The shortest list after which a finished read has no true number, or not one that its place among the others allows.
fn wrong_read(procedures: &Procedures) -> Result<Reached, Found> {
    search(procedures, WRITES, |_, event| match event {
        Some(Event::ReadReturned(read)) => check_read(read).map(|_| ()),
        _ => Ok(()),
    })
}

// The shortest list to a state of which this is true.
fn shared_slot(
    procedures: &Procedures,
    shared: fn(&State, &Procedures) -> bool,
) -> Result<Reached, Found> {
    search(procedures, WRITES, |state, _| {
        if shared(state, procedures) {
            return Err(String::new());
        }
        Ok(())
    })
}

// All three judges must say that the log's last read is the first without a place.
fn judge_all(log: &[u8], reads: usize) -> Result<(), String> {
    let answers = [
        plain_judge::judge(log, &mut [0; MOST_READS]),
        plain_judge::judge_forward(log, &mut [0; MOST_READS]),
        library::judge(log, &mut [0; 4 * MOST_READS]),
    ];
    if answers != [refused(NO_PLACE, reads); 3] {
        return Err(format!("the judges answer {answers:x?} to {log:x?}"));
    }
    Ok(())
}

fn print_wrong_read(procedures: &Procedures, found: &Found) -> Result<(), String> {
    let events = events_of(procedures, &found.moves);
    let returned = |event: &&Event| matches!(event, Event::ReadReturned(_));
    let reads = events.iter().filter(returned).count();
    let bytes = bytes_of(procedures.n, &events, word);
    judge_all(&bytes, reads)?;
    let log = plain_judge::read(&bytes).map_err(|answer| format!("the log is {answer:x}"))?;
    println!("    wrong read: {}", in_rows(&found.moves));
    println!("      items {}", items_line(&log));
    println!("      {}", events_line(&log));
    println!("      read {reads}: {}; NO PLACE", found.what);
    Ok(())
}

fn print_none(what: &str, reached: &Reached) {
    let states = reached.states;
    println!("    {what}: none in {states} states with at most {WRITES} writes");
}

fn print_shared(what: &str, searched: Result<Reached, Found>) {
    match searched {
        Ok(reached) => print_none(what, &reached),
        Err(found) => println!("    {what}: {}", in_rows(&found.moves)),
    }
}

// Prints what is found with one width, and says whether a wrong read is. With one word a core never occupies a slot.
fn print_with_width(procedures: &Procedures) -> Result<bool, String> {
    println!("  n = {}", procedures.n);
    let searched = wrong_read(procedures);
    match &searched {
        Ok(reached) => print_none("wrong read", reached),
        Err(found) => print_wrong_read(procedures, found)?,
    }
    print_shared(
        "at words of one slot",
        shared_slot(procedures, both_at_words),
    );
    if procedures.n > 1 {
        print_shared("occupying one slot", shared_slot(procedures, both_occupy));
    }
    Ok(searched.is_err())
}

fn print(outline: &Outline) -> Result<(), String> {
    let name = outline.name;
    println!("{name}");
    let mut wrong = false;
    for n in WIDTHS {
        wrong |= print_with_width(&outline.with_words(n))?;
    }
    if !wrong {
        return Err(format!("{name}: no wrong read is found"));
    }
    Ok(())
}

pub fn print_all() -> Result<String, String> {
    for outline in &WRONG {
        print(outline)?;
    }
    let count = WRONG.len();
    Ok(format!(
        "{count} wrong procedures, each found out by a read"
    ))
}
