// Every state that any order of moves reaches from fresh, in order of how many moves it takes.

use crate::procedures::{Procedures, Side, SIDES};
use crate::tagged::{Event, State};
use std::collections::HashSet;

// How many states were reached and steps made, and how many of those finished a read.
#[derive(Default)]
pub struct Reached {
    pub states: usize,
    pub steps: usize,
    pub reads: usize,
}

// Where the check said no: the moves that lead there, and what it said. No shorter list of moves leads to a no.
pub struct Found {
    pub moves: Vec<Side>,
    pub what: String,
}

// The states in the order in which they were reached, each but the first with the state it comes from and the mover.
struct Tree {
    states: Vec<State>,
    from: Vec<(usize, Side)>,
    seen: HashSet<State>,
}

impl Tree {
    fn new() -> Tree {
        Tree {
            states: vec![State::fresh()],
            from: Vec::new(),
            seen: HashSet::from([State::fresh()]),
        }
    }

    fn add(&mut self, state: State, from: usize, side: Side) {
        if self.seen.insert(state.clone()) {
            self.states.push(state);
            self.from.push((from, side));
        }
    }

    // The moves that lead from fresh to the state with this index.
    fn moves_to(&self, mut index: usize) -> Vec<Side> {
        let mut moves = Vec::new();
        while index > 0 {
            let (from, side) = self.from[index - 1];
            moves.push(side);
            index = from;
        }
        moves.reverse();
        moves
    }
}

// Makes every move of every state, with at most so many writes called, and has each state after a move checked with the move's event.
pub fn search(
    procedures: &Procedures,
    writes: u8,
    check: impl Fn(&State, Option<&Event>) -> Result<(), String>,
) -> Result<Reached, Found> {
    let mut tree = Tree::new();
    let mut reached = Reached::default();
    check(&tree.states[0], None).map_err(|what| Found {
        moves: Vec::new(),
        what,
    })?;
    while reached.states < tree.states.len() {
        let index = reached.states;
        reached.states += 1;
        for side in SIDES {
            let state = &tree.states[index];
            if side == Side::Writer && state.writer_phase == 0 && state.called == writes {
                continue;
            }
            let (next, event) = state.step(procedures, side);
            if let Err(what) = check(&next, event.as_ref()) {
                let mut moves = tree.moves_to(index);
                moves.push(side);
                return Err(Found { moves, what });
            }
            reached.steps += 1;
            reached.reads += usize::from(matches!(event, Some(Event::ReadReturned(_))));
            tree.add(next, index, side);
        }
    }
    Ok(reached)
}

// A list of moves by how many each side makes in a row, such as w5 r4.
pub fn in_rows(moves: &[Side]) -> String {
    if moves.is_empty() {
        return "no move".to_string();
    }
    let rows = moves.chunk_by(|one, next| one == next);
    let row = |row: &[Side]| {
        let side = if row[0] == Side::Writer { 'w' } else { 'r' };
        format!("{side}{}", row.len())
    };
    rows.map(row).collect::<Vec<_>>().join(" ")
}
