// Tries every order of moves: a search beside the proof, and no part of it.
// Built by: rustc -O desk/orders.rs -L target/staticlib -l static=host --out-dir target/desk
// Run by: target/desk/orders states N WRITES, which tries the invariants in every state that width N reaches with at most WRITES writes
// called; target/desk/orders control, which tries the control invariant in every control state, reached or not;
// target/desk/orders wrong, which finds out wrong procedures; target/desk/orders lists N MOVES, which has the library run and judge every
// list of MOVES moves; or target/desk/orders moves N ROW .., which shows the moves of rows such as w5 and r2 one by one.

mod command;
mod control_states;
mod invariants;
mod library;
mod log_lines;
mod move_lists;
mod move_table;
mod numbers;
mod plain_judge;
mod procedures;
mod search;
mod stages;
mod table;
mod tagged;
mod tagged_logs;
mod wrong_orders;

use move_lists::LONGEST_LIST;
use procedures::SIMPSON;
use search::{in_rows, search};
use std::error::Error;
use std::process::ExitCode;

fn width(argument: &str) -> Result<usize, Box<dyn Error>> {
    match argument.parse()? {
        n @ 1..=8 => Ok(n),
        _ => Err("N is 1 to 8".into()),
    }
}

fn length(argument: &str) -> Result<usize, Box<dyn Error>> {
    match argument.parse()? {
        moves if moves <= LONGEST_LIST => Ok(moves),
        _ => Err(format!("MOVES is at most {LONGEST_LIST}").into()),
    }
}

// Tries every invariant in every state, and every finished read.
fn check_states(n: usize, writes: u8) -> Result<String, String> {
    let procedures = SIMPSON.with_words(n);
    let searched = search(&procedures, writes, |state, event| {
        invariants::check_move(&procedures, state, event)
    });
    let reached =
        searched.map_err(|found| format!("{}\nafter {}", found.what, in_rows(&found.moves)))?;
    let (states, steps, reads) = (reached.states, reached.steps, reached.reads);
    Ok(format!(
        "n = {n}, at most {writes} writes: {states} states, {steps} steps, {reads} of them finish a read; all invariants hold"
    ))
}

fn run(arguments: &[&str]) -> Result<String, Box<dyn Error>> {
    match arguments {
        ["states", n, writes] => Ok(check_states(width(n)?, writes.parse()?)?),
        ["control"] => Ok(control_states::check()?),
        ["wrong"] => Ok(wrong_orders::print_all()?),
        ["lists", n, moves] => Ok(move_lists::check(width(n)?, length(moves)?)?),
        ["moves", n, rows @ ..] => {
            let procedures = SIMPSON.with_words(width(n)?);
            Ok(move_table::table(&procedures, &move_table::in_moves(rows)?))
        }
        _ => {
            Err("wanted: states N WRITES, control, wrong, lists N MOVES, or moves N ROW ..".into())
        }
    }
}

fn main() -> ExitCode {
    command::main_of("orders", run)
}
