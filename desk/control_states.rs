// Tries the control invariant on every control state, reached or not: it holds when fresh, and no move leaves it.

use crate::procedures::Action;
use crate::stages::{ReaderStage, Staged, WriterStage, CONTROL, READER_STAGES, WRITER_STAGES};
use crate::tagged::{Control, Core};

const FRESH: usize = 0;

// The control state whose bits, pairs and indexes are the eight bits of this number.
fn control_of(bits: usize) -> Control {
    let bit = |place: usize| bits >> place & 1 == 1;
    let core = |place| Core {
        pair: bit(place),
        index: bit(place + 1),
    };
    Control {
        latest: bit(0),
        reading: bit(1),
        slot: [bit(2), bit(3)],
        writer: core(4),
        reader: core(6),
    }
}

fn control_states() -> Vec<Staged> {
    let with_reader = |&writer| READER_STAGES.map(|reader| (writer, reader));
    let stages = WRITER_STAGES.iter().flat_map(with_reader);
    let with_bits = |(writer, reader)| {
        (0..256).map(move |bits| Staged {
            control: control_of(bits),
            writer,
            reader,
        })
    };
    stages.flat_map(with_bits).collect()
}

// The moves that the writer may make at a stage, each with the stage after it. A store may be the last or not.
fn writer_moves(stage: WriterStage) -> &'static [(Action, WriterStage)] {
    match stage {
        WriterStage::Idle => &[(Action::WriterPair, WriterStage::HasPair)],
        WriterStage::HasPair => &[(Action::WriterIndex, WriterStage::HasIndex)],
        WriterStage::HasIndex => &[
            (Action::Store(0), WriterStage::HasIndex),
            (Action::SetSlot, WriterStage::HasSet),
        ],
        WriterStage::HasSet => &[(Action::SetLatest, WriterStage::Idle)],
    }
}

// The same of the reader. A load may be the last or not.
fn reader_moves(stage: ReaderStage) -> &'static [(Action, ReaderStage)] {
    match stage {
        ReaderStage::Idle => &[(Action::ReaderPair, ReaderStage::HasPair)],
        ReaderStage::HasPair => &[(Action::Announce, ReaderStage::Announced)],
        ReaderStage::Announced => &[(Action::ReaderIndex, ReaderStage::HasIndex)],
        ReaderStage::HasIndex => &[
            (Action::Load(0), ReaderStage::HasIndex),
            (Action::Load(0), ReaderStage::Idle),
        ],
    }
}

fn acted(control: Control, action: Action) -> Control {
    let mut after = control;
    after.act(action);
    after
}

fn next_states(state: Staged) -> Vec<Staged> {
    let writer = writer_moves(state.writer)
        .iter()
        .map(|&(action, stage)| Staged {
            control: acted(state.control, action),
            writer: stage,
            ..state
        });
    let reader = reader_moves(state.reader)
        .iter()
        .map(|&(action, stage)| Staged {
            control: acted(state.control, action),
            reader: stage,
            ..state
        });
    writer.chain(reader).collect()
}

// The name of the first part of the invariant that a state has not.
fn broken(state: &Staged) -> Option<&'static str> {
    let (name, _) = CONTROL.iter().find(|(_, holds)| !holds(state))?;
    Some(name)
}

// How many steps the state has. None of them may leave the invariant.
fn check_steps(state: Staged) -> Result<usize, String> {
    let states = next_states(state);
    for next in &states {
        if let Some(name) = broken(next) {
            return Err(format!(
                "control, {name}: a step leaves it\nfrom {state:?}\nto {next:?}"
            ));
        }
    }
    Ok(states.len())
}

pub fn check() -> Result<String, String> {
    let states = control_states();
    if let Some(name) = broken(&states[FRESH]) {
        return Err(format!("control, {name}: fails when fresh"));
    }
    let (mut satisfying, mut steps) = (0, 0);
    for state in states.iter().filter(|state| broken(state).is_none()) {
        satisfying += 1;
        steps += check_steps(*state)?;
    }
    let all = states.len();
    Ok(format!(
        "{satisfying} of {all} control states satisfy the control invariant, fresh among them; none of their {steps} steps leaves it"
    ))
}
