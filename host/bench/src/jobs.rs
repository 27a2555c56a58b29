//! What is measured: jobs that each keeper can do, each a lap of calls.

use crate::card;
use crate::cell::Cell;
use crate::cells::{self, Sketch};
use crate::keeper::Keeper;
use crate::trails::Claim;
use crate::tuned::Tuned;
use crate::walk::{self, walk};
use std::hint::black_box;

/// A lap of calls.
pub enum Job {
    /// The calls of an order on a cell, which is set back before each lap.
    Step { start: Box<Cell>, order: Vec<(u8, u8)> },
    /// Asks, each of one of these cells.
    Ask { cells: Vec<Cell>, order: Vec<(usize, u8, u8)> },
    /// Commits on a cell, which is set back before each lap, of what asks tell there.
    Commit { start: Box<Cell>, order: Vec<(u8, u8, u64)> },
    /// The steps of an order as commands in a card's window, on a cell, which is set back before each lap.
    Command { start: Box<Cell>, order: Vec<(u8, u8)> },
    /// Touch calls on a cell, which is set back before each lap.
    Touch { start: Box<Cell>, order: Vec<(u8, u32)> },
    /// Questions which place of a name a place of the cell is in.
    Nearest { cell: Box<Cell>, order: Vec<(u8, u16)> },
    /// Questions which place of the cell holds or is both of two.
    Common { cell: Box<Cell>, order: Vec<(u8, u8)> },
    /// The load of a file.
    Load { file: Vec<u8> },
    /// The reading of a text.
    Read { text: Vec<u8> },
    /// The listing of a cell into a buffer of this size.
    List { cell: Box<Cell>, room: usize },
    /// The soundness check of a cell.
    Check { cell: Box<Cell> },
    /// Whether all agents are asleep or done.
    Idle { cell: Box<Cell> },
    /// How many step calls can still change a cell, at most.
    Ceiling { cell: Box<Cell> },
    /// A whole walk: a file and an order.
    Walk { file: Vec<u8>, order: Vec<u8> },
    /// The check of a claim.
    Audit { claim: Claim },
    /// What is written of asks, each of an agent with its number.
    Trail { asks: Vec<(u8, u64)> },
    /// A copy of a cell, by no keeper: what a call by value pays, and how far apart two equal things are measured.
    Copy { cell: Box<Cell> },
}

/// A job with its name and the goal that it has, if any.
pub struct Workload {
    pub name: String,
    pub goal: Option<Goal>,
    pub job: Job,
}

/// What the keeper should stay within: so many times the tuned peer, by time and by instructions; or so many times its own step on the same cells, by
/// instructions.
#[derive(Clone, Copy)]
pub enum Goal {
    Tuned(f64),
    Step(f64),
}

/// What a lap writes to.
pub struct Room {
    pub cell: Cell,
    pub text: Vec<u8>,
}

impl Room {
    pub fn new() -> Room {
        Room { cell: Cell::BARE, text: vec![b'#'; walk::ROOM] }
    }
}

impl Job {
    /// The calls of a lap; a walk counts as one.
    pub fn calls(&self) -> usize {
        match self {
            Job::Step { order, .. } | Job::Command { order, .. } | Job::Common { order, .. } => order.len(),
            Job::Ask { order, .. } => order.len(),
            Job::Commit { order, .. } => order.len(),
            Job::Touch { order, .. } => order.len(),
            Job::Nearest { order, .. } => order.len(),
            Job::Trail { asks } => asks.len(),
            _ => 1,
        }
    }

    /// Whether the plain peer has its own call for it; its other calls are the tuned peer's.
    pub fn is_own_of_plain(&self) -> bool {
        !matches!(self, Job::Load { .. } | Job::Copy { .. })
    }

    /// One lap; the answer keeps the calls from being left out.
    pub fn lap<K: Keeper>(&self, room: &mut Room) -> u64 {
        match self {
            Job::Step { start, order } => {
                room.cell = **start;
                order.iter().fold(0, |sum, &(agent, wish)| sum + K::step(&mut room.cell, agent, wish))
            }
            Job::Ask { cells, order } => order.iter().fold(0, |sum, &(at, agent, wish)| sum + K::ask(&cells[at], agent, wish)),
            Job::Commit { start, order } => {
                room.cell = **start;
                order.iter().fold(0, |sum, &(agent, wish, asked)| sum + K::commit(&mut room.cell, agent, wish, asked))
            }
            Job::Command { start, order } => card::lap::<K>(&mut room.cell, start, order),
            Job::Touch { start, order } => {
                room.cell = **start;
                order.iter().fold(0, |sum, &(place, number)| sum + K::touch(&mut room.cell, place, number))
            }
            Job::Nearest { cell, order } => order.iter().fold(0, |sum, &(place, name)| sum + K::nearest(cell, place, name)),
            Job::Common { cell, order } => order.iter().fold(0, |sum, &(place, other)| sum + K::common(cell, place, other)),
            Job::Load { file } => K::load(&mut room.cell, file),
            Job::Read { text } => K::read(&mut room.cell, text),
            Job::List { cell, room: size } => K::list(cell, &mut room.text[..*size]),
            Job::Check { cell } => K::check(cell),
            Job::Idle { cell } => K::idle(cell),
            Job::Ceiling { cell } => K::ceiling(cell),
            Job::Walk { file, order } => walk::<K>(file, order, &mut room.cell, &mut room.text) as u64,
            Job::Audit { claim } => K::audit(&claim.file, &claim.trail, &claim.listing),
            Job::Trail { asks } => asks.iter().fold(0, |sum, &(agent, asked)| sum + K::trail(agent, asked, &mut room.text)),
            Job::Copy { cell } => {
                room.cell = **cell;
                black_box(&room.cell).used
            }
        }
    }
}

/// Calls that change nothing: of agents that are held, asleep or done.
pub fn quiet(sketch: Sketch) -> Job {
    let (start, order) = cells::at_rest(&sketch.cell(), 400);
    Job::Step { start: Box::new(start), order }
}

/// Calls that move places: after so many from the load on, to rest or four hundred.
pub fn busy(sketch: Sketch, before: usize) -> Job {
    let mut start = Box::new(sketch.cell());
    for (agent, wish) in cells::busy(&start, before) {
        Tuned::step(&mut start, agent, wish);
    }
    Job::Step { order: cells::busy(&start, 400), start }
}

/// Asks for the calls of a step job, each of the cell as its step finds it.
pub fn asks(steps: Job) -> Job {
    let (mut cells, mut order) = (Vec::new(), Vec::new());
    each_call(&steps, |cell, agent, wish| {
        if cells.last() != Some(cell) {
            cells.push(*cell);
        }
        order.push((cells.len() - 1, agent, wish));
    });
    Job::Ask { cells, order }
}

/// The calls of a step job as commits of what an ask would tell there.
pub fn commits(steps: Job) -> Job {
    let mut order = Vec::new();
    each_call(&steps, |cell, agent, wish| order.push((agent, wish, Tuned::ask(cell, agent, wish))));
    match steps {
        Job::Step { start, .. } => Job::Commit { start, order },
        other => other,
    }
}

/// Each call of a step job, with the cell before it.
fn each_call(steps: &Job, mut call: impl FnMut(&Cell, u8, u8)) {
    if let Job::Step { start, order } = steps {
        let mut cell = start.clone();
        for &(agent, wish) in order {
            call(&cell, agent, wish);
            Tuned::step(&mut cell, agent, wish);
        }
    }
}
