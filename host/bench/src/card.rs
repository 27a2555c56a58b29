//! Steps through the register window of a card: the keeper's own command, and what the peers make of a step and eight bytes.

use crate::cell::{members, Cell};
use crate::cells::{self, Sketch};
use crate::compare::same;
use crate::jobs::{busy, quiet, Job};
use crate::keeper::{Keeper, Proved};
use crate::plain::Plain;
use crate::tuned::Tuned;

/// The register window, as the keeper has it.
#[repr(C)]
#[derive(Clone, Copy, PartialEq, Eq, Default)]
pub struct Window {
    pub command: u8,
    pub agent: u8,
    pub wish: u8,
    pub answer: u8,
    pub woken: u8,
    pub flags: u8,
    pub mask: u8,
    pub line: u8,
}

/// The command that makes a step, what is added to a refusal's number, and the flags of a waking, of rest and of a refusal.
const STEP: u8 = 1;
const REFUSED_FROM: u8 = 128;
const WOKE: u8 = 1;
const REST: u8 = 2;
const REFUSED: u8 = 4;

/// A peer's command: its step, and the window's bytes.
pub fn by_step<K: Keeper>(cell: &mut Cell, window: &mut Window) {
    if window.command == STEP {
        let answer = K::step(cell, window.agent, window.wish);
        match answer as u8 {
            0 => {
                window.answer = (answer >> 8) as u8;
                window.woken = (answer >> 16) as u8;
                window.flags |= if window.woken > 0 { WOKE } else { 0 };
                window.flags |= if all_rest(cell) { REST } else { 0 };
            }
            number => {
                window.answer = REFUSED_FROM + number;
                window.woken = 0;
                window.flags |= REFUSED;
            }
        }
    }
    window.line = (window.flags & window.mask != 0) as u8;
}

/// Whether all agents are asleep or done.
fn all_rest(cell: &Cell) -> bool {
    members(cell.given).all(|agent| cell.agents[agent as usize].stage >= 7)
}

/// The window of a card that gives step commands and hears of rest and refusals.
fn window() -> Window {
    Window { command: STEP, mask: REST | REFUSED, ..Window::default() }
}

/// The calls of a step job as commands.
fn commands(steps: Job) -> Job {
    match steps {
        Job::Step { start, order } => Job::Command { start, order },
        other => other,
    }
}

/// Steps of the agents one after another in a cell where all of them are asleep or done, which a command has to find out.
fn resting(sketch: Sketch) -> Job {
    let mut start = Box::new(sketch.cell());
    let agents: Vec<u8> = members(start.given).collect();
    while !all_rest(&start) {
        for &agent in &agents {
            Tuned::step(&mut start, agent, 255);
        }
    }
    Job::Step { start, order: agents.iter().cycle().take(400).map(|&agent| (agent, 255)).collect() }
}

/// The rows of commands: the cells of the step rows; and steps and commands where all agents rest.
pub fn rows() -> Vec<(&'static str, Job)> {
    vec![
        ("command, typical, at rest", commands(quiet(cells::typical()))),
        ("command, typical, busy", commands(busy(cells::typical(), 0))),
        ("command, full, at rest", commands(quiet(cells::full().finding_nothing()))),
        ("command, full, busy", commands(busy(cells::full(), 300))),
        ("command, chain, at rest", commands(quiet(cells::chain()))),
        ("command, chain, busy", commands(busy(cells::chain(), 0))),
        ("step, typical, all rest", resting(cells::typical())),
        ("command, typical, all rest", commands(resting(cells::typical()))),
        ("step, full, all rest", resting(cells::full().finding_nothing())),
        ("command, full, all rest", commands(resting(cells::full().finding_nothing()))),
        ("step, chain, all rest", resting(cells::chain())),
        ("command, chain, all rest", commands(resting(cells::chain()))),
    ]
}

/// The commands of an order in one window, on a cell that is set to this start before.
pub fn lap<K: Keeper>(cell: &mut Cell, start: &Cell, order: &[(u8, u8)]) -> u64 {
    let mut window = window();
    *cell = *start;
    order.iter().fold(0, |sum, &(agent, wish)| {
        (window.agent, window.wish) = (agent, wish);
        K::command(cell, &mut window);
        sum + window.answer as u64 + window.line as u64
    })
}

/// The commands of an order by the three: the same windows and cells, or a difference.
pub fn agree(start: &Cell, order: &[(u8, u8)]) -> Result<usize, String> {
    let (mut cells, mut windows) = ([*start; 3], [window(); 3]);
    for &(agent, wish) in order {
        windows.iter_mut().for_each(|window| (window.agent, window.wish) = (agent, wish));
        Plain::command(&mut cells[0], &mut windows[0]);
        Tuned::command(&mut cells[1], &mut windows[1]);
        Proved::command(&mut cells[2], &mut windows[2]);
        same("windows", windows)?;
        same("cells", cells)?;
    }
    Ok(order.len())
}
