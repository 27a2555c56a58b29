//! One lock step of an agent, in place, on a table that is sound.

use super::sound::{linked, linked_to};
use crate::cell::{has, Action, Cell, Name, Place, NONE};

/// The number of a word, and how many agents were woken.
type Answer = (u64, u64);

const LOOKED: u64 = 0;
const TOOK: u64 = 1;
const HELD: u64 = 2;
const BACK: u64 = 3;
const SLEPT: u64 = 4;
const LEFT: u64 = 5;
const CAME: u64 = 6;
const OPENED: u64 = 7;
const PUT: u64 = 8;
const ASLEEP: u64 = 9;
const DONE: u64 = 10;

pub const ENTER: u8 = 1;
pub const EXIT: u8 = 2;
pub const OPEN: u8 = 3;
const RELEASE: u8 = 4;

/// What a step reads of its agent.
struct Mind {
    home: u8,
    remembered: u8,
    chosen: u8,
    action: Action,
}

/// The agent's stage decides the step.
pub fn step(cell: &mut Cell, x: u8, wish: u8) -> Answer {
    let agent = &cell.agents[x as usize];
    let stage = agent.stage;
    let agent = Mind { home: agent.home, remembered: agent.remembered, chosen: agent.chosen, action: agent.action() };
    match stage {
        0 => look(cell, x, &agent),
        1 => take(cell, x, agent.remembered, (2, agent.remembered, 0)),
        2 => hold(cell, x, &agent, wish),
        3 => act(cell, x, &agent),
        4 => take(cell, x, agent.home, (5, 0, 0)),
        5 => take(cell, x, cell.places[agent.home as usize].parent, (6, 0, 0)),
        6 => arrive(cell, x, agent.home),
        7 => (ASLEEP, 0),
        _ => (DONE, 0),
    }
}

/// Agent x stands at a stage with its remembered and chosen place, 0 where there is none.
fn stand(cell: &mut Cell, x: u8, (stage, remembered, chosen): (u8, u8, u8)) {
    let agent = &mut cell.agents[x as usize];
    (agent.stage, agent.remembered, agent.chosen) = (stage, remembered, chosen);
}

/// Agent x looks for its next action, or is done.
fn rest(cell: &mut Cell, x: u8) {
    let stage = if cell.agents[x as usize].has_actions_left() { 0 } else { 8 };
    stand(cell, x, (stage, 0, 0));
}

/// Locks q for agent x, which then stands as given; or held.
fn take(cell: &mut Cell, x: u8, q: u8, stage: (u8, u8, u8)) -> Answer {
    if cell.locks[q as usize] != NONE {
        return (HELD, 0);
    }
    cell.locks[q as usize] = x;
    stand(cell, x, stage);
    (TOOK, 0)
}

/// Wakes the agents that are asleep on one of three places, and counts them.
fn wake(cell: &mut Cell, on: [u8; 3]) -> u64 {
    let mut woken = 0;
    for y in 0..64 {
        let agent = &cell.agents[y as usize];
        if has(cell.given, y) && agent.stage == 7 && on.contains(&agent.remembered) {
            stand(cell, y, (0, 0, 0));
            woken += 1;
        }
    }
    woken
}

fn look(cell: &mut Cell, x: u8, agent: &Mind) -> Answer {
    if agent.action.kind == OPEN || agent.action.kind == RELEASE {
        stand(cell, x, (1, agent.home, 0));
        (LOOKED, 0)
    } else if linked(cell, agent.home) {
        stand(cell, x, (1, cell.places[agent.home as usize].parent, 0));
        (LOOKED, 0)
    } else {
        stand(cell, x, (7, agent.home, 0));
        (SLEPT, 0)
    }
}

/// Whether something is on its way to q.
fn awaited(cell: &Cell, q: u8) -> bool {
    (0..64).any(|r| has(cell.used, r) && cell.places[r as usize].way != 0 && cell.places[r as usize].parent == q)
}

/// Whether enter or open fires on q, for an agent that lives in home and holds p.
fn fires(cell: &Cell, action: Action, home: u8, p: u8, q: u8) -> bool {
    linked_to(cell, q, p)
        && cell.places[q as usize].name.key(action.kind) == action.name
        && if action.kind == ENTER { q != home } else { !awaited(cell, q) }
}

/// Whether exit fires on p.
fn exits(cell: &Cell, key: u16, p: u8) -> bool {
    linked(cell, p) && cell.places[p as usize].name.exiting == key
}

/// The wished place if the action fires on it, else the one on which it does that has been there longest; p for exit.
fn choose(cell: &Cell, action: Action, home: u8, p: u8, wish: u8) -> Option<u8> {
    if action.kind == EXIT {
        exits(cell, action.name, p).then_some(p)
    } else if fires(cell, action, home, p, wish) {
        Some(wish)
    } else {
        cell.order.into_iter().find(|&q| fires(cell, action, home, p, q))
    }
}

/// The place that an ask of agent x tells, or 255.
pub fn chosen(cell: &Cell, x: u8, wish: u8) -> u8 {
    let agent = &cell.agents[x as usize];
    let (home, p, action) = (agent.home, agent.remembered, agent.action());
    let none = 255;
    match agent.stage {
        _ if action.kind == EXIT || action.kind == RELEASE => none,
        2 if action.kind == OPEN || linked_to(cell, home, p) => choose(cell, action, home, p, wish).unwrap_or(none),
        3 if fires(cell, action, home, p, agent.chosen) => agent.chosen,
        _ => none,
    }
}

fn hold(cell: &mut Cell, x: u8, agent: &Mind, wish: u8) -> Answer {
    let (home, p, action) = (agent.home, agent.remembered, agent.action);
    if action.kind == RELEASE {
        return put(cell, x, p, action.name);
    }
    if action.kind != OPEN && !linked_to(cell, home, p) {
        cell.locks[p as usize] = NONE;
        stand(cell, x, (0, 0, 0));
        return (BACK, 0);
    }
    match (choose(cell, action, home, p, wish), action.kind) {
        (None, _) => {
            cell.locks[p as usize] = NONE;
            stand(cell, x, (7, p, 0));
            (SLEPT, 0)
        }
        (Some(q), ENTER) => take(cell, x, home, (3, p, q)),
        (Some(_), EXIT) => take(cell, x, home, (3, p, 0)),
        (Some(q), _) => take(cell, x, q, (3, p, q)),
    }
}

/// Puts a new place into p, which is the agent's own, under the smallest unused number; with all in use the agent sleeps on no place.
fn put(cell: &mut Cell, x: u8, p: u8, name: u16) -> Answer {
    cell.locks[p as usize] = NONE;
    let Some(q) = (0..64).find(|&q| !has(cell.used, q)) else {
        stand(cell, x, (7, NONE, 0));
        return (SLEPT, 0);
    };
    cell.places[q as usize] = Place { name: Name::plain(name), parent: p, way: 0 };
    cell.locks[q as usize] = NONE;
    cell.touches[q as usize] = 0;
    cell.used |= 1 << q;
    latest(cell, q);
    let woken = wake(cell, [p; 3]);
    cell.agents[x as usize].next += 1;
    rest(cell, x);
    (PUT, woken)
}

fn act(cell: &mut Cell, x: u8, agent: &Mind) -> Answer {
    let (home, p, chosen, action) = (agent.home, agent.remembered, agent.chosen, agent.action);
    let still = if action.kind == EXIT { exits(cell, action.name, p) } else { fires(cell, action, home, p, chosen) };
    if !still {
        cell.locks[p as usize] = NONE;
        cell.locks[if action.kind == OPEN { chosen } else { home } as usize] = NONE;
        stand(cell, x, (0, 0, 0));
        return (BACK, 0);
    }
    match action.kind {
        ENTER => leave(cell, x, home, p, chosen),
        EXIT => leave(cell, x, home, p, cell.places[p as usize].parent),
        _ => open(cell, x, p, chosen),
    }
}

fn leave(cell: &mut Cell, x: u8, home: u8, p: u8, destination: u8) -> Answer {
    cell.places[home as usize].parent = destination;
    cell.places[home as usize].way = 1;
    cell.locks[p as usize] = NONE;
    cell.locks[home as usize] = NONE;
    let woken = wake(cell, [p, home, home]);
    stand(cell, x, (4, 0, 0));
    cell.agents[x as usize].next += 1;
    (LEFT, woken)
}

/// Dissolves place t into p, which is the agent's own; its touches are pooled there, and the places in it go to the end of the row.
fn open(cell: &mut Cell, x: u8, p: u8, t: u8) -> Answer {
    for q in 0..64 {
        let lock = cell.locks[q as usize];
        if !has(cell.used, q) || lock >= 64 || !has(cell.given, lock) {
            continue;
        }
        if cell.agents[lock as usize].home == t && cell.agents[lock as usize].stage == 2 {
            cell.locks[q as usize] = NONE;
        }
    }
    let mut woken = 0;
    for y in 0..64 {
        if !has(cell.given, y) {
            continue;
        }
        let (stage, remembered) = (cell.agents[y as usize].stage, cell.agents[y as usize].remembered);
        if cell.agents[y as usize].home == t {
            cell.agents[y as usize].home = p;
            stand(cell, y, (if stage == 8 { 8 } else { 0 }, 0, 0));
        } else if stage == 1 && remembered == t || stage == 7 && [p, t, NONE].contains(&remembered) {
            stand(cell, y, (0, 0, 0));
        }
        if stage == 7 && cell.agents[y as usize].stage == 0 {
            woken += 1;
        }
    }
    let row = cell.order;
    let freed = |q: u8| has(cell.used, q) && cell.places[q as usize].parent == t;
    let (mut stay, mut go) = (0, row.iter().filter(|&&q| !freed(q)).count());
    for q in row {
        let at = if freed(q) { &mut go } else { &mut stay };
        cell.order[*at] = q;
        *at += 1;
    }
    for q in 0..64 {
        if has(cell.used, q) && cell.places[q as usize].parent == t {
            cell.places[q as usize].parent = p;
        }
    }
    cell.places[t as usize] = Place::NONE;
    cell.touches[p as usize] += cell.touches[t as usize];
    cell.touches[t as usize] = 0;
    cell.used &= !(1 << t);
    cell.locks[p as usize] = NONE;
    cell.locks[t as usize] = NONE;
    cell.agents[x as usize].next += 1;
    rest(cell, x);
    (OPENED, woken)
}

/// Place q goes to the end of the row.
fn latest(cell: &mut Cell, q: u8) {
    for at in 0..63 {
        if cell.order[at] == q {
            cell.order.swap(at, at + 1);
        }
    }
}

fn arrive(cell: &mut Cell, x: u8, home: u8) -> Answer {
    let destination = cell.places[home as usize].parent;
    let beyond = if linked(cell, destination) { cell.places[destination as usize].parent } else { destination };
    cell.places[home as usize].way = 0;
    latest(cell, home);
    cell.locks[home as usize] = NONE;
    cell.locks[destination as usize] = NONE;
    let woken = wake(cell, [home, destination, beyond]);
    rest(cell, x);
    (CAME, woken)
}
