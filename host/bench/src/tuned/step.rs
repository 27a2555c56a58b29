//! One lock step of an agent, in place, on a table that is sound.

use super::sound::{linked, linked_to};
use crate::cell::{has, members, Action, Agent, Cell, Name, Place, NONE};

/// The word of an answer, with its number.
#[derive(Clone, Copy)]
pub enum Word {
    Looked = 0,
    Took = 1,
    Held = 2,
    Back = 3,
    Slept = 4,
    Left = 5,
    Came = 6,
    Opened = 7,
    Put = 8,
    Asleep = 9,
    Done = 10,
}

/// A word and the number of agents woken.
type Answer = (Word, u32);

pub const ENTER: u8 = 1;
pub const EXIT: u8 = 2;
pub const OPEN: u8 = 3;
pub const RELEASE: u8 = 4;

impl Agent {
    /// Sets the stage with the remembered and the chosen place, 0 where there is none.
    fn stand(&mut self, stage: u8, remembered: u8, chosen: u8) {
        (self.stage, self.remembered, self.chosen) = (stage, remembered, chosen);
    }

    /// Looks for the next action, or is done.
    fn rest(&mut self) {
        self.stand(if self.next < self.count { 0 } else { 8 }, 0, 0);
    }

    pub fn asleep_on(&self, place: u8) -> bool {
        self.stage == 7 && self.remembered == place
    }

    /// Asleep on p, on t, in t, or on no place, while t is dissolved into p.
    pub fn woken_by_opening(&self, p: u8, t: u8) -> bool {
        self.stage == 7 && (self.home == t || [p, t, NONE].contains(&self.remembered))
    }
}

/// The agent's stage decides the step.
pub fn step(cell: &mut Cell, x: u8, wish: u8) -> Answer {
    match cell.agents[x as usize].stage {
        0 => look(cell, x),
        1 => {
            let p = cell.agents[x as usize].remembered;
            take(cell, x, p, (2, p, 0))
        }
        2 => hold(cell, x, wish),
        3 => act(cell, x),
        4 => {
            let home = cell.agents[x as usize].home;
            take(cell, x, home, (5, 0, 0))
        }
        5 => {
            let destination = cell.places[cell.agents[x as usize].home as usize].parent;
            take(cell, x, destination, (6, 0, 0))
        }
        6 => arrive(cell, x),
        7 => (Word::Asleep, 0),
        _ => (Word::Done, 0),
    }
}

/// The next action; a sound table has one at stages 0 to 3.
pub fn next_action(agent: &Agent) -> Action {
    agent.actions[agent.next as usize]
}

/// Locks q for agent x, which then stands at a stage with its remembered and chosen place; or held.
fn take(cell: &mut Cell, x: u8, q: u8, (stage, remembered, chosen): (u8, u8, u8)) -> Answer {
    let lock = &mut cell.locks[q as usize];
    if *lock != NONE {
        return (Word::Held, 0);
    }
    *lock = x;
    cell.agents[x as usize].stand(stage, remembered, chosen);
    (Word::Took, 0)
}

fn release(cell: &mut Cell, q: u8) {
    cell.locks[q as usize] = NONE;
}

/// Wakes the given agents that satisfy a test, and counts them.
fn wake(cell: &mut Cell, sleeps: impl Fn(&Agent) -> bool) -> u32 {
    let mut woken = 0;
    for y in members(cell.given) {
        let agent = &mut cell.agents[y as usize];
        if sleeps(agent) {
            agent.stand(0, 0, 0);
            woken += 1;
        }
    }
    woken
}

fn look(cell: &mut Cell, x: u8) -> Answer {
    let agent = &mut cell.agents[x as usize];
    let (home, place) = (agent.home, &cell.places[agent.home as usize]);
    if matches!(next_action(agent).kind, OPEN | RELEASE) {
        agent.stand(1, home, 0);
        (Word::Looked, 0)
    } else if place.way == 0 {
        agent.stand(1, place.parent, 0);
        (Word::Looked, 0)
    } else {
        agent.stand(7, home, 0);
        (Word::Slept, 0)
    }
}

/// Whether an action of an agent that lives in home and holds p fires on q; exit fires on p itself.
pub fn fires(cell: &Cell, action: Action, home: u8, p: u8, q: u8) -> bool {
    let keyed = has(cell.used, q) && cell.places[q as usize].name.key(action.kind) == action.name;
    keyed
        && match action.kind {
            ENTER => q != home && linked_to(cell, q, p),
            EXIT => q == p && linked(cell, p),
            _ => linked_to(cell, q, p) && !awaited(cell, q),
        }
}

/// Whether something is on its way to q.
fn awaited(cell: &Cell, q: u8) -> bool {
    members(cell.used & !1).any(|r| cell.places[r as usize].way != 0 && cell.places[r as usize].parent == q)
}

/// The wished place if the action fires on it, else the one on which it does that has been there longest.
pub fn choose(cell: &Cell, action: Action, home: u8, p: u8, wish: u8) -> Option<u8> {
    let fits = |q: u8| fires(cell, action, home, p, q);
    if action.kind == EXIT {
        fits(p).then_some(p)
    } else if fits(wish) {
        Some(wish)
    } else {
        cell.order.iter().copied().find(|&q| fits(q))
    }
}

fn hold(cell: &mut Cell, x: u8, wish: u8) -> Answer {
    let agent = &cell.agents[x as usize];
    let (home, p, action) = (agent.home, agent.remembered, next_action(agent));
    if action.kind == RELEASE {
        return put(cell, x, p, action.name);
    }
    if action.kind != OPEN && !linked_to(cell, home, p) {
        release(cell, p);
        cell.agents[x as usize].stand(0, 0, 0);
        return (Word::Back, 0);
    }
    match choose(cell, action, home, p, wish) {
        None => {
            release(cell, p);
            cell.agents[x as usize].stand(7, p, 0);
            (Word::Slept, 0)
        }
        Some(q) => match action.kind {
            ENTER => take(cell, x, home, (3, p, q)),
            EXIT => take(cell, x, home, (3, p, 0)),
            _ => take(cell, x, q, (3, p, q)),
        },
    }
}

/// Puts a new place into p, which is the agent's own, under the smallest unused number; with all in use the agent sleeps on no place.
fn put(cell: &mut Cell, x: u8, p: u8, name: u16) -> Answer {
    release(cell, p);
    let q = cell.used.trailing_ones() as u8;
    if q == NONE {
        cell.agents[x as usize].stand(7, NONE, 0);
        return (Word::Slept, 0);
    }
    cell.places[q as usize] = Place { name: Name::plain(name), parent: p, way: 0 };
    cell.locks[q as usize] = NONE;
    cell.touches[q as usize] = 0;
    cell.used |= 1 << q;
    latest(&mut cell.order, q);
    let woken = wake(cell, |agent| agent.asleep_on(p));
    let agent = &mut cell.agents[x as usize];
    agent.next += 1;
    agent.rest();
    (Word::Put, woken)
}

fn act(cell: &mut Cell, x: u8) -> Answer {
    let agent = &cell.agents[x as usize];
    let (home, p, chosen, action) = (agent.home, agent.remembered, agent.chosen, next_action(agent));
    if !fires(cell, action, home, p, if action.kind == EXIT { p } else { chosen }) {
        release(cell, p);
        release(cell, if action.kind == OPEN { chosen } else { home });
        cell.agents[x as usize].stand(0, 0, 0);
        return (Word::Back, 0);
    }
    match action.kind {
        ENTER => leave(cell, x, p, chosen),
        EXIT => leave(cell, x, p, cell.places[p as usize].parent),
        _ => open(cell, x, p, chosen),
    }
}

fn leave(cell: &mut Cell, x: u8, p: u8, destination: u8) -> Answer {
    let home = cell.agents[x as usize].home;
    let place = &mut cell.places[home as usize];
    (place.parent, place.way) = (destination, 1);
    release(cell, p);
    release(cell, home);
    let woken = wake(cell, |agent| agent.asleep_on(p) || agent.asleep_on(home));
    let agent = &mut cell.agents[x as usize];
    agent.next += 1;
    agent.stand(4, 0, 0);
    (Word::Left, woken)
}

/// Those of a set go to the end of the row, in the order in which they stand in it.
fn later(order: &mut [u8; 64], set: u64) {
    if set == 0 {
        return;
    }
    let (mut stays, mut goes) = (0, 64 - set.count_ones() as usize);
    for q in *order {
        let at = if set >> q & 1 == 1 { &mut goes } else { &mut stays };
        order[*at] = q;
        *at += 1;
    }
}

/// Place q goes to the end of the row.
fn latest(order: &mut [u8; 64], q: u8) {
    if let Some(at) = order.iter().position(|&place| place == q) {
        order.copy_within(at + 1.., at);
        order[63] = q;
    }
}

/// Dissolves place t into p, which is the agent's own; its touches are pooled there.
fn open(cell: &mut Cell, x: u8, p: u8, t: u8) -> Answer {
    for q in members(cell.used) {
        let lock = cell.locks[q as usize];
        if lock < NONE && cell.given >> lock & 1 == 1 {
            let agent = &cell.agents[lock as usize];
            if agent.home == t && agent.stage == 2 {
                cell.locks[q as usize] = NONE;
            }
        }
    }
    release(cell, p);
    release(cell, t);
    let woken = wake(cell, |agent| agent.woken_by_opening(p, t));
    for y in members(cell.given) {
        let agent = &mut cell.agents[y as usize];
        if agent.home == t {
            agent.home = p;
            agent.stand(if agent.stage == 8 { 8 } else { 0 }, 0, 0);
        } else if agent.stage == 1 && agent.remembered == t {
            agent.stand(0, 0, 0);
        }
    }
    let mut freed = 0u64;
    for q in members(cell.used) {
        let place = &mut cell.places[q as usize];
        if place.parent == t {
            place.parent = p;
            freed |= 1 << q;
        }
    }
    later(&mut cell.order, freed);
    cell.places[t as usize] = Place::NONE;
    cell.touches[p as usize] += std::mem::take(&mut cell.touches[t as usize]);
    cell.used &= !(1 << t);
    let agent = &mut cell.agents[x as usize];
    agent.next += 1;
    agent.rest();
    (Word::Opened, woken)
}

fn arrive(cell: &mut Cell, x: u8) -> Answer {
    let home = cell.agents[x as usize].home;
    let destination = cell.places[home as usize].parent;
    let beyond = if linked(cell, destination) { cell.places[destination as usize].parent } else { destination };
    cell.places[home as usize].way = 0;
    latest(&mut cell.order, home);
    release(cell, home);
    release(cell, destination);
    let woken = wake(cell, |agent| agent.asleep_on(home) || agent.asleep_on(destination) || agent.asleep_on(beyond));
    cell.agents[x as usize].rest();
    (Word::Came, woken)
}
