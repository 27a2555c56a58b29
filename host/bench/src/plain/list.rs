//! The listing of a sound table: each part a string, the strings of a place sorted and joined.

use crate::cell::{has, Agent, Cell, Name};

/// The listing.
pub fn listing(cell: &Cell) -> String {
    let text = contents(cell, 0);
    if text.is_empty() {
        return "0".to_string();
    }
    text
}

/// What is in place p: agents, then places, each of the two groups in the order of its texts, joined by bars.
fn contents(cell: &Cell, p: u8) -> String {
    let mut agents = Vec::new();
    for x in 0..64 {
        let agent = &cell.agents[x as usize];
        if has(cell.given, x) && agent.home == p && agent.next < agent.count {
            agents.push(row(agent));
        }
    }
    let mut places = Vec::new();
    for q in 1..64 {
        let place = &cell.places[q as usize];
        if has(cell.used, q) && place.parent == p {
            places.push(format!("{}[{}]", name(&place.name), contents(cell, q)));
        }
    }
    agents.sort();
    places.sort();
    agents.append(&mut places);
    agents.join(" | ")
}

/// A name and, where they do not all equal it, its keys.
fn name(name: &Name) -> String {
    if *name == Name::plain(name.name) {
        return name.name.to_string();
    }
    format!("{}/{}/{}/{}", name.name, name.entering, name.exiting, name.opening)
}

/// An agent's unused actions, joined by full stops.
fn row(agent: &Agent) -> String {
    let mut row = String::new();
    for action in &agent.actions[agent.next as usize..agent.count as usize] {
        if !row.is_empty() {
            row.push('.');
        }
        row.push_str(match action.kind {
            1 => "enter ",
            2 => "exit ",
            3 => "open ",
            _ => "release ",
        });
        row.push_str(&action.name.to_string());
    }
    row
}
