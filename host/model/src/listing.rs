//! The listing: "A term, in ASCII: a place writes its contents and contents write places."

use crate::cell::{Action, Cell, Keys, Kind};

/// The listing of a cell: the floor's contents; "An empty floor is `0`."
pub fn listing(cell: &Cell) -> String {
    let text = contents(cell, 0);
    if text.is_empty() {
        "0".to_string()
    } else {
        text
    }
}

/// The contents of a place: of agents, "the agents with unused actions". "A place on its way stands in its destination."
fn contents(cell: &Cell, number: u8) -> String {
    let mut agents = Vec::new();
    for agent in cell.agents.values() {
        if agent.home == number && !agent.unused.is_empty() {
            agents.push(actions(&agent.unused));
        }
    }
    let mut places = Vec::new();
    for (&inner, place) in &cell.places {
        if place.around() == Some(number) {
            places.push(format!("{}[{}]", name(place.name, place.keys), contents(cell, inner)));
        }
    }
    joined(agents, places)
}

/// Document 02, W7: "Within contents, agents come first, then places, each group in byte order of its own text, a shorter text before any that
/// continues it"; "joined by ` | `". Strings are compared byte by byte, and a string comes before any that continues it.
pub(crate) fn joined(mut agents: Vec<String>, mut places: Vec<String>) -> String {
    agents.sort();
    places.sort();
    [agents, places].concat().join(" | ")
}

/// Document 02, W6: "A place whose keys all equal its name is listed as before; any other as name and the three keys, a slash before each,
/// then the bracket."
pub(crate) fn name(name: u16, keys: Keys) -> String {
    let [enter, exit, open] = keys.numbers();
    if [enter, exit, open] == [name; 3] {
        name.to_string()
    } else {
        format!("{name}/{enter}/{exit}/{open}")
    }
}

/// "An agent is its unused actions, such as `enter 9.exit 9`." Document 02, W11: "the listing writes it `release 9`".
pub(crate) fn actions(unused: &[Action]) -> String {
    let mut text = String::new();
    for action in unused {
        if !text.is_empty() {
            text.push('.');
        }
        text.push_str(match action.kind {
            Kind::Enter => "enter ",
            Kind::Exit => "exit ",
            Kind::Open => "open ",
            Kind::Release => "release ",
        });
        text.push_str(&action.name.to_string());
    }
    text
}
