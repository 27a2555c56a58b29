//! In what the library's cell differs from the model's.

use model::{Cell, Table, NO_PLACE};

/// "a step that forgets a place writes the same empty value always": in a cell that came from a load, a field that the stage does not use
/// is 0; and an agent that sleeps on no place remembers 64.
pub fn forgotten(table: &Table) -> Result<(), String> {
    for (number, agent) in table.agents_in_use() {
        let none = if agent.stage == 7 { NO_PLACE } else { 0 };
        if agent.remembered_place().is_none() && agent.remembered != none || agent.chosen_place().is_none() && agent.chosen != 0 {
            return Err(format!("agent {number} still remembers a place at stage {}", agent.stage));
        }
    }
    Ok(())
}

/// The first place, order of places, lock or agent in which two cells differ.
pub fn differing(library: &Cell, model: &Cell) -> String {
    for number in 0..64 {
        let (mine, other) = (library.places.get(&number), model.places.get(&number));
        if mine != other {
            return format!("place {number} is {mine:?}, in the model {other:?}");
        }
        let (mine, other) = (library.children.under(number), model.children.under(number));
        if mine != other {
            return format!("the places linked to place {number} have come in the order {mine:?}, in the model {other:?}");
        }
        let (mine, other) = (library.locks.get(&number), model.locks.get(&number));
        if mine != other {
            return format!("the lock of place {number} is held by {mine:?}, in the model by {other:?}");
        }
        let (mine, other) = (library.agents.get(&number), model.agents.get(&number));
        if mine != other {
            return format!("agent {number} is {mine:?}, in the model {other:?}");
        }
    }
    "the cells differ".to_string()
}
