//! The term itself, places within places, and the moves of the calculus made in it. There is no stage, no lock, no touch and no way in it.

use crate::cell::{Action, Cell, Keys, Kind};
use crate::listing::{actions, joined, name};
use std::collections::BTreeMap;

/// A place with all that stands in it: its agents' rows of unused actions, by their numbers, and its places.
#[derive(Clone, PartialEq, Eq, Debug)]
pub(crate) struct Nested {
    number: u8,
    name: u16,
    keys: Keys,
    agents: BTreeMap<u8, Vec<Action>>,
    places: Vec<Nested>,
}

impl Nested {
    /// The term of a cell that was just loaded: its floor.
    pub(crate) fn of_load(cell: &Cell) -> Nested {
        Nested::place(cell, 0)
    }

    /// The place with this number.
    fn place(cell: &Cell, number: u8) -> Nested {
        let lives = cell.agents.iter().filter(|(_, agent)| agent.home == number);
        let stand = cell.places.iter().filter(|(_, place)| place.linked_to() == Some(number));
        Nested {
            number,
            name: cell.places[&number].name,
            keys: cell.places[&number].keys,
            agents: lives.map(|(&agent, found)| (agent, found.unused.clone())).collect(),
            places: stand.map(|(&inner, _)| Nested::place(cell, inner)).collect(),
        }
    }

    /// The outermost place, from this one inwards, of which this is so.
    fn find(&mut self, so: &dyn Fn(&Nested) -> bool) -> Option<&mut Nested> {
        if so(self) {
            return Some(self);
        }
        self.places.iter_mut().find_map(|inner| inner.find(so))
    }

    /// Where in this place the place stands that the agent lives in, if it stands here.
    fn own(&self, agent: u8) -> Option<usize> {
        self.places.iter().position(|place| place.agents.contains_key(&agent))
    }

    /// Where in this place the one with this number stands, if it stands here and its key fits the action.
    fn fitting(&self, number: u8, action: Action) -> Option<usize> {
        self.places.iter().position(|place| place.number == number && place.keys.fit(action))
    }

    /// "only an agent's next action counts": the agent's, if there is such an agent with an action left.
    pub(crate) fn next_action(&mut self, agent: u8) -> Option<Action> {
        self.find(&|place| place.agents.contains_key(&agent))?.agents[&agent].first().copied()
    }

    /// The move of this agent's next action, made in the floor; the place is the one "entered or opened (255 for exit and release)". None, and
    /// nothing is changed, if the calculus doesn't permit it.
    pub(crate) fn make(&mut self, agent: u8, place: u8) -> Option<()> {
        let action = self.next_action(agent)?;
        match (action.kind, place) {
            (Kind::Enter, _) => self.enter(agent, action, place)?,
            (Kind::Exit, 255) => self.exit(agent, action)?,
            (Kind::Open, _) => self.open(agent, action, place)?,
            (Kind::Release, 255) => self.release(agent, action)?,
            _ => return None,
        }
        self.find(&|place| place.agents.contains_key(&agent))?.agents.get_mut(&agent)?.remove(0);
        Some(())
    }

    /// "enter n if another place named n stands beside the agent's own", named n read with the key for entering (document 02, W6).
    fn enter(&mut self, agent: u8, action: Action, place: u8) -> Option<()> {
        let around = self.find(&|place| place.own(agent).is_some())?;
        let own = around.own(agent)?;
        let entered = around.fitting(place, action).filter(|&entered| entered != own)?;
        let moved = around.places[own].clone();
        around.places[entered].places.push(moved);
        around.places.remove(own);
        Some(())
    }

    /// "exit n if its own stands in a place named n", named n read with the key for exiting (document 02, W6).
    fn exit(&mut self, agent: u8, action: Action) -> Option<()> {
        let outer = self.find(&|place| place.places.iter().any(|left| left.own(agent).is_some()))?;
        let left = outer.places.iter_mut().find(|left| left.own(agent).is_some() && left.keys.fit(action))?;
        let own = left.own(agent)?;
        let moved = left.places.remove(own);
        outer.places.push(moved);
        Some(())
    }

    /// "open n if a place named n stands in its own", named n read with the key for opening (document 02, W6).
    fn open(&mut self, agent: u8, action: Action, place: u8) -> Option<()> {
        let own = self.find(&|place| place.agents.contains_key(&agent))?;
        let opened = own.fitting(place, action)?;
        let Nested { agents, places, .. } = own.places.remove(opened);
        own.agents.extend(agents);
        own.places.extend(places);
        Some(())
    }

    /// Document 02, W11: "permitted while a number is unused: `release n.P` becomes `n[] | P`", "under the smallest number unused", "all keys n".
    fn release(&mut self, agent: u8, Action { name, .. }: Action) -> Option<()> {
        let number = (0..64).find(|&number| self.find(&|place| place.number == number).is_none())?;
        let own = self.find(&|place| place.agents.contains_key(&agent))?;
        own.places.push(Nested { number, name, keys: Keys::of([name; 3]), agents: BTreeMap::new(), places: Vec::new() });
        Some(())
    }

    /// The listing of the floor: "An empty floor is `0`."
    pub(crate) fn listing(&self) -> String {
        Some(self.contents()).filter(|text| !text.is_empty()).unwrap_or("0".to_string())
    }

    /// The contents of the place, in the order of document 02, W7.
    fn contents(&self) -> String {
        let agents = self.agents.values().filter(|unused| !unused.is_empty()).map(|unused| actions(unused));
        let places = self.places.iter().map(|place| format!("{}[{}]", name(place.name, place.keys), place.contents()));
        joined(agents.collect(), places.collect())
    }
}
