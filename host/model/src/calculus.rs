//! The moves that the ambient calculus permits and what each makes of the tree.

use crate::cell::{Action, Cell, Keys, Kind, Places};
use crate::choice::smallest_unused;
use std::collections::BTreeMap;

/// A place as the calculus sees it: its name, its keys, and where it stands (the floor nowhere).
#[derive(Clone, Copy, PartialEq, Eq, Debug)]
pub struct Ambient {
    pub name: u16,
    pub keys: Keys,
    pub stands: Option<u8>,
}

/// A tree as the calculus sees it: its places, and each agent's home and unused actions.
#[derive(Clone, PartialEq, Eq, Debug)]
pub struct Tree {
    pub places: BTreeMap<u8, Ambient>,
    pub agents: BTreeMap<u8, (u8, Vec<Action>)>,
}

/// A move of an agent's next action: `with` is the place entered, the place left, the place opened, or the number under which a place is put.
#[derive(Clone, Copy, PartialEq, Eq, Debug)]
pub struct Move {
    pub agent: u8,
    pub kind: Kind,
    pub with: u8,
}

impl Tree {
    /// The tree of a cell: "A place on its way counts as arrived and its move as made."
    pub fn of(cell: &Cell) -> Tree {
        let agents = cell.agents.iter().map(|(&number, agent)| (number, (agent.home, agent.unused.clone()))).collect();
        Tree { places: standing(&cell.places), agents }
    }
}

/// Each place's name, keys and parent, "the destination for a place on its way".
pub(crate) fn standing(places: &Places) -> BTreeMap<u8, Ambient> {
    places.iter().map(|(&number, place)| (number, Ambient { name: place.name, keys: place.keys, stands: place.around() })).collect()
}

/// "Travelling or not, the calculus permits enter n if another place named n stands beside the agent's own, exit n if its own stands in
/// a place named n, open n if a place named n stands in its own; only an agent's next action counts." Document 02, W6: "An action's number is
/// compared with the key of its kind on the place entered, left or opened, and the calculus rules .. are read with that comparison." W11:
/// "Release counts as a move of the calculus, permitted while a number is unused", and it is made "under the smallest number unused".
pub fn permitted(tree: &Tree) -> Vec<Move> {
    let mut moves = Vec::new();
    for (&agent, (home, unused)) in &tree.agents {
        let Some(action) = unused.first() else { continue };
        if action.kind == Kind::Release {
            moves.extend(smallest_unused(&tree.places).map(|with| Move { agent, kind: Kind::Release, with }));
        }
        let around = tree.places[home].stands;
        for (&with, place) in &tree.places {
            let there = match action.kind {
                Kind::Enter => with != *home && place.stands == around && around.is_some(),
                Kind::Exit => around == Some(with),
                Kind::Open => place.stands == Some(*home),
                Kind::Release => false,
            };
            if there && place.keys.fit(*action) {
                moves.push(Move { agent, kind: action.kind, with });
            }
        }
    }
    moves
}

/// Red Enter, Red Exit and Red Open: the tree after the move, its action used up. Document 02, W11: "`release n.P` becomes `n[] | P`".
pub fn make(tree: &Tree, made: Move) -> Tree {
    let mut after = tree.clone();
    let agent = after.agents.get_mut(&made.agent).expect("the move's agent");
    let home = agent.0;
    let name = agent.1.remove(0).name;
    match made.kind {
        Kind::Enter => after.places.get_mut(&home).expect("a home is in use").stands = Some(made.with),
        Kind::Exit => after.places.get_mut(&home).expect("a home is in use").stands = tree.places[&made.with].stands,
        Kind::Open => {
            after.places.remove(&made.with);
            for place in after.places.values_mut() {
                if place.stands == Some(made.with) {
                    place.stands = Some(home);
                }
            }
            for (lives, _) in after.agents.values_mut() {
                if *lives == made.with {
                    *lives = home;
                }
            }
        }
        Kind::Release => {
            after.places.insert(made.with, Ambient { name, keys: Keys::of([name; 3]), stands: Some(home) });
        }
    }
    after
}
