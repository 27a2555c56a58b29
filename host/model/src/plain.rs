//! The plain tree: "It is kept beside the cell from each step call's agent, wish and answered word, and from nothing else."

use crate::calculus::Tree;
use crate::cell::{Action, Cell, Kind, Place, Places, Stands};
use crate::choice::{choose, smallest_unused};
use crate::word::Word;
use std::collections::BTreeMap;

/// "It knows each place's name and where it stands, each agent's home and unused actions, which places travel, and a pick for each
/// agent." A travelling place is kept as on its way to where it stands, any other as linked there. It knows of no touches (document 02, W3:
/// "touch calls .., which the plain tree passes over"): each place's count is 0 here. W5: it "knows this order too, from the file and the
/// words came and opened, and picks by it": `arrived` says for each place at which of all arrivals it came, `arrivals` how many there were; a
/// place that was put "is the latest of W5" (W11). W6: it "keeps and compares keys as it does names".
#[derive(Clone, PartialEq, Eq, Debug)]
pub struct Plain {
    pub places: Places,
    pub agents: BTreeMap<u8, (u8, Vec<Action>)>,
    pub picks: BTreeMap<u8, u8>,
    arrived: BTreeMap<u8, usize>,
    arrivals: usize,
}

impl Plain {
    /// "It starts as the file says, with nothing travelling and no picks": the cell is the one just loaded.
    pub fn of_load(cell: &Cell) -> Plain {
        let agents = cell.agents.iter().map(|(&number, agent)| (number, (agent.home, agent.unused.clone()))).collect();
        let places = cell.places.iter().map(|(&number, &place)| (number, Place { touches: 0, ..place })).collect();
        let mut plain = Plain { places, agents, picks: BTreeMap::new(), arrived: BTreeMap::new(), arrivals: 0 };
        cell.children.lists().flat_map(|(_, list)| list).for_each(|&place| plain.arrives(place));
        plain
    }

    /// The place is the latest of all.
    fn arrives(&mut self, place: u8) {
        self.arrivals += 1;
        self.arrived.insert(place, self.arrivals);
    }

    /// The places that stand in this one, travelling ones too, by when they came.
    fn standing_in(&self, parent: u8) -> Vec<u8> {
        let mut found: Vec<u8> = self.places.keys().copied().filter(|number| self.places[number].around() == Some(parent)).collect();
        found.sort_by_key(|number| self.arrived[number]);
        found
    }

    /// One step call that was not refused; "Any other word, or a refusal: nothing."
    pub fn follow(&mut self, agent: u8, wish: u8, word: Word) {
        match word {
            Word::Took => self.took(agent, wish),
            Word::Left => self.left(agent),
            Word::Opened => self.opened(agent),
            Word::Came => self.came(agent),
            Word::Put => self.put(agent),
            _ => {}
        }
    }

    /// "took: the agent's pick becomes the place that stage 2 would choose here with this wish, if any. There p is where its own place
    /// stands (open: its own place)".
    fn took(&mut self, agent: u8, wish: u8) {
        match self.pick(agent, wish) {
            Some(pick) => self.picks.insert(agent, pick),
            None => self.picks.remove(&agent),
        };
    }

    /// The place that stage 2 would choose here with this wish, if any.
    fn pick(&self, agent: u8, wish: u8) -> Option<u8> {
        let (home, unused) = &self.agents[&agent];
        let action = *unused.first()?;
        let p = match action.kind {
            Kind::Open | Kind::Release => *home,
            Kind::Enter | Kind::Exit => self.places[home].around()?,
        };
        choose(&self.places, &self.standing_in(p), *home, p, action, wish)
    }

    /// "left: its own place now stands in the pick (enter), or where the place around it stands (exit), and travels; the action is used
    /// up."
    fn left(&mut self, agent: u8) {
        let home = self.agents[&agent].0;
        let action = self.use_up(agent);
        let stands = match action.kind {
            Kind::Enter => self.picks[&agent],
            _ => {
                let around = self.places[&home].around().expect("an exit leaves a place");
                self.places[&around].around().expect("an exit leaves a place that stands in another")
            }
        };
        self.places.get_mut(&home).expect("a home is in use").stands = Stands::OnItsWay(stands);
    }

    /// "opened: places and agents in the pick go to its own place, the pick's number becomes unused; the action is used up." Document 02,
    /// W5: "children freed by an opening become the latest and keep their order among themselves."
    fn opened(&mut self, agent: u8) {
        let own = self.agents[&agent].0;
        let pick = self.picks[&agent];
        self.use_up(agent);
        self.standing_in(pick).into_iter().for_each(|freed| self.arrives(freed));
        for place in self.places.values_mut() {
            place.stands = match place.stands {
                Stands::Linked(parent) if parent == pick => Stands::Linked(own),
                Stands::OnItsWay(destination) if destination == pick => Stands::OnItsWay(own),
                stands => stands,
            };
        }
        for (home, _) in self.agents.values_mut() {
            if *home == pick {
                *home = own;
            }
        }
        self.places.remove(&pick);
        self.arrived.remove(&pick);
    }

    /// "came: its own place travels no more." Document 02, W5: "A place that comes is the latest".
    fn came(&mut self, agent: u8) {
        let home = self.agents[&agent].0;
        let place = self.places.get_mut(&home).expect("a home is in use");
        place.stands = Stands::Linked(place.around().expect("the floor does not travel"));
        self.arrives(home);
    }

    /// Document 02, W11: "The plain tree .. takes one such move for each put, under the smallest number unused in it": `release n.P` becomes
    /// `n[] | P`. "a put place is the latest of W5."
    fn put(&mut self, agent: u8) {
        let home = self.agents[&agent].0;
        let name = self.use_up(agent).name;
        let number = smallest_unused(&self.places).expect("a put has an unused number");
        self.places.insert(number, Place::fresh(name, home));
        self.arrives(number);
    }

    /// "the action is used up".
    fn use_up(&mut self, agent: u8) -> Action {
        self.agents.get_mut(&agent).expect("the agent is in use").1.remove(0)
    }

    /// The tree as the calculus sees it, "Travelling or not".
    pub fn tree(&self) -> Tree {
        Tree { places: crate::calculus::standing(&self.places), agents: self.agents.clone() }
    }

    /// "The cell equals the plain tree when the same place numbers are in use, with the same names and parents (the destination for a
    /// place on its way), and each agent has the same home and the same unused actions in order." Document 02, W6: keys are compared as names
    /// are.
    pub fn equals(&self, cell: &Cell) -> bool {
        let named = |place: &Place| (place.name, place.keys, place.around());
        self.places.len() == cell.places.len()
            && self.agents.len() == cell.agents.len()
            && self.places.iter().zip(&cell.places).all(|((mine, place), (theirs, other))| mine == theirs && named(place) == named(other))
            && self
                .agents
                .iter()
                .zip(&cell.agents)
                .all(|((mine, (home, unused)), (theirs, agent))| mine == theirs && *home == agent.home && *unused == agent.unused)
    }

    /// An agent that holds both places picked what it chose there: a place for enter and open, none for exit. One on its way that has locked
    /// since with an exit or a release next, or with no action left, has no pick.
    pub fn same_picks(&self, cell: &Cell) -> bool {
        cell.agents.iter().all(|(number, agent)| {
            let pick = self.picks.get(number).copied();
            let chooses = matches!(agent.unused.first(), Some(Action { kind: Kind::Enter | Kind::Open, .. }));
            match agent.stage {
                3 => pick == agent.chosen,
                5 | 6 => chooses || pick.is_none(),
                _ => true,
            }
        })
    }

    /// Document 02, W5: the cell has the places linked to each parent in the order that the plain tree knows.
    pub fn same_order(&self, cell: &Cell) -> bool {
        self.places.keys().all(|&parent| {
            let linked = |number: &u8| self.places[number].linked_to() == Some(parent);
            let known: Vec<u8> = self.standing_in(parent).into_iter().filter(linked).collect();
            known == cell.children.under(parent)
        })
    }
}
