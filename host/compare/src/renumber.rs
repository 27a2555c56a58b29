//! The same cell under other numbers, and cells that are nearly the same. Document 02, W7: "Two hosts numbered the same carriers differently and
//! their listings didn't compare."

use crate::counts::Counts;
use crate::pair::{FILL, LONGEST, ROOM};
use crate::random::Random;
use keeper::lent::{Agent, Lent, Place, PLACES};
use model::{alike, listing, Cell, Table};

/// The same cell under other numbers is listed with the same bytes, in every room; and a cell changed a little is listed so exactly if the
/// model finds the layouts alike.
pub fn compare(random: &mut Random, lent: &Lent, cell: &Cell, counts: &mut Counts) -> Result<(), String> {
    let other = renumbered(random, lent);
    let seen = Table::read(other.bytes()).cell().ok_or("a renumbered cell is unsound")?;
    if !alike(cell, &seen) {
        return Err("the model does not find a renumbered cell alike".to_string());
    }
    let length = listing(cell).len();
    for room in [ROOM, LONGEST, LONGEST - 1, length + 1, length, length - 1] {
        let (one, two) = (listed(lent, room), listed(&other, room));
        if one != two {
            let text = |text: &[u8]| String::from_utf8_lossy(&text[..length.min(room)]).into_owned();
            return Err(format!("with room for {room} bytes the library lists {}, and under other numbers {}", text(&one.1), text(&two.1)));
        }
    }
    counts.renumbered += 1;
    counts.otherwise += (by_number(cell, 0) != by_number(&seen, 0)) as u64;
    let near = changed(random, &other);
    if let Some(seen) = Table::read(near.bytes()).cell() {
        let same = alike(cell, &seen);
        if same != (listed(lent, ROOM) == listed(&near, ROOM)) {
            return Err(format!(
                "the library lists {} and {} alike where the model does not, or not where it does",
                listing(cell),
                listing(&seen)
            ));
        }
        counts.compared += 1;
        counts.alike += same as u64;
    }
    Ok(())
}

/// What the library answers to a listing into a room of this size, and what it leaves there.
fn listed(lent: &Lent, room: usize) -> (u64, Vec<u8>) {
    let mut text = vec![FILL; room];
    (lent.list(&mut text), text)
}

/// Other numbers for the places but the floor, and for the agents.
struct Numbers {
    places: [u8; PLACES],
    agents: [u8; PLACES],
}

impl Numbers {
    /// Any numbers, or the same ones in the opposite order.
    fn new(random: &mut Random) -> Numbers {
        let mut numbers = Numbers { places: std::array::from_fn(|q| q as u8), agents: std::array::from_fn(|x| x as u8) };
        if random.percent(30) {
            numbers.places[1..].reverse();
            numbers.agents.reverse();
        } else {
            random.shuffle(&mut numbers.places[1..]);
            random.shuffle(&mut numbers.agents);
        }
        numbers
    }

    /// The other number of a place; what is no number of a place stays.
    fn place(&self, number: u8) -> u8 {
        self.places.get(number as usize).copied().unwrap_or(number)
    }

    /// The other number of an agent; what is no number of an agent, such as the holder of a free lock, stays.
    fn agent(&self, number: u8) -> u8 {
        self.agents.get(number as usize).copied().unwrap_or(number)
    }
}

/// The set with these other numbers.
fn set(word: u64, other: &[u8; PLACES]) -> u64 {
    (0..PLACES).filter(|number| word >> number & 1 == 1).fold(0, |set, number| set | 1 << other[number])
}

/// The cell with other numbers for its places and agents, everywhere.
fn renumbered(random: &mut Random, lent: &Lent) -> Lent {
    let numbers = Numbers::new(random);
    let mut other = lent.clone();
    for (old, &new) in numbers.places.iter().enumerate() {
        let (place, new) = (lent.places[old], new as usize);
        other.places[new] = Place { parent: numbers.place(place.parent), ..place };
        other.locks[new] = numbers.agent(lent.locks[old]);
        other.touches[new] = lent.touches[old];
    }
    for (old, &new) in numbers.agents.iter().enumerate() {
        let agent = lent.agents[old];
        let [home, remembered, chosen] = [agent.home, agent.remembered, agent.chosen].map(|place| numbers.place(place));
        other.agents[new as usize] = Agent { home, remembered, chosen, ..agent };
    }
    other.used = set(lent.used, &numbers.places);
    other.given = set(lent.given, &numbers.agents);
    other.order = lent.order.map(|place| numbers.place(place));
    other
}

/// The cell with a small change: a place's parent, name or key, an agent's home, an action, or two places or agents changed about. It may be
/// unsound afterwards.
fn changed(random: &mut Random, lent: &Lent) -> Lent {
    let mut other = lent.clone();
    let table = Table::read(lent.bytes());
    let places: Vec<usize> = table.places_in_use().map(|(number, _)| number as usize).filter(|&number| number > 0).collect();
    let agents: Vec<usize> = table.agents_in_use().map(|(number, _)| number as usize).collect();
    if places.is_empty() || agents.is_empty() {
        return other;
    }
    let [p, q] = [(); 2].map(|()| random.pick(&places));
    let [x, y] = [(); 2].map(|()| random.pick(&agents));
    let next = (other.agents[x].next as usize).min(15);
    match random.below(8) {
        0 => other.places[p].parent = q as u8,
        1 => other.places[p].name = lent.places[q].name,
        2 => other.places[p].name.opening = lent.places[q].name.name,
        3 => other.agents[x].home = p as u8,
        4 => other.agents[x].actions[next] = lent.agents[y].actions[next],
        5 => other.agents[x].next = other.agents[x].count.min(other.agents[x].next + 1),
        6 => (other.places[p], other.places[q]) = (lent.places[q], lent.places[p]),
        _ => (other.agents[x].home, other.agents[y].home) = (lent.agents[y].home, lent.agents[x].home),
    }
    other
}

/// What a place holds by number, as it was listed before W7.
fn by_number(cell: &Cell, p: u8) -> String {
    let agents = cell.agents.values().filter(|agent| agent.home == p && !agent.unused.is_empty());
    let mut text: String = agents.map(|agent| format!("{:?} ", agent.unused)).collect();
    for (&number, place) in cell.places.iter().filter(|(_, place)| place.around() == Some(p)) {
        text += &format!("{} {:?} [{}] ", place.name, place.keys, by_number(cell, number));
    }
    text
}
