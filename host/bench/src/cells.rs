//! The cells that are measured, as cell files, and the orders that are stepped on them.

use crate::cell::{members, Action, Cell};
use crate::keeper::Keeper;
use crate::tuned::Tuned;

/// Pseudo-random numbers from a fixed seed, so that every run measures the same.
pub struct Random(pub u64);

impl Random {
    pub fn below(&mut self, bound: usize) -> usize {
        self.0 ^= self.0 << 13;
        self.0 ^= self.0 >> 7;
        self.0 ^= self.0 << 17;
        (self.0 % bound as u64) as usize
    }

    pub fn one_of<T: Copy>(&mut self, values: &[T]) -> T {
        values[self.below(values.len())]
    }
}

/// A cell as a file will give it: places 1, 2, .. with parent and name, agents 0, 1, .. with home and actions, and some places' touches.
#[derive(Default)]
pub struct Sketch {
    pub places: Vec<(u8, u16)>,
    pub agents: Vec<(u8, Vec<Action>)>,
    pub touches: Vec<(u8, u32)>,
}

pub fn enter(name: u16) -> Action {
    Action { kind: 1, name }
}

pub fn exit(name: u16) -> Action {
    Action { kind: 2, name }
}

pub fn open(name: u16) -> Action {
    Action { kind: 3, name }
}

pub fn release(name: u16) -> Action {
    Action { kind: 4, name }
}

impl Sketch {
    /// The bytes of its cell file.
    pub fn file(&self) -> Vec<u8> {
        let mut file = Vec::new();
        for (i, &(parent, name)) in self.places.iter().enumerate() {
            let [low, high] = name.to_le_bytes();
            file.extend([1, i as u8 + 1, parent, low, high]);
        }
        for (x, (home, actions)) in self.agents.iter().enumerate() {
            file.extend([2, x as u8, *home]);
            for action in actions {
                let [low, high] = action.name.to_le_bytes();
                file.extend([3, x as u8, action.kind, low, high]);
            }
        }
        for &(place, count) in &self.touches {
            file.extend([5, place]);
            file.extend(count.to_le_bytes());
        }
        file.push(4);
        file
    }

    /// The same cell, but every action names a place that there is none of, so that no move is made.
    pub fn finding_nothing(mut self) -> Sketch {
        self.agents.iter_mut().flat_map(|(_, row)| row).for_each(|action| action.name = 999);
        self
    }

    /// The cell that its file gives.
    pub fn cell(&self) -> Cell {
        let mut cell = Cell::BARE;
        assert_eq!(Tuned::load(&mut cell, &self.file()), 0, "the file is accepted");
        cell
    }
}

/// A bare floor with so many agents without actions on it.
pub fn empty(agents: usize) -> Sketch {
    Sketch { agents: vec![(0, vec![]); agents], ..Sketch::default() }
}

/// The worked example of document 01: two places, two agents, 27 bytes.
pub fn worked() -> Sketch {
    Sketch { places: vec![(0, 7), (0, 9)], agents: vec![(1, vec![enter(9)]), (2, vec![exit(7)])], touches: vec![] }
}

/// Two bonders (20, 21) with a holder each (30, 31), two magazines (40, 41) with trays (50, 51) and a box (70), two capillaries
/// (60, 61); holders, trays and capillaries change places and one agent opens the box.
pub fn typical() -> Sketch {
    let places = vec![(0, 20), (0, 21), (0, 40), (0, 41), (1, 30), (2, 31), (3, 50), (3, 50), (4, 51), (5, 60), (6, 61), (4, 70)];
    let agents = vec![
        (5, vec![exit(20), enter(40), exit(40), enter(21)]),
        (6, vec![exit(21), enter(41), exit(41), enter(20)]),
        (7, vec![exit(40), enter(20), exit(20), enter(40)]),
        (9, vec![exit(41), enter(21), exit(21), enter(41)]),
        (10, vec![exit(30), exit(40), enter(50)]),
        (11, vec![exit(31), enter(51)]),
        (4, vec![open(70)]),
        (0, vec![open(61), open(99)]),
    ];
    Sketch { places, agents, touches: vec![] }
}

/// Places and agents at random: one action in `rare` opens, the others enter or exit.
pub fn random(random: &mut Random, places: usize, agents: usize, actions: usize, names: usize, rare: usize) -> Sketch {
    let name = |random: &mut Random| 1 + random.below(names) as u16;
    let mut sketch = Sketch::default();
    for q in 0..places {
        sketch.places.push((random.below(q + 1) as u8, name(random)));
    }
    for _ in 0..agents {
        let home = random.below(places + 1) as u8;
        let row = (0..actions).map(|_| {
            let kind = if random.below(rare) == 0 { 3 } else { 1 + random.below(2) as u8 };
            Action { kind, name: name(random) }
        });
        let row = row.collect();
        sketch.agents.push((home, row));
    }
    sketch
}

/// 63 places, 64 agents, sixteen actions each.
pub fn full() -> Sketch {
    random(&mut Random(7), 63, 64, 16, 2, 8)
}

/// Eight bonders, in each a carrier (9) and two agents that take turns: each acquires the carrier by opening it and releases it by putting out an
/// empty one, eight times.
pub fn semaphores() -> Sketch {
    let places = (0..8).map(|_| (0, 20)).chain((1..9).map(|bonder| (bonder, 9))).collect();
    let turns = |bonder: u8| (bonder, [open(9), release(9)].repeat(8));
    Sketch { places, agents: (1..9).flat_map(|bonder| [turns(bonder), turns(bonder)]).collect(), touches: vec![] }
}

/// Twelve bonders with four carriers (9) and five agents each: three of them acquire a carrier and release it, eight times, the other two only put
/// out carriers. So soon all numbers are in use: then those that put sleep on no place until an opening wakes them all.
pub fn crowded() -> Sketch {
    let places = (0..12).map(|_| (0, 20)).chain((0..48).map(|carrier| (1 + carrier % 12, 9))).collect();
    let row = |x: u8| if x / 12 % 2 == 0 { [open(9), release(9)].repeat(8) } else { vec![release(9); 16] };
    Sketch { places, agents: (0..60).map(|x| (1 + x % 12, row(x))).collect(), touches: vec![] }
}

/// A chain 63 deep. Every fourth place has an agent that takes it out of the one around it and back, eight times; as many agents look for
/// something to enter and find nothing; one opens the last place.
pub fn chain() -> Sketch {
    let mut sketch = Sketch { places: (0..63).map(|q| (q, 100 + q as u16)).collect(), ..Sketch::default() };
    for q in (4..62).step_by(4) {
        let around = sketch.places[q as usize - 2].1;
        sketch.agents.push((q, (0..16).map(|i| if i % 2 == 0 { exit(around) } else { enter(around) }).collect()));
        sketch.agents.push((q - 2, vec![enter(999); 16]));
    }
    sketch.agents.push((62, vec![open(sketch.places[62].1)]));
    sketch
}

/// The cell of the longest file and of the longest listing without keys of their own: 63 places and 64 agents with sixteen actions, all on
/// the floor, and the touches of every place.
pub fn longest() -> Sketch {
    let touches = (0..64).map(|place| (place, u32::MAX)).collect();
    Sketch { places: vec![(0, 65_535); 63], agents: vec![(0, vec![release(65_535); 16]); 64], touches }
}

/// 63 places on the floor that are listed alike, an agent with sixteen actions in each and on the floor.
pub fn equal_siblings() -> Sketch {
    Sketch { places: vec![(0, 65_535); 63], agents: (0..64).map(|x| (x, vec![enter(65_535); 16])).collect(), touches: vec![] }
}

/// The same names and agents, two places in each place as far as 63 go, so that there are equal texts at every level.
pub fn tree_of_equals() -> Sketch {
    let mut sketch = equal_siblings();
    (0..63).for_each(|q| sketch.places[q].0 = q as u8 / 2);
    sketch
}

/// 63 places on the floor whose texts differ in the last of sixteen actions, in number order the last one first.
pub fn differ_late() -> Sketch {
    let mut sketch = equal_siblings();
    sketch.agents.iter_mut().zip(0..).for_each(|((_, row), x)| row[15] = enter(65_535 - x));
    sketch
}

/// The same with all agents on the floor, where the places' names stand in the wrong order too.
pub fn all_differ_late() -> Sketch {
    let mut sketch = differ_late();
    sketch.agents.iter_mut().for_each(|(home, _)| *home = 0);
    sketch.places.iter_mut().zip(1..).for_each(|(place, q)| place.1 = 65_535 - q);
    sketch
}

/// A chain of places named 2, beside each an empty one named 1 with a higher number, so that at every level the long text goes behind the short
/// one; all agents live in the innermost place.
pub fn caterpillar() -> Sketch {
    let place = |q: u8| if q % 2 == 1 { (q.saturating_sub(2), 2) } else { (q.saturating_sub(3), 1) };
    Sketch { places: (1..64).map(place).collect(), agents: vec![(63, vec![enter(65_535); 16]); 64], touches: vec![] }
}

/// 63 places of one name without agents, each in the place that this row tells: of the cells that a search tried, the one on which a writer that keeps
/// no order, and finds it anew wherever it compares, took longest (some 25 ms).
pub fn found_by_search() -> Sketch {
    const IN: [u8; 63] = [
        0, 1, 2, 1, 2, 3, 6, 3, 3, 6, 3, 2, 10, 3, 13, 7, 2, 8, 1, 1, 19, 2, 11, 16, 24, 6, 9, 16, 1, 16, 18, 0, 26, 32, 0, 7, 0, 7, 29,
        16, 1, 7, 22, 40, 24, 0, 31, 45, 6, 16, 16, 16, 49, 24, 28, 45, 21, 27, 51, 14, 24, 5, 2,
    ];
    Sketch { places: IN.iter().map(|&p| (p, 1)).collect(), ..Sketch::default() }
}

/// A busy order: until all agents are at rest, or so many calls. Nine of ten calls go to an agent that is not at rest.
pub fn busy(start: &Cell, most: usize) -> Vec<(u8, u8)> {
    let mut random = Random(99);
    let (mut cell, mut order) = (*start, vec![]);
    let given: Vec<u8> = members(start.given).collect();
    loop {
        let restless: Vec<u8> = given.iter().copied().filter(|&x| cell.agents[x as usize].stage < 7).collect();
        if restless.is_empty() || order.len() == most {
            return order;
        }
        let among = if random.below(10) == 0 { &given } else { &restless };
        let agent = random.one_of(among);
        let wish = random.below(80) as u8;
        Tuned::step(&mut cell, agent, wish);
        order.push((agent, wish));
    }
}

/// A cell in which nothing more happens while one agent, which holds a lock, is not called: the others are held, asleep or done. With it
/// an order of calls to those others.
pub fn at_rest(start: &Cell, calls: usize) -> (Cell, Vec<(u8, u8)>) {
    let mut cell = *start;
    let mut holder = None;
    loop {
        let before = cell;
        for x in members(start.given).filter(|&x| holder != Some(x)).collect::<Vec<_>>() {
            Tuned::step(&mut cell, x, 255);
            if holder.is_none() && cell.agents[x as usize].stage == 2 {
                holder = Some(x);
                break;
            }
        }
        if cell == before {
            break;
        }
    }
    let mut others: Vec<u8> = members(start.given).filter(|&x| holder != Some(x)).collect();
    if others.is_empty() {
        others.push(0);
    }
    let mut random = Random(5);
    (cell, (0..calls).map(|_| (random.one_of(&others), random.below(80) as u8)).collect())
}

/// Touch calls, each for a place in use, with numbers as a bonder counts them between two reports.
pub fn touching(cell: &Cell, calls: usize) -> Vec<(u8, u32)> {
    let mut random = Random(17);
    let places: Vec<u8> = members(cell.used).collect();
    (0..calls).map(|_| (random.one_of(&places), random.below(10_000) as u32)).collect()
}

/// Places in use, each with another one, to ask for what holds both.
pub fn pairs(cell: &Cell, calls: usize) -> Vec<(u8, u8)> {
    let mut random = Random(23);
    let places: Vec<u8> = members(cell.used).collect();
    (0..calls).map(|_| (random.one_of(&places), random.one_of(&places))).collect()
}

/// Places in use, each with the name of another one, to ask which place of that name it is in.
pub fn named(cell: &Cell, calls: usize) -> Vec<(u8, u16)> {
    pairs(cell, calls).into_iter().map(|(place, other)| (place, cell.places[other as usize].name.name)).collect()
}
