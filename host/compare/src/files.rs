//! Cell files: good ones of every size, nearly good ones, and wild ones.

use crate::orders::count;
use crate::random::Random;

/// The kind of a release, the last of the four.
const RELEASE: u8 = 4;

/// A count up to the most: small ones often, large ones now and then.
fn size(random: &mut Random, most: usize) -> usize {
    match random.below(100) {
        0..=2 => 0,
        3..=69 => 1 + random.below(6),
        70..=91 => 1 + random.below(16),
        92..=97 => random.below(most + 1),
        _ => most,
    }
}

/// How the places of a file stand: side by side, in each other, or anyhow.
#[derive(Clone, Copy)]
enum Nesting {
    Flat,
    Deep,
    Any,
}

/// The places of a file so far, with their keys, and what names and kinds of actions the rest is made of; so many places of a hundred have
/// records with keys.
struct Maker {
    nesting: Nesting,
    names: Vec<u16>,
    kinds: Vec<u8>,
    keyed: usize,
    given: Vec<u8>,
    parents: [u8; 64],
    keys: [[u16; 3]; 64],
}

/// A file that is accepted: few names, so that actions fire; any mixture of kinds; numbers in any order; keys of no, some or all places; touch
/// records of no, some or all places, anywhere after them.
pub fn good(random: &mut Random) -> Vec<u8> {
    let (places, agents) = (size(random, 63), size(random, 64));
    let kinds = kinds(random);
    made(random, places, agents, kinds)
}

/// The same with 61 to 64 places in use, the floor too, and few agents, most of which release and open: soon no number is unused, and openings free
/// some.
pub fn crowded(random: &mut Random) -> Vec<u8> {
    let (places, agents) = (60 + random.below(4), 2 + random.below(8));
    let kinds = random.pick(&[&[3, 4][..], &[3, 4, 4], &[1, 3, 4, 4], &[1, 2, 3, 3, 4, 4]]).to_vec();
    made(random, places, agents, kinds)
}

/// A file of so many places and agents.
fn made(random: &mut Random, places: usize, agents: usize, kinds: Vec<u8>) -> Vec<u8> {
    let nesting = random.pick(&[Nesting::Flat, Nesting::Deep, Nesting::Any, Nesting::Any]);
    let names = names(random);
    let keyed = random.pick(&[0, 30, 100]);
    let mut maker = Maker { nesting, names, kinds, keyed, given: vec![0], parents: [0; 64], keys: [[0; 3]; 64] };
    let most_actions = random.pick(&[1, 2, 3, 5, 16]);
    let places_first = random.percent(70);
    let mut places = numbers(random, 1, places);
    let mut agents = numbers(random, 0, agents);
    let mut unfinished: Vec<(u8, u8, usize)> = Vec::new();
    let touched = random.pick(&[0, 20, 60, 100]);
    let mut untouched: Vec<u8> = if random.percent(touched) { vec![0] } else { vec![] };
    let mut file = Vec::new();
    while !(places.is_empty() && agents.is_empty() && unfinished.is_empty() && untouched.is_empty()) {
        let turn = if places_first && !places.is_empty() { 3 * random.below(2) } else { random.below(4) };
        if turn == 0 && !places.is_empty() {
            let number = places.pop().expect("not empty");
            file.extend(maker.place(random, number));
            if random.percent(touched) {
                untouched.push(number);
            }
        } else if turn == 3 && !untouched.is_empty() {
            let place = untouched.swap_remove(random.below(untouched.len()));
            file.extend([5, place]);
            file.extend(count(random).to_le_bytes());
        } else if turn == 1 && !agents.is_empty() {
            let number = agents.pop().expect("not empty");
            let home = if random.percent(70) { maker.given[maker.given.len() - 1] } else { random.pick(&maker.given) };
            file.extend([2, number, home]);
            unfinished.push((number, home, most_actions - random.below(most_actions + 1).min(random.below(most_actions + 1))));
        } else if turn == 2 && !unfinished.is_empty() {
            let at = random.below(unfinished.len());
            let (number, home, left) = unfinished[at];
            if left == 0 {
                unfinished.swap_remove(at);
            } else {
                unfinished[at].2 -= 1;
                file.extend(maker.action(random, number, home));
            }
        }
    }
    file.push(4);
    file
}

impl Maker {
    /// The record of one more place, of kind 6 where it has keys of its own.
    fn place(&mut self, random: &mut Random, number: u8) -> Vec<u8> {
        let parent = match self.nesting {
            Nesting::Flat => 0,
            Nesting::Deep => self.given[self.given.len() - 1],
            Nesting::Any => random.pick(&self.given),
        };
        let name = random.pick(&self.names);
        self.given.push(number);
        self.parents[number as usize] = parent;
        let [low, high] = name.to_le_bytes();
        if !random.percent(self.keyed) {
            self.keys[number as usize] = [name; 3];
            return vec![1, number, parent, low, high];
        }
        let keys = std::array::from_fn(|_| match random.below(10) {
            0..=1 => 0,
            2..=4 => name,
            _ => random.pick(&self.names),
        });
        self.keys[number as usize] = keys;
        [&[6, number, parent, low, high][..], &keys.map(u16::to_le_bytes).concat()].concat()
    }

    /// The record of one more action, mostly one that can fire where the agent lives, if there is any; a release has any name.
    fn action(&self, random: &mut Random, agent: u8, home: u8) -> [u8; 5] {
        let mut kind = random.pick(&self.kinds);
        let mut name = random.pick(&self.names);
        if random.percent(80) {
            for _ in 0..4 {
                if kind == RELEASE {
                    break;
                }
                let around = self.around(home, kind);
                if !around.is_empty() {
                    name = self.keys[random.pick(&around) as usize][kind as usize - 1];
                    break;
                }
                kind = random.pick(&self.kinds);
            }
        }
        let [low, high] = name.to_le_bytes();
        [3, agent, kind, low, high]
    }

    /// The places that an action of this kind of an agent with this home can act on: those that nobody may are none.
    fn around(&self, home: u8, kind: u8) -> Vec<u8> {
        let parent = self.parents[home as usize];
        let fits = |place: u8| match kind {
            1 => home != 0 && place != home && self.parents[place as usize] == parent,
            2 => home != 0 && place == parent,
            _ => self.parents[place as usize] == home,
        };
        let may = |place: u8| self.keys[place as usize][kind as usize - 1] != 0;
        self.given.iter().copied().filter(|&place| place != 0 && fits(place) && may(place)).collect()
    }
}

/// So many numbers from the first on, mostly the lowest ones, in any order.
fn numbers(random: &mut Random, first: u8, count: usize) -> Vec<u8> {
    let mut all: Vec<u8> = (first..64).collect();
    if random.percent(30) {
        random.shuffle(&mut all);
    }
    all.truncate(count);
    if random.percent(50) {
        random.shuffle(&mut all);
    }
    all
}

/// A few names: low ones, some whose digits begin with those of low ones, or any.
fn names(random: &mut Random) -> Vec<u16> {
    let count = random.pick(&[1, 1, 2, 2, 3, 4, 8]);
    let name = |low: u16| match random.below(20) {
        0..=15 => low,
        16..=17 => 10 * low + random.below(10) as u16,
        _ => 1 + random.below(65_535) as u16,
    };
    (1..=count).map(name).collect()
}

/// A mixture of action kinds.
fn kinds(random: &mut Random) -> Vec<u8> {
    let mut kinds = vec![1 + random.below(4) as u8];
    for kind in 1..=RELEASE {
        for _ in 0..random.below(4) {
            kinds.push(kind);
        }
    }
    kinds
}

/// A good file with something wrong in it, often: bytes changed, taken out, put in, cut off or put after the end; a number in a record out
/// of range; records swapped.
pub fn nearly_good(random: &mut Random) -> Vec<u8> {
    let mut file = good(random);
    for _ in 0..1 + random.below(3) {
        let at = random.below(file.len().max(1));
        match random.below(8) {
            0 if !file.is_empty() => file[at] = random.byte(),
            1 if !file.is_empty() => file[at] = random.pick(&[0, 1, 2, 3, 4, 5, 6, 7, 63, 64, 65, 255]),
            2 if !file.is_empty() => drop(file.remove(at)),
            3 => file.insert(at.min(file.len()), random.pick(&[0, 1, 2, 3, 4, 5, 6, 7])),
            4 => file.truncate(at),
            5 => file.push(random.byte()),
            6 => out_of_range(random, &mut file),
            _ => swap_records(random, &mut file),
        }
    }
    file
}

/// Sets one or both of the numbers that a record begins with to one that is out of range, or nearly so.
fn out_of_range(random: &mut Random, file: &mut Vec<u8>) {
    let mut found = records(file);
    if found.is_empty() {
        return;
    }
    let at = random.below(found.len());
    for number in found[at].iter_mut().skip(1).take(2) {
        if random.percent(60) {
            *number = random.pick(&[0, 63, 64, 64, 65, 128, 255]);
        }
    }
    *file = found.concat();
}

/// Puts one record of a file before another, or twice.
fn swap_records(random: &mut Random, file: &mut Vec<u8>) {
    let mut found = records(file);
    if found.is_empty() {
        return;
    }
    let (one, other) = (random.below(found.len()), random.below(found.len()));
    if random.percent(50) {
        found.swap(one, other);
    } else {
        found.insert(one, found[other].clone());
    }
    *file = found.concat();
}

/// Any bytes, mostly small numbers, so that some records are well formed.
pub fn wild(random: &mut Random) -> Vec<u8> {
    let length = random.below(60);
    let small = random.percent(80);
    (0..length).map(|_| if small { random.below(8) as u8 } else { random.byte() }).collect()
}

/// The records of a file, each as its bytes; what cannot be taken apart is one record more.
pub fn records(file: &[u8]) -> Vec<Vec<u8>> {
    let mut found = Vec::new();
    let mut at = 0;
    while at < file.len() {
        let length = match file[at] {
            1 | 3 => 5,
            2 => 3,
            4 => 1,
            5 => 6,
            6 => 11,
            _ => file.len() - at,
        };
        let end = (at + length).min(file.len());
        found.push(file[at..end].to_vec());
        at = end;
    }
    found
}
