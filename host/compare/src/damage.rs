//! What somebody else may write into a lent cell: any byte, a field of something in use, keys, touch counts, the row, or whole agents set to
//! other stages, those that release too.

use crate::call::Call;
use crate::random::Random;
use crate::rows::ORDER;
use crate::touches;
use model::{holds, Kind, Table, NO_PLACE, SIZE};

/// The size of a place, and in it where parent and way are; where the locks, the agents and the sets start, and the size of an agent.
const PLACE: usize = 10;
const PARENT: usize = 8;
const WAY: usize = 9;
const LOCKS: usize = 640;
const AGENTS: usize = 704;
const AGENT: usize = 70;
const SETS: usize = 5184;

/// Writes that change a few bytes of these.
pub fn writes(random: &mut Random, bytes: &[u8; SIZE]) -> Vec<Call> {
    let mut after = *bytes;
    match random.below(19) {
        16..=18 => releases(random, &mut after),
        14..=15 => keys(random, &mut after),
        12..=13 => row(random, &mut after),
        10..=11 => counts(random, &mut after),
        0..=2 => after[random.below(SIZE)] = random.byte(),
        3..=6 => {
            for _ in 0..1 + random.below(3) {
                field(random, &mut after);
            }
        }
        _ => {
            for _ in 0..1 + random.below(3) {
                scramble(random, &mut after);
            }
            settle_ways(random, &mut after);
            settle_locks(&mut after);
        }
    }
    let changed = (0..SIZE).filter(|&at| after[at] != bytes[at]);
    changed.map(|at| Call::Write { at, byte: after[at] }).collect()
}

/// The numbers in a set of the struct.
fn members(bytes: &[u8; SIZE], at: usize) -> Vec<usize> {
    let word = u64::from_ne_bytes(bytes[at..at + 8].try_into().expect("eight bytes"));
    (0..64).filter(|number| word >> number & 1 == 1).collect()
}

/// One of these numbers, or 0 if there is none.
fn one_of(random: &mut Random, numbers: &[usize]) -> usize {
    if numbers.is_empty() {
        0
    } else {
        random.pick(numbers)
    }
}

/// A number that is a little wrong or right: small, at a limit, or the number of a place in use.
fn number(random: &mut Random, places: &[usize]) -> u8 {
    match random.below(4) {
        0 => random.below(10) as u8,
        1 => random.pick(&[15, 16, 17, 63, 64, 65, 255]),
        2 => random.byte(),
        _ => one_of(random, places) as u8,
    }
}

/// Changes one field of a place or agent in use, a lock, or a set.
fn field(random: &mut Random, bytes: &mut [u8; SIZE]) {
    let places = members(bytes, SETS);
    let agents = members(bytes, SETS + 8);
    let place = one_of(random, &places);
    let agent = AGENTS + AGENT * one_of(random, &agents);
    let value = number(random, &places);
    match random.below(12) {
        0 => bytes[PLACE * place + random.below(2)] = random.pick(&[0, 0, 1, value]),
        1 => bytes[PLACE * place + PARENT] = value,
        2 => bytes[PLACE * place + WAY] = random.pick(&[0, 1, value]),
        3 => bytes[LOCKS + place] = random.pick(&[64, value]),
        4..=9 => {
            let within = random.below(6);
            bytes[agent + within] = if within == 1 && random.percent(80) { random.below(10) as u8 } else { value };
        }
        10 => bytes[agent + 6 + random.below(64)] = random.pick(&[0, 1, 2, 3, 4, 5, value]),
        _ => bytes[SETS + random.below(16)] ^= 1 << random.below(8),
    }
}

/// Sets an agent in use to any stage, remembering and having chosen any places.
fn scramble(random: &mut Random, bytes: &mut [u8; SIZE]) {
    let places = members(bytes, SETS);
    let table = Table::read(bytes);
    let number = one_of(random, &members(bytes, SETS + 8));
    let agent = &table.agents[number];
    let home = agent.home;
    let at = AGENTS + AGENT * number;
    let parent = table.places.get(home as usize).map_or(0, |place| place.parent);
    let children: Vec<usize> = places.iter().copied().filter(|&place| table.places[place].parent == home).collect();
    let beside: Vec<usize> = places.iter().copied().filter(|&place| table.places[place].parent == parent).collect();
    let open = matches!(agent.next_kind(), Some(Kind::Open | Kind::Release));
    bytes[at + 1] = random.below(9) as u8;
    bytes[at + 2] = match random.below(10) {
        0..=1 => one_of(random, &places) as u8,
        _ if open => home,
        _ => parent,
    };
    bytes[at + 3] = match random.below(10) {
        0..=1 => one_of(random, &places) as u8,
        _ if open => one_of(random, &children) as u8,
        _ => one_of(random, &beside) as u8,
    };
    if bytes[at + 1] == 8 {
        bytes[at + 4] = bytes[at + 5];
    }
}

/// Makes the next action of agents in use a release, mostly, and sets them to any stage, mostly with what a release remembers there: its home or,
/// asleep, no place; at stage 3, where it never is, as an opener would be, with a place in its home that it has chosen and locked. Half the times the
/// records of a number that is not in use, which a put has to write over, hold anything.
fn releases(random: &mut Random, bytes: &mut [u8; SIZE]) {
    let (places, agents) = (members(bytes, SETS), members(bytes, SETS + 8));
    let mut chosen = Vec::new();
    for _ in 0..1 + random.below(2) {
        let number = one_of(random, &agents);
        let at = AGENTS + AGENT * number;
        let next = bytes[at + 4] as usize;
        if next < 16 && random.percent(90) {
            bytes[at + 6 + 4 * next] = Kind::Release.number();
        }
        bytes[at + 1] = random.pick(&[0, 1, 2, 2, 2, 3, 3, 4, 5, 6, 7, 7, 7, 7, 8]);
        bytes[at + 2] = match random.below(10) {
            0 => one_of(random, &places) as u8,
            1 => random.pick(&[63, 65, 128, 255]),
            2..=4 => NO_PLACE,
            _ if bytes[at + 1] == 7 && random.percent(50) => NO_PLACE,
            _ => bytes[at],
        };
        let inside: Vec<usize> = places.iter().copied().filter(|&place| place > 0 && bytes[PLACE * place + PARENT] == bytes[at]).collect();
        if bytes[at + 1] == 3 && !inside.is_empty() {
            bytes[at + 3] = random.pick(&inside) as u8;
            chosen.push((bytes[at + 3] as usize, number as u8));
        }
    }
    settle_ways(random, bytes);
    settle_locks(bytes);
    chosen.into_iter().for_each(|(place, number)| bytes[LOCKS + place] = number);
    let unused: Vec<usize> = (1..64).filter(|number| !places.contains(number)).collect();
    if !unused.is_empty() && random.percent(50) {
        let number = if random.percent(70) { unused[0] } else { random.pick(&unused) };
        (0..PLACE).for_each(|at| bytes[PLACE * number + at] = random.byte());
        bytes[LOCKS + number] = random.byte();
        touches::set(bytes, number, random.next());
    }
}

/// Sets places that have an agent at stages 4 to 6 on their way, and the others, mostly, not.
fn settle_ways(random: &mut Random, bytes: &mut [u8; SIZE]) {
    let table = Table::read(bytes);
    for (place, _) in table.places_in_use().filter(|(place, _)| *place != 0) {
        let moving = table.agents_in_use().any(|(_, agent)| agent.home == place && (4..=6).contains(&agent.stage));
        if moving || random.percent(98) {
            bytes[PLACE * place as usize + WAY] = moving as u8;
        }
    }
}

/// Sets each lock as the stages say, as far as they agree.
fn settle_locks(bytes: &mut [u8; SIZE]) {
    let table = Table::read(bytes);
    for (place, _) in table.places_in_use() {
        bytes[LOCKS + place as usize] = 64;
    }
    for (number, agent) in table.agents_in_use().filter(|(_, agent)| agent.home < 64) {
        for place in holds(&table, agent) {
            if place < 64 {
                bytes[LOCKS + place as usize] = number;
            }
        }
    }
}

/// The most touches that a sound table has.
const MOST: u64 = 1_000_000_000_000;

/// Sets touch counts: sums at the most that is sound, next to it, and such as would wrap in 64 bits; now and then of numbers not in use.
fn counts(random: &mut Random, bytes: &mut [u8; SIZE]) {
    let places = members(bytes, SETS);
    let (one, other) = (one_of(random, &places), one_of(random, &places));
    let left = touches::left(&Table::read(bytes)) as u64;
    let (unused, any) = (random.below(64), random.next());
    let large = random.pick(&[MOST, MOST + 1, 1 << 40, 1 << 62, 1 << 63, u64::MAX - 1, u64::MAX]);
    match random.below(6) {
        0 => touches::set(bytes, one, random.pick(&[large, any])),
        1..=2 => {
            let before = Table::read(bytes).touches[one];
            touches::set(
                bytes,
                one,
                before.saturating_add(left).saturating_add(random.pick(&[0, 0, 1, 2])) - random.pick(&[0, 0, 1]).min(left),
            );
        }
        3 => {
            let wrapped = random.below(3) as u64;
            touches::set(bytes, one, large);
            touches::set(bytes, other, wrapped.wrapping_sub(large));
        }
        4 => places.iter().for_each(|&place| touches::set(bytes, place, random.pick(&[1 << 58, 1 << 62, MOST / 64, 1]))),
        _ => touches::set(bytes, unused, random.pick(&[large, any])),
    }
}

/// Changes keys, some of them to the number of another place's key or to 0: of places in use, which stay sound; of the floor, which does not
/// unless its keys are 0; of numbers not in use.
fn keys(random: &mut Random, bytes: &mut [u8; SIZE]) {
    let places = members(bytes, SETS);
    for _ in 0..1 + random.below(3) {
        let place = match random.below(10) {
            0..=2 => 0,
            3 => random.below(64),
            _ => one_of(random, &places),
        };
        let at = PLACE * place + 2 + 2 * random.below(3);
        let from = PLACE * one_of(random, &places) + 2 * random.below(4);
        let key = match random.below(6) {
            0 => [0, 0],
            1 => [0, 1],
            2 => [random.byte(), random.byte()],
            _ => [bytes[from], bytes[from + 1]],
        };
        bytes[at..at + 2].copy_from_slice(&key);
    }
}

/// Changes the row: two numbers change places, or go to its end, and it is whole as before; or a number is written over by another, which
/// then stands there twice, by one above 63, or by itself and 64, 128 or 192 more; numbers in use or not, the first and the last too.
fn row(random: &mut Random, bytes: &mut [u8; SIZE]) {
    let places = members(bytes, SETS);
    let row = &mut bytes[ORDER..];
    for _ in 0..1 + random.below(3) {
        let place = if random.percent(70) { one_of(random, &places) } else { random.below(64) } as u8;
        let at = row.iter().position(|&number| number == place).unwrap_or(0);
        let at = random.pick(&[at, at, at, at, 0, 63]);
        match random.below(9) {
            0..=2 => row.swap(at, random.below(64)),
            3..=5 => row[at..].rotate_left(1),
            6 => row[at] = row[random.below(64)],
            7 => row[at] = random.pick(&[64, 65, 127, 128, 255]),
            _ => row[at] = row[at].wrapping_add(random.pick(&[64, 128, 192])),
        }
    }
}
