//! One layout, one listing (document 02, W7): cases, and full cells whose texts are hard to put in order.

use crate::bench::Case;
use model::file_of;

/// The cell of a term and how it is listed.
fn listed(term: &str, text: &str) -> Case {
    Case { file: file_of(term), agents: vec![], written: format!("start {text}\nend {text}\n") }
}

/// Byte order of each part's whole text, agents before places, a shorter text before any that continues it; and two numberings of one layout.
pub fn cases() -> Vec<Case> {
    let one = [[1, 1, 0, 9, 0], [1, 2, 1, 8, 0], [1, 3, 1, 7, 0], [1, 4, 3, 5, 0]].concat();
    let other = [[1, 9, 0, 9, 0], [1, 3, 9, 7, 0], [1, 2, 3, 5, 0], [1, 1, 9, 8, 0]].concat();
    let both = "start 9[7[exit 9 | 5[]] | 8[exit 9]]\nend 9[7[exit 9 | 5[]] | 8[exit 9]]\n";
    let numbered = |places: &[u8], agents: &[u8]| Case { file: [places, agents, &[4]].concat(), agents: vec![], written: both.to_string() };
    vec![
        listed("9[] | 7[]", "7[] | 9[]"),
        listed("7[] | 70[] | 7/1/1/1[]", "7/1/1/1[] | 70[] | 7[]"),
        listed("7[enter 7] | 7[] | 7[7[]]", "7[7[]] | 7[] | 7[enter 7]"),
        listed("7[] | open 9 | open 10 | exit 9 | enter 9", "enter 9 | exit 9 | open 10 | open 9 | 7[]"),
        listed("open 12 | open 1.exit 2 | open 1", "open 1 | open 1.exit 2 | open 12"),
        listed("4[enter 9] | 4[enter 9 | 6[]]", "4[enter 9 | 6[]] | 4[enter 9]"),
        numbered(&one, &[2, 0, 2, 3, 0, 2, 9, 0, 2, 1, 3, 3, 1, 2, 9, 0]),
        numbered(&other, &[2, 7, 3, 3, 7, 2, 9, 0, 2, 5, 1, 3, 5, 2, 9, 0]),
    ]
}

/// A file of 63 places, of which `stands` says parent and name, and 64 agents with sixteen actions, all `enter 65535` but the last, of which
/// `lives` says home and number.
fn full(stands: impl Fn(u8) -> (u8, u16), lives: impl Fn(u8) -> (u8, u16)) -> Vec<u8> {
    let mut file = Vec::new();
    for place in 1..64 {
        let (parent, name) = stands(place);
        file.extend([&[1, place, parent][..], &name.to_le_bytes()].concat());
    }
    for agent in 0..64 {
        let (home, number) = lives(agent);
        file.extend([2, agent, home]);
        file.extend([3, agent, 1, 255, 255].repeat(15));
        file.extend([&[3, agent, 1][..], &number.to_le_bytes()].concat());
    }
    file.push(4);
    file
}

/// A full cell with the longest listing of all: 63 places with keys of their own and 64 agents of sixteen releases, all on the floor.
fn longest() -> Vec<u8> {
    let mut file: Vec<u8> = (1..64).flat_map(|place| [6, place, 0, 255, 255, 255, 255, 255, 255, 254, 255]).collect();
    for agent in 0..64 {
        file.extend([2, agent, 0]);
        file.extend([3, agent, 4, 255, 255].repeat(16));
    }
    file.push(4);
    file
}

/// Full cells: all texts equal, beside each other and in each other; texts that differ in their last byte, the last first; the longest text of
/// all behind a short one at every level, and before it; and the longest listing.
pub fn full_cells() -> Vec<Vec<u8>> {
    let floor = |_: u8| (0, 65_535);
    let equal = |agent: u8| (agent, 65_535);
    vec![
        full(floor, |_| (0, 65_535)),
        full(floor, equal),
        full(|place| ((place - 1) / 2, 65_535), equal),
        full(floor, |agent| (agent, 65_535 - agent as u16)),
        full(|place| (0, 65_535 - place as u16), |agent| (0, 65_535 - agent as u16)),
        full(|place| ((place - 1) / 2 * 2, 7), |agent| (63, 65_535 - agent as u16)),
        full(|place| ((place - 1) / 2 * 2, 7 + place as u16 % 2), |_| (63, 65_535)),
        full(|place| (place - 1, 100 + place as u16), equal),
        longest(),
    ]
}
