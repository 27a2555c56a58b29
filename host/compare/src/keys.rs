//! Names and keys, seen on the library's own cells and files.

use crate::files::records;
use model::{Cell, PlaceRecord, Table, SIZE};

/// "Kind 1 sets all three to the name", and kind 6 gives them: the names and keys after an accepted load are those of the file's records,
/// and a number that it does not give, or the floor, has none. How many places have records of kind 6.
pub fn loaded(bytes: &[u8; SIZE], file: &[u8]) -> Result<usize, String> {
    let mut expected = [[0; 4]; 64];
    let mut keyed = 0;
    for row in records(file).iter().filter(|row| matches!(row[0], 1 | 6)) {
        let two = |at: usize| u16::from_le_bytes([row[at], row[at + 1]]);
        expected[row[1] as usize] = if row[0] == 6 { [3, 5, 7, 9].map(two) } else { [two(3); 4] };
        keyed += (row[0] == 6) as usize;
    }
    match named(bytes).zip(expected).position(|(one, other)| one != other) {
        None => Ok(keyed),
        Some(place) => Err(format!("place {place} of a loaded cell has not the name and keys {:?} of its record", expected[place])),
    }
}

/// The names with their keys, those of numbers that are not in use too.
fn named(bytes: &[u8; SIZE]) -> impl Iterator<Item = [u16; 4]> {
    let name = |PlaceRecord { name, keys: [enter, exit, open], .. }: PlaceRecord| [name, enter, exit, open];
    Table::read(bytes).places.into_iter().map(name)
}

/// A step of this agent changes no name and no key, in use or not, but for a number that goes out of use, which has none, and one that comes into
/// use, whose name and keys are the number of the agent's action.
pub fn kept(before: &[u8; SIZE], after: &[u8; SIZE], agent: u8) -> Result<(), String> {
    let (then, now) = (Table::read(before), Table::read(after));
    let (used, still) = (then.used, now.used);
    let put = then.agents[agent as usize].unused().and_then(|row| row.first()).map_or(0, |action| action.name);
    for (place, (then, now)) in named(before).zip(named(after)).enumerate() {
        let right = match (used[place], still[place]) {
            (true, false) => [0; 4],
            (false, true) => [put; 4],
            _ => then,
        };
        if now != right {
            return Err(format!("a step makes the name and keys of place {place} {now:?}, and not {right:?}"));
        }
    }
    Ok(())
}

/// Whether the place that this agent, holding both locks, would enter, leave or open has another name than the action's number.
pub fn by_key(cell: &Cell, agent: u8) -> bool {
    let acting = cell.agents.get(&agent).filter(|agent| agent.stage == 3);
    let place = acting.and_then(|acting| cell.places.get(&acting.chosen.or(acting.remembered)?));
    matches!((acting, place), (Some(acting), Some(place)) if acting.unused[0].name != place.name)
}
