//! When two layouts are the same: document 02, W7: "Under 002 section 2.2 the order of parallel parts doesn't matter."

use crate::cell::Cell;

/// Whether the terms of two cells are equal by that equivalence: what stands on one floor is what stands on the other, in whatever order and
/// under whatever numbers. No text is written or sorted for it.
pub fn alike(one: &Cell, other: &Cell) -> bool {
    same_contents(one, 0, other, 0)
}

/// The same parts in two places: the agents' rows of unused actions, and the places with their contents.
fn same_contents(one: &Cell, p: u8, other: &Cell, q: u8) -> bool {
    paired(&agents(one, p), &agents(other, q), |x, y| one.agents[&x].unused == other.agents[&y].unused)
        && paired(&places(one, p), &places(other, q), |x, y| same_place(one, x, other, y))
}

/// The same name, keys and contents.
fn same_place(one: &Cell, x: u8, other: &Cell, y: u8) -> bool {
    let (mine, theirs) = (&one.places[&x], &other.places[&y]);
    (mine.name, mine.keys) == (theirs.name, theirs.keys) && same_contents(one, x, other, y)
}

/// "the agents with unused actions" that live in a place.
fn agents(cell: &Cell, home: u8) -> Vec<u8> {
    let listed = |number: &u8| cell.agents[number].home == home && !cell.agents[number].unused.is_empty();
    cell.agents.keys().copied().filter(listed).collect()
}

/// The places that stand in a place; "A place on its way stands in its destination."
fn places(cell: &Cell, around: u8) -> Vec<u8> {
    cell.places.keys().copied().filter(|number| cell.places[number].around() == Some(around)).collect()
}

/// Whether each of these has a partner of its own among those. Any partner will do, since what is the same as one is the same as the other.
fn paired(these: &[u8], those: &[u8], same: impl Fn(u8, u8) -> bool) -> bool {
    let mut left = those.to_vec();
    let found = |&x: &u8| left.iter().position(|&y| same(x, y)).map(|at| left.swap_remove(at)).is_some();
    these.len() == those.len() && these.iter().all(found)
}
