//! One layout, one listing: the order of what a place holds, and cells that differ in their numbers alone.

use keeper::{Cell, LISTING_LONGEST};

/// One layout of carriers as two hosts number it: 9 with 7 and 8 in it, 5 in 7; agents take 7 and 8 out of 9.
const FIRST: [u8; 37] = [1, 1, 0, 9, 0, 1, 2, 1, 8, 0, 1, 3, 1, 7, 0, 1, 4, 3, 5, 0, 2, 0, 2, 3, 0, 2, 9, 0, 2, 1, 3, 3, 1, 2, 9, 0, 4];
const SECOND: [u8; 37] = [1, 9, 0, 9, 0, 1, 3, 9, 7, 0, 1, 2, 3, 5, 0, 1, 1, 9, 8, 0, 2, 7, 3, 3, 7, 2, 9, 0, 2, 5, 1, 3, 5, 2, 9, 0, 4];

/// The cell after so many steps of an agent.
fn after(cell: &Cell, agent: u8, steps: usize) -> Cell {
    let mut cell = cell.clone();
    (0..steps).for_each(|_| assert!(cell.step(agent, 255).is_ok()));
    cell
}

#[test]
fn agents_then_places_each_in_byte_order() {
    let rows: [(&[u8], &str); 6] = [
        (&[1, 1, 0, 9, 0, 1, 2, 0, 7, 0, 4], "7[] | 9[]"),
        (&[1, 1, 0, 7, 0, 1, 2, 0, 70, 0, 6, 3, 0, 7, 0, 1, 0, 1, 0, 1, 0, 4], "7/1/1/1[] | 70[] | 7[]"),
        (&[1, 1, 0, 7, 0, 1, 2, 0, 7, 0, 2, 0, 1, 3, 0, 1, 7, 0, 4], "7[] | 7[enter 7]"),
        (&[1, 1, 0, 9, 0, 1, 2, 0, 9, 0, 1, 3, 2, 7, 0, 4], "9[7[]] | 9[]"),
        (&[1, 1, 0, 7, 0, 2, 0, 0, 3, 0, 3, 9, 0, 2, 1, 0, 3, 1, 3, 10, 0, 2, 2, 0, 3, 2, 1, 9, 0, 4], "enter 9 | open 10 | open 9 | 7[]"),
        (&[2, 0, 0, 3, 0, 3, 12, 0, 2, 1, 0, 3, 1, 3, 1, 0, 3, 1, 2, 2, 0, 2, 2, 0, 3, 2, 3, 1, 0, 4], "open 1 | open 1.exit 2 | open 12"),
    ];
    for (file, text) in rows {
        assert_eq!(Cell::load(file).unwrap().listing().unwrap(), text);
    }
}

#[test]
fn two_hosts() {
    let (one, other) = (Cell::load(&FIRST).unwrap(), Cell::load(&SECOND).unwrap());
    assert_eq!([one.listing(), other.listing()].map(Result::unwrap), ["9[7[exit 9 | 5[]] | 8[exit 9]]"; 2]);
    assert!(one.lent() != other.lent());
    // the same move, of which one host has seen the end and the other has not; touches are not listed
    let (mut came, left) = (after(&one, 0, 7), after(&other, 5, 4));
    assert_eq!(came.touch(2, 9), Ok(9));
    assert!(came.lent().places[2].way == 0 && left.lent().places[1].way != 0);
    assert_eq!([came.listing(), left.listing()].map(Result::unwrap), ["8[] | 9[7[exit 9 | 5[]]]"; 2]);
    // another move
    assert_eq!(after(&came, 1, 7).listing().unwrap(), "7[5[]] | 8[] | 9[]");
}

/// A full cell on the floor or two places in each: 63 places of one name, in each an agent of sixteen actions, of which the last has this number.
fn full(nested: bool, last: impl Fn(u8) -> u8) -> Cell {
    let mut file: Vec<u8> = (1..64).flat_map(|place| [1, place, if nested { (place - 1) / 2 } else { 0 }, 255, 255]).collect();
    for agent in 0..64 {
        file.extend([2, agent, agent]);
        file.extend([3, agent, 1, 255, 255].repeat(15));
        file.extend([3, agent, 1, last(agent), 255]);
    }
    file.push(4);
    Cell::load(&file).unwrap()
}

#[test]
fn full_cells() {
    let falling = |agent: u8| if agent == 0 { 255 } else { 192 - agent };
    let rising = |agent: u8| if agent == 0 { 255 } else { 128 + agent };
    let listing = full(false, falling).listing().unwrap();
    assert_eq!(listing, full(false, rising).listing().unwrap());
    let parts: Vec<&str> = listing.split(" | ").collect();
    assert!(parts.len() == 64 && parts[0].starts_with("enter") && parts[1..].is_sorted());
    assert_ne!(full(true, falling).listing(), full(true, rising).listing());
    // in rooms of its length, one byte less and one more, and in one that every listing fits
    let cell = full(true, falling);
    let listing = cell.listing().unwrap().into_bytes();
    for room in [listing.len(), listing.len() + 1, LISTING_LONGEST] {
        let mut text = vec![b'.'; room];
        assert_eq!(cell.list(&mut text), Ok(listing.len()));
        assert!(text.starts_with(&listing) && text[listing.len()..].iter().all(|&byte| byte == b'.'));
    }
    let mut short = vec![b'.'; listing.len() - 1];
    assert!(cell.list(&mut short).is_err() && short.iter().all(|&byte| byte == b'.'));
}
