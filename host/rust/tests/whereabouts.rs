//! Which bonder is it in: the nearest place of a name around a place, and the innermost place that holds or is both of two.

use keeper::{Cell, Refusal, Refused, Word};

/// A holder, place 2, with a capillary, place 3, goes from one bonder, place 1, into another, place 4, in which a second holder, place 5, stands.
/// Both bonders are named 20.
const STORY: &str = "20[30[exit 20.enter 20 | 60[]]] | 20[31[]]";

/// Agent 0 steps, with a wish for place 4, until it is answered this word.
fn until(cell: &mut Cell, word: Word) {
    while cell.step(0, 4).unwrap().word != word {}
}

/// A refusal without an offset.
fn refused<T>(refusal: Refusal) -> Result<T, Refused> {
    Err(Refused { refusal, offset: None })
}

#[test]
fn which_bonder_is_it_in() {
    let mut cell = Cell::read(STORY).unwrap();
    let asked = |cell: &Cell| (cell.nearest(3, 20), cell.common(3, 5));
    assert_eq!(asked(&cell), (Ok(Some(1)), Ok(0)), "at the start");
    until(&mut cell, Word::Left);
    assert_eq!(asked(&cell), (Ok(None), Ok(0)), "on its way to the floor");
    until(&mut cell, Word::Came);
    assert_eq!(asked(&cell), (Ok(None), Ok(0)), "on the floor");
    until(&mut cell, Word::Left);
    assert_eq!(cell.listing().unwrap(), "20[30[60[]] | 31[]] | 20[]");
    assert_eq!(asked(&cell), (Ok(Some(4)), Ok(4)), "on its way into the other bonder");
    until(&mut cell, Word::Came);
    assert_eq!(asked(&cell), (Ok(Some(4)), Ok(4)), "in the other bonder");
    assert_eq!([2, 3, 5].map(|place| cell.nearest(place, 20)), [Ok(Some(4)); 3]);
    assert_eq!((cell.nearest(3, 30), cell.nearest(2, 30)), (Ok(Some(2)), Ok(None)), "the place itself does not count");
}

#[test]
fn the_nearest_of_several() {
    let cell = Cell::read("20[21[20[20[30[]]]]]").unwrap();
    assert_eq!([5, 4, 3, 2, 1, 0].map(|place| cell.nearest(place, 20).unwrap()), [Some(4), Some(3), Some(1), Some(1), None, None]);
    assert_eq!([5, 4, 3, 2, 1, 0].map(|place| cell.nearest(place, 0).unwrap()), [Some(0), Some(0), Some(0), Some(0), Some(0), None]);
    assert_eq!([5, 2, 1].map(|place| cell.nearest(place, 21).unwrap()), [Some(2), None, None]);
    let cell = Cell::read("65535/7/8/9[30[]]").unwrap();
    assert_eq!([7, 8, 9, 65_535, 65_534].map(|name| cell.nearest(2, name).unwrap()), [None, None, None, Some(1), None], "names, not keys");
}

#[test]
fn one_of_two_may_hold_the_other() {
    let cell = Cell::read("20[30[60[] | 61[]] | 31[]] | 21[32[]]").unwrap();
    let rows = [(3, 4, 2), (3, 5, 1), (3, 2, 2), (3, 1, 1), (3, 3, 3), (3, 7, 0), (6, 7, 6), (0, 3, 0), (0, 0, 0)];
    for (place, other, both) in rows {
        assert_eq!((cell.common(place, other), cell.common(other, place)), (Ok(both), Ok(both)), "{place} and {other}");
    }
}

/// A place, the one around it or, if it is on its way, its destination, and so on to the floor, by the fields of the cell.
fn outwards(cell: &Cell, place: u8) -> Vec<u8> {
    let around = |&place: &u8| Some(cell.lent().places[place as usize].parent).filter(|_| place != 0);
    std::iter::successors(Some(place), around).collect()
}

#[test]
fn after_every_step_by_the_fields_of_the_cell() {
    let one = "20[30[exit 20.enter 40 | 60[exit 30.exit 40]]]";
    let other = "40[50[enter 50] | 50[exit 40.enter 20]] | open 50 | 20[30[exit 20.enter 20]]";
    let mut cell = Cell::read(&format!("{one} | {other}")).unwrap();
    let (mut calls, mut travelling) = (0, 0);
    while !cell.idle().unwrap() {
        cell.step([0, 2, 1, 3, 5, 4][calls % 6], (calls % 9) as u8).unwrap();
        calls += 1;
        let before = cell.clone();
        let used: Vec<u8> = (0..64).filter(|&place| cell.lent().used >> place & 1 == 1).collect();
        travelling += used.iter().filter(|&&place| place != 0 && cell.lent().places[place as usize].way != 0).count();
        for &place in &used {
            let way = outwards(&cell, place);
            for name in [0, 20, 30, 40, 50, 60, 61] {
                let named = way.iter().skip(1).copied().find(|&around| cell.lent().places[around as usize].name.name == name);
                assert_eq!(cell.nearest(place, name), Ok(named), "call {calls}, place {place}, name {name}");
            }
            for &other in &used {
                let both = way.iter().copied().find(|around| outwards(&cell, other).contains(around)).unwrap();
                assert_eq!(cell.common(place, other), Ok(both), "call {calls}, places {place} and {other}");
            }
        }
        assert!(cell.lent() == before.lent(), "the questions change nothing");
    }
    assert!(calls > 40 && travelling > 10, "{calls} calls, {travelling} times on its way");
}

#[test]
fn refusals() {
    let cell = Cell::read(STORY).unwrap();
    for large in [64, 65, 255] {
        assert_eq!([cell.nearest(large, 20), cell.nearest(large, 0)], [refused(Refusal::TooLarge); 2]);
        for other in [0, 2, 6, 63, 64, 255] {
            assert_eq!([cell.common(large, other), cell.common(other, large)], [refused(Refusal::TooLarge); 2], "3 before 5");
        }
    }
    for unused in [6, 63] {
        assert_eq!([cell.nearest(unused, 20), cell.nearest(unused, 0)], [refused(Refusal::NotYetGiven); 2]);
        for other in [0, 2, 5, 6, 63] {
            assert_eq!([cell.common(unused, other), cell.common(other, unused)], [refused(Refusal::NotYetGiven); 2]);
        }
    }
    let mut lent = cell.lent().clone();
    lent.locks[4] = 0;
    let cell = Cell::from_lent(lent);
    for place in [2, 63, 64] {
        assert_eq!(cell.nearest(place, 20), refused(Refusal::Unsound));
        assert_eq!([cell.common(place, 3), cell.common(3, place)], [refused(Refusal::Unsound); 2]);
    }
}

#[test]
fn a_place_that_was_opened() {
    let mut cell = Cell::read("9[open 7 | 7[8[]]]").unwrap();
    assert_eq!((cell.nearest(3, 7), cell.common(3, 2)), (Ok(Some(2)), Ok(2)));
    until(&mut cell, Word::Opened);
    assert_eq!((cell.nearest(3, 7), cell.nearest(3, 9)), (Ok(None), Ok(Some(1))));
    assert_eq!((cell.nearest(2, 9), cell.common(3, 2)), (refused(Refusal::NotYetGiven), refused(Refusal::NotYetGiven)));
}
