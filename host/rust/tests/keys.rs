//! Who may enter, leave and open a place: its keys, in files, steps, listings and tables.

use keeper::lent::{Lent, Name};
use keeper::{Cell, Refusal, Refused, Word, FILE_DECIDING, FILE_LONGEST, LISTING_LONGEST};

/// A bonder, place 1, named 20, which is entered with 21, left with 22 and opened by nobody; beside it a supplier's magazine, place 2, named
/// 40. Agent 0, of the magazine, takes it into the bonder and out again, and would then open 20; agent 1, on the floor, opens the magazine.
const BONDER: [u8; 43] = [
    6, 1, 0, 20, 0, 21, 0, 22, 0, 0, 0, 1, 2, 0, 40, 0, 2, 0, 2, 3, 0, 1, 21, 0, 3, 0, 2, 22, 0, 3, 0, 3, 20, 0, 2, 1, 0, 3, 1, 3, 40, 0, 4,
];

/// The name and the keys of a place.
fn name(cell: &Cell, place: usize) -> [u16; 4] {
    let Name { name, entering, exiting, opening } = cell.lent().places[place].name;
    [name, entering, exiting, opening]
}

/// So many steps of an agent; the last word.
fn steps(cell: &mut Cell, agent: u8, count: usize) -> Word {
    let words = (0..count).map(|_| cell.step(agent, 255).unwrap().word);
    words.last().unwrap()
}

#[test]
fn the_keys_of_a_file() {
    let cell = Cell::load(&[6, 63, 0, 1, 2, 3, 4, 5, 6, 7, 8, 1, 1, 63, 9, 1, 6, 2, 1, 7, 0, 7, 0, 7, 0, 7, 0, 4]).unwrap();
    assert_eq!(name(&cell, 63), [0x201, 0x403, 0x605, 0x807]);
    assert_eq!([name(&cell, 1), name(&cell, 2), name(&cell, 0)], [[0x109; 4], [7; 4], [0; 4]]);
    assert_eq!(cell.listing().unwrap(), "513/1027/1541/2055[265[7[]]]");
    assert_eq!(name(&Cell::bare(), 0), [0; 4]);
}

#[test]
fn refused_as_a_record_without_keys() {
    let mut cell = Cell::load(&BONDER).unwrap();
    let before = cell.clone();
    let rows = [
        ([64, 0, 7], Refusal::TooLarge),
        ([0, 64, 7], Refusal::TooLarge),
        ([2, 64, 0], Refusal::ParentTooLarge),
        ([1, 63, 0], Refusal::GivenTwice),
        ([2, 2, 0], Refusal::NotYetGiven),
        ([2, 1, 0], Refusal::NameZero),
    ];
    for ([number, parent, name], refusal) in rows {
        let refused = |refusal| Err(Refused { refusal, offset: Some(5) });
        let file = [1, 1, 0, 7, 0, 6, number, parent, name, 0, 7, 0, 0, 0, 255, 255, 4];
        assert_eq!(cell.reload(&file), refused(refusal));
        assert_eq!(cell.reload(&[1, 1, 0, 7, 0, 1, number, parent, name, 0, 4]), refused(refusal));
        for length in 6..16 {
            assert_eq!(cell.reload(&file[..length]), refused(Refusal::CutShort));
        }
    }
    assert_eq!(cell.reload(&[7, 1, 0, 7, 0, 4]), Err(Refused { refusal: Refusal::UnknownKind, offset: Some(0) }));
    assert!(cell.lent() == before.lent());
    assert_eq!(cell.reload(&[6, 1, 0, 7, 0, 0, 0, 0, 0, 0, 0, 4]), Ok(()), "a key may be 0");
}

#[test]
fn a_magazine_that_may_not_open_the_bonder() {
    let mut cell = Cell::load(&BONDER).unwrap();
    let mut after = |agent: u8, count: usize| (steps(&mut cell, agent, count), cell.listing().unwrap());
    let listed = |word: Word, text: &str| (word, text.to_string());
    assert_eq!(after(0, 7), listed(Word::Came, "open 40 | 20/21/22/0[40[exit 22.open 20]]"));
    assert_eq!(after(0, 7), listed(Word::Came, "open 40 | 20/21/22/0[] | 40[open 20]"));
    assert_eq!(after(0, 3), listed(Word::Slept, "open 40 | 20/21/22/0[] | 40[open 20]"));
    // once the magazine is opened its agent lives on the floor, where the bonder stands, and still cannot open it
    assert_eq!(after(1, 4), listed(Word::Opened, "open 20 | 20/21/22/0[]"));
    assert_eq!(after(0, 3), listed(Word::Slept, "open 20 | 20/21/22/0[]"));
    assert_eq!((cell.idle(), name(&cell, 1), name(&cell, 2)), (Ok(true), [20, 21, 22, 0], [0; 4]));
}

#[test]
fn the_key_of_its_kind() {
    // a place named 9, entered with 5, left with 6 and opened with 8; the agent's place beside it, in it, or the floor
    for kind in 1..=3 {
        for (at, number) in [5, 6, 8, 9, 4].into_iter().enumerate() {
            let (parent, home) = ((kind == 2) as u8, if kind == 3 { 0 } else { 2 });
            let place = [6, 1, 0, 9, 0, 5, 0, 6, 0, 8, 0, 1, 2, parent, 7, 0];
            let mut cell = Cell::load(&[&place[..], &[2, 0, home, 3, 0, kind, number, 0, 4]].concat()).unwrap();
            let word = if at + 1 == kind as usize { Word::Took } else { Word::Slept };
            assert_eq!(steps(&mut cell, 0, 3), word, "kind {kind} with {number}");
        }
    }
}

#[test]
fn listed_with_all_keys_or_with_none() {
    for (keys, text) in [([7, 7, 7], "7[]"), ([8, 7, 7], "7/8/7/7[]"), ([7, 8, 7], "7/7/8/7[]"), ([7, 7, 0], "7/7/7/0[]")] {
        let [entering, exiting, opening] = keys;
        let cell = Cell::load(&[6, 1, 0, 7, 0, entering, 0, exiting, 0, opening, 0, 4]).unwrap();
        assert_eq!(cell.listing().unwrap(), text);
    }
}

#[test]
fn the_floors_keys_are_0() {
    let whole = Cell::load(&BONDER).unwrap().lent().clone();
    let checked = |place: usize, name: Name| {
        let mut lent: Lent = whole.clone();
        lent.places[place].name = name;
        Cell::from_lent(lent).check()
    };
    let unsound = Err(Refused { refusal: Refusal::Unsound, offset: None });
    for number in [1, 20, 256, 65_535] {
        let none = whole.places[0].name;
        for name in [Name { entering: number, ..none }, Name { exiting: number, ..none }, Name { opening: number, ..none }] {
            assert_eq!(checked(0, name), unsound);
            assert_eq!(checked(1, Name { name: 20, ..name }), Ok(()));
            assert_eq!(checked(1, name), unsound, "a name is asked for");
            assert_eq!(checked(9, name), Ok(()), "not in use");
        }
    }
}

#[test]
fn the_longest() {
    let mut file = Vec::new();
    for place in 1..64 {
        file.extend([6, place, 0, 255, 255, 16, 39, 16, 39, 16, 39]);
    }
    for agent in 0..64 {
        file.extend([2, agent, 0]);
        file.extend([3, agent, 4, 255, 255].repeat(16));
        file.extend([5, agent, 255, 255, 255, 255]);
    }
    file.push(4);
    assert_eq!(file.len(), FILE_LONGEST);
    assert_eq!(Cell::load(&file).unwrap().listing().unwrap().len(), LISTING_LONGEST);
    file.pop();
    file.extend([6, 63, 0, 7, 0, 7, 0, 7, 0, 7, 0]);
    assert_eq!(file.len(), FILE_DECIDING);
    let refused = |refusal| Refused { refusal, offset: Some(FILE_LONGEST - 1) };
    assert_eq!(Cell::load(&file).unwrap_err(), refused(Refusal::GivenTwice));
    assert_eq!(Cell::load(&file[..FILE_DECIDING - 1]).unwrap_err(), refused(Refusal::CutShort));
}
