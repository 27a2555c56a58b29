//! Document 02, W7: one layout, one listing.

use model::{alike, file_of, listing, load, step, Action, Agent, Cell, Keys, Kind, Place, Stands};

/// The listing of a term.
fn listed(term: &str) -> String {
    listing(&load(&file_of(term)).expect("the file is accepted"))
}

#[test]
fn byte_order_of_each_parts_whole_text() {
    // a digit is below the bracket, and so is the slash; the bracket that closes is below a letter
    for (term, text) in [
        ("9[] | 7[]", "7[] | 9[]"),
        ("7[] | 70[]", "70[] | 7[]"),
        ("7[] | 7/1/1/1[] | 70[]", "7/1/1/1[] | 70[] | 7[]"),
        ("7[enter 7] | 7[]", "7[] | 7[enter 7]"),
        ("9[] | 9[7[]]", "9[7[]] | 9[]"),
        ("9[7[]] | 9[exit 9]", "9[7[]] | 9[exit 9]"),
        ("2[] | 10[] | 1[]", "10[] | 1[] | 2[]"),
        ("4[enter 9] | 4[enter 9 | 6[]]", "4[enter 9 | 6[]] | 4[enter 9]"),
        ("1[2[9[] | 8[]] | 2[7[]]]", "1[2[7[]] | 2[8[] | 9[]]]"),
    ] {
        assert_eq!(listed(term), text);
    }
}

#[test]
fn agents_first_and_a_shorter_text_before_any_that_continues_it() {
    assert_eq!(listed("7[] | open 9 | open 10 | exit 9 | enter 9 | 10[]"), "enter 9 | exit 9 | open 10 | open 9 | 10[] | 7[]");
    assert_eq!(
        listed("open 12 | open 1.exit 2 | open 1 | open 1.exit 2.exit 1"),
        "open 1 | open 1.exit 2 | open 1.exit 2.exit 1 | open 12"
    );
    assert_eq!(listed("9[7[] | exit 7 | enter 7 | exit 65535]"), "9[enter 7 | exit 65535 | exit 7 | 7[]]");
}

#[test]
fn what_the_request_names() {
    // "its example in 01 comes out the same, and the bench case `9[7[exit 9]]` now ends `7[] | 9[]`"
    assert_eq!(listed("7[enter 9] | 9[exit 7]"), "7[enter 9] | 9[exit 7]");
    let mut cell = load(&file_of("9[7[exit 9]]")).unwrap();
    for _ in 0..4 {
        step(&mut cell, 0, 255).unwrap();
    }
    assert_eq!(listing(&cell), "7[] | 9[]", "on its way it stands in its destination");
}

#[test]
fn two_numberings_of_one_layout() {
    let one = [[1, 1, 0, 9, 0], [1, 2, 1, 8, 0], [1, 3, 1, 7, 0], [1, 4, 3, 5, 0]].concat();
    let one = load(&[&one[..], &[2, 0, 2, 3, 0, 2, 9, 0, 2, 1, 3, 3, 1, 2, 9, 0, 4]].concat()).unwrap();
    let other = [[1, 9, 0, 9, 0], [1, 3, 9, 7, 0], [1, 2, 3, 5, 0], [1, 1, 9, 8, 0]].concat();
    let other = load(&[&other[..], &[2, 7, 3, 3, 7, 2, 9, 0, 2, 5, 1, 3, 5, 2, 9, 0, 4]].concat()).unwrap();
    assert_eq!([listing(&one), listing(&other)], ["9[7[exit 9 | 5[]] | 8[exit 9]]"; 2]);
    assert!(one != other && alike(&one, &other));
}

#[test]
fn layouts_that_are_not_the_same() {
    let terms =
        ["0", "7[]", "7[] | 7[]", "7[7[]]", "7/7/7/0[]", "7[enter 7]", "7[exit 7]", "enter 7 | 7[]", "enter 7.exit 7", "enter 7 | exit 7"];
    let cells = terms.map(|term| load(&file_of(term)).unwrap());
    for (at, one) in cells.iter().enumerate() {
        for (index, other) in cells.iter().enumerate() {
            assert_eq!((alike(one, other), listing(one) == listing(other)), (at == index, at == index));
        }
    }
    // an agent without unused actions is no part
    assert!(alike(&load(&[2, 5, 0, 4]).unwrap(), &Cell::bare()));
}

/// A number below the limit; the same seed gives the same numbers.
fn below(seed: &mut u64, limit: u64) -> u64 {
    *seed = seed.wrapping_mul(6_364_136_223_846_793_005).wrapping_add(1_442_695_040_888_963_407);
    (*seed >> 33) % limit
}

/// A small cell of few names: places, some with keys and some on their way, and agents, some with nothing left.
fn random_cell(seed: &mut u64) -> Cell {
    let mut cell = Cell::bare();
    for number in 1..=below(seed, 6) as u8 {
        let parent = below(seed, number as u64) as u8;
        let stands = if below(seed, 4) == 0 { Stands::OnItsWay(parent) } else { Stands::Linked(parent) };
        let name = [7, 7, 70][below(seed, 3) as usize];
        let keys = Keys::of([name, name, if below(seed, 5) == 0 { 0 } else { name }]);
        cell.places.insert(number, Place { name, keys, stands, touches: below(seed, 9) });
    }
    for number in 0..below(seed, 4) as u8 {
        let action =
            |seed: &mut u64| Action { kind: [Kind::Enter, Kind::Exit][below(seed, 2) as usize], name: [7, 70][below(seed, 2) as usize] };
        let unused = (0..below(seed, 3)).map(|_| action(seed)).collect();
        let home = below(seed, cell.places.len() as u64) as u8;
        cell.agents.insert(number, Agent { home, stage: 0, remembered: None, chosen: None, unused });
    }
    cell
}

/// The same cell under other numbers: each place and agent gets one of its own.
fn renumbered(seed: &mut u64, cell: &Cell) -> Cell {
    let mut numbers: Vec<u8> = (1..64).collect();
    (1..63).for_each(|at| numbers.swap(at, below(seed, at as u64 + 1) as usize));
    let new = |number: u8| if number == 0 { 0 } else { numbers[number as usize - 1] };
    let stands = |place: &Place| match place.stands {
        Stands::TheFloor => Stands::TheFloor,
        Stands::Linked(parent) => Stands::Linked(new(parent)),
        Stands::OnItsWay(destination) => Stands::OnItsWay(new(destination)),
    };
    let mut other = Cell::bare();
    other.places = cell.places.iter().map(|(&number, place)| (new(number), Place { stands: stands(place), ..*place })).collect();
    other.agents = cell.agents.iter().map(|(&number, agent)| (63 - number, Agent { home: new(agent.home), ..agent.clone() })).collect();
    other
}

/// "Listings are then equal exactly if the terms are equal by that equivalence."
#[test]
fn equal_exactly_if_the_layouts_are_the_same() {
    let mut seed = 7;
    let cells: Vec<Cell> = (0..800).map(|_| random_cell(&mut seed)).collect();
    let texts: Vec<String> = cells.iter().map(listing).collect();
    let mut same = 0;
    for (at, one) in cells.iter().enumerate() {
        let other = renumbered(&mut seed, one);
        assert!(alike(one, &other) && listing(&other) == texts[at]);
        for (index, other) in cells.iter().enumerate().skip(at + 1) {
            assert_eq!(alike(one, other), texts[at] == texts[index], "{} and {}", texts[at], texts[index]);
            same += alike(one, other) as usize;
        }
    }
    assert!(same > 1_000, "{same} pairs are the same");
}
