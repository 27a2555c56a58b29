//! Document 02, W10: which bonder is it in.

use model::{common, file_of, listing, load, nearest, step, Cell};
use std::collections::BTreeSet;

/// The cell of a term after steps of these agents without a wish.
fn after(term: &str, agents: &[u8]) -> Cell {
    let mut cell = load(&file_of(term)).expect("the file is accepted");
    for &agent in agents {
        step(&mut cell, agent, 255).expect("the agent is there");
    }
    cell
}

/// Holder 3 is in tray 2, the tray and spool 4 are in bonder 1, cart 5 is beside the bonder.
const CRIB: &str = "20[50[30[]] | 40[]] | 60[]";

#[test]
fn the_nearest_of_a_name() {
    let cell = after(CRIB, &[]);
    assert_eq!([nearest(&cell, 3, 50), nearest(&cell, 3, 20), nearest(&cell, 4, 20)], [Ok(Some(2)), Ok(Some(1)), Ok(Some(1))]);
    // what is inside it, beside it or elsewhere does not enclose it, nor does anything that is not there
    assert_eq!([nearest(&cell, 2, 30), nearest(&cell, 4, 50), nearest(&cell, 3, 60), nearest(&cell, 3, 7)], [Ok(None); 4]);
    // of several of a name, the innermost
    let cell = after("7[7[8[7[9[]]]]]", &[]);
    let answers = [1, 2, 3, 4, 5].map(|place| nearest(&cell, place, 7));
    assert_eq!(answers, [None, Some(1), Some(2), Some(2), Some(4)].map(Ok), "the place itself not counted");
}

#[test]
fn the_floor_by_its_name() {
    let cell = after(CRIB, &[]);
    assert_eq!([1, 2, 3, 4, 5].map(|place| nearest(&cell, place, 0)), [Ok(Some(0)); 5]);
    assert_eq!(nearest(&cell, 0, 0), Ok(None), "the floor itself is not counted");
    assert_eq!([1, 20, 65_535].map(|name| nearest(&cell, 0, name)), [Ok(None); 3]);
    assert_eq!(nearest(&Cell::bare(), 0, 0), Ok(None));
}

#[test]
fn names_and_not_keys() {
    let cell = after("9/7/7/7[8/9/0/65535[65535[5[]]]]", &[]);
    assert_eq!([7, 0, 9, 8, 65_535].map(|name| nearest(&cell, 4, name)), [None, Some(0), Some(1), Some(2), Some(3)].map(Ok));
    assert_eq!([nearest(&cell, 2, 65_535), nearest(&cell, 3, 65_535)], [Ok(None); 2]);
}

#[test]
fn the_innermost_of_both() {
    let cell = after(CRIB, &[]);
    let held = [(3, 4, 1), (2, 4, 1), (3, 5, 0), (1, 5, 0), (4, 5, 0)];
    let one_of_them = [(3, 2, 2), (3, 1, 1), (2, 1, 1), (3, 0, 0), (5, 0, 0)];
    for (place, other, both) in held.into_iter().chain(one_of_them) {
        assert_eq!([common(&cell, place, other), common(&cell, other, place)], [Ok(both); 2], "of {place} and {other}");
    }
    for place in 0..=5 {
        assert_eq!(common(&cell, place, place), Ok(place), "it is both itself");
    }
    assert_eq!(common(&Cell::bare(), 0, 0), Ok(0));
}

#[test]
fn on_its_way_it_is_at_its_destination() {
    // holder 1, with part 2 in it, enters bonder 3, in which spool 4 is: until it leaves it is on the floor
    let term = "30[enter 20 | 31[]] | 20[40[]]";
    let whereabouts = |steps: usize| {
        let cell = after(term, &[0; 7][..steps]);
        (nearest(&cell, 1, 20), nearest(&cell, 2, 20), common(&cell, 1, 4), common(&cell, 2, 3))
    };
    for steps in 0..=3 {
        assert_eq!(whereabouts(steps), (Ok(None), Ok(None), Ok(0), Ok(0)), "after {steps} steps");
    }
    for steps in 4..=7 {
        assert_eq!(whereabouts(steps), (Ok(Some(3)), Ok(Some(3)), Ok(3), Ok(3)), "after {steps} steps");
    }
    // and out of the bonder: place 2 leaves place 1
    let whereabouts = |steps: usize| {
        let cell = after("20[30[exit 20 | 31[]]]", &[0; 7][..steps]);
        (nearest(&cell, 3, 20), common(&cell, 1, 3), common(&cell, 2, 3))
    };
    for steps in 0..=7 {
        let around = if steps < 4 { (Ok(Some(1)), Ok(1), Ok(2)) } else { (Ok(None), Ok(0), Ok(2)) };
        assert_eq!(whereabouts(steps), around, "after {steps} steps");
    }
}

#[test]
fn an_opened_place_holds_nothing() {
    let term = "20[open 50 | 50[30[] | 31[]]]";
    let cell = after(term, &[0; 3]);
    assert_eq!((nearest(&cell, 3, 50), common(&cell, 3, 4)), (Ok(Some(2)), Ok(2)));
    let cell = after(term, &[0; 4]);
    assert_eq!(listing(&cell), "20[30[] | 31[]]");
    assert_eq!((nearest(&cell, 3, 50), nearest(&cell, 3, 20), common(&cell, 3, 4)), (Ok(None), Ok(Some(1)), Ok(1)));
    assert_eq!((nearest(&cell, 2, 20), common(&cell, 2, 3), common(&cell, 3, 2)), (Err(5), Err(5), Err(5)));
}

#[test]
fn turned_away_questions() {
    let cell = after(CRIB, &[]);
    for name in [0, 20, 65_535] {
        assert_eq!([64, 65, 255].map(|place| nearest(&cell, place, name)), [Err(3); 3]);
        assert_eq!([6, 62, 63].map(|place| nearest(&cell, place, name)), [Err(5); 3]);
    }
    for above in [64, 65, 255] {
        // "a place number above 63 is 3, then an unused one is 5": wherever each of them stands
        for other in [0, 3, 6, 63, 64, 255] {
            assert_eq!([common(&cell, above, other), common(&cell, other, above)], [Err(3); 2]);
        }
    }
    for unused in [6, 63] {
        for other in [0, 3, 6, 63] {
            assert_eq!([common(&cell, unused, other), common(&cell, other, unused)], [Err(5); 2]);
        }
    }
}

#[test]
fn as_deep_as_there_are_numbers() {
    // each of the 63 places stands in the one before, and their names take turns
    let file: Vec<u8> = (1..64).flat_map(|place| [1, place, place - 1, 1 + place % 3, 0]).chain([4]).collect();
    let cell = load(&file).expect("the file is accepted");
    assert_eq!([0, 1, 2, 3, 4].map(|name| nearest(&cell, 63, name)), [Some(0), Some(60), Some(61), Some(62), None].map(Ok));
    assert_eq!([nearest(&cell, 1, 2), nearest(&cell, 2, 2), nearest(&cell, 3, 1)], [None, Some(1), None].map(Ok));
    for place in 0..64 {
        for other in 0..64 {
            assert_eq!(common(&cell, place, other), Ok(place.min(other)));
        }
    }
}

/// A number below the limit; the same seed gives the same numbers.
fn below(seed: &mut u64, limit: u64) -> u64 {
    *seed = seed.wrapping_mul(6_364_136_223_846_793_005).wrapping_add(1_442_695_040_888_963_407);
    (*seed >> 33) % limit
}

/// A random cell with few names, most places not far from the one before, and most agents with something to do.
fn random_cell(seed: &mut u64) -> Cell {
    let places = 1 + below(seed, 12) as u8;
    let parent = |seed: &mut u64, place: u8| if below(seed, 2) == 0 { place - 1 } else { below(seed, place as u64) as u8 };
    let mut file: Vec<u8> = (1..=places).flat_map(|place| [1, place, parent(seed, place), 1 + below(seed, 3) as u8, 0]).collect();
    for agent in 0..1 + below(seed, 8) as u8 {
        file.extend([2, agent, below(seed, places as u64 + 1) as u8]);
        (0..below(seed, 8)).for_each(|_| file.extend([3, agent, 1 + below(seed, 3) as u8, 1 + below(seed, 3) as u8, 0]));
    }
    file.push(4);
    load(&file).expect("the file is accepted")
}

/// Every pair of an outer and an inner place: one that stands in another has that one around it, and what is around a place is around all that it
/// holds. Pairs are joined until there is no new one, and no path is walked.
fn enclosures(cell: &Cell) -> BTreeSet<(u8, u8)> {
    let mut pairs: BTreeSet<(u8, u8)> = cell.places.iter().filter_map(|(&inner, place)| Some((place.around()?, inner))).collect();
    loop {
        let inside = |middle: u8| pairs.range((middle, 0)..=(middle, 255)).map(|&(_, inner)| inner);
        let joined: Vec<(u8, u8)> = pairs.iter().flat_map(|&(outer, middle)| inside(middle).map(move |inner| (outer, inner))).collect();
        let before = pairs.len();
        pairs.extend(joined);
        if pairs.len() == before {
            return pairs;
        }
    }
}

/// The one of these places that all others of them hold, if there is one.
fn innermost(pairs: &BTreeSet<(u8, u8)>, among: &[u8]) -> Option<u8> {
    among.iter().copied().find(|&inner| among.iter().all(|&outer| outer == inner || pairs.contains(&(outer, inner))))
}

/// The refusal of a question about these places, if it is refused.
fn refused(cell: &Cell, places: &[u8]) -> Option<u8> {
    if places.iter().any(|&place| place > 63) {
        Some(3)
    } else if places.iter().any(|place| !cell.places.contains_key(place)) {
        Some(5)
    } else {
        None
    }
}

/// What the request says of the nearest place of a name.
fn nearest_by_pairs(cell: &Cell, pairs: &BTreeSet<(u8, u8)>, place: u8, name: u16) -> Result<Option<u8>, u8> {
    let enclosing = |number: &u8| pairs.contains(&(*number, place)) && cell.places[number].name == name;
    let named: Vec<u8> = cell.places.keys().copied().filter(enclosing).collect();
    let found = innermost(pairs, &named);
    assert_eq!(found.is_none(), named.is_empty(), "none exactly if no enclosing place has that name");
    refused(cell, &[place]).map_or(Ok(found), Err)
}

/// What the request says of the innermost place of both.
fn common_by_pairs(cell: &Cell, pairs: &BTreeSet<(u8, u8)>, place: u8, other: u8) -> Result<u8, u8> {
    let holds_or_is = |number: u8, place: u8| number == place || pairs.contains(&(number, place));
    let both: Vec<u8> = cell.places.keys().copied().filter(|&number| holds_or_is(number, place) && holds_or_is(number, other)).collect();
    match refused(cell, &[place, other]) {
        Some(number) => Err(number),
        None => Ok(innermost(pairs, &both).expect("it always has an answer")),
    }
}

#[test]
fn as_the_pairs_say_after_any_steps() {
    let mut seed = 10;
    let (mut found, mut none, mut deeper, mut on_their_way, mut turned_away) = (0, 0, 0, 0, 0);
    for _ in 0..1_500 {
        let mut cell = random_cell(&mut seed);
        for _ in 0..1 + below(&mut seed, 120) {
            let (agent, wish) = (below(&mut seed, cell.agents.len() as u64) as u8, below(&mut seed, 16) as u8);
            step(&mut cell, agent, wish).expect("the agent is there");
            let pairs = enclosures(&cell);
            let mut number = || match below(&mut seed, 4) {
                0 => below(&mut seed, 256) as u8,
                _ => below(&mut seed, 13) as u8,
            };
            let (place, other, of) = (number(), number(), number());
            let name = below(&mut seed, 5) as u16;
            let (near, both) = (nearest(&cell, of, name), common(&cell, place, other));
            assert_eq!(near, nearest_by_pairs(&cell, &pairs, of, name), "nearest {name} of {of} in {cell:?}");
            assert_eq!(both, common_by_pairs(&cell, &pairs, place, other), "common of {place} and {other} in {cell:?}");
            found += matches!(near, Ok(Some(1..))) as usize;
            none += (near == Ok(None)) as usize;
            deeper += matches!(both, Ok(1..) if place != other) as usize;
            turned_away += (near.is_err() as usize) + (both.is_err() as usize);
            on_their_way += (both.is_ok() && [place, other].iter().any(|at| cell.places[at].on_its_way_to().is_some())) as usize;
        }
    }
    assert!(found > 2_000 && none > 2_000 && deeper > 2_000, "{found} found, {none} not found, {deeper} deeper than the floor");
    assert!(on_their_way > 300 && turned_away > 5_000, "{on_their_way} on their way, {turned_away} turned away");
}

#[test]
fn every_question_about_a_cell() {
    let mut seed = 11;
    for _ in 0..40 {
        let mut cell = random_cell(&mut seed);
        for _ in 0..below(&mut seed, 60) {
            let agent = below(&mut seed, cell.agents.len() as u64) as u8;
            step(&mut cell, agent, 255).expect("the agent is there");
        }
        let pairs = enclosures(&cell);
        for place in 0..=66 {
            for name in 0..=4 {
                assert_eq!(nearest(&cell, place, name), nearest_by_pairs(&cell, &pairs, place, name));
            }
            for other in 0..=66 {
                assert_eq!(common(&cell, place, other), common_by_pairs(&cell, &pairs, place, other));
            }
        }
    }
}
