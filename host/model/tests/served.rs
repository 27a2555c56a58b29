//! Document 02, W5: first in, first served.

use model::{listing, load, make, permitted, step, Cell, Kind, Move, Plain, Tree, Word};

const ENTER: u8 = 1;
const EXIT: u8 = 2;
const OPEN: u8 = 3;

/// The cell of a file with these places (number, parent, name), in this order, and then agents 0, 1, .. (home, actions).
fn cell(places: &[(u8, u8, u8)], agents: &[(u8, &[(u8, u8)])]) -> Cell {
    let mut file: Vec<u8> = places.iter().flat_map(|&(number, parent, name)| [1, number, parent, name, 0]).collect();
    for (number, (home, actions)) in agents.iter().enumerate() {
        file.extend([2, number as u8, *home]);
        file.extend(actions.iter().flat_map(|&(kind, name)| [3, number as u8, kind, name, 0]));
    }
    file.push(4);
    load(&file).expect("the file is accepted")
}

/// Steps of these agents without a wish, the plain tree kept beside the cell; the words.
fn run(cell: &mut Cell, plain: &mut Plain, agents: &[u8]) -> Vec<Word> {
    let step = |&agent: &u8| {
        let word = step(cell, agent, 255).expect("the agent is there").word;
        plain.follow(agent, 255, word);
        assert!(plain.equals(cell) && plain.same_order(cell) && cell.one_tree());
        word
    };
    agents.iter().map(step).collect()
}

/// The place that agent 0 chooses with this wish, from the cell as loaded.
fn choice(mut cell: Cell, wish: u8) -> Option<u8> {
    for _ in 0..3 {
        step(&mut cell, 0, wish).expect("the agent is there");
    }
    cell.agents[&0].chosen
}

#[test]
fn loaded_places_count_in_file_order() {
    let enters = |places: &[(u8, u8, u8)]| choice(cell(places, &[(1, &[(ENTER, 9)])]), 255);
    assert_eq!(enters(&[(1, 0, 7), (2, 0, 9), (3, 0, 9)]), Some(2));
    assert_eq!(enters(&[(1, 0, 7), (3, 0, 9), (2, 0, 9)]), Some(3));
    assert_eq!(enters(&[(63, 0, 9), (1, 0, 7), (2, 0, 9)]), Some(63), "before the agent's own");
    assert_eq!(enters(&[(5, 0, 8), (4, 5, 9), (3, 0, 9), (2, 0, 9), (1, 0, 7)]), Some(3), "one under another parent does not count");
    let opens = |places: &[(u8, u8, u8)]| choice(cell(places, &[(0, &[(OPEN, 9)])]), 255);
    assert_eq!(opens(&[(2, 0, 9), (1, 0, 9), (3, 0, 9)]), Some(2));
    assert_eq!(opens(&[(7, 0, 8), (3, 0, 9), (1, 7, 9), (2, 0, 9)]), Some(3));
    // touch records and agents between the places change nothing
    let file = [1, 3, 0, 9, 0, 2, 0, 0, 3, 0, 3, 9, 0, 1, 1, 0, 9, 0, 5, 1, 0, 0, 0, 0, 5, 3, 0, 0, 0, 0, 4];
    assert_eq!(choice(load(&file).unwrap(), 255), Some(3));
}

#[test]
fn a_fitting_wish_decides() {
    let loaded = || cell(&[(1, 0, 7), (4, 0, 9), (3, 0, 9), (2, 0, 8), (5, 1, 9)], &[(1, &[(ENTER, 9)])]);
    assert_eq!(choice(loaded(), 3), Some(3), "the younger one");
    // the elder one, another name, its own place, one inside, an unused one, the floor, no place
    for wish in [4, 2, 1, 5, 6, 0, 64, 255] {
        assert_eq!(choice(loaded(), wish), Some(4));
    }
    // every move that the calculus permits is reached with its place as the wish
    let moves = permitted(&Tree::of(&loaded()));
    assert_eq!(moves, [3, 4].map(|with| Move { agent: 0, kind: Kind::Enter, with }));
    for reached in moves {
        let mut after = loaded();
        for _ in 0..7 {
            step(&mut after, 0, reached.with).unwrap();
        }
        assert_eq!(Tree::of(&after), make(&Tree::of(&loaded()), reached));
    }
}

#[test]
fn a_tray_that_left_and_came_back_is_the_latest() {
    // trays 2 and 3, named 50; tray 2 goes into bonder 4 and comes out again; agents 0 and 1 then enter a tray each
    let places = [(1, 0, 30), (2, 0, 50), (3, 0, 50), (4, 0, 20), (5, 0, 31)];
    let mut cell = cell(&places, &[(1, &[(ENTER, 50)]), (5, &[(ENTER, 50)]), (2, &[(ENTER, 20), (EXIT, 20)])]);
    let mut plain = Plain::of_load(&cell);
    assert_eq!(cell.children.under(0), [1, 2, 3, 4, 5]);
    run(&mut cell, &mut plain, &[2; 14]);
    assert_eq!(
        (listing(&cell).as_str(), cell.children.under(0)),
        ("20[] | 30[enter 50] | 31[enter 50] | 50[] | 50[]", &[1, 3, 4, 5, 2][..])
    );
    run(&mut cell, &mut plain, &[0; 7]);
    assert_eq!(listing(&cell), "20[] | 31[enter 50] | 50[30[]] | 50[]");
    assert_eq!((cell.children.under(0), cell.places[&1].linked_to()), (&[3, 4, 5, 2][..], Some(3)));
}

#[test]
fn on_its_way_it_does_not_qualify_and_age_starts_anew_when_it_comes() {
    // tray 2 goes into bonder 4 and out again; agents 0 and 1 would open a tray on the floor, which is where they live
    let loaded = || cell(&[(2, 0, 50), (3, 0, 50), (4, 0, 20)], &[(0, &[(OPEN, 50)]), (0, &[(OPEN, 50)]), (2, &[(ENTER, 20), (EXIT, 20)])]);
    let chosen = |before: &[u8]| {
        let mut cell = loaded();
        let mut plain = Plain::of_load(&cell);
        run(&mut cell, &mut plain, before);
        assert_eq!(run(&mut cell, &mut plain, &[0, 0, 0]), [Word::Looked, Word::Took, Word::Took]);
        cell.agents[&0].chosen
    };
    assert_eq!(chosen(&[]), Some(2));
    assert_eq!(chosen(&[2]), Some(2), "looking leaves the order alone");
    // after 13 steps agent 2 holds the floor
    for steps in (4..=14).filter(|&steps| steps != 13) {
        assert_eq!(chosen(&vec![2; steps]), Some(3), "after {steps} steps of agent 2");
    }
    // between its two moves it is in the bonder, where it is the latest of those that stand there
    let mut cell = cell(&[(2, 0, 50), (4, 0, 20), (7, 4, 1), (6, 4, 1)], &[(2, &[(ENTER, 20), (EXIT, 20)])]);
    let mut plain = Plain::of_load(&cell);
    run(&mut cell, &mut plain, &[0; 4]);
    assert_eq!([cell.children.under(0), cell.children.under(4)], [&[4][..], &[7, 6]]);
    run(&mut cell, &mut plain, &[0; 3]);
    assert_eq!([cell.children.under(0), cell.children.under(4)], [&[4][..], &[7, 6, 2]]);
}

#[test]
fn freed_children_are_the_latest_and_keep_their_order() {
    // on the floor trays 8 and 2; box 9, given first, has trays 7, 3 and 5; agent 0 opens the box, then a tray
    let places = [(9, 0, 60), (7, 9, 50), (8, 0, 50), (3, 9, 50), (2, 0, 50), (5, 9, 50), (6, 7, 1), (4, 7, 1)];
    let mut cell = cell(&places, &[(0, &[(OPEN, 60), (OPEN, 50), (OPEN, 50), (OPEN, 50)])]);
    let mut plain = Plain::of_load(&cell);
    assert_eq!([cell.children.under(0), cell.children.under(9)], [&[9, 8, 2][..], &[7, 3, 5]]);
    assert_eq!(run(&mut cell, &mut plain, &[0; 4])[3], Word::Opened);
    assert_eq!(cell.children.under(0), [8, 2, 7, 3, 5]);
    run(&mut cell, &mut plain, &[0; 4]);
    assert_eq!(cell.children.under(0), [2, 7, 3, 5]);
    run(&mut cell, &mut plain, &[0; 4]);
    assert_eq!(cell.children.under(0), [7, 3, 5]);
    run(&mut cell, &mut plain, &[0; 4]);
    assert_eq!((cell.children.under(0), cell.children.under(7)), (&[3, 5, 6, 4][..], &[][..]));
}

#[test]
fn an_opening_leaves_other_orders_alone() {
    // box 9 stands between trays 3 and 2; a place within a freed one keeps its order there
    let places = [(3, 0, 50), (9, 0, 60), (2, 0, 50), (8, 9, 40), (5, 8, 1), (4, 8, 1)];
    let mut cell = cell(&places, &[(0, &[(OPEN, 60)])]);
    let mut plain = Plain::of_load(&cell);
    run(&mut cell, &mut plain, &[0; 4]);
    assert_eq!([cell.children.under(0), cell.children.under(8), cell.children.under(9)], [&[3, 2, 8][..], &[5, 4], &[]]);
}

/// A number below the limit; the same seed gives the same numbers.
fn below(seed: &mut u64, limit: u64) -> u64 {
    *seed = seed.wrapping_mul(6_364_136_223_846_793_005).wrapping_add(1_442_695_040_888_963_407);
    (*seed >> 33) % limit
}

/// A random cell with few names, whose places are numbered downwards, upwards or anyhow.
fn random_cell(seed: &mut u64) -> Cell {
    let mut numbers: Vec<u8> = (1..=1 + below(seed, 12) as u8).collect();
    match below(seed, 3) {
        0 => numbers.reverse(),
        1 => (1..numbers.len()).for_each(|at| numbers.swap(at, below(seed, at as u64 + 1) as usize)),
        _ => {}
    }
    let mut given = vec![0];
    let mut places = Vec::new();
    for number in numbers {
        let among = given.len().min(1 + below(seed, 4) as usize) as u64;
        places.push((number, given[below(seed, among) as usize], 1 + below(seed, 2) as u8));
        given.push(number);
    }
    let row = |seed: &mut u64| (0..below(seed, 10)).map(|_| (1 + below(seed, 4) as u8, 1 + below(seed, 2) as u8)).collect::<Vec<_>>();
    let agents: Vec<_> = (0..1 + below(seed, 6)).map(|_| (given[below(seed, given.len() as u64) as usize], row(seed))).collect();
    let agents: Vec<(u8, &[(u8, u8)])> = agents.iter().map(|(home, row)| (*home, &row[..])).collect();
    cell(&places, &agents)
}

/// "The plain tree knows this order too, from the file and the words came and opened, and picks by it": after any calls its order is the
/// cell's, and a choice without a fitting wish is the first of those that qualify.
#[test]
fn the_order_after_any_calls() {
    let mut seed = 5;
    let (mut several, mut not_lowest) = (0, 0);
    for _ in 0..1_200 {
        let mut cell = random_cell(&mut seed);
        let mut plain = Plain::of_load(&cell);
        for _ in 0..below(&mut seed, 200) {
            let (agent, wish) = (below(&mut seed, cell.agents.len() as u64) as u8, below(&mut seed, 60) as u8);
            let before = cell.clone();
            let word = step(&mut cell, agent, wish).unwrap().word;
            plain.follow(agent, wish, word);
            assert!(plain.equals(&cell) && plain.same_order(&cell));
            let all: usize = cell.children.lists().map(|(_, list)| list.len()).sum();
            assert_eq!(all, cell.places.values().filter(|place| place.linked_to().is_some()).count());
            let (then, now) = (&before.agents[&agent], &cell.agents[&agent]);
            if let (2, 3, Some(chosen)) = (then.stage, now.stage, now.chosen) {
                let p = now.remembered.unwrap();
                let found = model::qualifying(&before.places, now.home, p, now.unused[0]);
                if found.len() > 1 && !found.contains(&wish) {
                    let position = |place: u8| before.children.under(p).iter().position(|&other| other == place).unwrap();
                    assert!(found.iter().all(|&other| position(chosen) <= position(other)));
                    several += 1;
                    not_lowest += (chosen != found[0]) as usize;
                }
            }
        }
    }
    assert!(several > 300 && not_lowest > 150, "{several} choices among several, {not_lowest} of another than the lowest number");
}
