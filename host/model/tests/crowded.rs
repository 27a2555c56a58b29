//! Demands 2 and 3 with release (document 02, W11), on random cells in which few numbers or none are unused.

use model::{listing, load, make, permitted, read, step, Cell, Kind, Move, Plain, Tree, Word};

/// A number below the limit; the same seed gives the same numbers.
fn below(seed: &mut u64, limit: u64) -> u64 {
    *seed = seed.wrapping_mul(6_364_136_223_846_793_005).wrapping_add(1_442_695_040_888_963_407);
    (*seed >> 33) % limit
}

/// A random cell with few names, so many places beside the floor, under any numbers, and many that release and open.
fn random_cell(seed: &mut u64, places: usize) -> Cell {
    let mut numbers: Vec<u8> = (1..64).collect();
    (1..63).for_each(|at| numbers.swap(at, below(seed, at as u64 + 1) as usize));
    let mut given = vec![0];
    let mut file = Vec::new();
    for &number in &numbers[..places] {
        let parent = given[below(seed, given.len().min(5) as u64) as usize];
        file.extend([1, number, parent, 1 + below(seed, 3) as u8, 0]);
        given.push(number);
    }
    for agent in 0..2 + below(seed, 6) as u8 {
        file.extend([2, agent, given[below(seed, given.len().min(8) as u64) as usize]]);
        for _ in 0..1 + below(seed, 6) {
            file.extend([3, agent, [1, 2, 3, 4, 4, 4][below(seed, 6) as usize], 1 + below(seed, 3) as u8, 0]);
        }
    }
    file.push(4);
    load(&file).expect("the file is accepted")
}

/// The move that a left, opened or put stands for, in the plain tree before it.
fn made(plain: &Plain, tree: &Tree, agent: u8) -> Move {
    let (home, unused) = &plain.agents[&agent];
    let kind = unused[0].kind;
    let with = match kind {
        Kind::Enter | Kind::Open => plain.picks[&agent],
        Kind::Exit => plain.places[home].around().expect("an exit leaves a place"),
        Kind::Release => (1..64).find(|number| !tree.places.contains_key(number)).expect("a number is unused"),
    };
    Move { agent, kind, with }
}

/// "every enter, exit or open that the ambient calculus permits", and every release, "can be reached by at most nine steps of its own agent, with
/// exactly the calculus's result."
fn reached(cell: &Cell, wanted: Move) -> bool {
    let mut after = cell.clone();
    (0..9).any(|_| {
        let word = step(&mut after, wanted.agent, wanted.with).expect("the agent is there").word;
        matches!(word, Word::Came | Word::Opened | Word::Put)
    }) && Tree::of(&after) == make(&Tree::of(cell), wanted)
        && after.settled()
}

/// Whether some agent's next step changes the cell, whatever its wish.
fn somebody_can_go_on(cell: &Cell) -> bool {
    let changes = |agent: u8, wish: u8| {
        let mut after = cell.clone();
        step(&mut after, agent, wish).is_ok() && after != *cell
    };
    cell.agents.keys().any(|&agent| (0..=64).all(|wish| changes(agent, wish)))
}

/// "When all agents are asleep or done, a release may be an agent's next action, and then only with 64 places in use."
#[test]
fn after_any_calls() {
    let mut seed = 11;
    let (mut puts, mut again, mut full, mut nowhere, mut woken, mut moves) = (0, 0, 0, 0, 0, 0);
    for round in 0..500 {
        let places = if round % 4 == 0 { below(&mut seed, 8) as usize } else { 63 - below(&mut seed, 5) as usize };
        let mut cell = random_cell(&mut seed, places);
        let loaded = cell.clone();
        let mut plain = Plain::of_load(&cell);
        for _ in 0..300 {
            let (agent, wish) = (below(&mut seed, cell.agents.len() as u64) as u8, below(&mut seed, 70) as u8);
            let (before, tree) = (cell.clone(), plain.tree());
            let stepped = step(&mut cell, agent, wish).unwrap();
            match stepped.word {
                Word::Left | Word::Opened | Word::Put => {
                    let made = made(&plain, &tree, agent);
                    assert!(permitted(&tree).contains(&made), "{made:?}");
                    plain.follow(agent, wish, stepped.word);
                    assert_eq!(plain.tree(), make(&tree, made));
                    puts += (stepped.word == Word::Put) as usize;
                    again += (stepped.word == Word::Put && loaded.places.contains_key(&made.with)) as usize;
                }
                _ => plain.follow(agent, wish, stepped.word),
            }
            assert!(plain.equals(&cell) && plain.same_order(&cell) && plain.same_picks(&cell) && cell.one_tree());
            let asleep_on_none = |cell: &Cell| cell.agents.values().filter(|agent| agent.stage == 7 && agent.remembered.is_none()).count();
            assert!(asleep_on_none(&cell) == 0 || cell.places.len() == 64, "in a cell that came from a load");
            nowhere += asleep_on_none(&cell).saturating_sub(asleep_on_none(&before));
            woken += asleep_on_none(&before).saturating_sub(asleep_on_none(&cell));
            if cell.settled() && below(&mut seed, 4) == 0 {
                for wanted in permitted(&Tree::of(&cell)) {
                    assert!(reached(&cell, wanted), "{wanted:?}");
                    moves += (wanted.kind == Kind::Release) as usize;
                }
            }
            if cell.idle() {
                assert!(permitted(&Tree::of(&cell)).is_empty());
                let release_next =
                    cell.agents.values().any(|agent| agent.unused.first().is_some_and(|action| action.kind == Kind::Release));
                assert!(!release_next || cell.places.len() == 64);
                full += release_next as usize;
                break;
            }
            assert!(below(&mut seed, 24) > 0 || somebody_can_go_on(&cell));
        }
        let listed = listing(&cell);
        assert_eq!(read(listed.as_bytes()).map(|cell| listing(&cell)), Ok(listed));
    }
    assert!(puts > 1_000 && again > 100, "{puts} were put, {again} under a number that an opening freed");
    assert!(full > 100 && nowhere > 300 && woken > 100, "{full} rest with a release next, {nowhere} slept on no place, {woken} were woken");
    assert!(moves > 500, "{moves} releases were reached");
}
