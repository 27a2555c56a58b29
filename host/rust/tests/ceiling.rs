//! No order churns forever: how many step calls can still change a cell, at most, and that no order passes it.

use keeper::lent::Lent;
use keeper::{Cell, Refusal, Refused, Word};

/// The worked example, two agents with one action each.
const EXAMPLE: &str = "7[enter 9] | 9[exit 7]";

/// The number of a loaded cell with so many agents and actions.
fn loaded(agents: u64, actions: u64) -> u64 {
    5 * agents * (2 * actions + 1) + 2 * actions
}

/// Whether a call that answers this word changed nothing.
fn rests(word: Word) -> bool {
    matches!(word, Word::Held | Word::Asleep | Word::Done)
}

/// The cell with nothing in the bytes that mean nothing.
fn fields(cell: &Cell) -> Lent {
    let mut lent = cell.lent().clone();
    lent.agents.iter_mut().flat_map(|agent| &mut agent.actions).for_each(|action| action.padding = 0);
    lent
}

#[test]
fn of_loaded_cells() {
    assert_eq!(loaded(2, 2), 54);
    assert_eq!(Cell::read(EXAMPLE).unwrap().ceiling(), Ok(54));
    assert_eq!([Cell::bare(), Cell::load(&[]).unwrap(), Cell::read("7[8[] | 9[]]").unwrap()].map(|cell| cell.ceiling()), [Ok(0); 3]);
    assert_eq!(Cell::load(&[2, 0, 0, 4]).unwrap().ceiling(), Ok(loaded(1, 0)), "an agent that has nothing to do");
    let three = Cell::read("release 9.open 9.release 9 | 7[enter 9 | exit 7.exit 9]").unwrap();
    assert_eq!(three.ceiling(), Ok(loaded(3, 6)));
    let agent = |number: u8| [vec![2, number, 0], [3, number, 3, 7, 0].repeat(16)].concat();
    let full: Vec<u8> = (0..64).flat_map(agent).chain([4]).collect();
    assert_eq!((Cell::load(&full).unwrap().ceiling(), loaded(64, 1_024)), (Ok(657_728), 657_728));
}

#[test]
fn along_the_worked_example() {
    let mut cell = Cell::read(EXAMPLE).unwrap();
    let mut seen = vec![cell.ceiling().unwrap()];
    for agent in [0, 1, 0, 1, 0, 0, 1, 1, 0, 0, 0, 0, 1] {
        let before = cell.clone();
        let word = cell.step(agent, 255).unwrap().word;
        assert_eq!(fields(&cell) == fields(&before), rests(word), "{word}");
        let number = cell.ceiling().unwrap();
        assert_eq!(seen[seen.len() - 1] - number, if matches!(word, Word::Left | Word::Came) { 11 } else { 0 }, "{word}");
        seen.push(number);
    }
    assert_eq!((seen[5], seen[6], seen[10], seen[11]), (54, 43, 43, 32));
    cell.touch(1, 1_200).unwrap();
    assert!(cell.step(64, 0).is_err());
    assert_eq!(cell.ceiling(), Ok(32));
    for (text, last) in [("open 7 | 7[8[]]", Word::Opened), ("release 9", Word::Put)] {
        cell.reread(text).unwrap();
        let before = cell.ceiling();
        while cell.step(0, 255).unwrap().word != last {
            assert_eq!(cell.ceiling(), before);
        }
        assert_eq!((before, cell.ceiling()), (Ok(17), Ok(5)));
    }
}

#[test]
fn unsound_tables() {
    let unsound = Err(Refused { refusal: Refusal::Unsound, offset: None });
    let changed = |change: fn(&mut Lent)| {
        let mut lent = Cell::read(EXAMPLE).unwrap().lent().clone();
        change(&mut lent);
        let cell = Cell::from_lent(lent.clone());
        let answer = cell.ceiling();
        assert!(*cell.lent() == lent);
        answer
    };
    assert_eq!(Cell::from_lent(Lent::zeros()).ceiling(), unsound);
    assert_eq!([changed(|lent| lent.locks[2] = 0), changed(|lent| lent.agents[1].count = 17)], [unsound; 2]);
    assert_eq!(changed(|lent| lent.agents[0].stage = 4), unsound);
    let on_its_way = |lent: &mut Lent| (lent.agents[0].stage, lent.places[1].way) = (4, 1);
    assert_eq!(changed(on_its_way), Ok(5 * 2 * (5 + 1) + 5), "two unused actions and one agent on its way");
}

/// A number below the limit; the same seed gives the same numbers.
fn below(seed: &mut u64, limit: u64) -> u64 {
    *seed = seed.wrapping_mul(6_364_136_223_846_793_005).wrapping_add(1_442_695_040_888_963_407);
    (*seed >> 33) % limit
}

#[test]
fn no_order_passes_it() {
    let texts = [
        EXAMPLE,
        "1[enter 2.exit 2] | 2[enter 1.exit 1]",
        "open 1.open 2 | 1[2[open 3 | 3[exit 2]]] | 2[enter 1.exit 1]",
        "9[] | open 9.release 9 | open 9.release 9 | open 9.release 9",
        "1[enter 1.exit 1 | exit 1] | 1[enter 1 | open 1] | 1[exit 1.enter 1]",
    ];
    let mut seed = 12;
    for text in texts.into_iter().cycle().take(100) {
        let mut cell = Cell::read(text).unwrap();
        let start = cell.ceiling().unwrap();
        let agents = cell.lent().given.count_ones() as u64;
        let (mut changes, mut allowed, mut rounds) = (0, start, 0);
        while !cell.idle().unwrap() {
            rounds += 1;
            let first = below(&mut seed, agents);
            for turn in 0..agents {
                let (agent, wish) = (((first + turn) % agents) as u8, below(&mut seed, 6) as u8);
                let before = cell.clone();
                let stepped = if below(&mut seed, 2) == 0 {
                    cell.step(agent, wish)
                } else {
                    cell.ask(agent, wish).and_then(|asked| cell.commit(asked))
                };
                let word = stepped.unwrap().word;
                assert_eq!(fields(&cell) == fields(&before), rests(word), "{word}");
                changes += u64::from(!rests(word));
                // every cell on the way is a start too
                allowed = allowed.min(changes + cell.ceiling().unwrap());
                assert!(changes <= allowed, "{changes} changes, {allowed} allowed, from {text}");
            }
        }
        assert!(0 < changes && rounds <= start, "{rounds} rounds, {changes} changes, from {text}");
    }
}
