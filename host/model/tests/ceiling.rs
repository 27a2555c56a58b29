//! Document 02, W12: no order can churn forever.

use model::{ask, ceiling, changes_nothing, changing_calls, commit, file_of, load, loaded_ceiling, read, step, touch};
use model::{Cell, Stepped, Word};

/// The cell of a term.
fn cell(term: &str) -> Cell {
    load(&file_of(term)).expect("the file is accepted")
}

/// The worked example of document 01, and its order.
const EXAMPLE: &str = "7[enter 9] | 9[exit 7]";
const ORDER: [u8; 13] = [0, 1, 0, 1, 0, 0, 1, 1, 0, 0, 0, 0, 1];

#[test]
fn of_loaded_cells() {
    assert_eq!([(0, 0), (1, 0), (1, 1), (2, 2), (64, 1_024)].map(|(g, a)| loaded_ceiling(g, a)), [0, 5, 17, 54, 657_728]);
    assert_eq!(ceiling(&cell(EXAMPLE)), 54);
    assert_eq!([ceiling(&Cell::bare()), ceiling(&load(&[]).unwrap()), ceiling(&cell("7[8[] | 9[]]"))], [0; 3], "no agents, no changes");
    assert_eq!(ceiling(&load(&[2, 0, 0, 4]).unwrap()), 5, "an agent without actions counts among the agents");
    assert_eq!(ceiling(&load(&[2, 0, 0, 2, 9, 0, 3, 9, 4, 7, 0, 4]).unwrap()), loaded_ceiling(2, 1));
    assert_eq!(ceiling(&read(b"7[enter 9] | 9[exit 7]").unwrap()), 54, "one that was read counts as loaded");
    let full: Vec<u8> = (0..64).flat_map(|agent| [vec![2, agent, 0], [3, agent, 3, 7, 0].repeat(16)].concat()).chain([4]).collect();
    assert_eq!(ceiling(&load(&full).unwrap()), 657_728);
}

#[test]
fn along_the_worked_example() {
    use Word::*;
    let mut cell = cell(EXAMPLE);
    let mut seen = vec![ceiling(&cell)];
    let mut words = Vec::new();
    for agent in ORDER {
        let Stepped { word, .. } = step(&mut cell, agent, 255).unwrap();
        words.push(word);
        seen.push(ceiling(&cell));
    }
    // left and came lower it by 5 × 2 + 1 each, and nothing else does here
    assert_eq!(seen, [54, 54, 54, 54, 54, 54, 43, 43, 43, 43, 43, 32, 32, 32]);
    assert_eq!((words[5], words[10]), (Left, Came));
    let mut again = self::cell(EXAMPLE);
    let order = ORDER.map(|agent| (agent, 255));
    assert_eq!(changing_calls(&mut again, &order), 11, "all but held and done");
    assert_eq!(again, cell);
    assert_eq!(changing_calls(&mut again, &[(2, 255), (64, 255), (0, 255), (0, 3)]), 0, "refused and done");
    assert_eq!(again, cell);
}

#[test]
fn by_kind_of_action() {
    let lowered = |term: &str, steps: usize| {
        let mut cell = cell(term);
        let before = ceiling(&cell);
        (0..steps).for_each(|_| assert!(step(&mut cell, 0, 255).is_ok()));
        (before, before - ceiling(&cell))
    };
    // one agent: 5 + 1 for each of the two changes that an action stands for
    assert_eq!([lowered("9[7[exit 9]]", 3), lowered("9[7[exit 9]]", 4), lowered("9[7[exit 9]]", 7)], [(17, 0), (17, 6), (17, 12)]);
    assert_eq!([lowered("open 7 | 7[8[]]", 3), lowered("open 7 | 7[8[]]", 4)], [(17, 0), (17, 12)]);
    assert_eq!([lowered("release 9", 2), lowered("release 9", 3)], [(17, 0), (17, 12)]);
    assert_eq!([lowered("7[enter 7]", 3), lowered("7[enter 7]", 9)], [(17, 0); 2], "asleep it keeps its action");
}

#[test]
fn touches_are_no_step_calls() {
    let mut cell = cell(EXAMPLE);
    for place in [0, 1, 2] {
        touch(&mut cell, place, 1_200).unwrap();
        assert_eq!(ceiling(&cell), 54);
    }
}

/// A number below the limit; the same seed gives the same numbers.
fn below(seed: &mut u64, limit: u64) -> u64 {
    *seed = seed.wrapping_mul(6_364_136_223_846_793_005).wrapping_add(1_442_695_040_888_963_407);
    (*seed >> 33) % limit
}

/// A random cell with few names, most agents with something to do, some of them to release.
fn random_cell(seed: &mut u64) -> Cell {
    let places = 1 + below(seed, 8) as u8;
    let mut file: Vec<u8> = Vec::new();
    for place in 1..=places {
        file.extend([1, place, below(seed, place as u64) as u8, 1 + below(seed, 3) as u8, 0]);
    }
    for agent in 0..1 + below(seed, 6) as u8 {
        file.extend([2, agent, below(seed, places as u64 + 1) as u8]);
        (0..below(seed, 5)).for_each(|_| file.extend([3, agent, 1 + below(seed, 4) as u8, 1 + below(seed, 3) as u8, 0]));
    }
    file.push(4);
    load(&file).expect("the file is accepted")
}

/// An agent whose step answers one of these words, if there is one, else any that is neither asleep nor done.
fn one_of(seed: &mut u64, cell: &Cell, words: &[Word]) -> u8 {
    let awake: Vec<u8> = cell.agents.iter().filter(|(_, agent)| agent.stage < 7).map(|(&number, _)| number).collect();
    let answers = |number: &u8| words.contains(&ask(cell, *number, 255).expect("the agent is there").word);
    let first: Vec<u8> = awake.iter().copied().filter(answers).collect();
    let among = if first.is_empty() { &awake } else { &first };
    among[below(seed, among.len() as u64) as usize]
}

#[test]
fn no_order_passes_it() {
    use Word::*;
    let mut seed = 12;
    let (mut rests, mut changed, mut share) = (0, 0, 0.0f64);
    for round in 0..2_000 {
        let mut cell = random_cell(&mut seed);
        let start = ceiling(&cell);
        assert_eq!(start, loaded_ceiling(cell.agents.len() as u64, cell.agents.values().map(|agent| agent.unused.len() as u64).sum()));
        let (mut changes, mut allowed) = (0, start);
        while !cell.idle() {
            // those first that move nothing, or any: so the steps between two moves are many, or as they come
            let agent = one_of(&mut seed, &cell, if round % 2 == 0 { &[Looked, Took, Back, Slept] } else { &[] });
            let wish = below(&mut seed, 12) as u8;
            let before = cell.clone();
            let stepped = if below(&mut seed, 2) == 0 {
                step(&mut cell, agent, wish)
            } else {
                let asked = ask(&cell, agent, wish).unwrap();
                commit(&mut cell, agent, wish, Some(asked.word), asked.woken, asked.chosen)
            };
            assert_eq!(cell != before, !changes_nothing(stepped.map(|stepped| stepped.word)), "{stepped:?} in {before:?}");
            changes += (cell != before) as u64;
            // every cell on the way is a start too
            allowed = allowed.min(changes + ceiling(&cell));
            assert!(changes <= allowed, "{changes} changes, {allowed} allowed");
        }
        rests += 1;
        changed += changes;
        share = share.max(changes as f64 / start as f64);
    }
    assert!(rests == 2_000 && changed > 30_000 && share > 0.4, "{rests} runs, {changed} changes, share {share}");
}
