//! Calls at the same time: on two cells from two threads, and on one cell those that only read it.

use keeper::{Asked, Cell, Stepped};
use std::sync::Barrier;
use std::thread;

/// How often each thread goes through its calls.
const ROUNDS: usize = 500;

/// Two layouts, of which each thread has one.
const TEXTS: [&str; 2] = ["1[enter 2.exit 2] | 2[enter 1.exit 1]", "open 1 | 1[2[3[exit 2]]] | 4[enter 2]"];

/// What a row of calls answers: each step, some of which are asked for and committed, the touches of the floor, the listing and whether all rest.
type Answers = (Vec<Stepped>, u64, String, bool);

/// A row of calls on a cell, from its reading on.
fn calls(cell: &mut Cell, text: &str) -> Answers {
    cell.reread(text).unwrap();
    let mut step = |call: u8| {
        let asked = cell.ask(call % 2, 255).unwrap();
        let stepped = if call % 3 == 0 { cell.commit(asked) } else { cell.step(call % 2, 255) };
        stepped.unwrap()
    };
    let stepped = (0..60).map(&mut step).collect();
    let touches = cell.touch(0, 1_200).unwrap();
    (stepped, touches, cell.listing().unwrap(), cell.idle().unwrap())
}

#[test]
fn two_threads_on_two_cells() {
    let alone = TEXTS.map(|text| calls(&mut Cell::bare(), text));
    assert_ne!(alone[0], alone[1]);
    let start = Barrier::new(TEXTS.len());
    thread::scope(|scope| {
        for (text, expected) in TEXTS.into_iter().zip(&alone) {
            let start = &start;
            scope.spawn(move || {
                let mut cell = Cell::bare();
                start.wait();
                for _ in 0..ROUNDS {
                    assert_eq!(&calls(&mut cell, text), expected);
                }
            });
        }
    });
}

#[test]
fn two_threads_that_only_read_one_cell() {
    let mut cell = Cell::bare();
    let (_, touches, listing, rest) = calls(&mut cell, TEXTS[0]);
    let before = cell.clone();
    let told: [Asked; 2] = [0, 1].map(|agent| cell.ask(agent, 255).unwrap());
    let found = [1, 2].map(|place| (cell.nearest(place, 1), cell.common(place, 1)));
    assert!(found.iter().all(|(nearest, common)| nearest.is_ok() && common.is_ok()));
    let ceiling = cell.ceiling();
    assert!(ceiling.is_ok());
    let start = Barrier::new(2);
    thread::scope(|scope| {
        for _ in 0..2 {
            scope.spawn(|| {
                start.wait();
                for _ in 0..ROUNDS {
                    assert_eq!(cell.check(), Ok(()));
                    assert_eq!(cell.touches(0), Ok(touches));
                    assert_eq!(cell.listing().as_ref(), Ok(&listing));
                    assert_eq!(cell.idle(), Ok(rest));
                    assert_eq!(cell.ceiling(), ceiling);
                    assert_eq!([0, 1].map(|agent| cell.ask(agent, 255).unwrap()), told);
                    assert_eq!([1, 2].map(|place| (cell.nearest(place, 1), cell.common(place, 1))), found);
                }
            });
        }
    });
    assert!(cell.lent() == before.lent());
}
