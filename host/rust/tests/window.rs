//! The register window of a card: commands and clears.

use keeper::lent::{Lent, WINDOW_SIZE};
use keeper::{Cell, Refusal, Stepped, Window, Word};

/// The worked example, and its order: its eleventh step, of agent 0, answers came and wakes agent 1.
const EXAMPLE: &str = "7[enter 9] | 9[exit 7]";
const ORDER: [u8; 13] = [0, 1, 0, 1, 0, 0, 1, 1, 0, 0, 0, 0, 1];

/// The cell of a text after steps of these agents without a wish.
fn after(text: &str, agents: &[u8]) -> Cell {
    let mut cell = Cell::read(text).unwrap();
    agents.iter().for_each(|&agent| assert!(cell.step(agent, 255).is_ok()));
    cell
}

/// The bytes of a window with these bytes after its command on the cell.
fn commanded(cell: &mut Cell, bytes: [u8; WINDOW_SIZE]) -> [u8; WINDOW_SIZE] {
    let mut window = Window::from_bytes(bytes);
    cell.command(&mut window).unwrap();
    window.bytes()
}

/// The bytes of a window with these bytes after a clear.
fn cleared(bytes: [u8; WINDOW_SIZE], ones: u8) -> [u8; WINDOW_SIZE] {
    let mut window = Window::from_bytes(bytes);
    window.clear(ones).unwrap();
    window.bytes()
}

/// An unsound cell.
fn unsound() -> Cell {
    Cell::from_lent(Lent::zeros())
}

#[test]
fn eight_bytes() {
    let window = Window { command: 1, agent: 2, wish: 3, answer: 4, woken: 5, flags: 6, mask: 7, line: 8 };
    assert_eq!(window.bytes(), [1, 2, 3, 4, 5, 6, 7, 8]);
    assert_eq!(Window::from_bytes([1, 2, 3, 4, 5, 6, 7, 8]), window);
    assert_eq!(Window::default().bytes(), [0; 8]);
}

#[test]
fn a_step_writes_answer_woken_flags_and_line() {
    for old in [0, 1, 77, 255] {
        let came = &mut after(EXAMPLE, &ORDER[..10]);
        assert_eq!(commanded(&mut after(EXAMPLE, &[]), [1, 1, 200, old, old, 0, 7, old]), [1, 1, 200, 0, 0, 0, 7, 0]);
        assert_eq!(commanded(&mut after(EXAMPLE, &[]), [1, 9, 200, old, old, 0, 7, old]), [1, 9, 200, 139, 0, 4, 7, 1]);
        assert_eq!(commanded(came, [1, 0, 200, old, old, 0, 7, old]), [1, 0, 200, 6, 1, 1, 7, 1]);
        assert_eq!(commanded(&mut unsound(), [1, 0, 200, old, old, 0, 3, old]), [1, 0, 200, 138, 0, 4, 3, 0]);
    }
}

#[test]
fn the_worked_example() {
    let (mut cell, mut stepped) = (after(EXAMPLE, &[]), after(EXAMPLE, &[]));
    let mut window = Window { command: Window::STEP, wish: 255, ..Window::default() };
    for (at, agent) in ORDER.into_iter().enumerate() {
        window.agent = agent;
        cell.command(&mut window).unwrap();
        assert_eq!(window.stepped(), stepped.step(agent, 255), "step {at}");
        assert!(cell.lent() == stepped.lent(), "step {at}");
        // the flag of the waking stays, whatever the steps after it do
        assert_eq!(window.flags, if at < 10 { 0 } else { Window::WOKE }, "step {at}");
        assert_eq!(window.line, 0);
    }
    assert_eq!(window.stepped(), Ok(Stepped { word: Word::Looked, woken: 0 }));
}

#[test]
fn rest_and_refusals() {
    let mut cell = after("7[]", &[]);
    assert_eq!(commanded(&mut cell, [1, 0, 0, 0, 0, 0, 7, 0]), [1, 0, 0, 139, 0, 4, 7, 1], "no agents, and no rest: it was refused");
    // the last step before rest: it sets the flag of rest, and so do asleep and done after it
    let mut cell = after("7[enter 7]", &[0, 0]);
    assert_eq!(commanded(&mut cell, [1, 0, 0, 0, 0, 0, 2, 0]), [1, 0, 0, 4, 0, 2, 2, 1]);
    assert_eq!(commanded(&mut cell, [1, 0, 0, 0, 0, 0, 2, 0]), [1, 0, 0, 9, 0, 2, 2, 1]);
    assert_eq!(commanded(&mut cell, [1, 1, 0, 0, 0, 0, 2, 0]), [1, 1, 0, 139, 0, 4, 2, 0], "a refusal sets its own flag alone");
    let mut cell = after("release 9", &[0, 0]);
    assert_eq!(commanded(&mut cell, [1, 0, 0, 0, 0, 0, 0, 1]), [1, 0, 0, 8, 0, 2, 0, 0]);
    assert_eq!(commanded(&mut cell, [1, 0, 0, 0, 0, 5, 1, 0]), [1, 0, 0, 10, 0, 7, 1, 1], "flags that were set stay");
    let refused = Window { answer: 139, ..Window::default() }.stepped().unwrap_err();
    assert_eq!((refused.refusal, refused.offset), (Refusal::NoSuchAgent, None));
    assert_eq!(Window { answer: 138, ..Window::default() }.stepped().unwrap_err().refusal, Refusal::Unsound);
}

#[test]
fn a_refused_step_leaves_the_cell() {
    for mut cell in [after(EXAMPLE, &ORDER[..6]), unsound()] {
        let before = cell.lent().clone();
        assert_eq!(commanded(&mut cell, [1, 64, 255, 3, 3, 3, 0, 3])[3] & 128, 128);
        assert!(*cell.lent() == before);
    }
}

#[test]
fn every_other_command_sets_the_line_alone() {
    for mut cell in [after(EXAMPLE, &ORDER[..6]), unsound()] {
        let before = cell.lent().clone();
        for command in (0..=255).filter(|&command| command != Window::STEP) {
            for (flags, mask) in [(0, 255), (255, 0), (8, 8), (6, 2), (6, 9), (128, 255)] {
                let line = u8::from(flags & mask != 0);
                let kept = [command, 0, 255, 9, 9, flags, mask];
                let expected = [command, 0, 255, 9, 9, flags, mask, line];
                for old in [0, 1, 255] {
                    let bytes = std::array::from_fn(|at| if at < 7 { kept[at] } else { old });
                    assert_eq!(commanded(&mut cell, bytes), expected);
                }
            }
        }
        assert!(*cell.lent() == before);
    }
}

#[test]
fn every_clear() {
    for flags in 0..=255_u8 {
        for ones in 0..=255 {
            let mask = flags.wrapping_mul(31) ^ ones;
            let left = flags & !ones;
            let line = u8::from(left & mask != 0);
            assert_eq!(cleared([1, 2, 3, 4, 5, flags, mask, 77], ones), [1, 2, 3, 4, 5, left, mask, line]);
        }
    }
}

#[test]
fn the_line_follows_the_mask() {
    let mut cell = after(EXAMPLE, &ORDER[..10]);
    let mut window = Window { command: Window::STEP, wish: 255, mask: Window::WOKE, ..Window::default() };
    cell.command(&mut window).unwrap();
    assert_eq!((window.flags, window.line), (Window::WOKE, 1));
    // a new mask shows after the next command, an unknown one too
    window.mask = Window::REFUSED;
    assert_eq!(window.line, 1);
    window.command = 0;
    cell.command(&mut window).unwrap();
    assert_eq!((window.flags, window.line, window.answer), (Window::WOKE, 0, 6));
    window.mask = Window::WOKE;
    window.clear(Window::REST | Window::REFUSED).unwrap();
    assert_eq!((window.flags, window.line), (Window::WOKE, 1));
    window.clear(Window::WOKE).unwrap();
    assert_eq!((window.flags, window.line), (0, 0));
}
