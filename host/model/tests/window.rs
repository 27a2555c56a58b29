//! Document 02, W14: the register window of the bonder's card.

use model::{ask, clear, command, command_on_unsound, file_of, load, step, Cell, Stepped, Window, Word};
use std::collections::BTreeSet;

/// The cell of a term.
fn cell(term: &str) -> Cell {
    load(&file_of(term)).expect("the file is accepted")
}

/// The cell of a term after steps of these agents without a wish.
fn after(term: &str, agents: &[u8]) -> Cell {
    let mut cell = cell(term);
    agents.iter().for_each(|&agent| assert!(step(&mut cell, agent, 255).is_ok()));
    cell
}

/// The bytes of a window with these bytes after its command on the cell.
fn commanded(cell: &mut Cell, bytes: [u8; 8]) -> [u8; 8] {
    let mut window = Window::of(bytes);
    command(cell, &mut window);
    window.bytes()
}

/// The bytes of a window with these bytes after a clear with these ones.
fn cleared(bytes: [u8; 8], ones: u8) -> [u8; 8] {
    let mut window = Window::of(bytes);
    clear(&mut window, ones);
    window.bytes()
}

/// The answers that steps of these agents, without a wish, give in one window.
fn answers(term: &str, agents: &[u8]) -> Vec<u8> {
    let mut cell = cell(term);
    let mut window = Window { command: 1, wish: 255, ..Window::default() };
    let mut answer = |&agent: &u8| {
        window.agent = agent;
        command(&mut cell, &mut window);
        window.answer
    };
    agents.iter().map(&mut answer).collect()
}

/// The worked example of document 01, and its order: its eleventh step, of agent 0, answers came and wakes agent 1.
const EXAMPLE: &str = "7[enter 9] | 9[exit 7]";
const ORDER: [u8; 13] = [0, 1, 0, 1, 0, 0, 1, 1, 0, 0, 0, 0, 1];

#[test]
fn eight_bytes_in_this_order() {
    let window = Window { command: 1, agent: 2, wish: 3, answer: 4, woken: 5, flags: 6, mask: 7, line: 8 };
    assert_eq!(window.bytes(), [1, 2, 3, 4, 5, 6, 7, 8]);
    assert_eq!(Window::of([1, 2, 3, 4, 5, 6, 7, 8]), window);
    assert_eq!(Window::default().bytes(), [0; 8]);
}

#[test]
fn the_number_of_every_word() {
    assert_eq!(answers(EXAMPLE, &ORDER), [0, 0, 1, 2, 1, 5, 1, 4, 1, 1, 6, 10, 0]);
    assert_eq!(answers("7[enter 9 | enter 9] | 9[]", &[0, 1, 0, 0, 0, 1, 1]), [0, 0, 1, 1, 5, 1, 3]);
    assert_eq!(answers("open 7 | 7[8[]]", &[0; 5]), [0, 1, 1, 7, 10]);
    assert_eq!(answers("release 9", &[0; 4]), [0, 1, 8, 10]);
    assert_eq!(answers("7[enter 7]", &[0; 4]), [0, 1, 4, 9]);
    let words = ["looked", "took", "held", "back", "slept", "left", "came", "opened", "put", "asleep", "done"];
    use Word::*;
    for (at, word) in [Looked, Took, Held, Back, Slept, Left, Came, Opened, Put, Asleep, Done].into_iter().enumerate() {
        assert_eq!((word.number() as usize, word.text()), (at, words[at]));
    }
}

#[test]
fn a_step_writes_answer_woken_flags_and_line_only() {
    // whatever stood in them
    for old in [0, 1, 77, 255] {
        assert_eq!(commanded(&mut cell(EXAMPLE), [1, 1, 200, old, old, 0, 7, old]), [1, 1, 200, 0, 0, 0, 7, 0]);
        assert_eq!(commanded(&mut cell(EXAMPLE), [1, 9, 200, old, old, 0, 7, old]), [1, 9, 200, 139, 0, 4, 7, 1]);
        assert_eq!(commanded(&mut after(EXAMPLE, &ORDER[..10]), [1, 0, 200, old, old, 0, 7, old]), [1, 0, 200, 6, 1, 1, 7, 1]);
    }
}

#[test]
fn the_wish_is_the_window_s() {
    for (wish, chosen) in [(255, 2), (2, 2), (3, 3), (1, 2)] {
        let mut cell = after("7[enter 9] | 9[] | 9[]", &[0, 0]);
        assert_eq!(commanded(&mut cell, [1, 0, wish, 9, 9, 0, 0, 9]), [1, 0, wish, 1, 0, 0, 0, 0]);
        assert_eq!(cell.agents[&0].chosen, Some(chosen));
    }
}

#[test]
fn bit_0_when_a_step_woke_someone() {
    let mut cell = after(EXAMPLE, &ORDER[..10]);
    assert_eq!(commanded(&mut cell, [1, 0, 255, 0, 0, 0, 0, 0])[3..6], [6, 1, 1]);
    assert_eq!(commanded(&mut cell, [1, 0, 255, 6, 1, 0, 0, 0])[3..6], [10, 0, 0], "agent 1 is awake, and was before this step");
    // three sleep on the floor until place 4 is put there
    let mut cell = after("7[enter 9] | 7[enter 9] | 7[enter 9] | release 9", &[0, 1, 2, 0, 0, 1, 1, 2, 2, 3, 3]);
    assert_eq!([0, 1, 2, 3].map(|agent| cell.agents[&agent].stage), [7, 7, 7, 2]);
    assert_eq!(commanded(&mut cell, [1, 3, 255, 0, 0, 0, 0, 0])[3..6], [8, 3, 1]);
}

#[test]
fn bit_1_when_all_are_asleep_or_done_after_it() {
    let mut cell = after("7[enter 7]", &[0, 0]);
    assert_eq!(commanded(&mut cell, [1, 0, 255, 0, 0, 0, 0, 0])[3..6], [4, 0, 2], "the step that puts the last to sleep");
    assert_eq!(commanded(&mut cell, [1, 0, 255, 0, 0, 0, 0, 0])[3..6], [9, 0, 2], "and each after it");
    let mut cell = after("release 9", &[0, 0]);
    assert_eq!(commanded(&mut cell, [1, 0, 255, 0, 0, 0, 0, 0])[3..6], [8, 0, 2], "or to its end");
    assert_eq!(commanded(&mut cell, [1, 0, 255, 0, 0, 0, 0, 0])[3..6], [10, 0, 2]);
    let mut cell = after("7[enter 7] | 8[enter 7]", &[0, 0]);
    assert_eq!(commanded(&mut cell, [1, 0, 255, 0, 0, 0, 0, 0])[3..6], [4, 0, 0], "another is awake");
    assert_eq!(commanded(&mut cell, [1, 0, 255, 0, 0, 0, 0, 0])[3..6], [9, 0, 0]);
}

#[test]
fn bit_2_on_a_refusal_and_no_other() {
    // all asleep, all done, nobody there, someone awake: bit 1 is not set
    for mut cell in [after("7[enter 7]", &[0; 3]), after("release 9", &[0; 3]), Cell::bare(), cell(EXAMPLE)] {
        let before = cell.clone();
        for agent in [2, 63, 64, 255] {
            assert_eq!(commanded(&mut cell, [1, agent, 255, 6, 5, 0, 4, 0]), [1, agent, 255, 128 + 11, 0, 4, 4, 1]);
            assert_eq!(cell, before, "the cell is as it was");
        }
    }
    // bits that were set stay
    assert_eq!(commanded(&mut Cell::bare(), [1, 0, 0, 0, 9, 0xFB, 0, 1]), [1, 0, 0, 139, 0, 0xFF, 0, 0]);
}

#[test]
fn an_unsound_table() {
    for number in 0..=255u8 {
        let mut window = Window::of([number, 0, 255, 6, 5, 0x41, 4, 0]);
        command_on_unsound(&mut window);
        let expected = if number == 1 { [1, 0, 255, 138, 0, 0x45, 4, 1] } else { [number, 0, 255, 6, 5, 0x41, 4, 0] };
        assert_eq!(window.bytes(), expected);
    }
}

#[test]
fn a_set_flag_stays_until_cleared() {
    let mut cell = after(EXAMPLE, &ORDER[..10]);
    let mut window = Window { command: 1, agent: 0, wish: 255, mask: 3, ..Window::default() };
    let mut flags = |window: &mut Window, agent: u8| {
        window.agent = agent;
        command(&mut cell, window);
        (window.flags, window.line)
    };
    assert_eq!(flags(&mut window, 0), (1, 1), "came, and woke agent 1");
    assert_eq!(flags(&mut window, 0), (1, 1), "done, and woke nobody");
    assert_eq!(flags(&mut window, 7), (5, 1), "refused");
    clear(&mut window, 1);
    assert_eq!((window.flags, window.line), (4, 0));
    assert_eq!([1, 1, 1].map(|agent| flags(&mut window, agent)), [(4, 0), (4, 0), (6, 1)], "agent 1 sleeps again: bit 1 joins bit 2");
}

#[test]
fn bits_3_to_7_stay_and_take_part_in_the_line() {
    for high in (0..=255u8).step_by(8) {
        for mask in 0..=255u8 {
            let line = |flags: u8| (flags & mask != 0) as u8;
            let step = commanded(&mut cell(EXAMPLE), [1, 0, 255, 3, 3, high, mask, 3]);
            assert_eq!(step, [1, 0, 255, 0, 0, high, mask, line(high)]);
            let refused = commanded(&mut Cell::bare(), [1, 0, 255, 3, 3, high, mask, 3]);
            assert_eq!(refused, [1, 0, 255, 139, 0, high | 4, mask, line(high | 4)]);
        }
    }
}

#[test]
fn all_256_commands() {
    for start in [cell(EXAMPLE), after(EXAMPLE, &ORDER[..10]), after("7[enter 7]", &[0; 3]), Cell::bare()] {
        for number in 0..=255u8 {
            for (flags, mask, line) in [(0, 255, 0), (255, 0, 0), (5, 2, 0), (5, 6, 1), (0x80, 0x80, 1), (0x80, 0x7F, 0)] {
                let mut cell = start.clone();
                let bytes = commanded(&mut cell, [number, 0, 255, 200, 100, flags, mask, 50]);
                if number == 1 {
                    let mut stepped = start.clone();
                    let answered = step(&mut stepped, 0, 255).map_or_else(|number| 128 + number, |stepped| stepped.word.number());
                    assert_eq!((bytes[3], &cell), (answered, &stepped));
                } else {
                    assert_eq!(bytes, [number, 0, 255, 200, 100, flags, mask, line], "the line only");
                    assert_eq!(cell, start);
                }
            }
        }
    }
}

#[test]
fn every_clear() {
    for ones in 0..=255u8 {
        for flags in 0..=255u8 {
            let kept = (0..8).map(|bit| 1 << bit).filter(|bit| flags & bit != 0 && ones & bit == 0).sum::<u8>();
            for mask in [0, 1, 2, 4, 7, 0x80, 0xF8, 255] {
                let shared = (0..8).any(|bit| (kept >> bit) & (mask >> bit) & 1 == 1);
                assert_eq!(cleared([1, 2, 3, 4, 5, flags, mask, 6], ones), [1, 2, 3, 4, 5, kept, mask, shared as u8]);
            }
        }
    }
}

/// A number below the limit; the same seed gives the same numbers.
fn below(seed: &mut u64, limit: u64) -> u64 {
    *seed = seed.wrapping_mul(6_364_136_223_846_793_005).wrapping_add(1_442_695_040_888_963_407);
    (*seed >> 33) % limit
}

/// A random cell with few names, most agents with something to do, some of them to release.
fn random_cell(seed: &mut u64) -> Cell {
    let places = 1 + below(seed, 8) as u8;
    let mut file: Vec<u8> =
        (1..=places).flat_map(|place| [1, place, below(seed, place as u64) as u8, 1 + below(seed, 3) as u8, 0]).collect();
    for agent in 0..below(seed, 6) as u8 {
        file.extend([2, agent, below(seed, places as u64 + 1) as u8]);
        (0..below(seed, 5)).for_each(|_| file.extend([3, agent, 1 + below(seed, 4) as u8, 1 + below(seed, 3) as u8, 0]));
    }
    file.push(4);
    load(&file).expect("the file is accepted")
}

/// "An agent is asleep, or done, when a step call for it would answer that word": whether all are.
fn all_idle(cell: &Cell) -> bool {
    cell.agents.keys().all(|&agent| matches!(ask(cell, agent, 255).expect("the agent is there").word, Word::Asleep | Word::Done))
}

#[test]
fn the_cell_is_the_one_the_same_step_calls_give() {
    let mut seed = 14;
    let mut counts = [0; 5];
    let mut words = BTreeSet::new();
    for _ in 0..3_000 {
        let mut cell = random_cell(&mut seed);
        let mut steps_alone = cell.clone();
        let mut window = Window::of([0; 8].map(|_: u8| below(&mut seed, 256) as u8));
        for _ in 0..1 + below(&mut seed, 120) {
            let [c, a, w, answer, woken, flags, mask, _] = window.bytes();
            let line = |flags: u8, mask: u8| (0..8).any(|bit| (flags >> bit) & (mask >> bit) & 1 == 1) as u8;
            if below(&mut seed, 6) == 0 {
                let ones = below(&mut seed, 256) as u8;
                clear(&mut window, ones);
                let kept = flags - (flags & ones);
                assert_eq!(window.bytes(), [c, a, w, answer, woken, kept, mask, line(kept, mask)]);
                counts[0] += 1;
                assert_eq!(cell, steps_alone);
                continue;
            }
            let c = if below(&mut seed, 8) == 0 { below(&mut seed, 256) as u8 } else { 1 };
            let a = if below(&mut seed, 20) == 0 { below(&mut seed, 256) } else { below(&mut seed, 1.max(cell.agents.len() as u64)) } as u8;
            let w = below(&mut seed, 12) as u8;
            let mask = if below(&mut seed, 3) == 0 { below(&mut seed, 256) as u8 } else { mask };
            window = Window { command: c, agent: a, wish: w, mask, ..window };
            command(&mut cell, &mut window);
            let (answer, woken, set) = match c {
                1 => match step(&mut steps_alone, a, w) {
                    Ok(Stepped { word, woken }) => {
                        words.insert(word.number());
                        (word.number(), woken as u8, (woken > 0) as u8 + 2 * all_idle(&steps_alone) as u8)
                    }
                    Err(number) => (128 + number, 0, 4),
                },
                _ => (answer, woken, 0),
            };
            assert!(set <= 2 || set == 4, "who was woken is awake after it, so bits 0 and 1 are not set at once");
            assert_eq!(window.bytes(), [c, a, w, answer, woken, flags | set, mask, line(flags | set, mask)], "in {cell:?}");
            assert_eq!(cell, steps_alone);
            counts[if c == 1 { [4, 1, 2, 4, 3][set as usize] } else { 0 }] += 1;
        }
    }
    assert!(words.len() == 11 && counts.iter().all(|&count| count > 500), "{words:?}, {counts:?}");
}
