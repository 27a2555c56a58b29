//! Document 02, W9: ask, then commit.

use model::{ask, commit, file_of, listing, load, step, touch, Asked, Cell, Kind, Plain, Stands, Stepped, Word, NONE_CHOSEN};

/// The cell of a term after steps of these agents without a wish.
fn after(term: &str, agents: &[u8]) -> Cell {
    let mut cell = load(&file_of(term)).expect("the file is accepted");
    for &agent in agents {
        step(&mut cell, agent, 255).expect("the agent is there");
    }
    cell
}

/// What an ask tells: the word, the number woken, and the chosen place.
fn told(cell: &Cell, agent: u8, wish: u8) -> (Word, usize, u8) {
    let Asked { word, woken, chosen } = ask(cell, agent, wish).expect("the agent is there");
    (word, woken, chosen)
}

/// A commit of what an ask told.
fn committed(cell: &mut Cell, agent: u8, wish: u8, asked: Asked) -> Result<Stepped, u8> {
    commit(cell, agent, wish, Some(asked.word), asked.woken, asked.chosen)
}

/// Every word.
const WORDS: [Word; 11] = {
    use Word::*;
    [Looked, Took, Held, Back, Slept, Left, Came, Opened, Put, Asleep, Done]
};

#[test]
fn an_enter_at_each_stage() {
    use Word::*;
    // places 2 and 3 may be entered; with wish 3 the younger one is chosen at stage 2, and at stage 3 the wish does not count any more
    let run = |wish: u8| {
        let mut cell = after("7[enter 9] | 9[] | 9[]", &[]);
        let tell = |_| {
            let told = told(&cell, 0, wish);
            step(&mut cell, 0, wish).unwrap();
            told
        };
        (0..8).map(tell).collect::<Vec<_>>()
    };
    let none = NONE_CHOSEN;
    let words = |chosen| {
        let stages = [(Looked, none), (Took, none), (Took, chosen), (Left, chosen), (Took, none), (Took, none), (Came, none), (Done, none)];
        stages.map(|(word, chosen)| (word, 0usize, chosen))
    };
    assert_eq!(run(255), words(2));
    assert_eq!(run(1), words(2), "its own place is no wish that fits");
    assert_eq!(run(3), words(3));
    let mut cell = after("7[enter 9] | 9[] | 9[]", &[0, 0]);
    step(&mut cell, 0, 3).unwrap();
    assert_eq!([told(&cell, 0, 2), told(&cell, 0, 255)], [(Left, 0, 3); 2], "the wish counts at stage 2 alone");
}

#[test]
fn an_open_and_an_exit_at_each_stage() {
    use Word::*;
    let run = |term: &str, count: usize| {
        let mut cell = after(term, &[]);
        let tell = |_| {
            let told = told(&cell, 0, 255);
            step(&mut cell, 0, 255).unwrap();
            (told.0, told.2)
        };
        (0..count).map(tell).collect::<Vec<_>>()
    };
    let none = NONE_CHOSEN;
    assert_eq!(run("open 7 | 7[8[]]", 5), [(Looked, none), (Took, none), (Took, 1), (Opened, 1), (Done, none)]);
    let exit = [Looked, Took, Took, Left, Took, Took, Came, Done].map(|word| (word, none));
    assert_eq!(run("9[7[exit 9]]", 8), exit, "for an exit no place is told");
    assert_eq!(run("7[enter 7]", 4), [Looked, Took, Slept, Asleep].map(|word| (word, none)), "where it cannot fire none is told");
    assert_eq!(run("open 7", 4), [Looked, Took, Slept, Asleep].map(|word| (word, none)));
    assert_eq!(run("enter 7", 2), [Slept, Asleep].map(|word| (word, none)));
}

#[test]
fn held_tells_the_place_at_stage_2_alone() {
    // agent 0 (enter 9, in place 1) holds the floor; its own place is held by agent 1, which opens 5 there
    let cell = after("7[enter 9 | open 5 | 5[]] | 9[]", &[0, 1, 1, 0]);
    assert_eq!(cell.agents[&0].stage, 2);
    assert_eq!(told(&cell, 0, 255), (Word::Held, 0, 3));
    // agent 0 would open place 1 and holds the floor; place 1 is held by agent 1, whose place stands in it
    let mut cell = after("open 1 | 1[2[exit 1]]", &[1, 1, 0, 0]);
    assert_eq!((cell.locks.get(&1), told(&cell, 0, 255)), (Some(&1), (Word::Held, 0, 1)));
    let before = cell.clone();
    let asked = ask(&cell, 0, 255).unwrap();
    assert_eq!(committed(&mut cell, 0, 255, asked), Ok(Stepped { word: Word::Held, woken: 0 }));
    assert_eq!(cell, before, "a held that is committed changes nothing");
    // at stage 1 nothing is chosen
    let cell = after("7[enter 9] | 9[exit 7]", &[0, 1, 0]);
    assert_eq!(told(&cell, 1, 255), (Word::Held, 0, NONE_CHOSEN));
    let cell = after("7[enter 9] | 9[] | 8[enter 9]", &[0, 1, 0]);
    assert_eq!(told(&cell, 1, 255), (Word::Held, 0, NONE_CHOSEN));
}

#[test]
fn back_tells_no_place() {
    // stage 2: place 1 has gone into place 2 since agent 1 looked, though place 3 on the floor could be entered
    let cell = after("1[enter 1 | enter 1] | 1[] | 1[]", &[1, 0, 0, 0, 0, 0, 0, 0, 1]);
    assert_eq!((cell.agents[&1].stage, cell.agents[&1].remembered), (2, Some(0)));
    assert_eq!([told(&cell, 1, 255), told(&cell, 1, 3)], [(Word::Back, 0, NONE_CHOSEN); 2]);
    // stage 3: agent 1's exit has left for place 1 since agent 0 chose it
    let cell = after("open 1 | 1[2[3[exit 2]]]", &[0, 0, 0, 1, 1, 1]);
    assert_eq!(told(&cell, 0, 255), (Word::Opened, 0, 1));
    let mut cell = after("open 1 | 1[2[3[exit 2]]]", &[0, 0, 0, 1, 1, 1, 1]);
    assert_eq!(told(&cell, 0, 255), (Word::Back, 0, NONE_CHOSEN));
    let asked = ask(&cell, 0, 255).unwrap();
    assert_eq!(committed(&mut cell, 0, 255, asked), Ok(Stepped { word: Word::Back, woken: 0 }));
}

#[test]
fn the_number_woken_is_told() {
    let mut cell = after("open 1 | 1[enter 9 | exit 9 | 2[exit 9]]", &[1, 1, 1, 2, 2, 2, 3, 3, 3, 0, 0, 0]);
    assert_eq!(told(&cell, 0, 255), (Word::Opened, 3, 1));
    let before = cell.clone();
    for woken in [0, 1, 2, 4, 255] {
        assert_eq!(commit(&mut cell, 0, 255, Some(Word::Opened), woken, 1), Err(18));
    }
    assert_eq!(cell, before);
    assert_eq!(commit(&mut cell, 0, 255, Some(Word::Opened), 3, 1), Ok(Stepped { word: Word::Opened, woken: 3 }));
}

#[test]
fn a_stale_ask() {
    // both enter a tray of name 9; agent 0 asks, then agent 1 goes on
    let mut cell = after("7[enter 9] | 8[enter 9] | 9[] | 9[]", &[0, 1]);
    let asked = ask(&cell, 0, 255).unwrap();
    assert_eq!((asked.word, ask(&cell, 1, 255).unwrap().word), (Word::Took, Word::Took));
    step(&mut cell, 1, 255).unwrap();
    let before = cell.clone();
    assert_eq!(committed(&mut cell, 0, 255, asked), Err(18), "the floor is held now");
    assert_eq!(cell, before, "nothing is changed");
    let asked = ask(&cell, 0, 255).unwrap();
    assert_eq!(committed(&mut cell, 0, 255, asked), Ok(Stepped { word: Word::Held, woken: 0 }));
    // the ask says another place, after the one that was chosen has gone: agent 2 takes tray 3 into box 5
    let term = "7[enter 9] | 8[] | 9[enter 6] | 9[] | 6[]";
    let mut cell = after(term, &[0]);
    assert_eq!(step(&mut cell, 0, 255).map(|stepped| stepped.word), Ok(Word::Took));
    assert_eq!([told(&cell, 0, 255), told(&cell, 0, 4)], [(Word::Took, 0, 3), (Word::Took, 0, 4)]);
    let early = after(term, &[0, 0]);
    let asked = ask(&early, 0, 255).unwrap();
    let mut late = after(term, &[1, 1, 1, 1, 1, 1, 1, 0, 0]);
    assert_eq!(told(&late, 0, 255), (Word::Took, 0, 4));
    assert_eq!(committed(&mut late, 0, 255, asked), Err(18));
}

#[test]
fn still_the_same() {
    // what came between does not matter if the answer is still the same: a touch call, or another agent's look
    let mut cell = after("7[enter 9] | 8[enter 9] | 9[]", &[0]);
    let asked = ask(&cell, 0, 255).unwrap();
    touch(&mut cell, 1, 7).unwrap();
    step(&mut cell, 1, 255).unwrap();
    assert_eq!(committed(&mut cell, 0, 255, asked), Ok(Stepped { word: Word::Took, woken: 0 }));
    // another wish than that of the ask, which would choose another place
    let mut cell = after("7[enter 9] | 9[] | 9[]", &[0, 0]);
    let asked = ask(&cell, 0, 255).unwrap();
    assert_eq!(committed(&mut cell, 0, 3, asked), Err(18));
    assert_eq!(committed(&mut cell, 0, 2, asked), Ok(Stepped { word: Word::Took, woken: 0 }));
    assert_eq!(cell.agents[&0].chosen, Some(2));
}

#[test]
fn invented_ones() {
    let term = "7[enter 9] | 9[exit 7] | 9[]";
    for steps in 0..8 {
        let start = after(term, &[0, 0, 0, 0, 0, 0, 0][..steps.min(7)]);
        for agent in [0, 1] {
            let (word, woken, chosen) = told(&start, agent, 255);
            let mut cell = start.clone();
            for other in WORDS.into_iter().filter(|&other| other != word) {
                assert_eq!(commit(&mut cell, agent, 255, Some(other), woken, chosen), Err(18));
            }
            assert_eq!(commit(&mut cell, agent, 255, None, woken, chosen), Err(18), "a word that does not exist");
            for other in (0..=255).filter(|&other| other != chosen) {
                assert_eq!(commit(&mut cell, agent, 255, Some(word), woken, other), Err(18));
            }
            assert_eq!(commit(&mut cell, agent, 255, Some(word), woken + 1, chosen), Err(18));
            assert_eq!(cell, start);
            assert!(commit(&mut cell, agent, 255, Some(word), woken, chosen).is_ok());
        }
    }
}

#[test]
fn no_such_agent_comes_first() {
    let mut cell = after("7[enter 9] | 9[]", &[0]);
    let before = cell.clone();
    for agent in [1, 63, 64, 255] {
        assert_eq!(ask(&cell, agent, 255), Err(11));
        assert_eq!(commit(&mut cell, agent, 255, None, 9, 9), Err(11));
        assert_eq!(commit(&mut cell, agent, 255, Some(Word::Took), 0, NONE_CHOSEN), Err(11));
    }
    assert_eq!(cell, before);
}

#[test]
fn asleep_and_done_go_through_and_change_nothing() {
    for (term, agents, word) in [("7[enter 7]", &[0, 0, 0][..], Word::Asleep), ("7[enter 9] | 9[]", &[0; 7][..], Word::Done)] {
        let mut cell = after(term, agents);
        let before = cell.clone();
        assert_eq!(told(&cell, 0, 255), (word, 0, NONE_CHOSEN));
        assert_eq!(commit(&mut cell, 0, 255, Some(word), 0, NONE_CHOSEN), Ok(Stepped { word, woken: 0 }));
        assert_eq!(cell, before);
    }
}

/// A number below the limit; the same seed gives the same numbers.
fn below(seed: &mut u64, limit: u64) -> u64 {
    *seed = seed.wrapping_mul(6_364_136_223_846_793_005).wrapping_add(1_442_695_040_888_963_407);
    (*seed >> 33) % limit
}

/// A random cell with few names.
fn random_cell(seed: &mut u64) -> Cell {
    let places = 1 + below(seed, 10) as u8;
    let mut file: Vec<u8> =
        (1..=places).flat_map(|place| [1, place, below(seed, place.min(4) as u64) as u8, 1 + below(seed, 2) as u8, 0]).collect();
    for agent in 0..1 + below(seed, 6) as u8 {
        file.extend([2, agent, below(seed, places as u64 + 1) as u8]);
        (0..below(seed, 8)).for_each(|_| file.extend([3, agent, 1 + below(seed, 4) as u8, 1 + below(seed, 2) as u8, 0]));
    }
    file.push(4);
    load(&file).expect("the file is accepted")
}

/// "A commit that goes through is a step call for every statement about cells": after any mixture of steps, asks and commits, stale ones too, the
/// cell is the one of the step calls among them, and the plain tree, kept from their words, equals it. What is told is what the step does.
#[test]
fn any_mixture_of_asks_and_commits() {
    let mut seed = 9;
    let (mut through, mut stale, mut left, mut opened, mut held) = (0, 0, 0, 0, 0);
    for _ in 0..1_500 {
        let mut cell = random_cell(&mut seed);
        let (mut plain, mut steps_alone) = (Plain::of_load(&cell), cell.clone());
        let mut asks: Vec<(u8, u8, Asked)> = Vec::new();
        for _ in 0..below(&mut seed, 160) {
            let (mut agent, mut wish) = (below(&mut seed, cell.agents.len() as u64) as u8, below(&mut seed, 14) as u8);
            let before = cell.clone();
            let asked = ask(&cell, agent, wish).unwrap();
            assert_eq!(cell, before, "an ask changes nothing");
            asks.push((agent, wish, asked));
            let kept = below(&mut seed, asks.len() as u64) as usize;
            let answered = match below(&mut seed, 3) {
                0 => step(&mut cell, agent, wish),
                1 => {
                    let answered = committed(&mut cell, agent, wish, asked);
                    assert_eq!(answered, Ok(Stepped { word: asked.word, woken: asked.woken }), "nothing came between");
                    answered
                }
                _ => {
                    let (of, with, then) = asks.swap_remove(kept);
                    (agent, wish) = (of, with);
                    let now = ask(&cell, agent, wish).unwrap();
                    let answered = committed(&mut cell, agent, wish, then);
                    assert_eq!(answered.is_ok(), now == then);
                    answered
                }
            };
            match answered {
                Err(number) => {
                    assert_eq!((number, &cell), (18, &before));
                    stale += 1;
                }
                Ok(Stepped { word, woken }) => {
                    through += 1;
                    assert_eq!(step(&mut steps_alone, agent, wish), Ok(Stepped { word, woken }));
                    plain.follow(agent, wish, word);
                    let chosen = ask(&before, agent, wish).unwrap().chosen;
                    let (then, now) = (&before.agents[&agent], &cell.agents[&agent]);
                    match word {
                        Word::Left if then.unused[0].kind == Kind::Enter => {
                            left += 1;
                            assert_eq!(cell.places[&then.home].stands, Stands::OnItsWay(chosen), "the place entered");
                        }
                        Word::Opened => {
                            opened += 1;
                            assert!(before.places.contains_key(&chosen) && !cell.places.contains_key(&chosen), "the place opened");
                        }
                        Word::Took if then.stage == 2 => assert_eq!(now.chosen.unwrap_or(NONE_CHOSEN), chosen),
                        Word::Held => {
                            held += (chosen != NONE_CHOSEN) as usize;
                            assert!(cell == before && (chosen == NONE_CHOSEN || then.stage == 2));
                        }
                        _ => assert_eq!(chosen, NONE_CHOSEN),
                    }
                }
            }
            assert_eq!(cell, steps_alone);
            assert!(plain.equals(&cell) && plain.same_order(&cell) && cell.one_tree());
        }
        assert_eq!(listing(&cell), listing(&steps_alone));
    }
    assert!(through > 50_000 && stale > 5_000, "{through} went through, {stale} were stale");
    assert!(left > 300 && opened > 200 && held > 100, "{left} entered, {opened} opened, {held} held with a choice");
}
