//! "Slips the moves invite", and the runs that show them.

use model::{file_of, listing, load, permitted, step, Cell, Plain, Tree, Word};

/// The cell of a term after steps of these agents, with the words and the number of woken agents, the plain tree kept beside it.
fn run(term: &str, agents: &[u8]) -> (Vec<(Word, usize)>, Cell) {
    let mut cell = load(&file_of(term)).expect("the file is accepted");
    let mut plain = Plain::of_load(&cell);
    let mut answers = Vec::new();
    for &agent in agents {
        let stepped = step(&mut cell, agent, 255).expect("the agent is there");
        plain.follow(agent, 255, stepped.word);
        assert!(plain.equals(&cell) && cell.one_tree());
        answers.push((stepped.word, stepped.woken));
    }
    (answers, cell)
}

#[test]
fn an_exit_goes_where_the_parent_stands_now() {
    // Agent 1 (exit 2, in place 3) holds both places while agent 0 opens place 1 around place 2.
    let (answers, cell) = run("open 1 | 1[2[3[exit 2]]]", &[1, 1, 1, 0, 0, 0, 0, 1]);
    assert_eq!(answers[6..], [(Word::Opened, 0), (Word::Left, 0)]);
    assert_eq!(listing(&cell), "2[] | 3[]");
}

#[test]
fn nothing_is_opened_that_something_is_on_its_way_to() {
    // Agent 1's exit leaves for place 1 after agent 0 has chosen it; at stage 3 it no longer fires.
    let (answers, cell) = run("open 1 | 1[2[3[exit 2]]]", &[0, 0, 0, 1, 1, 1, 1, 0, 0, 0, 0]);
    let words: Vec<Word> = answers[6..].iter().map(|answer| answer.0).collect();
    assert_eq!(words, [Word::Left, Word::Back, Word::Looked, Word::Took, Word::Slept]);
    assert_eq!(cell.agents[&0].remembered, Some(0));
}

#[test]
fn coming_wakes_an_opener_on_the_destinations_parent() {
    let before = [1, 1, 1, 1, 0, 0, 0];
    let (answers, _) = run("open 1 | 1[2[3[exit 2]]]", &[&before[..], &[1, 1, 1, 0, 0, 0, 0]].concat());
    assert_eq!(answers[6].0, Word::Slept);
    assert_eq!(answers[9], (Word::Came, 1));
    assert_eq!(answers[13].0, Word::Opened);
}

#[test]
fn an_opened_place_takes_the_lock_of_a_moved_agent_with_it() {
    let (answers, cell) = run("open 1 | 2[1[exit 2 | enter 2]]", &[2, 1, 1, 1, 1, 1, 1, 1, 2, 0, 0, 0, 0]);
    assert_eq!(answers[8].0, Word::Took);
    assert_eq!(answers[12], (Word::Opened, 0));
    assert!(cell.settled() && cell.agents[&2].stage == 0 && cell.agents[&2].home == 0);
}

#[test]
fn an_agent_that_remembers_the_opened_place_looks_again() {
    let (_, cell) = run("open 1 | 1[2[exit 1]]", &[1, 0, 0, 0, 0]);
    assert_eq!((cell.agents[&1].stage, cell.agents[&1].remembered), (0, None));
}

#[test]
fn a_moved_sleeper_is_counted_once() {
    let (answers, _) = run("open 1 | 1[enter 9 | exit 9 | 2[exit 9]]", &[1, 1, 1, 2, 2, 2, 3, 3, 3, 0, 0, 0, 0]);
    assert_eq!(answers[12], (Word::Opened, 3));
}

#[test]
fn going_back_from_the_old_parent() {
    let (answers, cell) = run("1[enter 1 | exit 1] | 1[]", &[0, 1, 0, 0, 0, 0, 0, 0, 1, 1, 1, 1, 1, 1, 1, 1, 1]);
    let words: Vec<Word> = answers[8..].iter().map(|answer| answer.0).collect();
    use Word::*;
    assert_eq!(words, [Took, Back, Looked, Took, Took, Left, Took, Took, Came]);
    assert_eq!(listing(&cell), "1[] | 1[]");
}

#[test]
fn the_calculus_and_wishes() {
    let mut cell = load(&file_of("3[enter 4] | 4[] | 5[] | 4[]")).unwrap();
    let moves: Vec<u8> = permitted(&Tree::of(&cell)).iter().map(|found| found.with).collect();
    assert_eq!(moves, [2, 4]);
    for wish in [0, 4, 4] {
        step(&mut cell, 0, wish).unwrap();
    }
    assert_eq!(cell.agents[&0].chosen, Some(4));
    let mut cell = load(&file_of("3[enter 4] | 4[] | 5[] | 4[]")).unwrap();
    for wish in [4, 4, 3] {
        step(&mut cell, 0, wish).unwrap();
    }
    assert_eq!(cell.agents[&0].chosen, Some(2));
}
