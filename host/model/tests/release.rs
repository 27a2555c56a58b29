//! Document 02, W11: release of a fresh carrier.

use model::{ask, commit, file_of, listing, load, read, smallest_unused, step, touch, touches, walk};
use model::{Cell, Keys, Kind, Place, Plain, Refused, Stands, Stepped, Word, NONE_CHOSEN};

/// The cell of a term.
fn cell(term: &str) -> Cell {
    load(&file_of(term)).expect("the file is accepted")
}

/// Steps of these agents without a wish, the plain tree kept beside the cell; the words and the numbers woken.
fn run(cell: &mut Cell, plain: &mut Plain, agents: &[u8]) -> Vec<(Word, usize)> {
    let step = |&agent: &u8| {
        let Stepped { word, woken } = step(cell, agent, 255).expect("the agent is there");
        plain.follow(agent, 255, word);
        assert!(plain.equals(cell) && plain.same_order(cell) && plain.same_picks(cell) && cell.one_tree());
        (word, woken)
    };
    agents.iter().map(step).collect()
}

/// The cell of a term after steps of these agents, and what they answered.
fn after(term: &str, agents: &[u8]) -> (Cell, Vec<(Word, usize)>) {
    let mut cell = cell(term);
    let mut plain = Plain::of_load(&cell);
    let answers = run(&mut cell, &mut plain, agents);
    (cell, answers)
}

/// So many empty places of name 5 side by side, after a bar.
fn crowd(count: usize) -> String {
    " | 5[]".repeat(count)
}

#[test]
fn one_agent_alone() {
    use Word::*;
    let (cell, answers) = after("release 9", &[0, 0, 0, 0]);
    assert_eq!(answers, [(Looked, 0), (Took, 0), (Put, 0), (Done, 0)]);
    let put = Place { name: 9, keys: Keys::of([9; 3]), stands: Stands::Linked(0), touches: 0 };
    assert_eq!((cell.places.len(), cell.places[&1], listing(&cell)), (2, put, "9[]".to_string()));
    assert!(cell.settled() && cell.agents[&0].stage == 8);
    // "the stage then as after opened": 0 while an action is left
    let (cell, answers) = after("7[release 9.release 9.enter 9]", &[0; 6]);
    assert_eq!((answers[2], answers[5], listing(&cell).as_str()), ((Put, 0), (Put, 0), "7[enter 9 | 9[] | 9[]]"));
    assert_eq!((cell.agents[&0].stage, cell.agents[&0].remembered, cell.agents[&0].home), (0, None, 1));
    assert_eq!(walk(&file_of("release 9"), &[0, 1, 0, 0, 0, 63]), "start release 9\n0 looked 0\n0 took 0\n0 put 0\nend 9[]\n");
}

#[test]
fn the_lock_of_its_own_place() {
    let (cell, _) = after("7[release 9]", &[0, 0]);
    assert_eq!((cell.agents[&0].stage, cell.agents[&0].remembered, cell.agents[&0].chosen), (2, Some(1), None));
    assert_eq!(cell.locks.iter().collect::<Vec<_>>(), [(&1, &0)]);
    // agent 1 opens in the same place and holds it
    let (cell, answers) = after("7[release 9 | open 9]", &[1, 0, 1, 0, 1, 0, 0]);
    assert_eq!(answers[3..], [(Word::Held, 0), (Word::Slept, 0), (Word::Took, 0), (Word::Put, 1)]);
    assert_eq!(listing(&cell), "7[open 9 | 9[]]");
    // nobody opens the place around it while it holds the lock; before that it looks again where it was moved
    let (_, answers) = after("open 7 | 7[release 9]", &[0, 0, 1, 1, 0]);
    assert_eq!(answers[4], (Word::Held, 0));
    let (cell, answers) = after("open 7 | 7[release 9]", &[0, 1, 0, 0, 0, 1, 1, 1]);
    assert_eq!(answers[4..], [(Word::Opened, 0), (Word::Looked, 0), (Word::Took, 0), (Word::Put, 0)]);
    assert_eq!((listing(&cell).as_str(), cell.agents[&1].home), ("9[]", 0));
}

#[test]
fn a_put_wakes_those_asleep_on_its_own_place() {
    // in place 1: agent 0 releases, agent 1 opens; in place 2, which stands there, agent 2 enters; agent 3 opens on the floor
    let term = "7[release 9 | open 9 | 8[enter 9]] | open 9";
    let (cell, answers) = after(term, &[1, 1, 1, 2, 2, 2, 3, 3, 3, 0, 0, 0]);
    assert_eq!([2, 5, 8].map(|at| answers[at]), [(Word::Slept, 0); 3]);
    assert_eq!(answers[11], (Word::Put, 2));
    assert_eq!([1, 2, 3].map(|agent| cell.agents[&agent].stage), [0, 0, 7]);
    let (cell, _) = after(term, &[1, 1, 1, 2, 2, 2, 0, 0, 0, 2, 2, 2, 2, 2, 2, 2]);
    assert_eq!(listing(&cell), "open 9 | 7[open 9 | 9[8[]]]", "what was put is entered");
    let (cell, _) = after(term, &[1, 1, 1, 2, 2, 2, 0, 0, 0, 1, 1, 1, 1]);
    assert_eq!(listing(&cell), "open 9 | 7[8[enter 9]]", "or opened");
}

#[test]
fn in_a_place_on_its_way() {
    let (cell, answers) = after("7[enter 8 | release 9] | 8[]", &[0, 0, 0, 0, 1, 1, 1, 0, 0, 0]);
    assert_eq!(answers[6], (Word::Put, 0));
    assert_eq!((answers[9], listing(&cell).as_str()), ((Word::Came, 0), "8[7[9[]]]"));
    let (_, answers) = after("7[enter 8 | release 9] | 8[]", &[0, 0, 0, 0, 0, 1, 1]);
    assert_eq!(answers[5..], [(Word::Looked, 0), (Word::Held, 0)], "the one that moves it holds it");
}

#[test]
fn the_smallest_unused_number() {
    let places = |given: &[u8]| given.iter().flat_map(|&place| [1, place, 0, 5, 0]).collect::<Vec<u8>>();
    let agent: Vec<u8> = [&[2, 0, 0][..], &[3, 0, 4, 9, 0].repeat(6)].concat();
    let puts = |given: &[u8], count: usize| {
        let mut cell = load(&[&places(given)[..], &agent, &[4]].concat()).unwrap();
        let mut plain = Plain::of_load(&cell);
        run(&mut cell, &mut plain, &vec![0; 3 * count]);
        cell.places.keys().copied().filter(|number| cell.places[number].name == 9).collect::<Vec<u8>>()
    };
    assert_eq!(puts(&[], 3), [1, 2, 3]);
    assert_eq!(puts(&[1, 2, 4, 5], 3), [3, 6, 7]);
    assert_eq!(puts(&[63, 62, 2], 4), [1, 3, 4, 5]);
    let all_but = |left: &[u8]| (1..64).filter(|number| !left.contains(number)).collect::<Vec<u8>>();
    assert_eq!(puts(&all_but(&[63]), 1), [63]);
    assert_eq!(puts(&all_but(&[40, 17]), 2), [17, 40]);
    assert_eq!(puts(&all_but(&[40, 17]), 3), [17, 40], "the third sleeps");
    assert_eq!((smallest_unused(&cell("0").places), smallest_unused(&cell(&format!("5[]{}", crowd(62))).places)), (Some(1), None));
}

#[test]
fn numbers_that_openings_freed_are_given_again() {
    let mut cell = cell("open 7.release 8.open 8.release 9 | 6[] | 7[] | 6[]");
    let mut plain = Plain::of_load(&cell);
    touch(&mut cell, 2, 50).unwrap();
    run(&mut cell, &mut plain, &[0; 4]);
    assert!(!cell.places.contains_key(&2));
    run(&mut cell, &mut plain, &[0; 3]);
    assert_eq!((cell.places[&2].name, cell.children.under(0)), (8, &[1, 3, 2][..]));
    assert_eq!([touches(&cell, 0), touches(&cell, 2)], [Ok(50), Ok(0)], "touches 0, whatever the number had before");
    touch(&mut cell, 2, 3).unwrap();
    run(&mut cell, &mut plain, &[0; 7]);
    assert_eq!((cell.places[&2].name, touches(&cell, 2), touches(&cell, 0)), (9, Ok(0), Ok(53)));
    assert_eq!(listing(&cell), "6[] | 6[] | 9[]");
}

#[test]
fn all_numbers_in_use() {
    // 62 places and the floor: one is left; then a release sleeps on no place
    let term = format!("release 9.release 9 | 7[open 6 | 6[]]{}", crowd(60));
    let (cell, answers) = after(&term, &[0; 6]);
    assert_eq!(answers[2..], [(Word::Put, 0), (Word::Looked, 0), (Word::Took, 0), (Word::Slept, 0)]);
    assert_eq!((cell.places.len(), cell.places[&63].name), (64, 9));
    assert_eq!((cell.agents[&0].stage, cell.agents[&0].remembered, cell.settled()), (7, None, true));
    // an opening elsewhere wakes it, and the number that it freed is given again
    let steps = [&[0; 6][..], &[0, 1, 1, 1, 1], &[0; 3]].concat();
    let (cell, answers) = after(&term, &steps);
    assert_eq!((answers[6], answers[10], answers[13]), ((Word::Asleep, 0), (Word::Opened, 1), (Word::Put, 0)));
    assert_eq!((cell.places[&2].name, cell.places[&2].stands), (9, Stands::Linked(0)));
    // it is tested at stage 2 only: what is used when the lock is taken does not matter
    let (_, answers) = after(&term, &[0, 0, 0, 0, 0, 1, 1, 1, 1, 0]);
    assert_eq!(answers[8..], [(Word::Opened, 0), (Word::Put, 0)]);
}

#[test]
fn any_opening_wakes_all_who_sleep_on_no_place() {
    // agents 1, 2 and 3 release in places 3, 3 and 4; agent 0 opens place 2, in which agent 4 releases too
    let term = format!("7[open 6 | 6[release 9]] | 8[release 9 | release 9] | 8[release 9]{}", crowd(59));
    let asleep: Vec<u8> = (1..5).flat_map(|agent| [agent; 3]).collect();
    let opened = [&asleep[..], &[0; 4]].concat();
    let (cell, answers) = after(&term, &opened);
    assert!((1..5).all(|agent| answers[3 * agent as usize - 1] == (Word::Slept, 0)));
    assert_eq!(answers[15], (Word::Opened, 4), "the one that is moved is counted once");
    assert!((1..5).all(|agent| (cell.agents[&agent].stage, cell.agents[&agent].remembered) == (0, None)));
    // one of them gets the number, the others sleep again
    let (cell, answers) = after(&term, &[&opened[..], &[3, 3, 3, 1, 1, 1, 2, 2, 2, 4, 4, 4]].concat());
    assert_eq!([18, 21, 24, 27].map(|at| answers[at].0), [Word::Put, Word::Slept, Word::Slept, Word::Slept]);
    assert!(cell.idle() && cell.places.len() == 64 && [1, 2, 4].iter().all(|agent| cell.agents[agent].remembered.is_none()));
}

#[test]
fn nothing_else_wakes_them() {
    // agent 1 moves the place in which agent 0 sleeps on no place, agent 3 goes in there and out again, agent 2 sleeps there on that place
    let term = format!("7[release 9 | enter 8 | open 4] | 8[] | 6[enter 7.exit 7]{}", crowd(60));
    let asleep = [0, 0, 0, 2, 2, 2];
    let (cell, answers) = after(&term, &[&asleep[..], &[3; 14], &[1; 7]].concat());
    let woken: Vec<(Word, usize)> = answers[6..].iter().copied().filter(|answer| answer.1 > 0).collect();
    assert_eq!(woken, [(Word::Came, 1)], "only the opener");
    assert_eq!((cell.agents[&0].stage, cell.agents[&0].remembered, cell.agents[&2].stage), (7, None, 0));
}

#[test]
fn a_put_place_is_the_latest() {
    // 9 is loaded as place 4, so the put one has a smaller number, and the loaded one is opened first
    let file = [1, 4, 0, 9, 0, 2, 0, 0, 3, 0, 4, 9, 0, 3, 0, 3, 9, 0, 3, 0, 3, 9, 0, 4];
    let mut cell = load(&file).unwrap();
    let mut plain = Plain::of_load(&cell);
    run(&mut cell, &mut plain, &[0; 3]);
    assert_eq!(cell.children.under(0), [4, 1]);
    run(&mut cell, &mut plain, &[0; 3]);
    assert_eq!(cell.agents[&0].chosen, Some(4));
    run(&mut cell, &mut plain, &[0; 5]);
    assert_eq!((listing(&cell).as_str(), cell.places.len()), ("0", 1));
    // children that an opening frees afterwards are later still, and a wish still decides
    let (cell, _) = after("release 9 | open 8 | 8[9[]]", &[0, 0, 0, 1, 1, 1, 1]);
    assert_eq!(cell.children.under(0), [3, 2]);
    let (mut cell, _) = after("release 9.open 9 | 9[]", &[0; 5]);
    step(&mut cell, 0, 2).unwrap();
    assert_eq!(cell.agents[&0].chosen, Some(2));
}

#[test]
fn all_keys_are_its_name() {
    // place 3 enters the put one and leaves it, then it is opened
    let (cell, _) = after("release 9.open 9 | 9/8/8/8[] | 9/9/9/0[7[]] | 6[enter 9.exit 9]", &[&[0; 3][..], &[1; 3]].concat());
    assert_eq!(cell.agents[&1].chosen, Some(2), "9/9/9/0 was there first");
    let (cell, _) = after("release 9.open 9 | 9/0/0/0[] | 6[enter 9.exit 9]", &[&[0; 3][..], &[1; 14], &[0; 4]].concat());
    assert_eq!(listing(&cell), "6[] | 9/0/0/0[]");
}

#[test]
fn ask_and_commit() {
    let (mut cell, _) = after("7[release 9 | open 9]", &[1, 1, 1, 0, 0]);
    let asked = ask(&cell, 0, 1).unwrap();
    assert_eq!((asked.word, asked.woken, asked.chosen), (Word::Put, 1, NONE_CHOSEN));
    let before = cell.clone();
    for (word, woken, chosen) in [(Word::Opened, 1, 255), (Word::Took, 1, 255), (Word::Put, 0, 255), (Word::Put, 1, 2), (Word::Put, 1, 64)]
    {
        assert_eq!(commit(&mut cell, 0, 1, Some(word), woken, chosen), Err(18));
    }
    assert_eq!(commit(&mut cell, 0, 1, None, 1, 255), Err(18));
    assert_eq!(cell, before);
    let put = Stepped { word: Word::Put, woken: 1 };
    assert_eq!(commit(&mut cell, 0, 9, Some(Word::Put), 1, 255), Ok(put), "a release passes every wish over");
    assert_eq!(listing(&cell), "7[open 9 | 9[]]");
    // an ask that is stale since the last number was given to another
    let (mut cell, _) = after(&format!("release 9 | 5[release 9]{}", crowd(61)), &[0, 0, 1, 1]);
    let asked = ask(&cell, 0, 255).unwrap();
    assert_eq!((asked.word, step(&mut cell, 1, 255).unwrap().word), (Word::Put, Word::Put));
    assert_eq!(commit(&mut cell, 0, 255, Some(asked.word), asked.woken, asked.chosen), Err(18));
    assert_eq!(commit(&mut cell, 0, 255, Some(Word::Slept), 0, 255), Ok(Stepped { word: Word::Slept, woken: 0 }));
    assert_eq!(commit(&mut cell, 0, 255, Some(Word::Asleep), 0, 255), Ok(Stepped { word: Word::Asleep, woken: 0 }));
}

#[test]
fn files_and_texts() {
    let refusal = |file: &[u8]| load(file).map_err(|Refused { number, offset }| (number, offset)).err();
    assert_eq!(refusal(&[2, 0, 0, 3, 0, 4, 9, 0, 4]), None);
    assert_eq!(refusal(&[2, 0, 0, 3, 0, 4, 0, 0, 4]), Some((6, 3)));
    for kind in [0, 5, 6, 64, 255] {
        assert_eq!(refusal(&[2, 0, 0, 3, 0, kind, 0, 0, 4]), Some((7, 3)));
    }
    for text in ["release 9", "enter 9.release 65535.exit 9", "open 1 | release 1 | 7/7/0/7[release 9.release 10]"] {
        let read = read(text.as_bytes()).unwrap();
        assert_eq!((listing(&read).as_str(), &read), (text, &cell(text)));
    }
    assert_eq!(read(b"7[release 9]").unwrap().agents[&0].unused[0].kind, Kind::Release);
    assert_eq!(listing(&cell("release 10 | open 9 | release 1.exit 1 | release 1")), "open 9 | release 1 | release 1.exit 1 | release 10");
}

#[test]
fn a_semaphore() {
    // two agents take turns: each acquires the carrier 9 by opening it and releases it by putting out an empty one
    let mut cell = cell("9[] | open 9.release 9 | open 9.release 9");
    let mut plain = Plain::of_load(&cell);
    let words: Vec<Word> = run(&mut cell, &mut plain, &[0, 0, 0, 0, 1, 1, 1, 0, 0, 0]).into_iter().map(|answer| answer.0).collect();
    use Word::*;
    assert_eq!(words, [Looked, Took, Took, Opened, Looked, Took, Slept, Looked, Took, Put]);
    assert_eq!((cell.agents[&1].stage, listing(&cell).as_str()), (0, "open 9.release 9 | 9[]"));
    let last = run(&mut cell, &mut plain, &[1; 7])[6];
    assert_eq!((last, listing(&cell).as_str(), cell.idle()), ((Put, 0), "9[]", true));
}
