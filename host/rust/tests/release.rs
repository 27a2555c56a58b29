//! Release of a fresh carrier: what is put, under which number, whom it wakes, and what happens where no number is unused.

use keeper::lent::{Lent, Name, FREE, NO_PLACE};
use keeper::{Asked, Cell, Refusal, Refused, Stepped, Word};

/// The answer of a step.
fn stepped(word: Word, woken: u8) -> Result<Stepped, Refused> {
    Ok(Stepped { word, woken })
}

/// The cell of a text after steps of these agents without a wish.
fn after(text: &str, agents: &[u8]) -> Cell {
    let mut cell = Cell::read(text).unwrap();
    for &agent in agents {
        cell.step(agent, 255).unwrap();
        assert_eq!(cell.check(), Ok(()));
    }
    cell
}

/// So many steps of agent 0 without a wish.
fn go_on(cell: &mut Cell, count: usize) {
    (0..count).for_each(|_| assert!(cell.step(0, 255).is_ok()));
}

/// So many empty places of name 5 side by side, after a bar.
fn crowd(count: usize) -> String {
    " | 5[]".repeat(count)
}

/// The places in use.
fn used(cell: &Cell) -> Vec<u8> {
    (0..64).filter(|place| cell.lent().used >> place & 1 == 1).collect()
}

#[test]
fn what_is_put() {
    let mut cell = Cell::read("7[release 9.release 300]").unwrap();
    assert_eq!(
        [cell.step(0, 0), cell.step(0, 1), cell.step(0, 2)],
        [stepped(Word::Looked, 0), stepped(Word::Took, 0), stepped(Word::Put, 0)]
    );
    let lent = cell.lent();
    let (place, nine) = (lent.places[2], Name { name: 9, entering: 9, exiting: 9, opening: 9 });
    assert_eq!((place.name, place.parent, place.way, lent.locks[1], lent.locks[2], lent.touches[2]), (nine, 1, 0, FREE, FREE, 0));
    assert_eq!((lent.order[63], lent.agents[0].stage, lent.agents[0].next), (2, 0, 1));
    go_on(&mut cell, 3);
    assert_eq!((cell.listing().unwrap().as_str(), cell.step(0, 255)), ("7[300[] | 9[]]", stepped(Word::Done, 0)));
}

#[test]
fn the_lock_of_its_own_place() {
    let cell = after("7[release 9]", &[0, 0]);
    let agent = cell.lent().agents[0];
    assert_eq!((agent.stage, agent.remembered, cell.lent().locks[1]), (2, 1, 0));
    let mut cell = after("7[release 9 | open 9]", &[1, 0, 1]);
    assert_eq!([0, 1, 0, 0].map(|agent| cell.step(agent, 255).unwrap().word), [Word::Held, Word::Slept, Word::Took, Word::Put]);
    // where its place is opened first, it looks again, at the place that it was moved to
    let mut cell = after("open 7 | 7[release 9]", &[0, 1, 0, 0, 0]);
    assert_eq!([1, 1, 1].map(|agent| cell.step(agent, 255).unwrap().word), [Word::Looked, Word::Took, Word::Put]);
    assert_eq!(cell.listing().unwrap(), "9[]");
}

#[test]
fn whom_a_put_wakes() {
    let mut cell = after("7[release 9 | open 9 | 8[enter 9]] | open 9", &[1, 1, 1, 2, 2, 2, 3, 3, 3, 0, 0]);
    assert_eq!(cell.step(0, 255), stepped(Word::Put, 2));
    assert_eq!([1, 2, 3].map(|agent| cell.lent().agents[agent].stage), [0, 0, 7]);
}

#[test]
fn the_smallest_unused_number() {
    let puts = |given: &[u8], count: usize| {
        let places = given.iter().flat_map(|&place| [1, place, 0, 5, 0]);
        let agent = [&[2, 0, 0][..], &[3, 0, 4, 9, 0].repeat(count)].concat();
        let mut cell = Cell::load(&places.chain(agent).chain([4]).collect::<Vec<u8>>()).unwrap();
        go_on(&mut cell, 3 * count);
        used(&cell).into_iter().filter(|&place| cell.lent().places[place as usize].name.name == 9).collect::<Vec<u8>>()
    };
    assert_eq!(puts(&[1, 2, 4, 5], 3), [3, 6, 7]);
    assert_eq!(puts(&[63, 62, 2], 4), [1, 3, 4, 5]);
    let all_but = |left: u8| (1..64).filter(|&number| number != left).collect::<Vec<u8>>();
    assert_eq!([puts(&all_but(63), 1), puts(&all_but(17), 2)], [[63], [17]]);
}

#[test]
fn numbers_that_openings_freed_are_given_again() {
    let mut cell = Cell::read("open 7.release 8.open 8.release 9 | 6[] | 7[] | 6[]").unwrap();
    assert_eq!(cell.touch(2, 50), Ok(50));
    go_on(&mut cell, 4);
    assert_eq!(cell.touches(2), Err(Refused { refusal: Refusal::NotYetGiven, offset: None }));
    go_on(&mut cell, 3);
    assert_eq!((cell.lent().places[2].name.name, cell.touches(2), cell.touches(0)), (8, Ok(0), Ok(50)));
    assert_eq!(cell.touch(2, 3), Ok(3));
    go_on(&mut cell, 7);
    assert_eq!((cell.lent().places[2].name.name, cell.touches(2), cell.touches(0)), (9, Ok(0), Ok(53)));
    assert_eq!((cell.nearest(2, 0), cell.common(1, 2)), (Ok(Some(0)), Ok(0)));
    // the loaded places were there before it
    assert_eq!(cell.lent().order[61..], [1, 3, 2]);
}

#[test]
fn all_numbers_in_use() {
    let text = format!("release 9.release 9 | 7[open 6 | 6[]]{}", crowd(60));
    let mut cell = after(&text, &[0; 5]);
    assert_eq!((cell.lent().used, cell.lent().places[63].name.name), (u64::MAX, 9));
    assert_eq!(cell.step(0, 255), stepped(Word::Slept, 0));
    let agent = cell.lent().agents[0];
    assert_eq!((agent.stage, agent.remembered, cell.lent().locks[0]), (7, NO_PLACE, FREE));
    assert_eq!((cell.step(0, 255), cell.check(), cell.idle()), (stepped(Word::Asleep, 0), Ok(()), Ok(false)));
    // an opening anywhere wakes it, and the number is given again
    let answers = [1, 1, 1, 1, 0, 0, 0].map(|agent| cell.step(agent, 255).unwrap());
    assert_eq!(answers[3], Stepped { word: Word::Opened, woken: 1 });
    assert_eq!((answers[6].word, cell.lent().places[2].name.name, cell.lent().places[2].parent), (Word::Put, 9, 0));
    assert_eq!((cell.idle(), cell.listing().unwrap().len()), (Ok(true), "7[]".len() + 62 * " | 5[]".len()));
}

#[test]
fn all_who_sleep_on_no_place_are_woken() {
    // agent 1 is in the place that agent 0 opens, agents 2 and 3 elsewhere; agent 4 sleeps on place 3 and is not woken
    let text = format!("7[open 6 | 6[release 9]] | 8[release 9 | release 9 | open 1]{}", crowd(60));
    let mut cell = after(&text, &[1, 1, 1, 2, 2, 2, 3, 3, 3, 4, 4, 4, 0, 0, 0]);
    assert_eq!(cell.ask(0, 255), Ok(Asked::new(0, 255, Word::Opened, 3, Some(2))));
    assert_eq!(cell.step(0, 255), stepped(Word::Opened, 3));
    assert_eq!([1, 2, 3, 4].map(|agent| cell.lent().agents[agent].stage), [0, 0, 0, 7]);
    // one of them gets the number; it wakes agent 4, which lives there; another finds none again
    let words = [2, 2, 2, 3, 3, 3].map(|agent| cell.step(agent, 255).unwrap());
    assert_eq!([words[2], words[5]], [Stepped { word: Word::Put, woken: 1 }, Stepped { word: Word::Slept, woken: 0 }]);
}

#[test]
fn asks_and_commits() {
    let mut cell = after(&format!("release 9 | 5[release 9]{}", crowd(61)), &[0, 0, 1, 1]);
    let (asked, other) = (cell.ask(0, 255).unwrap(), cell.ask(1, 1).unwrap());
    assert_eq!(asked, Asked::new(0, 255, Word::Put, 0, None));
    assert_eq!(cell.commit(other), stepped(Word::Put, 0));
    let before = cell.clone();
    assert_eq!(cell.commit(asked), Err(Refused { refusal: Refusal::AnswerDiffers, offset: None }), "the last number is gone");
    assert!(cell.lent() == before.lent());
    assert_eq!(cell.ask(0, 255), Ok(Asked::new(0, 255, Word::Slept, 0, None)));
    assert_eq!(cell.lent().ask(0, 255), 4 << 8 | 255 << 24);
    // the number of a put as a whole
    let mut lent = after("7[release 9 | open 9]", &[1, 1, 1, 0, 0]).lent().clone();
    let put = 8 << 8 | 1 << 16 | 255 << 24;
    assert_eq!((lent.ask(0, 1), lent.ask(0, 255)), (put, put));
    for other in [put & !(255 << 24), put & !(255 << 16), put | 1, put ^ 1 << 32, put - (1 << 8), put + (1 << 8), put - (253 << 24)] {
        assert_eq!(lent.commit(0, 1, other), 18);
    }
    assert_eq!(lent.commit(0, 1, put), 8 << 8 | 1 << 16);
}

#[test]
fn unsound_tables() {
    let sound = |text: &str, agents: &[u8], change: &dyn Fn(&mut Lent)| {
        let mut lent = after(text, agents).lent().clone();
        change(&mut lent);
        Cell::from_lent(lent).check().is_ok()
    };
    let text = "7[release 9.exit 7 | open 8 | enter 9 | 8[]]";
    for (steps, place) in (1..3).flat_map(|steps| [0, 2, 3, NO_PLACE].map(|place| (steps, place))) {
        assert!(!sound(text, &vec![0; steps], &|lent| lent.agents[0].remembered = place), "it remembers its home");
    }
    assert!(!sound(text, &[1, 1, 1], &|lent| lent.agents[1].actions[0].kind = 4), "never at stage 3");
    assert!(!sound(text, &[0, 0], &|lent| (lent.agents[0].stage, lent.agents[0].chosen) = (3, 2)));
    let asleep = |agent: usize, place: u8| sound(text, &[], &|lent| (lent.agents[agent].stage, lent.agents[agent].remembered) = (7, place));
    assert_eq!([0, 1, 2].map(|agent| asleep(agent, NO_PLACE)), [true, false, false], "no other agent may remember no place");
    assert_eq!([0, 2, 3, 63, 65, 255].map(|place| asleep(0, place)), [true, true, false, false, false, false]);
    assert!(!sound("7[exit 7.release 9]", &[], &|lent| (lent.agents[0].stage, lent.agents[0].remembered) = (7, NO_PLACE)));
    assert!(!sound(text, &[], &|lent| lent.agents[0].actions[0].kind = 5));
    // one that sleeps on no place while numbers are unused is woken by any opening
    let mut lent = after(text, &[]).lent().clone();
    (lent.agents[0].stage, lent.agents[0].remembered) = (7, NO_PLACE);
    let mut cell = Cell::from_lent(lent);
    assert_eq!([1; 4].map(|agent| cell.step(agent, 255))[3], stepped(Word::Opened, 1));
}

#[test]
fn what_an_unused_number_held_plays_no_part() {
    // the lock, the touches, the name and the place around of a number that is not in use mean nothing
    let mut lent = after("7[release 9]", &[0, 0]).lent().clone();
    (lent.locks[2], lent.touches[2], lent.places[2].parent, lent.places[2].way) = (5, u64::MAX, 99, 7);
    lent.places[2].name = Name { name: 0, entering: 1, exiting: 2, opening: 3 };
    let mut cell = Cell::from_lent(lent);
    assert_eq!((cell.check(), cell.step(0, 255), cell.check()), (Ok(()), stepped(Word::Put, 0), Ok(())));
    assert_eq!((cell.touches(2), cell.lent().locks[2], cell.listing().unwrap().as_str()), (Ok(0), FREE, "7[9[]]"));
}
