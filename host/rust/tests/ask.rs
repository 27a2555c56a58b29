//! Ask, then commit: what is told at each stage, that a commit is the step where it is still so, and that it changes nothing where it is not.

use keeper::lent::Lent;
use keeper::{Asked, Cell, Refusal, Refused, Stepped, Word};

/// The cell of a text after steps of these agents without a wish.
fn after(text: &str, agents: &[u8]) -> Cell {
    let mut cell = Cell::read(text).unwrap();
    for &agent in agents {
        cell.step(agent, 255).unwrap();
    }
    cell
}

/// What an ask tells: the word, the number woken and the chosen place.
fn told(cell: &Cell, agent: u8, wish: u8) -> (Word, u8, Option<u8>) {
    let asked = cell.ask(agent, wish).unwrap();
    assert_eq!((asked.agent(), asked.wish()), (agent, wish));
    assert_eq!(asked, Asked::new(agent, wish, asked.word(), asked.woken(), asked.chosen()));
    (asked.word(), asked.woken(), asked.chosen())
}

/// A refusal without an offset.
fn refused<T>(refusal: Refusal) -> Result<T, Refused> {
    Err(Refused { refusal, offset: None })
}

/// Every word, and two that do not exist.
const WORDS: [Word; 13] = [
    Word::Looked,
    Word::Took,
    Word::Held,
    Word::Back,
    Word::Slept,
    Word::Left,
    Word::Came,
    Word::Opened,
    Word::Put,
    Word::Asleep,
    Word::Done,
    Word::Unknown(11),
    Word::Unknown(255),
];

/// Asks, sees that nothing changed, and commits, so many times; what each ask told.
fn committed(cell: &mut Cell, agent: u8, wish: u8, count: usize) -> Vec<(Word, Option<u8>)> {
    let one = |_| {
        let before = cell.clone();
        let asked = cell.ask(agent, wish).unwrap();
        assert!(cell.lent() == before.lent(), "an ask changes nothing");
        let mut stepped = before.clone();
        assert_eq!(stepped.step(agent, wish), Ok(Stepped { word: asked.word(), woken: asked.woken() }), "what an ask tells");
        assert_eq!(cell.commit(asked), Ok(Stepped { word: asked.word(), woken: asked.woken() }));
        assert!(cell.lent() == stepped.lent(), "a commit that goes through is the step");
        (asked.word(), asked.chosen())
    };
    (0..count).map(one).collect()
}

#[test]
fn what_is_told_at_each_stage() {
    use Word::*;
    let enter =
        |chosen| [(Looked, None), (Took, None), (Took, chosen), (Left, chosen), (Took, None), (Took, None), (Came, None), (Done, None)];
    for (wish, chosen) in [(255, 2), (1, 2), (2, 2), (3, 3), (64, 2)] {
        assert_eq!(committed(&mut after("7[enter 9] | 9[] | 9[]", &[]), 0, wish, 8), enter(Some(chosen)));
    }
    let exit = enter(None);
    assert_eq!(committed(&mut after("9[7[exit 9]]", &[]), 0, 1, 8), exit, "for an exit no place is told");
    let open = [(Looked, None), (Took, None), (Took, Some(1)), (Opened, Some(1)), (Done, None)];
    assert_eq!(committed(&mut after("open 7 | 7[8[]]", &[]), 0, 255, 5), open);
    let release = [(Looked, None), (Took, None), (Put, None), (Done, None)];
    assert_eq!(committed(&mut after("release 7 | 7[]", &[]), 0, 1, 4), release, "for a release no place is told");
    let sleeps = [(Looked, None), (Took, None), (Slept, None), (Asleep, None)];
    assert_eq!(committed(&mut after("7[enter 7]", &[]), 0, 255, 4), sleeps);
    assert_eq!(committed(&mut after("open 9 | 7[]", &[]), 0, 1, 4), sleeps);
    assert_eq!(committed(&mut after("enter 9", &[]), 0, 255, 2), [(Slept, None), (Asleep, None)]);
}

#[test]
fn held_and_back() {
    // the place is told with held too: place 1 is held by agent 1, which lives in the place that it would open
    let mut cell = after("open 1 | 1[2[exit 1]]", &[1, 1, 0, 0]);
    assert_eq!(told(&cell, 0, 255), (Word::Held, 0, Some(1)));
    let before = cell.clone();
    assert_eq!(cell.commit(cell.ask(0, 255).unwrap()), Ok(Stepped { word: Word::Held, woken: 0 }));
    assert!(cell.lent() == before.lent(), "a held that is committed changes nothing");
    // at stage 1 nothing is chosen yet
    assert_eq!(told(&after("7[enter 9] | 9[] | 8[enter 9]", &[0, 1, 0]), 1, 255), (Word::Held, 0, None));
    // something is on its way to place 1 since agent 0 chose it
    let cell = after("open 1 | 1[2[3[exit 2]]]", &[0, 0, 0, 1, 1, 1]);
    assert_eq!(told(&cell, 0, 255), (Word::Opened, 0, Some(1)));
    let mut cell = after("open 1 | 1[2[3[exit 2]]]", &[0, 0, 0, 1, 1, 1, 1]);
    assert_eq!(told(&cell, 0, 255), (Word::Back, 0, None));
    assert_eq!(committed(&mut cell, 0, 255, 2), [(Word::Back, None), (Word::Looked, None)]);
}

#[test]
fn every_word_goes_through() {
    use Word::*;
    let rows: [(&str, &[u8], u8, Word, u8); 11] = [
        ("7[enter 9] | 9[]", &[], 0, Looked, 0),
        ("7[enter 9] | 9[]", &[0, 0], 0, Took, 0),
        ("7[enter 9] | 9[exit 7]", &[0, 1, 0], 1, Held, 0),
        ("open 1 | 1[2[3[exit 2]]]", &[0, 0, 0, 1, 1, 1, 1], 0, Back, 0),
        ("7[enter 7]", &[0, 0], 0, Slept, 0),
        ("7[enter 9] | 9[]", &[0, 0, 0], 0, Left, 0),
        ("7[enter 9] | 9[exit 7]", &[0, 1, 0, 1, 0, 0, 1, 1, 0, 0], 0, Came, 1),
        ("open 1 | 1[enter 9 | exit 9 | 2[exit 9]]", &[1, 1, 1, 2, 2, 2, 3, 3, 3, 0, 0, 0], 0, Opened, 3),
        ("7[release 9 | open 9 | 8[enter 9]]", &[1, 1, 1, 2, 2, 2, 0, 0], 0, Put, 2),
        ("7[enter 7]", &[0, 0, 0], 0, Asleep, 0),
        ("7[enter 9] | 9[]", &[0; 7], 0, Done, 0),
    ];
    for (text, agents, agent, word, woken) in rows {
        let mut cell = after(text, agents);
        let (before, asked) = (cell.clone(), cell.ask(agent, 255).unwrap());
        assert_eq!((asked.word(), asked.woken()), (word, woken));
        assert_eq!(cell.commit(asked), Ok(Stepped { word, woken }));
        let same = cell.lent() == before.lent();
        assert_eq!(same, matches!(word, Held | Asleep | Done), "{word}");
        assert_eq!(cell.check(), Ok(()));
    }
}

#[test]
fn a_stale_ask() {
    // another agent locked the floor in between
    let mut cell = after("7[enter 9] | 8[enter 9] | 9[]", &[0, 1]);
    let asked = cell.ask(0, 255).unwrap();
    cell.step(1, 255).unwrap();
    let before = cell.clone();
    assert_eq!(cell.commit(asked), refused(Refusal::AnswerDiffers));
    assert!(cell.lent() == before.lent(), "nothing is changed");
    // the same agent moved on: a second commit of the same ask
    let mut cell = after("7[enter 9] | 9[]", &[]);
    let asked = cell.ask(0, 255).unwrap();
    assert_eq!(cell.commit(asked).map(|stepped| stepped.word), Ok(Word::Looked));
    assert_eq!(cell.commit(asked), refused(Refusal::AnswerDiffers));
    // only the place differs: the tray that would have been entered, place 3, has gone into place 5
    let text = "7[enter 9] | 8[] | 9[enter 6] | 9[] | 6[]";
    let asked = after(text, &[0, 0]).ask(0, 255).unwrap();
    let mut cell = after(text, &[1, 1, 1, 1, 1, 1, 1, 0, 0]);
    assert_eq!((asked.chosen(), told(&cell, 0, 255)), (Some(3), (Word::Took, 0, Some(4))));
    assert_eq!(cell.commit(asked), refused(Refusal::AnswerDiffers));
    // only the number woken differs: agent 1 fell asleep on the floor
    let text = "7[enter 9] | 8[enter 8] | 9[]";
    let asked = after(text, &[0, 0, 0]).ask(0, 255).unwrap();
    let mut cell = after(text, &[1, 1, 1, 0, 0, 0]);
    assert_eq!((asked.word(), asked.woken(), told(&cell, 0, 255)), (Word::Left, 0, (Word::Left, 1, Some(3))));
    let before = cell.clone();
    assert_eq!(cell.commit(asked), refused(Refusal::AnswerDiffers));
    assert!(cell.lent() == before.lent());
    // and what is the same goes through, whatever came between
    let mut cell = after("7[enter 9] | 8[enter 9] | 9[]", &[0]);
    let asked = cell.ask(0, 255).unwrap();
    cell.touch(1, 7).unwrap();
    cell.step(1, 255).unwrap();
    assert_eq!(cell.commit(asked), Ok(Stepped { word: Word::Took, woken: 0 }));
}

#[test]
fn invented_ones() {
    let text = "7[enter 9] | 9[exit 7] | 9[]";
    for steps in 0..9 {
        for (agent, wish) in [(0, 255), (0, 3), (1, 255)] {
            let mut cell = after(text, &vec![0; steps]);
            let before = cell.clone();
            let asked = cell.ask(agent, wish).unwrap();
            let (word, woken, chosen) = (asked.word(), asked.woken(), asked.chosen());
            let mut no = |word, woken, chosen| {
                assert_eq!(cell.commit(Asked::new(agent, wish, word, woken, chosen)), refused(Refusal::AnswerDiffers));
            };
            WORDS.into_iter().filter(|&other| other != word).for_each(|other| no(other, woken, chosen));
            (0..=255).filter(|&other| other != woken).for_each(|other| no(word, other, chosen));
            (0..=254).map(Some).chain([None]).filter(|&other| other != chosen).for_each(|other| no(word, woken, other));
            assert!(cell.lent() == before.lent());
            assert_eq!(cell.commit(Asked::new(agent, wish, word, woken, chosen)), Ok(Stepped { word, woken }));
        }
    }
}

#[test]
fn numbers_that_no_ask_gives() {
    let mut lent = after("7[enter 9] | 9[]", &[0, 0]).lent().clone();
    let before = lent.clone();
    let asked = lent.ask(0, 255);
    assert_eq!(asked, 1 << 8 | 2 << 24, "took, nobody woken, place 2");
    for bit in 0..64 {
        assert_eq!(lent.commit(0, 255, asked ^ 1 << bit), 18);
    }
    for number in [
        0,
        10,
        11,
        18,
        255,
        asked | 10,
        asked | 11,
        asked | 18,
        asked | 1 << 32,
        u64::MAX,
        asked << 8,
        asked >> 8,
        1 << 8,
        1 << 8 | 255 << 24,
    ] {
        assert_eq!(lent.commit(0, 255, number), 18);
    }
    assert!(lent == before);
    assert_eq!(lent.commit(0, 255, asked), 1 << 8);
}

#[test]
fn unsound_and_no_such_agent_come_first() {
    let mut cell = after("7[enter 9] | 9[]", &[0]);
    let before = cell.clone();
    for agent in [1, 63, 64, 255] {
        assert_eq!(cell.ask(agent, 0), refused(Refusal::NoSuchAgent));
        for word in WORDS {
            assert_eq!(cell.commit(Asked::new(agent, 0, word, 9, Some(9))), refused(Refusal::NoSuchAgent));
        }
    }
    assert!(cell.lent() == before.lent());
    let mut lent = cell.lent().clone();
    assert_eq!((lent.ask(1, 0), lent.commit(1, 0, 11), lent.commit(0, 0, 11)), (11, 11, 18));
    // place 1 in use no more, so that the table is unsound
    lent.used = 1;
    let unsound = lent.clone();
    for agent in [0, 1, 64, 255] {
        assert_eq!(lent.ask(agent, 255), 10);
        assert_eq!([0, 10, 18, 1 << 8 | 255 << 24, u64::MAX].map(|number| lent.commit(agent, 255, number)), [10; 5]);
    }
    assert!(lent == unsound);
    let mut cell = Cell::from_lent(Lent::zeros());
    assert_eq!(cell.ask(0, 255), refused(Refusal::Unsound));
    assert_eq!(cell.commit(Asked::new(0, 255, Word::Done, 0, None)), refused(Refusal::Unsound));
}

#[test]
fn texts() {
    let mut cell = after("7[enter 9] | 9[]", &[0, 0]);
    assert_eq!(format!("{:?}", cell.ask(0, 255).unwrap()), "Asked { agent: 0, wish: 255, word: Took, woken: 0, chosen: Some(2) }");
    let refused = cell.commit(Asked::new(0, 255, Word::Took, 0, None)).unwrap_err();
    assert_eq!(refused.to_string(), "refused with 18: the step would answer otherwise");
    assert_eq!(Asked::new(0, 255, Word::Took, 0, Some(255)).chosen(), None);
}
