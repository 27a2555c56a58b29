//! Each call of the crate: what it answers, and that a refusal changes nothing.

use keeper::lent::{cell_bytes, fits, version, Lent, SIZE};
use keeper::{check_library, Asked, Cell, Refusal, Refused, Stepped, Word, TOUCHES_MOST, VERSION};

/// The worked example's cell: `7[enter 9] | 9[exit 7]`.
const FILE: [u8; 27] = [1, 1, 0, 7, 0, 1, 2, 0, 9, 0, 2, 0, 1, 3, 0, 1, 9, 0, 2, 1, 2, 3, 1, 2, 7, 0, 4];

#[test]
fn the_worked_example() {
    use Word::*;
    let mut cell = Cell::load(&FILE).unwrap();
    assert_eq!(cell.listing().unwrap(), "7[enter 9] | 9[exit 7]");
    let agents = [0, 1, 0, 1, 0, 0, 1, 1, 0, 0, 0, 0, 1];
    let words = [Looked, Looked, Took, Held, Took, Left, Took, Slept, Took, Took, Came, Done, Looked];
    for (agent, word) in agents.into_iter().zip(words) {
        let woken = if word == Came { 1 } else { 0 };
        assert_eq!(cell.step(agent, 255), Ok(Stepped { word, woken }));
        assert_eq!(cell.check(), Ok(()));
    }
    assert_eq!(cell.listing().unwrap(), "9[exit 7 | 7[]]");
    assert_eq!(cell.idle(), Ok(false));
}

#[test]
fn the_library() {
    assert_eq!((version(), cell_bytes()), (VERSION, SIZE as u64));
    assert!(fits());
    assert_eq!(check_library(), Ok(()));
}

#[test]
fn refused_loads_leave_the_cell() {
    let mut cell = Cell::load(&FILE).unwrap();
    let before = cell.clone();
    let refused = |refusal, offset| Err(Refused { refusal, offset: Some(offset) });
    assert_eq!(cell.reload(&[1]), refused(Refusal::CutShort, 0));
    assert_eq!(cell.reload(&FILE[..5]), refused(Refusal::CutShort, 5));
    assert_eq!(cell.reload(&[9]), refused(Refusal::UnknownKind, 0));
    assert_eq!(cell.reload(&[1, 64, 0, 7, 0, 4]), refused(Refusal::TooLarge, 0));
    assert_eq!(cell.reload(&[2, 0, 0, 2, 0, 0, 4]), refused(Refusal::GivenTwice, 3));
    assert_eq!(cell.reload(&[1, 5, 5, 7, 0, 4]), refused(Refusal::NotYetGiven, 0));
    assert_eq!(cell.reload(&[1, 1, 0, 0, 0, 4]), refused(Refusal::NameZero, 0));
    assert_eq!(cell.reload(&[2, 0, 0, 3, 0, 5, 7, 0, 4]), refused(Refusal::ActionKind, 3));
    let seventeen = [[2, 0, 0].as_slice(), &[3, 0, 1, 7, 0].repeat(17), &[4]].concat();
    assert_eq!(cell.reload(&seventeen), refused(Refusal::SeventeenthAction, 83));
    assert_eq!(cell.reload(&[4, 4]), refused(Refusal::AfterTheEnd, 1));
    assert!(cell.lent() == before.lent());
    assert_eq!(cell.reload(&[4]), Ok(()));
    assert_eq!(cell.listing().unwrap(), "0");
}

#[test]
fn which_number_was_too_large() {
    use Refusal::{AgentTooLarge, GivenTwice, NotYetGiven, ParentTooLarge, TooLarge};
    let mut cell = Cell::load(&FILE).unwrap();
    let before = cell.clone();
    // after place 1 and agent 0: the earlier byte decides, and all three come before 4
    let rows: [(&[u8], Refusal); 16] = [
        (&[1, 64, 0, 7, 0], TooLarge),
        (&[1, 0, 0, 7, 0], TooLarge),
        (&[1, 0, 64, 7, 0], TooLarge),
        (&[1, 255, 255, 0, 0], TooLarge),
        (&[1, 2, 64, 7, 0], ParentTooLarge),
        (&[1, 1, 64, 0, 0], ParentTooLarge),
        (&[2, 1, 64], ParentTooLarge),
        (&[2, 0, 255], ParentTooLarge),
        (&[2, 64, 0], AgentTooLarge),
        (&[2, 64, 64], AgentTooLarge),
        (&[3, 64, 1, 7, 0], AgentTooLarge),
        (&[3, 255, 9, 0, 0], AgentTooLarge),
        (&[1, 1, 63, 0, 0], GivenTwice),
        (&[2, 0, 63], GivenTwice),
        (&[1, 2, 63, 0, 0], NotYetGiven),
        (&[3, 63, 9, 0, 0], NotYetGiven),
    ];
    for (record, refusal) in rows {
        let file = [&[1, 1, 0, 7, 0, 2, 0, 1], record, &[4]].concat();
        assert_eq!(cell.reload(&file), Err(Refused { refusal, offset: Some(8) }), "{record:?}");
    }
    assert!(cell.lent() == before.lent());
}

#[test]
fn a_file_of_length_0_is_a_bare_floor() {
    let floor =
        |cell: &Cell| (cell.lent().places, cell.lent().locks, cell.lent().used, cell.lent().given, cell.lent().touches, cell.lent().order);
    let bare = floor(&Cell::bare());
    let mut cell = Cell::load(&[]).unwrap();
    assert_eq!([floor(&cell), floor(&Cell::load(&[4]).unwrap())], [bare, bare]);
    assert_eq!(cell.listing().unwrap(), "0");
    assert_eq!((cell.check(), cell.idle()), (Ok(()), Ok(true)));
    assert_eq!(cell.step(0, 255), Err(Refused { refusal: Refusal::NoSuchAgent, offset: None }));
    assert_eq!(cell.reload(&FILE), Ok(()));
    assert_eq!(cell.reload(&FILE[FILE.len()..]), Ok(()));
    assert_eq!(floor(&cell), bare);
    let mut unsound = Cell::from_lent(Lent::zeros());
    assert_eq!(unsound.reload(&[]), Ok(()));
    assert_eq!(floor(&unsound), bare);
}

#[test]
fn refused_steps_and_listings() {
    let mut cell = Cell::load(&FILE).unwrap();
    let before = cell.clone();
    for agent in [2, 63, 64, 255] {
        assert_eq!(cell.step(agent, 0), Err(Refused { refusal: Refusal::NoSuchAgent, offset: None }));
        assert_eq!(cell.ask(agent, 0), Err(Refused { refusal: Refusal::NoSuchAgent, offset: None }));
    }
    let mut text = [b'.'; 30];
    assert_eq!(cell.list(&mut text[..21]), Err(Refused { refusal: Refusal::ListingTooLong, offset: None }));
    assert_eq!(text, [b'.'; 30]);
    assert_eq!(cell.list(&mut text[..22]), Ok(22));
    assert_eq!(&text, b"7[enter 9] | 9[exit 7]........");
    assert!(cell.lent() == before.lent());
}

#[test]
fn an_unsound_table() {
    let mut cell = Cell::from_lent(Lent::zeros());
    let unsound = Refused { refusal: Refusal::Unsound, offset: None };
    assert_eq!(cell.check(), Err(unsound));
    assert_eq!((cell.idle(), cell.ceiling()), (Err(unsound), Err(unsound)));
    assert_eq!(cell.step(64, 0), Err(unsound));
    assert_eq!((cell.ask(64, 0), cell.commit(Asked::new(64, 0, Word::Looked, 0, None))), (Err(unsound), Err(unsound)));
    assert_eq!(cell.list(&mut []), Err(unsound));
    assert_eq!((cell.touch(64, 0), cell.touches(64)), (Err(unsound), Err(unsound)));
    assert_eq!((cell.nearest(64, 0), cell.common(64, 64)), (Err(unsound), Err(unsound)));
    assert!(*cell.lent() == Lent::zeros());
    assert_eq!(cell.reload(&FILE), Ok(()));
    assert_eq!(cell.listing().unwrap(), "7[enter 9] | 9[exit 7]");
}

#[test]
fn refused_touch_records() {
    let mut cell = Cell::load(&FILE).unwrap();
    let before = cell.clone();
    let rows: [(&[u8], Refusal); 6] = [
        (&[5, 64, 1, 0, 0, 0, 4], Refusal::TooLarge),
        (&[5, 255, 1, 0, 0, 0, 4], Refusal::TooLarge),
        (&[5, 1, 0, 0, 0, 0, 4], Refusal::GivenTwice),
        (&[5, 2, 1, 0, 0, 0, 4], Refusal::NotYetGiven),
        (&[5, 64, 1, 0, 0], Refusal::CutShort),
        (&[7, 0, 0, 0, 0, 0, 4], Refusal::UnknownKind),
    ];
    for (record, refusal) in rows {
        let file = [&[1, 1, 0, 7, 0, 5, 1, 4, 3, 2, 1], record].concat();
        assert_eq!(cell.reload(&file), Err(Refused { refusal, offset: Some(11) }), "{record:?}");
    }
    assert!(cell.lent() == before.lent());
}

#[test]
fn touches_travel_and_are_pooled() {
    // a bonder, place 1, with a tray, place 2, that agent 0 opens; a holder, place 3, that agent 1 takes into the bonder
    let mut file = vec![1, 1, 0, 20, 0, 1, 2, 1, 50, 0, 1, 3, 0, 30, 0, 5, 3, 0xB0, 4, 0, 0, 5, 2, 40, 0, 0, 0];
    file.extend([2, 0, 1, 3, 0, 3, 50, 0, 2, 1, 3, 3, 1, 1, 20, 0, 4]);
    let mut cell = Cell::load(&file).unwrap();
    assert_eq!([0, 1, 2, 3].map(|place| cell.touches(place)), [Ok(0), Ok(0), Ok(40), Ok(1_200)]);
    for _ in 0..7 {
        cell.step(1, 255).unwrap();
    }
    assert_eq!(cell.touch(3, 300), Ok(1_500));
    for _ in 0..4 {
        cell.step(0, 255).unwrap();
    }
    assert_eq!(cell.listing().unwrap(), "20[30[]]");
    let refused = |refusal| Err(Refused { refusal, offset: None });
    assert_eq!([0, 1, 2, 3].map(|place| cell.touches(place)), [Ok(0), Ok(40), refused(Refusal::NotYetGiven), Ok(1_500)]);
    assert_eq!(cell.lent().touches[2], 0);
}

#[test]
fn refused_touches() {
    let refused = |refusal| Err(Refused { refusal, offset: None });
    let mut lent = Cell::load(&FILE).unwrap().lent().clone();
    lent.touches[1] = TOUCHES_MOST - 9;
    lent.touches[3] = u64::MAX;
    let mut cell = Cell::from_lent(lent);
    let before = cell.clone();
    assert_eq!([cell.touch(64, 10), cell.touch(255, 0), cell.touches(64)], [refused(Refusal::TooLarge); 3]);
    assert_eq!([cell.touch(3, 10), cell.touch(63, 0), cell.touches(3)], [refused(Refusal::NotYetGiven); 3]);
    assert_eq!([cell.touch(1, 10), cell.touch(0, u32::MAX)], [refused(Refusal::TooManyTouches); 2]);
    assert!(cell.lent() == before.lent());
    assert_eq!(cell.touch(0, 9), Ok(9));
    assert_eq!([cell.touch(1, 0), cell.touch(1, 1)], [Ok(TOUCHES_MOST - 9), refused(Refusal::TooManyTouches)]);
    let mut lent = cell.lent().clone();
    for count in [TOUCHES_MOST - 8, u64::MAX - 8, u64::MAX] {
        lent.touches[1] = count;
        assert_eq!(Cell::from_lent(lent.clone()).check(), refused(Refusal::Unsound).map(|_: u64| ()));
    }
}

/// The row of a cell without the numbers that are not in use.
fn row(cell: &Cell) -> Vec<u8> {
    cell.lent().order.into_iter().filter(|&place| cell.lent().used >> place & 1 == 1).collect()
}

#[test]
fn first_in_first_served() {
    // on the floor a holder, place 1, and trays 4 and 3, in this order; a bonder, place 2, with places 7 and 5 in it. Agent 0 takes the holder
    // into a tray, agent 1 takes tray 4 into the bonder and out again, agent 2, on the floor, opens the bonder
    let mut file = vec![1, 1, 0, 30, 0, 1, 4, 0, 50, 0, 1, 3, 0, 50, 0, 1, 2, 0, 20, 0, 1, 7, 2, 60, 0, 1, 5, 2, 61, 0];
    file.extend([2, 0, 1, 3, 0, 1, 50, 0, 2, 1, 4, 3, 1, 1, 20, 0, 3, 1, 2, 20, 0, 2, 2, 0, 3, 2, 3, 20, 0, 4]);
    let run = |agents: &[(u8, usize)], wish: u8| {
        let mut cell = Cell::load(&file).unwrap();
        for &(agent, steps) in agents {
            (0..steps).for_each(|_| assert!(cell.step(agent, wish).is_ok()));
            cell.check().unwrap();
        }
        (row(&cell), cell.listing().unwrap())
    };
    let start = Cell::load(&file).unwrap();
    assert_eq!(row(&start), [0, 1, 4, 3, 2, 7, 5]);
    assert_eq!(start.lent().order[63], 5);
    assert_eq!(Cell::bare().lent().order, std::array::from_fn(|place| place as u8));
    let elder = "open 20 | 20[60[] | 61[]] | 50[] | 50[enter 20.exit 20 | 30[]]".to_string();
    assert_eq!(run(&[(0, 7)], 255), (vec![0, 4, 3, 2, 7, 5, 1], elder));
    let younger = "open 20 | 20[60[] | 61[]] | 50[30[]] | 50[enter 20.exit 20]".to_string();
    assert_eq!(run(&[(0, 7)], 3), (vec![0, 4, 3, 2, 7, 5, 1], younger));
    let came_back = "open 20 | 20[60[] | 61[]] | 50[30[]] | 50[]".to_string();
    assert_eq!(run(&[(1, 14), (0, 7)], 255), (vec![0, 3, 2, 7, 5, 4, 1], came_back));
    let freed = "30[enter 50] | 50[] | 50[enter 20.exit 20] | 60[] | 61[]".to_string();
    assert_eq!(run(&[(2, 4)], 255), (vec![0, 1, 4, 3, 7, 5], freed));
}

#[test]
fn unsound_rows() {
    let whole = Cell::load(&FILE).unwrap().lent().clone();
    let checked = |order: [u8; 64]| Cell::from_lent(Lent { order, ..whole.clone() }).check();
    let unsound = Err(Refused { refusal: Refusal::Unsound, offset: None });
    for at in 0..64 {
        let mut order = whole.order;
        order.swap(at, 0);
        assert_eq!(checked(order), Ok(()));
        for number in [order[(at + 1) % 64], 64, order[at] + 64, order[at] + 128, 255] {
            let mut order = order;
            order[at] = number;
            assert_eq!(checked(order), unsound);
        }
    }
}

#[test]
fn an_idle_cell() {
    assert_eq!(Cell::bare().idle(), Ok(true));
    assert_eq!(Cell::bare().listing().unwrap(), "0");
    assert_eq!(Cell::load(&[2, 5, 0, 4]).unwrap().idle(), Ok(true));
    assert_eq!(Cell::load(&[2, 5, 0, 4]).unwrap().step(5, 0), Ok(Stepped { word: Word::Done, woken: 0 }));
}

#[test]
fn texts() {
    assert_eq!(Word::Looked.to_string(), "looked");
    assert_eq!(Refusal::NoSuchAgent.to_string(), "no such agent");
    let refused = Cell::load(&[4, 4]).unwrap_err();
    assert_eq!(refused.to_string(), "refused with 9: bytes after the end record, at byte 1");
    let numbers: Vec<u8> = Refusal::ALL.iter().map(|refusal| refusal.number()).collect();
    assert_eq!(numbers, (1..=18).collect::<Vec<u8>>());
    assert_eq!(Refusal::TooLarge.to_string(), "place number above 63, or 0 in a place record");
    assert_eq!(Cell::load(&[1, 1, 64, 7, 0, 4]).unwrap_err().to_string(), "refused with 13: parent or home above 63, at byte 0");
    assert_eq!(Cell::load(&[2, 64, 0, 4]).unwrap_err().to_string(), "refused with 14: agent number above 63, at byte 0");
    let error: Box<dyn std::error::Error> = Box::new(refused);
    assert!(error.source().is_none());
}
