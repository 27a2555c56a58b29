//! Checking the dispatcher's claim: trails that are kept of runs, and what is found of them, whole and changed.

use keeper::{audit, Asked, Cell, Finding, Reason, Refusal, Refused, Word, LISTING_LONGEST, MOVE_BYTES, TRAIL_LONGEST};

/// The worked example: place 1 named 7, place 2 named 9; agent 0 in place 1 has enter 9, agent 1 in place 2 has exit 7.
const EXAMPLE: [u8; 27] = [1, 1, 0, 7, 0, 1, 2, 0, 9, 0, 2, 0, 1, 3, 0, 1, 9, 0, 2, 1, 2, 3, 1, 2, 7, 0, 4];

/// Its listings, as loaded and at its end.
const START: &[u8] = b"7[enter 9] | 9[exit 7]";
const END: &[u8] = b"9[exit 7 | 7[]]";

/// The floor with a carrier 9, place 1, and two agents that open it and put out an empty one; place 2, named 7, whose agent goes into the
/// carrier and out again.
const CARRIER: [u8; 50] = [
    1, 1, 0, 9, 0, 1, 2, 0, 7, 0, 2, 0, 0, 3, 0, 3, 9, 0, 3, 0, 4, 9, 0, 2, 1, 0, 3, 1, 3, 9, 0, 3, 1, 4, 9, 0, 2, 2, 2, 3, 2, 1, 9, 0, 3,
    2, 2, 9, 0, 4,
];

/// A no, after so many moves and for this reason.
fn no(moves: usize, reason: Reason) -> Result<Finding, Refused> {
    Ok(Finding::Denied { moves, reason })
}

const YES: Result<Finding, Refused> = Ok(Finding::Upheld);

/// A number below the limit; the same seed gives the same numbers.
fn below(seed: &mut u64, limit: usize) -> usize {
    *seed = seed.wrapping_mul(6_364_136_223_846_793_005).wrapping_add(1_442_695_040_888_963_407);
    (*seed >> 33) as usize % limit
}

/// The listing of a cell.
fn listing(cell: &Cell) -> Vec<u8> {
    let mut text = vec![0; LISTING_LONGEST];
    let length = cell.list(&mut text).unwrap();
    text[..length].to_vec()
}

#[test]
fn the_worked_example() {
    for by_commit in [true, false] {
        let mut cell = Cell::load(&EXAMPLE).unwrap();
        let mut trail = Vec::new();
        for (at, agent) in [0, 1, 0, 1, 0, 0, 1, 1, 0, 0, 0, 0, 1].into_iter().enumerate() {
            let asked = cell.ask(agent, 255).unwrap();
            let stepped = if by_commit { cell.commit(asked) } else { cell.step(agent, 255) };
            assert!(stepped.is_ok() && asked.trail(&mut trail) == Ok(()));
            assert_eq!(trail, if at < 5 { &[][..] } else { &[0, 2] });
            assert_eq!(audit(&EXAMPLE, &trail, &listing(&cell)), YES);
        }
        assert_eq!(listing(&cell), END);
    }
    assert_eq!(audit(&EXAMPLE, &[0, 2], END), YES);
    assert_eq!(audit(&EXAMPLE, &[], START), YES, "a trail may stop anywhere");
}

#[test]
fn each_reason() {
    assert_eq!(audit(&EXAMPLE, &[0, 1], END), no(0, Reason::NotPermitted));
    assert_eq!(audit(&EXAMPLE, &[0, 255], END), no(0, Reason::NotPermitted));
    assert_eq!(audit(&EXAMPLE, &[0, 2, 1, 255], END), no(1, Reason::NotPermitted));
    assert_eq!(audit(&EXAMPLE, &[0, 2, 0, 2], END), no(1, Reason::NoActionLeft));
    assert_eq!([2, 63, 64, 255].map(|agent| audit(&EXAMPLE, &[agent, 2], END)), [no(0, Reason::NoActionLeft); 4]);
    assert_eq!(audit(&EXAMPLE, &[0, 2, 0], END), no(1, Reason::OddByte));
    assert_eq!(audit(&EXAMPLE, &[9, 9, 9, 9, 9], END), no(2, Reason::OddByte), "before any of its moves");
    assert_eq!(audit(&EXAMPLE, &[0, 2], START), no(1, Reason::OtherLayout));
    for other in [&END[1..], &END[..END.len() - 1], &[END, b"\n"].concat(), b""] {
        assert_eq!(audit(&EXAMPLE, &[0, 2], other), no(1, Reason::OtherLayout));
    }
    let megabyte = [0, 2].repeat(1 << 19);
    assert_eq!(audit(&EXAMPLE, &megabyte, END), no(1, Reason::NoActionLeft));
    assert_eq!(audit(&EXAMPLE, &megabyte[1..], END), no((1 << 19) - 1, Reason::OddByte));
    let text = audit(&EXAMPLE, &[0, 2, 0], END).map(|finding| finding.to_string());
    assert_eq!(text.as_deref(), Ok("no: odd last byte, after 1 moves"));
    assert_eq!(Finding::Upheld.to_string(), "yes");
}

#[test]
fn bad_files() {
    let mut cell = Cell::bare();
    for at in 0..EXAMPLE.len() {
        for changed in [EXAMPLE[..at].to_vec(), [&EXAMPLE[..at], &[0x55], &EXAMPLE[at + 1..]].concat()] {
            let loaded = cell.reload(&changed);
            for trail in [&[][..], &[0], &[0, 2], &[9, 9, 9]] {
                let audited = audit(&changed, trail, END);
                match loaded {
                    Err(refused) => assert_eq!(audited, Err(refused), "{changed:?}"),
                    Ok(()) => assert!(audited.is_ok(), "{changed:?}"),
                }
            }
        }
    }
    assert_eq!([&[][..], &[4]].map(|file| audit(file, &[], b"0")), [YES; 2]);
    assert_eq!([&[][..], &[4]].map(|file| audit(file, &[0, 255], b"0")), [no(0, Reason::NoActionLeft); 2]);
    assert_eq!(audit(&[4, 4], &[], b"0"), Err(Refused { refusal: Refusal::AfterTheEnd, offset: Some(1) }));
}

#[test]
fn the_byte_of_each_kind() {
    // 0: enter 9, 1: exit 9, 2: open 9, 3: release 9; places 1 and 2 are named 9, place 3 stands in 1 and 4 beside
    let places = [1, 1, 0, 9, 0, 1, 2, 0, 9, 0, 1, 3, 1, 7, 0, 1, 4, 0, 8, 0];
    let actions = [2, 0, 4, 3, 0, 1, 9, 0, 2, 1, 3, 3, 1, 2, 9, 0, 2, 2, 0, 3, 2, 3, 9, 0, 2, 3, 4, 3, 3, 4, 9, 0, 4];
    let file = [&places[..], &actions].concat();
    for (agent, right) in [(0, &[1, 2][..]), (1, &[255]), (2, &[1, 2]), (3, &[255])] {
        for byte in 0..=255 {
            let finding = audit(&file, &[agent, byte], b"");
            let made = no(1, Reason::OtherLayout);
            assert_eq!(finding, if right.contains(&byte) { made } else { no(0, Reason::NotPermitted) }, "{agent} {byte}");
        }
    }
}

#[test]
fn what_is_written_of_an_ask() {
    for number in 0..=255 {
        let word = match number {
            5 => Word::Left,
            7 => Word::Opened,
            8 => Word::Put,
            _ => Word::Unknown(number),
        };
        for chosen in [None, Some(0), Some(7), Some(254)] {
            let asked = Asked::new(17, 255, word, 3, chosen);
            let bytes = [17, chosen.unwrap_or(255)];
            let moves = matches!(number, 5 | 7 | 8);
            for room in 0..5 {
                let mut lent = vec![0xAA; room];
                let written = asked.write_move(&mut lent);
                if moves && room < MOVE_BYTES {
                    assert_eq!(written, Err(Refused { refusal: Refusal::ListingTooLong, offset: None }));
                } else {
                    assert_eq!(written, Ok(if moves { MOVE_BYTES } else { 0 }));
                }
                let length = written.unwrap_or(0);
                assert!(lent[..length] == bytes[..length] && lent[length..].iter().all(|&byte| byte == 0xAA));
            }
            let mut trail = vec![1, 2, 3];
            assert_eq!(asked.trail(&mut trail), Ok(()));
            assert_eq!(trail, if moves { vec![1, 2, 3, 17, bytes[1]] } else { vec![1, 2, 3] });
        }
    }
}

/// A run from a file, by steps and commits in any order, with asks that are committed late and touch calls among them; the trail that a host keeps, and
/// the listing after each of its moves.
fn run(seed: &mut u64, file: &[u8], agents: u8) -> (Vec<u8>, Vec<Vec<u8>>) {
    let mut cell = Cell::load(file).unwrap();
    let (mut trail, mut listings) = (Vec::new(), vec![listing(&cell)]);
    let mut earlier = None;
    for _ in 0..1 + below(seed, 60) {
        let Ok(asked) = cell.ask(below(seed, agents as usize + 1) as u8, below(seed, 4) as u8) else { continue };
        let made = match below(seed, 4) {
            0 => cell.step(asked.agent(), asked.wish()).ok().map(|_| asked),
            1 => earlier.replace(asked).filter(|&asked| cell.commit(asked).is_ok()),
            2 => cell.touch(0, 1).ok().and_then(|_| cell.commit(asked).ok()).map(|_| asked),
            _ => cell.commit(asked).ok().map(|_| asked),
        };
        if let Some(asked) = made {
            asked.trail(&mut trail).unwrap();
        }
        if trail.len() == 2 * listings.len() {
            listings.push(listing(&cell));
        }
        assert_eq!(audit(file, &trail, &listing(&cell)), YES, "{trail:?}");
    }
    (trail, listings)
}

#[test]
fn of_runs() {
    let mut seed = 13;
    let (mut moves, mut odd, mut denied) = (0, 0, [0; 5]);
    for turn in 0..600 {
        let (file, agents) = if turn % 3 == 0 { (&EXAMPLE[..], 2) } else { (&CARRIER[..], 3) };
        let (trail, listings) = run(&mut seed, file, agents);
        assert!(trail.len() <= TRAIL_LONGEST);
        let last = listings.last().unwrap();
        for made in 0..trail.len() / 2 {
            assert_eq!(audit(file, &trail[..2 * made], &listings[made]), YES);
            assert_eq!(audit(file, &trail[..2 * made], last), no(made, Reason::OtherLayout), "an action fewer is used up");
            assert_eq!(audit(file, &trail[..2 * made + 1], &listings[made]), no(made, Reason::OddByte));
            odd += 1;
        }
        for at in 0..trail.len() {
            let mut changed = trail.clone();
            changed[at] = [0, 1, 2, 3, 4, 255][below(&mut seed, 6)];
            if changed == trail {
                continue;
            }
            match audit(file, &changed, last).unwrap() {
                Finding::Upheld => denied[0] += 1,
                Finding::Denied { moves, reason } => {
                    assert!(moves >= at / 2 && moves <= trail.len() / 2, "{changed:?}");
                    denied[reason.number() as usize] += 1;
                }
            }
        }
        moves += trail.len() / 2;
    }
    assert!(moves > 300 && odd > 300 && denied[1] > 100 && denied[2] > 100, "{moves} {odd} {denied:?}");
}

#[test]
fn a_commit_that_is_refused_makes_no_move() {
    let mut cell = Cell::load(&CARRIER).unwrap();
    while cell.ask(0, 255).unwrap().word() != Word::Opened {
        cell.step(0, 255).unwrap();
    }
    let (asked, mut trail) = (cell.ask(0, 255).unwrap(), Vec::new());
    cell.commit(asked).unwrap();
    asked.trail(&mut trail).unwrap();
    assert_eq!(trail, [0, 1]);
    assert_eq!(cell.commit(asked).unwrap_err().refusal, Refusal::AnswerDiffers);
    assert_eq!(audit(&CARRIER, &trail, &listing(&cell)), YES);
    assert_eq!(audit(&CARRIER, &[trail.clone(), trail].concat(), &listing(&cell)), no(1, Reason::NotPermitted));
}
