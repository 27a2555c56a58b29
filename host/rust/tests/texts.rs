//! Reading a text of the listing's language: what it gives, where it is refused, and that a refusal changes nothing.

use keeper::lent::Lent;
use keeper::{Cell, Refusal, Refused, Word, LISTING_LONGEST};

/// Parts side by side.
fn beside(part: &str, count: usize) -> String {
    vec![part; count].join(" | ")
}

/// So many places in each other, with this in the innermost.
fn nested(count: usize, inner: &str) -> String {
    format!("{}{inner}{}", "7[".repeat(count), "]".repeat(count))
}

#[test]
fn outside_the_language() {
    let mut cell = Cell::read("7[enter 9] | 9[exit 7]").unwrap();
    let before = cell.clone();
    let rows = [
        ("", 0),
        ("07[]", 1),
        ("7[0]", 2),
        ("65536[]", 4),
        ("enter 0", 6),
        ("7/0[]", 3),
        ("0\n", 1),
        ("7[]\r\n", 3),
        ("7[] | 0", 6),
        ("7[ ]", 2),
        ("7[]|7[]", 3),
        ("7[] |7[]", 5),
        ("7[] | ", 6),
        ("7[7[]", 5),
        ("7[]]", 3),
        ("enter 7.", 8),
        ("exit", 4),
        ("release", 7),
        ("release 0", 8),
        ("relase 7", 3),
        ("put 7", 0),
        ("7/7/7[]", 5),
        ("7/07/7/7[]", 3),
        ("7/7/7/65536[]", 10),
        ("7[\u{e9}]", 2),
        ("7[]\0", 3),
    ];
    for (text, offset) in rows {
        let refused = Refused { refusal: Refusal::OutsideLanguage, offset: Some(offset) };
        assert_eq!(cell.reread(text), Err(refused), "{text:?}");
        assert_eq!(Cell::read(text).unwrap_err(), refused);
    }
    assert!(cell.lent() == before.lent());
    let refused = Cell::read("7[0]").unwrap_err();
    assert_eq!(refused.to_string(), "refused with 16: not a text of the listing's language, at byte 2");
}

#[test]
fn bytes_that_are_no_string() {
    let mut lent = Lent::zeros();
    assert_eq!(lent.read(&[b'7', b'[', 0xFF, b']']), 2 << 8 | 16);
    assert_eq!(lent.read(&[0xFF]), 16);
    assert!(lent == Lent::zeros());
    assert_eq!(lent.read(b"7[]"), 0);
    assert_eq!(lent.check(), 0);
}

#[test]
fn too_many_of_anything() {
    let fit = [beside("7[]", 63), nested(63, ""), beside("open 7", 64), nested(63, &beside("open 7", 64)), vec!["exit 7"; 16].join(".")];
    for text in fit {
        assert_eq!(Cell::read(&text).unwrap().listing().unwrap(), text);
    }
    let many = [
        beside("7[]", 64),
        nested(64, ""),
        nested(100_000, ""),
        beside("open 7", 65),
        nested(9, &beside("open 7", 65)),
        vec!["exit 7"; 17].join("."),
    ];
    let mut cell = Cell::read("7[enter 9] | 9[exit 7]").unwrap();
    let before = cell.clone();
    for text in many {
        assert_eq!(cell.reread(&text), Err(Refused { refusal: Refusal::TooMany, offset: Some(text.len()) }));
        let faulty = format!("{text} | 0");
        assert_eq!(cell.reread(&faulty), Err(Refused { refusal: Refusal::OutsideLanguage, offset: Some(text.len() + 3) }), "16 before 17");
    }
    assert!(cell.lent() == before.lent());
    let refused = Cell::read(&nested(64, "")).unwrap_err();
    assert_eq!(refused.to_string(), "refused with 17: more than 63 places, 64 agents or sixteen actions of one agent, at byte 192");
}

#[test]
fn numbered_as_they_appear() {
    let mut cell = Cell::from_lent(Lent::zeros());
    cell.reread("9[7[exit 9] | enter 1 | 8/1/2/0[]] | open 2 | 5[]").unwrap();
    let lent = cell.lent();
    assert_eq!((lent.used, lent.given, lent.touches), (31, 7, [0; 64]));
    assert_eq!([1, 2, 3, 4].map(|place| (lent.places[place].name.name, lent.places[place].parent)), [(9, 0), (7, 1), (8, 1), (5, 0)]);
    assert_eq!([0, 1, 2].map(|agent| (lent.agents[agent].home, lent.agents[agent].actions[0].name)), [(2, 9), (1, 1), (0, 2)]);
    let name = lent.places[3].name;
    assert_eq!([name.entering, name.exiting, name.opening], [1, 2, 0]);
    assert_eq!(lent.order[60..], [1, 2, 3, 4]);
    assert_eq!(cell.check(), Ok(()));
}

#[test]
fn as_a_loaded_cell() {
    // the worked example and a keyed place, as files and as texts: the same cell
    let worked = [1, 1, 0, 7, 0, 1, 2, 0, 9, 0, 2, 0, 1, 3, 0, 1, 9, 0, 2, 1, 2, 3, 1, 2, 7, 0, 4];
    let mut cell = Cell::read("7[enter 9] | 9[exit 7]").unwrap();
    assert!(cell.lent() == Cell::load(&worked).unwrap().lent());
    let keyed = Cell::load(&[6, 1, 0, 20, 0, 20, 0, 20, 0, 0, 0, 4]).unwrap();
    assert!(Cell::read("20/20/20/0[]").unwrap().lent() == keyed.lent());
    assert!(Cell::read("0").unwrap().lent() == Cell::load(&[]).unwrap().lent());
    assert!(Cell::read("7/7/7/7[]").unwrap().lent() == Cell::read("7[]").unwrap().lent());
    let words: Vec<Word> = (0..7).map(|_| cell.step(0, 255).unwrap().word).collect();
    assert_eq!(words, [Word::Looked, Word::Took, Word::Took, Word::Left, Word::Took, Word::Took, Word::Came]);
    assert_eq!(cell.listing().unwrap(), "9[exit 7 | 7[]]");
    assert_eq!(cell.touch(1, 5), Ok(5));
}

#[test]
fn listed_and_read_again() {
    for (text, listing) in [
        ("9[] | 7/7/7/7[]", "7[] | 9[]"),
        ("7[] | 70[] | 7/1/1/1[] | open 9 | enter 9", "enter 9 | open 9 | 7/1/1/1[] | 70[] | 7[]"),
        ("release 10 | open 9 | release 1.exit 1 | 7[release 1]", "open 9 | release 1.exit 1 | release 10 | 7[release 1]"),
        ("0", "0"),
    ] {
        assert_eq!(Cell::read(text).unwrap().listing().unwrap(), listing);
        assert_eq!(Cell::read(listing).unwrap().listing().unwrap(), listing);
    }
    let agents = beside(&vec!["release 65535"; 16].join("."), 64);
    let longest = format!("{agents} | {}", beside("65535/10000/65535/10000[]", 63));
    assert_eq!(longest.len(), LISTING_LONGEST);
    assert_eq!(Cell::read(&longest).unwrap().listing().unwrap(), longest);
}
