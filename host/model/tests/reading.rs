//! Document 02, W8: reading a listing back.

use model::{file_of, is_beginning, listing, load, read, tree, typed_walk, walk, Cell, Refused};
use std::collections::BTreeSet;

/// The number and the offset with which a text is refused.
fn refusal(text: &str) -> (u8, usize) {
    let Refused { number, offset } = read(text.as_bytes()).expect_err("the text is refused");
    (number, offset)
}

/// The cell of a text.
fn cell(text: &str) -> Cell {
    read(text.as_bytes()).expect("the text is read")
}

/// Parts side by side.
fn beside(part: &str, count: usize) -> String {
    vec![part; count].join(" | ")
}

/// So many places in each other, with this in the innermost.
fn nested(count: usize, inner: &str) -> String {
    format!("{}{inner}{}", "7[".repeat(count), "]".repeat(count))
}

#[test]
fn the_offsets_of_a_text_outside_the_language() {
    let rows = [
        ("", 0),
        ("07[]", 1),
        ("7[0]", 2),
        ("65536[]", 4),
        ("enter 0", 6),
        ("7/0[]", 3),
        ("0\n", 1),
        ("7[]\n", 3),
        ("7[]\r\n", 3),
        ("0 | 7[]", 1),
        ("7[] | 0", 6),
        ("7[ ]", 2),
        (" 7[]", 0),
        ("7[] ", 4),
        ("7[]  | 7[]", 4),
        ("7[]|7[]", 3),
        ("7[] |7[]", 5),
        ("7[] | ", 6),
        ("7", 1),
        ("7[", 2),
        ("7[7[]", 5),
        ("7[]]", 3),
        ("7[]7[]", 3),
        ("7[]enter 7", 3),
        ("Enter 7", 0),
        ("enter  7", 6),
        ("enter 7.", 8),
        ("enter 7..exit 7", 8),
        ("enter 7[]", 7),
        ("enter 65536", 10),
        ("enter 655350", 11),
        ("enter 07", 6),
        ("entre 7", 3),
        ("exit", 4),
        ("e", 1),
        ("ex it 7", 2),
        ("release", 7),
        ("release 0", 8),
        ("release  7", 8),
        ("release 65536", 12),
        ("relase 7", 3),
        ("Release 7", 0),
        ("put 7", 0),
        ("close 7", 0),
        ("7/", 2),
        ("7/7[]", 3),
        ("7/7/7[]", 5),
        ("7/7/7/7/7[]", 7),
        ("7/07/7/7[]", 3),
        ("7/7/7/65536[]", 10),
        ("7/00/0/0[]", 3),
        ("0/7/7/7[]", 1),
        ("70000[]", 4),
        ("7[enter 7 | ]", 12),
        ("7[] | | 7[]", 6),
        ("+7[]", 0),
        ("7[]\0", 3),
        ("7[\u{e9}]", 2),
    ];
    for (text, offset) in rows {
        assert_eq!(refusal(text), (16, offset), "{text:?}");
    }
}

#[test]
fn the_first_byte_that_no_text_could_continue() {
    // every beginning of a text of the language is one, and no more than the text itself if a byte that fits nowhere follows
    let text = "enter 10.exit 9.release 3 | 70/0/65535/10[open 1 | 8[7[]] | release 65535.open 2]";
    assert!(tree(text.as_bytes()).is_some());
    for length in 0..text.len() {
        assert!(is_beginning(&text.as_bytes()[..length]));
        assert!(matches!(read(&text.as_bytes()[..length]), Ok(_) | Err(Refused { number: 16, .. })));
        for wrong in ["!", "\n", "{", "\u{0}"] {
            assert_eq!(refusal(&format!("{}{wrong}{}", &text[..length], &text[length..])), (16, length));
        }
    }
}

/// All texts of the language of this length at most whose numbers have only the digits 0 and 1, four of them at most.
fn short_texts(longest: usize) -> BTreeSet<String> {
    let names: Vec<String> = (1..16).map(|number| format!("{number:b}")).collect();
    let keys: Vec<&str> = names.iter().map(String::as_str).chain(["0"]).collect();
    let mut heads: Vec<String> = names.clone();
    let mut keyed: Vec<String> = names.clone();
    for _ in 0..3 {
        keyed = keyed.iter().flat_map(|name| keys.iter().map(move |key| format!("{name}/{key}"))).collect();
    }
    heads.extend(keyed.into_iter().filter(|head| head.len() + "[]".len() <= longest));
    let mut parts: BTreeSet<String> = BTreeSet::new();
    parts.extend(["open", "enter", "exit", "release"].iter().flat_map(|word| names.iter().map(move |name| format!("{word} {name}"))));
    let mut contents: BTreeSet<String> = BTreeSet::from([String::new()]);
    loop {
        let fit = |one: &str, other: &str, more: usize| one.len() + other.len() + more <= longest;
        let places = contents.iter().flat_map(|inner| {
            let short = heads.iter().filter(|head| fit(head, inner, "[]".len()));
            short.map(move |head| format!("{head}[{inner}]"))
        });
        let found: BTreeSet<String> = parts.iter().cloned().chain(places).collect();
        let beside = contents.iter().filter(|text| !text.is_empty()).flat_map(|one| {
            let short = found.iter().filter(|part| fit(one, part, " | ".len()));
            short.map(move |part| format!("{one} | {part}"))
        });
        let more: BTreeSet<String> = contents.iter().cloned().chain(found.iter().cloned()).chain(beside).collect();
        if more == contents {
            break;
        }
        (parts, contents) = (found, more);
    }
    contents.remove("");
    contents.insert("0".to_string());
    contents
}

#[test]
fn the_beginnings_of_all_short_texts() {
    // each beginning of four bytes at most, such as `11[r`, is ended within thirteen bytes
    let texts = short_texts(13);
    assert!(texts.iter().all(|text| tree(text.as_bytes()).is_some()));
    let beginnings: BTreeSet<&str> = texts.iter().flat_map(|text| (0..=text.len()).map(|length| &text[..length])).collect();
    let mut row: Vec<Vec<u8>> = vec![vec![]];
    for length in 0..=4 {
        for text in &row {
            let said = std::str::from_utf8(text).unwrap();
            assert_eq!(tree(text).is_some(), texts.contains(said), "{said:?}");
            assert_eq!(is_beginning(text), beginnings.contains(said), "{said:?}");
            if !texts.contains(said) {
                let longest = (0..=length).rev().find(|&length| beginnings.contains(&said[..length])).unwrap();
                assert_eq!(refusal(said), (16, longest), "{said:?}");
            }
        }
        row = row.iter().flat_map(|text| b"01[]/ |openxrl".map(|byte| [&text[..], &[byte]].concat())).collect();
    }
}

#[test]
fn too_many_of_anything() {
    let rows = [
        beside("7[]", 64),
        nested(64, ""),
        nested(1_000, ""),
        beside("open 7", 65),
        format!("7[{}]", beside("open 7", 65)),
        nested(63, &beside("open 7", 65)),
        vec!["enter 7"; 17].join("."),
        vec!["enter 7"; 1_000].join("."),
        format!("{} | {}", vec!["enter 7"; 16].join("."), vec!["enter 7"; 17].join(".")),
    ];
    for text in rows {
        assert_eq!(refusal(&text), (17, text.len()), "{text}");
        // 16 beats 17 wherever it stands
        assert_eq!(refusal(&format!("{text} ")), (16, text.len() + 1));
        assert_eq!(refusal(&format!("{text} | 0")), (16, text.len() + 3));
    }
}

#[test]
fn as_many_as_fit() {
    for text in [beside("7[]", 63), nested(63, ""), beside("open 7", 64), nested(63, &beside("open 7", 64)), vec!["exit 7"; 16].join(".")] {
        assert_eq!(listing(&cell(&text)), text);
    }
    let full = format!("{} | {}", beside(&vec!["release 65535"; 16].join("."), 64), beside("65535/10000/10000/10000[]", 63));
    assert_eq!(full.len(), 16_225);
    assert_eq!(listing(&cell(&full)), full);
}

#[test]
fn numbered_as_they_appear() {
    let read = cell("9[7[exit 9] | enter 1 | 8[]] | open 2 | 5[3[]]");
    let names: Vec<(u8, u16)> = read.places.iter().map(|(&number, place)| (number, place.name)).collect();
    assert_eq!(names, [(0, 0), (1, 9), (2, 7), (3, 8), (4, 5), (5, 3)]);
    let agents: Vec<(u8, u8, u16)> = read.agents.iter().map(|(&number, agent)| (number, agent.home, agent.unused[0].name)).collect();
    assert_eq!(agents, [(0, 2, 9), (1, 1, 1), (2, 0, 2)]);
    assert_eq!([read.children.under(0), read.children.under(1), read.children.under(4)], [&[1, 4][..], &[2, 3], &[5]]);
    assert!(read.places.values().all(|place| place.touches == 0) && read.settled());
}

#[test]
fn read_as_the_file_of_the_text_is_loaded() {
    for text in [
        "0",
        "7[]",
        "7[enter 9] | 9[exit 7]",
        "9/5/6/0[] | 7[enter 5.exit 6]",
        "open 258 | 7/7/7/258[1/0/0/0[exit 7] | 65535/1/65535/513[]]",
        "1[2[3[4[5[exit 4.exit 3.exit 2.exit 1]]]]]",
        "release 1.open 258 | 7[enter 9.release 9 | release 7.release 65535]",
    ] {
        assert_eq!(cell(text), load(&file_of(text)).unwrap());
    }
    assert_eq!(cell("7/7/7/7[]"), cell("7[]"), "three that equal the name may be written or left off");
    assert_ne!(cell("7/7/7/0[]"), cell("7[]"));
}

#[test]
fn listed_in_order() {
    for (text, listed) in [
        ("9[] | 7[] | open 9 | 7[enter 7] | enter 9", "enter 9 | open 9 | 7[] | 7[enter 7] | 9[]"),
        ("7/7/7/7[]", "7[]"),
        ("7[] | 70[] | 7/1/1/1[]", "7/1/1/1[] | 70[] | 7[]"),
        ("0", "0"),
    ] {
        assert_eq!(listing(&cell(text)), listed);
        assert_eq!(listing(&cell(listed)), listed);
    }
}

#[test]
fn very_deep_nesting() {
    let deep = 100_000;
    let text = nested(deep, "");
    assert_eq!(refusal(&text), (17, text.len()));
    assert_eq!(refusal(&"7[".repeat(deep)), (16, 2 * deep));
    assert_eq!(refusal(&format!("{}0", "7[".repeat(deep))), (16, 2 * deep));
    assert_eq!(refusal(&format!("{text}]")), (16, text.len()));
    assert_eq!(refusal(&text[..text.len() - 1]), (16, text.len() - 1));
}

#[test]
fn a_typed_walk() {
    let order = [0, 255, 1, 255, 0, 255, 64, 0, 9];
    let text = "7[enter 9] | 9[exit 7]";
    let expected = walk(&file_of(text), &order);
    for end in ["", "\n", "\r\n"] {
        assert_eq!(typed_walk(format!("{text}{end}").as_bytes(), &order), expected);
    }
    for (text, expected) in [
        ("7[0]", "refused 16 2\n7[0]\n  ^\n"),
        ("7[0]\n", "refused 16 2\n7[0]\n  ^\n"),
        ("", "refused 16 0\n\n^\n"),
        ("\n", "refused 16 0\n\n^\n"),
        ("\r\n", "refused 16 0\n\n^\n"),
        ("\n\n", "refused 16 0\n?\n^\n"),
        ("7[]\r", "refused 16 3\n7[]?\n   ^\n"),
        ("7[]\n\r\n", "refused 16 3\n7[]?\n   ^\n"),
        ("7[", "refused 16 2\n7[\n  ^\n"),
        ("7[\u{e9}]", "refused 16 2\n7[??]\n  ^\n"),
        ("\u{7f}~ ", "refused 16 0\n?~ \n^\n"),
    ] {
        assert_eq!(typed_walk(text.as_bytes(), &[]), expected, "{text:?}");
    }
}

#[test]
fn the_window_of_a_long_text() {
    // 40 bytes before the offset, and 72 in all
    let before = nested(30, "");
    let shown = |text: &str, from: usize, to: usize| format!("{}\n{}^\n", &text[from..to], " ".repeat(40));
    let text = format!("{before}!{}", "x".repeat(100));
    assert_eq!(typed_walk(text.as_bytes(), &[]), format!("refused 16 90\n{}", shown(&text, 50, 122)));
    let text = format!("{before}!{}", "x".repeat(10));
    assert_eq!(typed_walk(text.as_bytes(), &[]), format!("refused 16 90\n{}", shown(&text, 50, 101)));
    let text = nested(64, "");
    assert_eq!(typed_walk(text.as_bytes(), &[]), format!("refused 17 192\n{}", shown(&text, 152, 192)));
    let text = format!("{}!{}", nested(13, ""), "x".repeat(100));
    assert_eq!(typed_walk(text.as_bytes(), &[]), format!("refused 16 39\n{}\n{}^\n", &text[..72], " ".repeat(39)));
    // a text of 72 bytes is shown whole
    let text = format!("{}!{}", nested(20, ""), "x".repeat(11));
    assert_eq!(typed_walk(text.as_bytes(), &[]), format!("refused 16 60\n{text}\n{}^\n", " ".repeat(60)));
    let text = format!("{text}x");
    assert_eq!(typed_walk(text.as_bytes(), &[]), format!("refused 16 60\n{}", shown(&text, 20, 73)));
}
