//! The texts that are measured, and damaged ones on which the keepers are compared.

use crate::cell::LISTING_LONGEST;
use crate::cells::Random;

/// As much as fits a cell, with the longest numbers: 64 agents with sixteen actions and 63 places, in an order that no listing has. Some
/// places stand in each other, and agents in places.
pub fn full() -> String {
    let row = vec!["enter 65535"; 16].join(".");
    let place = |inner: &str| format!("65535/10000/65534/65535[{inner}]");
    let parts: Vec<String> = (0..21).map(|_| place(&format!("{row} | {} | {row}", place(&place(&row))))).collect();
    let text = format!("{} | {row}", parts.join(" | "));
    assert_eq!((text.matches('[').count(), text.matches("enter").count()), (63, 64 * 16));
    assert!(text.len() <= LISTING_LONGEST);
    text
}

/// The typical cell (two bonders with their holders and capillaries, two magazines with trays and a box) as a person would type it.
pub fn typical() -> String {
    "20[30[exit 20.enter 40.exit 40.enter 21 | 60[exit 30.exit 40.enter 50]]] | 21[31[exit 21.enter 41.exit 41.enter 20 | 61[exit 31.enter 51]]] | \
     40[50[exit 40.enter 20.exit 20.enter 40] | 50[]] | 41[51[exit 41.enter 21.exit 21.enter 41] | 70/0/0/70[] | open 70] | open 61.open 99"
        .to_string()
}

/// A place, an agent and an action more than fit, after the full text.
pub fn over_full() -> String {
    format!("{} | 7[{}]", full(), vec!["open 7"; 17].join("."))
}

/// The full text with a fault at its end.
pub fn refused() -> String {
    format!("{} ", full())
}

/// A text with a byte changed, dropped, doubled or put in, or cut off.
pub fn damaged(numbers: &mut Random, text: &[u8]) -> Vec<u8> {
    let mut text = text.to_vec();
    let (at, byte) = (numbers.below(text.len()), numbers.one_of(b"0123456789[]/| .enterxiopls\n"));
    match numbers.below(5) {
        0 => text[at] = byte,
        1 => drop(text.remove(at)),
        2 => text.insert(at, text[at]),
        3 => text.insert(at, byte),
        _ => text.truncate(at),
    }
    text
}

/// A text with more parts, so that there may be too many, or with more actions for its last agent.
pub fn more(numbers: &mut Random, text: &[u8]) -> Vec<u8> {
    let (part, count) = (numbers.one_of(&["7[]", "7[7/0/7/0[enter 7.exit 7]]", "open 7", "release 7"]), numbers.below(70));
    let joined = [if text == b"0" { vec![] } else { [text, b" | "].concat() }, b"8[".to_vec()].concat();
    let row = vec!["exit 10"; 1 + numbers.below(20)].join(".");
    let parts = (0..count).map(|_| part.to_string()).chain([row]).collect::<Vec<_>>().join(" | ");
    [&joined[..], parts.as_bytes(), b"]"].concat()
}
