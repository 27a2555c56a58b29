//! Reading a text: document 02, W8, "Supply a reader of the listing's language, parts in any order".
//!
//! Three questions, one after another. Does the text belong to the language ([`tree`], which answers what it says and knows nothing of offsets)? If
//! not, how long is its longest beginning that some text of the language has too (each beginning is tried, with all endings that could make a
//! text of it)? If it does, is there too many of anything?

use crate::cell::{Action, Agent, Cell, Keys, Kind, Place, Stands};
use crate::file::Refused;
use crate::{OUTSIDE_LANGUAGE, TOO_MANY};

/// "A text is read exactly if it belongs to the language and fits 63 places, 64 agents and sixteen actions each" .. "Checks: 16 for text outside the
/// language at the first byte that no text of it could continue (the text's length if it stops early), then 17, at the text's length, for too
/// many of anything."
pub fn read(text: &[u8]) -> Result<Cell, Refused> {
    match tree(text) {
        None => Err(Refused { number: OUTSIDE_LANGUAGE, offset: continued(text) }),
        Some(tree) if !tree.fits() => Err(Refused { number: TOO_MANY, offset: text.len() }),
        Some(tree) => Ok(tree.cell()),
    }
}

/// What a text says: its places and agents "as they appear", without limit. A place has its parent and an agent its home by a number in `places`,
/// from 1 on; 0 is the floor.
#[derive(Clone, PartialEq, Eq, Debug, Default)]
pub struct Tree {
    pub places: Vec<Named>,
    pub agents: Vec<(usize, Vec<Action>)>,
}

/// A place of a text.
#[derive(Clone, Copy, PartialEq, Eq, Debug)]
pub struct Named {
    pub parent: usize,
    pub name: u16,
    pub keys: [u16; 3],
}

impl Tree {
    /// "fits 63 places, 64 agents and sixteen actions each".
    fn fits(&self) -> bool {
        self.places.len() <= 63 && self.agents.len() <= 64 && self.agents.iter().all(|(_, actions)| actions.len() <= 16)
    }

    /// "Places and agents are numbered as they appear, places from 1 and agents from 0, and touches are 0." "A cell so read counts as loaded":
    /// each place is linked to the one around it and came after those before it, and each agent, which has an action, is at stage 0.
    fn cell(self) -> Cell {
        let mut cell = Cell::bare();
        for (number, place) in (1..).zip(self.places) {
            let parent = place.parent as u8;
            let stands = Stands::Linked(parent);
            cell.places.insert(number, Place { name: place.name, keys: Keys::of(place.keys), stands, touches: 0 });
            cell.children.comes(number, parent);
        }
        for (number, (home, unused)) in (0..).zip(self.agents) {
            cell.agents.insert(number, Agent { home: home as u8, stage: 0, remembered: None, chosen: None, unused });
        }
        cell
    }
}

/// What the text says, if it belongs to the language: "`0` for a bare floor only", else parts, "one space on each side of a bar", "nothing after the
/// end". The places that are open are kept in a row, so that a text may be nested as deeply as it likes.
pub fn tree(text: &[u8]) -> Option<Tree> {
    let mut tree = Tree::default();
    if text == b"0" {
        return Some(tree);
    }
    let mut rest = text;
    let mut open = vec![0];
    loop {
        let around = *open.last()?;
        if let Some((number, after)) = name(rest) {
            tree.places.push(Named { parent: around, ..number });
            rest = after;
            open.push(tree.places.len());
            // a place may hold nothing; else it holds parts
            if !rest.starts_with(b"]") {
                continue;
            }
        } else {
            let (actions, after) = actions(rest)?;
            tree.agents.push((around, actions));
            rest = after;
        }
        while let Some(after) = rest.strip_prefix(b"]") {
            open.pop()?;
            rest = after;
        }
        match rest.strip_prefix(b" | ") {
            Some(after) if !open.is_empty() => rest = after,
            None if rest.is_empty() && open == [0] => return Some(tree),
            _ => return None,
        }
    }
}

/// The start of a place and what follows it: "its decimal name", then, "written or left off" where they equal the name, its keys, "a slash before
/// each, then the bracket".
fn name(text: &[u8]) -> Option<(Named, &[u8])> {
    let (name, rest) = number(text)?;
    let (keys, rest) = match rest.strip_prefix(b"/") {
        None => ([name; 3], rest),
        Some(rest) => {
            let (enter, rest) = number(rest)?;
            let (exit, rest) = number(rest.strip_prefix(b"/")?)?;
            let (open, rest) = number(rest.strip_prefix(b"/")?)?;
            ([enter, exit, open], rest)
        }
    };
    let rest = rest.strip_prefix(b"[")?;
    (name > 0).then_some((Named { parent: 0, name, keys }, rest))
}

/// An agent and what follows it: its actions, "such as `enter 9.exit 9`"; document 02, W11: "`release 9`, the reader takes it".
fn actions(text: &[u8]) -> Option<(Vec<Action>, &[u8])> {
    const WORDS: [(&[u8], Kind); 4] =
        [(b"enter ", Kind::Enter), (b"exit ", Kind::Exit), (b"open ", Kind::Open), (b"release ", Kind::Release)];
    let mut actions = Vec::new();
    let mut rest = text;
    loop {
        let (after, kind) = WORDS.iter().find_map(|&(word, kind)| Some((rest.strip_prefix(word)?, kind)))?;
        let (name, after) = number(after).filter(|&(name, _)| name > 0)?;
        actions.push(Action { kind, name });
        match after.strip_prefix(b".") {
            Some(after) => rest = after,
            None => return Some((actions, after)),
        }
    }
}

/// A number and what follows it: "decimal numbers without leading zeros, names and action numbers 1 to 65,535, keys 0 to 65,535". All digits that stand
/// there are one number, of however many digits.
fn number(text: &[u8]) -> Option<(u16, &[u8])> {
    let digits = text.iter().take_while(|byte| byte.is_ascii_digit()).count();
    let (decimal, rest) = text.split_at(digits);
    let value: u16 = std::str::from_utf8(decimal).ok()?.parse().ok()?;
    (value.to_string().as_bytes() == decimal).then_some((value, rest))
}

/// How long the longest beginning of this text is that some text of the language continues, so that the byte after it is "the first byte that no text
/// of it could continue". What begins a beginning is one too, so the limit is found by halving.
fn continued(text: &[u8]) -> usize {
    let (mut good, mut bad) = (0, text.len() + 1);
    while bad - good > 1 {
        let middle = good + (bad - good) / 2;
        if is_beginning(&text[..middle]) {
            good = middle;
        } else {
            bad = middle;
        }
    }
    good
}

/// Whether some text of the language begins so. If any does, then one that ends soon: what was begun last, a word, a number, keys or a bar, is
/// brought to its end, and the places that are still open are closed. All such endings are tried.
pub fn is_beginning(text: &[u8]) -> bool {
    const ENDINGS: [&str; 5] = ["enter 1", "exit 1", "release 1", " | open 1", "/1/1/1[]"];
    let count = |bracket: u8| text.iter().filter(|&&byte| byte == bracket).count();
    let Some(open) = count(b'[').checked_sub(count(b']')) else { return false };
    let closing = "]".repeat(open);
    let tried = |ending: &str| tree(&[text, ending.as_bytes(), closing.as_bytes()].concat()).is_some();
    tried("") || ENDINGS.iter().any(|ending| (0..ending.len()).any(|from| tried(&ending[from..])))
}
