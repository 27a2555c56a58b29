//! The listing of a sound table. The parts of a place are written where they go, in the order of their numbers; then those that stand in another
//! order than that of their texts are copied aside and back.

use crate::cell::{members, Agent, Cell, Name, LISTING_LONGEST};

/// A text in which every listing has room.
type Text = [u8; LISTING_LONGEST];

/// Writes the listing and answers its length; nothing is written where it does not fit.
pub fn list(cell: &Cell, text: &mut [u8]) -> Option<usize> {
    match text.first_chunk_mut() {
        Some(text) => Some(write(cell, text)),
        None => list_short(cell, text),
    }
}

/// The same for a text that is shorter than some listings: by way of a page.
#[inline(never)]
fn list_short(cell: &Cell, text: &mut [u8]) -> Option<usize> {
    let mut page = [0; LISTING_LONGEST];
    let length = write(cell, &mut page);
    text.get_mut(..length)?.copy_from_slice(&page[..length]);
    Some(length)
}

/// Writes the listing to a text in which every listing has room, and answers its length.
pub fn write(cell: &Cell, text: &mut Text) -> usize {
    let contents = Contents::of(cell);
    let mut groups = Groups { parts: [Part { start: 0, end: 0 }; PARTS], count: 0, aside: Vec::new() };
    match contents.write(cell, 0, text, 0, &mut groups) {
        0 => put(text, 0, b"0"),
        length => length,
    }
}

/// For each place, the agents with unused actions that live in it and the places that stand in it.
struct Contents {
    agents: [u64; 64],
    places: [u64; 64],
}

impl Contents {
    fn of(cell: &Cell) -> Contents {
        let mut contents = Contents { agents: [0; 64], places: [0; 64] };
        for x in members(cell.given) {
            let agent = &cell.agents[x as usize];
            if agent.next < agent.count {
                contents.agents[agent.home as usize] |= 1 << x;
            }
        }
        for q in members(cell.used & !1) {
            contents.places[cell.places[q as usize].parent as usize] |= 1 << q;
        }
        contents
    }

    /// Writes what is in place p: agents, then places, joined by bars, each of the two groups in the order of its texts. It starts there, and the
    /// answer is where it ends.
    fn write(&self, cell: &Cell, p: u8, text: &mut Text, start: usize, groups: &mut Groups) -> usize {
        let (mut at, group) = (start, groups.count);
        for x in members(self.agents[p as usize]) {
            let part = begin(text, start, at);
            at = row(text, part, &cell.agents[x as usize]);
            groups.push(part, at);
        }
        groups.sort(group, text);
        for q in members(self.places[p as usize]) {
            let part = begin(text, start, at);
            at = name(text, part, &cell.places[q as usize].name);
            at = put(text, at, b"[");
            if self.agents[q as usize] | self.places[q as usize] != 0 {
                at = self.write(cell, q, text, at, groups);
            }
            at = put(text, at, b"]");
            groups.push(part, at);
        }
        groups.sort(group, text);
        at
    }
}

/// The two digits of each number below 100.
const PAIRS: [[u8; 2]; 100] = {
    let mut pairs = [[0; 2]; 100];
    let mut number = 0;
    while number < 100 {
        pairs[number] = [b'0' + number as u8 / 10, b'0' + number as u8 % 10];
        number += 1;
    }
    pairs
};

/// Writes these bytes there, and answers where they end.
fn put<const N: usize>(text: &mut Text, at: usize, bytes: &[u8; N]) -> usize {
    text[at..at + N].copy_from_slice(bytes);
    at + N
}

/// A part begins, after a bar unless it is the first of a place whose contents start there.
fn begin(text: &mut Text, start: usize, at: usize) -> usize {
    if at > start {
        put(text, at, b" | ")
    } else {
        at
    }
}

#[inline(always)]
fn number(text: &mut Text, at: usize, number: u16) -> usize {
    match number {
        0..=9 => put(text, at, &[b'0' + number as u8]),
        10..=99 => put(text, at, &PAIRS[number as usize]),
        _ => long_number(text, at, number as u32),
    }
}

/// A number from 100 on.
fn long_number(text: &mut Text, at: usize, number: u32) -> usize {
    let high = number / 100;
    let [a, b] = PAIRS[high as usize % 100];
    let [c, d] = PAIRS[number as usize % 100];
    match high {
        0..=9 => put(text, at, &[b, c, d]),
        10..=99 => put(text, at, &[a, b, c, d]),
        _ => put(text, at, &[b'0' + (high / 100) as u8, a, b, c, d]),
    }
}

/// A name and, where they do not all equal it, its keys.
fn name(text: &mut Text, at: usize, name: &Name) -> usize {
    let mut at = number(text, at, name.name);
    if *name != Name::plain(name.name) {
        for key in [name.entering, name.exiting, name.opening] {
            at = put(text, at, b"/");
            at = number(text, at, key);
        }
    }
    at
}

/// An agent's unused actions, joined by full stops; it has some.
fn row(text: &mut Text, at: usize, agent: &Agent) -> usize {
    let [first, others @ ..] = &agent.actions[agent.next as usize..agent.count as usize] else { return at };
    let at = match first.kind {
        1 => put(text, at, b"enter "),
        2 => put(text, at, b"exit "),
        3 => put(text, at, b"open "),
        _ => put(text, at, b"release "),
    };
    others.iter().fold(number(text, at, first.name), |at, action| {
        let at = match action.kind {
            1 => put(text, at, b".enter "),
            2 => put(text, at, b".exit "),
            3 => put(text, at, b".open "),
            _ => put(text, at, b".release "),
        };
        number(text, at, action.name)
    })
}

/// How many parts there are at most: 63 places and 64 agents.
const PARTS: usize = 127;

/// Where a part's text starts, and where it ends.
#[derive(Clone, Copy)]
struct Part {
    start: u16,
    end: u16,
}

impl Part {
    fn of<'a>(&self, text: &'a Text) -> &'a [u8] {
        &text[self.start as usize..self.end as usize]
    }
}

/// The parts of the groups that are being written, those of the innermost last, and room for the text of parts that are put in order.
struct Groups {
    parts: [Part; PARTS],
    count: usize,
    aside: Vec<u8>,
}

impl Groups {
    /// A part is written.
    fn push(&mut self, start: usize, end: usize) {
        self.parts[self.count] = Part { start: start as u16, end: end as u16 };
        self.count += 1;
    }

    /// Puts the parts from this one on, which stand at the end of the text, in the order of their texts, and is done with them.
    fn sort(&mut self, group: usize, text: &mut Text) {
        let parts = &mut self.parts[group..self.count];
        self.count = group;
        if parts.is_sorted_by(|one, other| one.of(text) <= other.of(text)) {
            return;
        }
        if let [one, other] = *parts {
            return self.swap(text, one, other);
        }
        let (from, to) = (parts[0].start as usize, parts[parts.len() - 1].end as usize);
        parts.sort_unstable_by(|one, other| one.of(text).cmp(other.of(text)));
        self.aside.clear();
        self.aside.extend_from_slice(&text[from..to]);
        let mut at = from;
        for part in parts {
            at = begin(text, from, at);
            let moved = &self.aside[part.start as usize - from..part.end as usize - from];
            text[at..at + moved.len()].copy_from_slice(moved);
            at += moved.len();
        }
    }
    /// Two parts that stand one after the other change places; the shorter one is copied aside.
    fn swap(&mut self, text: &mut Text, one: Part, other: Part) {
        let (start, middle) = (one.start as usize, one.start as usize + other.of(text).len());
        self.aside.clear();
        if one.of(text).len() < other.of(text).len() {
            self.aside.extend_from_slice(one.of(text));
            text.copy_within(other.start as usize..other.end as usize, start);
            text[middle + 3..other.end as usize].copy_from_slice(&self.aside);
        } else {
            self.aside.extend_from_slice(other.of(text));
            text.copy_within(start..one.end as usize, middle + 3);
            text[start..middle].copy_from_slice(&self.aside);
        }
        put(text, middle, b" | ");
    }
}
