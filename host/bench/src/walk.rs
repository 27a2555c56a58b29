//! A whole walk to a text buffer: what the program `walk` writes for a cell file and an order, through the calls of a keeper.

use crate::cell::Cell;
use crate::keeper::Keeper;

/// A buffer of this size holds every walk: 16,384 lines of at most 16 bytes, and two lines with a listing.
pub const ROOM: usize = 16_384 * 16 + 2 * 16_300;

/// The pairs of an order that count.
const PAIRS: usize = 16_384;

const WORDS: [&[u8]; 11] = [b"looked", b"took", b"held", b"back", b"slept", b"left", b"came", b"opened", b"put", b"asleep", b"done"];

/// Writes the walk and answers its length.
pub fn walk<K: Keeper>(file: &[u8], order: &[u8], cell: &mut Cell, text: &mut [u8]) -> usize {
    let mut page = Page { text, at: 0 };
    K::bare(cell);
    let loaded = K::load(cell, file);
    if loaded != 0 {
        page.bytes(b"refused ").number(loaded & 255).bytes(b" ").number(loaded >> 8).bytes(b"\n");
        return page.at;
    }
    page.bytes(b"start ").listing::<K>(cell).bytes(b"\n");
    for pair in order.chunks_exact(2).take(PAIRS) {
        let answer = K::step(cell, pair[0], pair[1]);
        page.number(pair[0] as u64);
        match answer & 255 {
            0 => page.bytes(b" ").bytes(WORDS[(answer >> 8 & 255) as usize]).bytes(b" ").number(answer >> 16),
            number => page.bytes(b" refused ").number(number),
        };
        page.bytes(b"\n");
    }
    page.bytes(b"end ").listing::<K>(cell).bytes(b"\n");
    page.at
}

/// A text that is filled from its start on.
struct Page<'a> {
    text: &'a mut [u8],
    at: usize,
}

impl Page<'_> {
    fn bytes(&mut self, bytes: &[u8]) -> &mut Self {
        self.text[self.at..self.at + bytes.len()].copy_from_slice(bytes);
        self.at += bytes.len();
        self
    }

    fn number(&mut self, number: u64) -> &mut Self {
        if number > 9 {
            self.number(number / 10);
        }
        self.bytes(&[b'0' + (number % 10) as u8])
    }

    fn listing<K: Keeper>(&mut self, cell: &Cell) -> &mut Self {
        self.at += (K::list(cell, &mut self.text[self.at..]) >> 8) as usize;
        self
    }
}
