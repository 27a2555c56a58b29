//! Program `walk`: what it writes for a cell file, or a typed layout, and an order.

use crate::cell::Cell;
use crate::file::{load, Refused};
use crate::listing::listing;
use crate::reading::read;
use crate::step::step;

/// "It writes: first and last line a word and the listing; between, agent, answer, number woken. A refused file gives one line only,
/// `refused`, number, offset; a refused step gives agent, `refused`, number. An odd last byte and pairs past the limit are passed over."
/// The limit: "pairs agent, wish; at most 16,384".
pub fn walk(file: &[u8], order: &[u8]) -> String {
    match load(file) {
        Ok(cell) => steps(cell, order),
        Err(refused) => refusal(refused),
    }
}

/// The walk of a typed layout: the file holds one line, and the line end that an editor writes after it is not part of the text. Of a refused text
/// the line is followed by the text itself, or, where it has more than 72 bytes, by 72 of them at most, from 40 before the offset on; and by a
/// line with a caret under the byte of the offset. A byte that cannot be printed is shown as a question mark.
pub fn typed_walk(file: &[u8], order: &[u8]) -> String {
    let text = match file.strip_suffix(b"\n") {
        Some(line) => line.strip_suffix(b"\r").unwrap_or(line),
        None => file,
    };
    match read(text) {
        Ok(cell) => steps(cell, order),
        Err(refused) => {
            let from = if text.len() <= 72 { 0 } else { refused.offset.saturating_sub(40) };
            let shown = text[from..].iter().take(72).map(|&byte| if (32..=126).contains(&byte) { byte as char } else { '?' });
            format!("{}{}\n{}^\n", refusal(refused), shown.collect::<String>(), " ".repeat(refused.offset - from))
        }
    }
}

/// "A refused file gives one line only, `refused`, number, offset".
fn refusal(refused: Refused) -> String {
    format!("refused {} {}\n", refused.number, refused.offset)
}

/// The lines of an accepted cell and an order.
fn steps(mut cell: Cell, order: &[u8]) -> String {
    let mut text = format!("start {}\n", listing(&cell));
    for pair in order.chunks_exact(2).take(16_384) {
        let (agent, wish) = (pair[0], pair[1]);
        text += &match step(&mut cell, agent, wish) {
            Ok(stepped) => format!("{} {} {}\n", agent, stepped.word.text(), stepped.woken),
            Err(number) => format!("{} refused {}\n", agent, number),
        };
    }
    text + &format!("end {}\n", listing(&cell))
}
