//! What may make an example simpler.

use crate::call::Call;
use crate::files::records;

/// Something that makes an example simpler.
#[derive(Clone, Copy)]
pub enum Edit {
    /// An agent's records and steps taken out.
    Agent(u8),
    /// So many calls taken out from one on.
    Calls(usize, usize),
    /// A record of a file taken out.
    Record(usize, usize),
    /// A place's record taken out, and what stood in it standing around it.
    Opened(usize, usize),
    /// An agent with another number, everywhere.
    AgentNumber(u8, u8),
    /// A place with another number, everywhere.
    PlaceNumber(u8, u8),
    /// A name, key or action's number replaced, everywhere.
    Name([u8; 2], [u8; 2]),
    /// A place's record without its keys.
    Keyless(usize, usize),
    /// A byte of a file replaced.
    Byte(usize, usize, u8),
    /// So many bytes of a text, a trail or a listing taken out from one on.
    Piece(usize, Which, usize, usize),
    /// A step, ask or commit without a wish, a step in place of an ask or a commit, fewer touches, a lower name or place in a question, a listing
    /// into less room, a lower byte written.
    Plainer(usize),
}

/// Bytes of a call that are not those of a file.
#[derive(Clone, Copy)]
pub enum Which {
    Text,
    Trail,
    Listing,
}

/// The edits of one sort that an example allows.
pub type Edits = fn(&[Call]) -> Vec<Edit>;

/// The files of an example, with the places of their calls in it.
fn loads(calls: &[Call]) -> impl DoubleEndedIterator<Item = (usize, &Vec<u8>)> {
    calls.iter().enumerate().filter_map(|(at, call)| match call {
        Call::Load(file) | Call::Audit { file, .. } => Some((at, file)),
        _ => None,
    })
}

/// Each agent out.
pub fn agents(_: &[Call]) -> Vec<Edit> {
    (0..64).map(Edit::Agent).collect()
}

/// Halves, quarters and so on of the calls out, from the end.
pub fn halves(calls: &[Call]) -> Vec<Edit> {
    let mut edits = Vec::new();
    let mut size = calls.len() / 2;
    while size > 0 {
        edits.extend((0..=calls.len() - size).rev().step_by(size).map(|from| Edit::Calls(from, size)));
        size /= 2;
    }
    edits
}

/// Each record out or without its keys, from the end.
pub fn rows(calls: &[Call]) -> Vec<Edit> {
    let edits = |at, row| [Edit::Record(at, row), Edit::Opened(at, row), Edit::Keyless(at, row)];
    let each = |(at, file): (usize, &Vec<u8>)| (0..records(file).len()).rev().flat_map(move |row| edits(at, row));
    loads(calls).flat_map(each).collect()
}

/// Halves, quarters and so on of each text, trail and listing out.
pub fn pieces(calls: &[Call]) -> Vec<Edit> {
    let mut edits = Vec::new();
    for (at, call) in calls.iter().enumerate() {
        let found = match call {
            Call::Read(text) => vec![(Which::Text, text.len())],
            Call::Audit { trail, listing, .. } => vec![(Which::Trail, trail.len()), (Which::Listing, listing.len())],
            _ => vec![],
        };
        for (which, length) in found {
            let mut size = length.div_ceil(2);
            while size > 0 {
                edits.extend((0..=length - size).rev().step_by(size).map(|from| Edit::Piece(at, which, from, size)));
                size /= 2;
            }
        }
    }
    edits
}

/// The bytes of a call that an edit takes a piece from.
pub fn bytes_of(call: &mut Call, which: Which) -> Option<&mut Vec<u8>> {
    match (call, which) {
        (Call::Read(text), Which::Text) => Some(text),
        (Call::Audit { trail, .. }, Which::Trail) => Some(trail),
        (Call::Audit { listing, .. }, Which::Listing) => Some(listing),
        _ => None,
    }
}

/// Each agent, place and name with a low number.
pub fn numbers(calls: &[Call]) -> Vec<Edit> {
    let mut edits = Vec::new();
    for row in loads(calls).flat_map(|(_, file)| records(file)) {
        match row[..] {
            [1 | 6, number, ..] => edits.extend((1..number.min(9)).map(|to| Edit::PlaceNumber(number, to))),
            [2, number, ..] => edits.extend((0..number.min(9)).map(|to| Edit::AgentNumber(number, to))),
            _ => {}
        }
        for name in names(&row).map(|at| [row[at], row[at + 1]]) {
            edits.extend((1..9).map(|to| Edit::Name(name, [to, 0])));
        }
    }
    edits
}

/// Each byte of the files lower, and of short files.
pub fn bytes(calls: &[Call]) -> Vec<Edit> {
    let short = loads(calls).filter(|(_, file)| file.len() < 200);
    short
        .flat_map(|(at, file)| (0..file.len()).flat_map(move |index| [0, 1, file[index] / 2].map(|to| Edit::Byte(at, index, to))))
        .collect()
}

/// Each call plainer.
pub fn plainer(calls: &[Call]) -> Vec<Edit> {
    (0..calls.len()).map(Edit::Plainer).collect()
}

/// Where the names, keys or numbers of two bytes stand in a record.
pub fn names(row: &[u8]) -> impl Iterator<Item = usize> {
    let whole = matches!((row[0], row.len()), (1 | 3, 5) | (6, 11));
    (3..row.len()).step_by(2).filter(move |_| whole)
}
