//! The calls of which an example is made, and how an example is printed.

use crate::answer::ask_text;
use std::fmt;

/// A call of the library, or a byte that somebody else writes into the lent cell.
#[derive(Clone, PartialEq, Debug)]
pub enum Call {
    Load(Vec<u8>),
    /// A text of the listing's language, or one that is not.
    Read(Vec<u8>),
    Step {
        agent: u8,
        wish: u8,
    },
    Ask {
        agent: u8,
        wish: u8,
    },
    /// A commit that hands this number back.
    Commit {
        agent: u8,
        wish: u8,
        asked: u64,
    },
    /// Commits of every number that differs in one byte from that of an ask.
    Invent {
        agent: u8,
        wish: u8,
    },
    Touch {
        place: u8,
        number: u32,
    },
    /// The nearest place of this name around a place.
    Nearest {
        place: u8,
        name: u16,
    },
    /// The innermost place that holds or is both of two.
    Common {
        place: u8,
        other: u8,
    },
    /// Both questions of every place.
    Everywhere,
    /// The check of the trail since the load, with the cell's listing.
    Upheld,
    /// The check of a file, a trail and a listing.
    Audit {
        file: Vec<u8>,
        trail: Vec<u8>,
        listing: Vec<u8>,
    },
    List {
        room: usize,
    },
    /// The listing, and that of the same cell under other numbers, which the seed gives.
    Renumber {
        seed: u64,
    },
    Write {
        at: usize,
        byte: u8,
    },
}

impl fmt::Display for Call {
    fn fmt(&self, out: &mut fmt::Formatter<'_>) -> fmt::Result {
        match self {
            Call::Load(file) => {
                write!(out, "load")?;
                write_file(out, file)
            }
            Call::Read(text) => write!(out, "read \"{}\"", text.escape_ascii()),
            Call::Step { agent, wish } => write!(out, "step of agent {agent}, wish {wish}"),
            Call::Ask { agent, wish } => write!(out, "ask of agent {agent}, wish {wish}"),
            Call::Commit { agent, wish, asked } => {
                write!(out, "commit of agent {agent}, wish {wish}, that hands {asked:#x} back ({})", ask_text(*asked))
            }
            Call::Invent { agent, wish } => {
                write!(out, "commits of agent {agent}, wish {wish}, of numbers that differ in a byte from an ask's")
            }
            Call::Touch { place, number } => write!(out, "touch of place {place}, {number}"),
            Call::Nearest { place, name } => write!(out, "nearest of place {place}, name {name}"),
            Call::Common { place, other } => write!(out, "common of places {place} and {other}"),
            Call::Everywhere => write!(out, "nearest and common of every place"),
            Call::Upheld => write!(out, "audit of the trail since the load, with the cell's listing"),
            Call::Audit { file, trail, listing } => {
                write!(out, "audit of")?;
                write_file(out, file)?;
                write!(out, ", trail {trail:?}, listing \"{}\"", listing.escape_ascii())
            }
            Call::List { room } => write!(out, "list with room for {room} bytes"),
            Call::Renumber { seed } => write!(out, "list, and list under other numbers, seed {seed}"),
            Call::Write { at, byte } => write!(out, "the host writes {byte:02X} at byte {at} of the cell ({})", field(*at)),
        }
    }
}

/// Writes the bytes of a file and what it gives.
fn write_file(out: &mut fmt::Formatter<'_>, file: &[u8]) -> fmt::Result {
    file.iter().try_for_each(|byte| write!(out, " {byte:02X}"))?;
    match model::load(file) {
        Ok(cell) => write!(out, "   (which is {})", model::listing(&cell)),
        Err(_) => Ok(()),
    }
}

/// The field of the struct that a byte belongs to.
fn field(at: usize) -> String {
    const AGENT: [&str; 6] = ["home", "stage", "remembered", "chosen", "next", "count"];
    const PLACE: [&str; 5] = ["name", "key for entering", "key for exiting", "key for opening", "parent or way"];
    match at {
        0..=639 => format!("place {} {}", at / 10, PLACE[at % 10 / 2]),
        640..=703 => format!("lock {}", at - 640),
        704..=5183 => {
            let (agent, within) = ((at - 704) / 70, (at - 704) % 70);
            match within {
                0..=5 => format!("agent {agent} {}", AGENT[within]),
                _ => format!("agent {agent} action {} {}", (within - 6) / 4, ["kind", "padding", "name", "name"][(within - 6) % 4]),
            }
        }
        5184..=5191 => "used".to_string(),
        5192..=5199 => "given".to_string(),
        5200..=5711 => format!("touches {}", (at - 5200) / 8),
        _ => format!("row at {}", at - 5712),
    }
}
