//! Checking the dispatcher's claim: document 02, W13. "The dispatcher's maker will deliver, with each shift, a trail".

use crate::ask::ask;
use crate::cell::Cell;
use crate::file::{load, Refused};
use crate::nested::Nested;
use crate::step::step;
use crate::word::{Stepped, Word};

/// What the checker says.
#[derive(Clone, Copy, PartialEq, Eq, Debug)]
pub enum Verdict {
    /// "It says yes".
    Yes,
    /// No, after so many moves: those that were made; of an odd trail, the whole moves that stand before the odd byte.
    No { made: usize, why: Why },
    /// "A bad file keeps its load refusal".
    Refused(Refused),
}

/// Why the checker says no.
#[derive(Clone, Copy, PartialEq, Eq, Debug)]
pub enum Why {
    /// The next move isn't "one the calculus .. permits for that agent's next action in the term reached so far"; "a byte other than 255 for exit
    /// or release" is none.
    NotPermitted,
    /// The agent of the next move has no action left, or there is no such agent.
    NothingLeft,
    /// "an odd last byte in the trail is a no", and no move is looked at.
    OddByte,
    /// All moves were made, and "the term at the end" hasn't "the given listing".
    OtherLayout,
}

impl Why {
    /// The number of the reason.
    pub fn number(self) -> u8 {
        match self {
            Why::NotPermitted => 1,
            Why::NothingLeft => 2,
            Why::OddByte => 3,
            Why::OtherLayout => 4,
        }
    }
}

/// "Supply a checker of cell file, trail and final listing. It says yes exactly if each move is one the calculus, with W11's rule for release,
/// permits for that agent's next action in the term reached so far, and the term at the end has the given listing." The listing is compared
/// byte for byte.
pub fn check(file: &[u8], trail: &[u8], last: &[u8]) -> Verdict {
    let mut term = match load(file) {
        Ok(cell) => Nested::of_load(&cell),
        Err(refused) => return Verdict::Refused(refused),
    };
    if trail.len() % 2 == 1 {
        return Verdict::No { made: trail.len() / 2, why: Why::OddByte };
    }
    for (made, pair) in trail.chunks(2).enumerate() {
        if term.next_action(pair[0]).is_none() {
            return Verdict::No { made, why: Why::NothingLeft };
        }
        if term.make(pair[0], pair[1]).is_none() {
            return Verdict::No { made, why: Why::NotPermitted };
        }
    }
    if term.listing().as_bytes() != last {
        return Verdict::No { made: trail.len() / 2, why: Why::OtherLayout };
    }
    Verdict::Yes
}

/// One step call of a run whose trail is kept: "written at each left, opened and put", "two bytes for each move, the agent and the place entered
/// or opened (255 for exit and release)". The place is the one that an ask before the step tells.
pub fn trailed_step(cell: &mut Cell, trail: &mut Vec<u8>, agent: u8, wish: u8) -> Result<Stepped, u8> {
    let chosen = ask(cell, agent, wish)?.chosen;
    let stepped = step(cell, agent, wish)?;
    if let Word::Left | Word::Opened | Word::Put = stepped.word {
        trail.extend([agent, chosen]);
    }
    Ok(stepped)
}

/// "The trail of every run of our keeper from that file": the one of these step calls, each an agent and a wish, refused ones among them.
pub fn trail_of(cell: &mut Cell, order: &[(u8, u8)]) -> Vec<u8> {
    let mut trail = Vec::new();
    for &(agent, wish) in order {
        let _ = trailed_step(cell, &mut trail, agent, wish);
    }
    trail
}
