//! Checking the dispatcher's claim (document 02, W13): the trail that is kept of a run, as a host keeps it and as the model does; and what both say of a
//! file, a trail and a listing.

use crate::answer;
use crate::pair::{same, Pair, FILL};
use keeper::lent;
use model::{check, listing, Verdict, LISTING_TOO_LONG};

/// The file of the last load, and the trail since then.
#[derive(Clone)]
pub struct Trail {
    pub file: Vec<u8>,
    pub moves: Vec<u8>,
}

impl Trail {
    /// From this file on.
    pub fn from(file: &[u8]) -> Trail {
        Trail { file: file.to_vec(), moves: Vec::new() }
    }
}

/// What is written of a number that an ask gave or that somebody invented: the agent and the place where it is no refusal and its word is left, opened
/// or put.
fn told(agent: u8, asked: u64) -> Vec<u8> {
    let [refusal, word, _, place] = [0, 8, 16, 24].map(|at| (asked >> at) as u8);
    if refusal == 0 && matches!(word, 5 | 7 | 8) {
        vec![agent, place]
    } else {
        vec![]
    }
}

impl Pair {
    /// A step call that was not refused, before which an ask answered this number; the model wrote these bytes of it. The library writes the same, which a
    /// host keeps.
    pub fn trailed(&mut self, agent: u8, asked: u64, moves: &[u8]) -> Result<(), String> {
        let written = self.written(agent, asked)?;
        if written != moves {
            return Err(format!("of {} the library writes {written:?} to the trail, the model {moves:?}", answer::ask_text(asked)));
        }
        self.counts.moves_kept += moves.len() as u64 / 2;
        if let Some(trail) = &mut self.trail {
            trail.moves.extend(written);
        }
        Ok(())
    }

    /// What the library writes to a trail of a number; it says how much that is, writes nothing past it, and nothing at all into less room.
    pub fn written(&self, agent: u8, asked: u64) -> Result<Vec<u8>, String> {
        let expected = told(agent, asked);
        for size in 0..4 {
            let fits = expected.len() <= size;
            let mut room = [FILL; 4];
            let answered = lent::trail(agent, asked, &mut room[..size]);
            let length = if fits { Ok(expected.len()) } else { Err(LISTING_TOO_LONG) };
            same("trail", answered, answer::of_value(length), answer::value_text)?;
            let written = length.unwrap_or(0);
            if room[..written] != expected[..written] || room[written..].iter().any(|&byte| byte != FILL) {
                return Err(format!("trail of {asked:#x} with room for {size} bytes writes {room:02X?}"));
            }
        }
        Ok(expected)
    }

    /// The trail since the load, with the cell's listing: both say yes.
    pub fn upheld(&mut self) -> Result<(), String> {
        let (Some(trail), Some(cell)) = (self.trail.clone(), &self.cell) else { return Ok(()) };
        let last = listing(cell);
        self.counts.trails_kept += 1;
        match self.audited(&trail.file, &trail.moves, last.as_bytes())? {
            Verdict::Yes => Ok(()),
            _ => Err(format!("the trail {:?} of the run is not upheld with the cell's listing", trail.moves)),
        }
    }

    /// A check of a file, a trail and a listing by both, which say the same.
    pub fn audited(&mut self, file: &[u8], trail: &[u8], last: &[u8]) -> Result<Verdict, String> {
        let verdict = check(file, trail, last);
        match verdict {
            Verdict::Yes => self.counts.audits_yes += 1,
            Verdict::No { why, .. } => *self.counts.audits_no.entry(answer::reason_text(why.number())).or_default() += 1,
            Verdict::Refused(refused) => *self.counts.audits_refused.entry(refused.number).or_default() += 1,
        }
        same("audit", lent::audit(file, trail, last), answer::of_audit(verdict), answer::audit_text)?;
        Ok(verdict)
    }
}
