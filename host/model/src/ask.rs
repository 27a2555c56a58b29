//! Ask, then commit: document 02, W9. "The host must park a gripper before a place leaves."

use crate::cell::{Agent, Cell, Kind};
use crate::choice::{choose, qualifying};
use crate::step::step;
use crate::word::{Stepped, Word};
use crate::ANSWER_DIFFERS;

/// The chosen place that is told where there is none: "else 255".
pub const NONE_CHOSEN: u8 = 255;

/// What an ask "tells": "the word, the number woken and the chosen place".
#[derive(Clone, Copy, PartialEq, Eq, Debug)]
pub struct Asked {
    pub word: Word,
    pub woken: usize,
    pub chosen: u8,
}

/// "Ask takes an agent and a wish and tells the word, the number woken and the chosen place .., changing nothing": the step is made in a copy
/// of the cell, which is a sound one. It is refused as the step is.
pub fn ask(cell: &Cell, agent: u8, wish: u8) -> Result<Asked, u8> {
    let Stepped { word, woken } = step(&mut cell.clone(), agent, wish)?;
    let chosen = match word {
        Word::Back => None,
        _ => chosen(cell, &cell.agents[&agent], wish),
    };
    Ok(Asked { word, woken, chosen: chosen.unwrap_or(NONE_CHOSEN) })
}

/// "the chosen place (for enter and open at stages 2 and 3 while the action fires ..)": at stage 2 the one that this wish would choose, whoever
/// holds its lock; at stage 3 the one chosen then, if it still qualifies.
fn chosen(cell: &Cell, agent: &Agent, wish: u8) -> Option<u8> {
    let action = *agent.unused.first()?;
    let p = agent.remembered?;
    match (action.kind, agent.stage) {
        (Kind::Enter | Kind::Open, 2) => choose(&cell.places, cell.children.under(p), agent.home, p, action, wish),
        (Kind::Enter | Kind::Open, 3) => agent.chosen.filter(|place| qualifying(&cell.places, agent.home, p, action).contains(place)),
        _ => None,
    }
}

/// "Commit takes agent, wish and these three and performs the step only if they are still what the step would give." It answers what the
/// step does. "Checks: 18 if the answer would differ, after 10 and 11." A number that is no word's hands no word back, so it differs.
pub fn commit(cell: &mut Cell, agent: u8, wish: u8, word: Option<Word>, woken: usize, chosen: u8) -> Result<Stepped, u8> {
    let now = ask(cell, agent, wish)?;
    if word != Some(now.word) || woken != now.woken || chosen != now.chosen {
        return Err(ANSWER_DIFFERS);
    }
    step(cell, agent, wish)
}
