//! No order can churn forever: document 02, W12. "Dispatch wants a ceiling."

use crate::cell::Cell;
use crate::step::step;
use crate::word::Word;

/// "For a loaded cell with G agents and A actions in all, at most 5 × G × (2 × A + 1) + 2 × A of the step calls in any sequence change the
/// cell".
pub fn loaded_ceiling(agents: u64, actions: u64) -> u64 {
    5 * agents * (2 * actions + 1) + 2 * actions
}

/// The same of any sound cell: how many of the step calls that are made from here on change it, at most. There an action that is unused counts
/// as in a loaded cell, two, and one whose place is on its way (stages 4 to 6) is used up and has its coming left: one.
pub fn ceiling(cell: &Cell) -> u64 {
    let agents = cell.agents.len() as u64;
    let unused: usize = cell.agents.values().map(|agent| agent.unused.len()).sum();
    let on_their_way = cell.agents.values().filter(|agent| (4..=6).contains(&agent.stage)).count();
    let left = (2 * unused + on_their_way) as u64;
    5 * agents * (left + 1) + left
}

/// How many of these step calls, each an agent and a wish, change the cell.
pub fn changing_calls(cell: &mut Cell, order: &[(u8, u8)]) -> u64 {
    let mut changing = 0;
    for &(agent, wish) in order {
        let before = cell.clone();
        let _ = step(cell, agent, wish);
        changing += (*cell != before) as u64;
    }
    changing
}

/// "Every other step call is refused or answers held, asleep or done": whether this answer is one of a call that changes nothing.
pub fn changes_nothing(answered: Result<Word, u8>) -> bool {
    matches!(answered, Err(_) | Ok(Word::Held | Word::Asleep | Word::Done))
}
