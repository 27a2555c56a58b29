//! The sentences of demands 2 and 3, asked of the model along the way.

use model::{make, permitted, smallest_unused, step, Cell, Kind, Move, Plain, Tree, Word};

/// The move that a left, opened or put stands for: the pick is what is entered or opened, the place around is what is left, and what is put comes
/// "under the smallest number unused" (document 02, W11).
fn made(plain: &Plain, agent: u8) -> Option<Move> {
    let (home, unused) = plain.agents.get(&agent)?;
    let kind = unused.first()?.kind;
    let with = match kind {
        Kind::Exit => plain.places.get(home)?.around()?,
        Kind::Enter | Kind::Open => *plain.picks.get(&agent)?,
        Kind::Release => smallest_unused(&plain.places)?,
    };
    Some(Move { agent, kind, with })
}

/// "one calculus move for each call answered left or opened .., each a move that the calculus permits in the tree before it", and document 02,
/// W11: "one such move for each put": follows the answered word on the plain tree.
pub fn follow(plain: &mut Plain, agent: u8, wish: u8, word: Word) -> Result<(), String> {
    if !matches!(word, Word::Left | Word::Opened | Word::Put) {
        plain.follow(agent, wish, word);
        return Ok(());
    }
    let before = plain.tree();
    let made = made(plain, agent).ok_or("demand 3: left or opened without a pick, or put with all numbers in use")?;
    if !permitted(&before).contains(&made) {
        return Err(format!("demand 3: {made:?} is not permitted"));
    }
    plain.follow(agent, wish, word);
    if plain.tree() != make(&before, made) {
        return Err(format!("demand 3: the plain tree after {made:?} is not the calculus's"));
    }
    Ok(())
}

/// "the cell is one tree and equal to document 01's plain tree"; and document 02, W5: "The plain tree knows this order too".
pub fn same_tree(plain: &Plain, cell: &Cell) -> Result<(), String> {
    if !cell.one_tree() {
        return Err("demand 3: the cell is not one tree".to_string());
    }
    if !plain.equals(cell) {
        return Err("demand 3: the cell does not equal the plain tree".to_string());
    }
    if !plain.same_picks(cell) {
        return Err("demand 3: the plain tree has another pick than the place that an agent chose".to_string());
    }
    if !plain.same_order(cell) {
        return Err("first in, first served: the plain tree has another order of the places under a parent".to_string());
    }
    Ok(())
}

/// "If all are asleep or done, the calculus permits no move in that tree." Document 02, W11: "a release may be an agent's next action, and then only
/// with 64 places in use."
pub fn at_rest(cell: &Cell) -> Result<(), String> {
    let releases = cell.agents.values().any(|agent| agent.unused.first().is_some_and(|action| action.kind == Kind::Release));
    if releases && cell.places.len() < 64 {
        return Err("demand 3: all are asleep or done, a release is an agent's next action, and a number is unused".to_string());
    }
    match permitted(&Tree::of(cell)).first() {
        Some(found) => Err(format!("demand 3: all are asleep or done, yet {found:?} is permitted")),
        None => Ok(()),
    }
}

/// "If some agent is then neither asleep nor done, there is an agent whose next step changes the cell, whatever its wish." All wishes of
/// 64 and above are alike.
pub fn somebody_can_go_on(cell: &Cell) -> Result<(), String> {
    let changes = |agent: u8, wish: u8| {
        let mut after = cell.clone();
        step(&mut after, agent, wish).is_ok() && after != *cell
    };
    if cell.agents.keys().any(|&agent| (0..=64).all(|wish| changes(agent, wish))) {
        Ok(())
    } else {
        Err("demand 3: some agent is neither asleep nor done, yet no agent's step changes the cell".to_string())
    }
}

/// "From a settled cell that came from a load, every enter, exit or open that the ambient calculus permits can be reached by at most nine
/// steps of its own agent, with exactly the calculus's result." Document 02, W11: "Demand 2 covers its steps and its move too": release.
pub fn nine_steps(cell: &Cell, reached: Move) -> Result<(), String> {
    let mut after = cell.clone();
    for _ in 0..9 {
        let stepped = step(&mut after, reached.agent, reached.with);
        if stepped.is_ok_and(|stepped| matches!(stepped.word, Word::Came | Word::Opened | Word::Put)) {
            let exactly = Tree::of(&after) == make(&Tree::of(cell), reached) && after.settled();
            return if exactly { Ok(()) } else { Err(format!("demand 2: {reached:?} is reached with another result")) };
        }
    }
    Err(format!("demand 2: {reached:?} is not reached within nine steps"))
}
