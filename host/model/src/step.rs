//! One step: "The agent's stage, a number from 0 to 8, decides the step."

use crate::cell::{Action, Agent, Cell, Kind, Place, Stands};
use crate::choice::{can_exit, choose, qualifying, smallest_unused};
use crate::word::{Stepped, Word};
use crate::NO_SUCH_AGENT;

/// "A call names an agent and a wish": one lock step of a sound cell, refused with 11 for "no such agent".
pub fn step(cell: &mut Cell, agent: u8, wish: u8) -> Result<Stepped, u8> {
    let stage = cell.agents.get(&agent).ok_or(NO_SUCH_AGENT)?.stage;
    Ok(match stage {
        0 => looking(cell, agent),
        1 => found(cell, agent),
        2 => holding_one(cell, agent, wish),
        3 => holding_both(cell, agent),
        4 => leaving(cell, agent),
        5 => arriving(cell, agent),
        6 => linking(cell, agent),
        7 => Word::Asleep.alone(),
        _ => Word::Done.alone(),
    })
}

/// "0 looking. Open: remember its own place; looked, stage 1. Enter or exit: remember the parent; looked, stage 1. With no linked
/// parent: slept, stage 7 on its own place." Document 02, W11: a release "looks at its own place".
fn looking(cell: &mut Cell, agent: u8) -> Stepped {
    let home = cell.agents[&agent].home;
    let remembered = match next_action(cell, agent).kind {
        Kind::Open | Kind::Release => Some(home),
        Kind::Enter | Kind::Exit => cell.places[&home].linked_to(),
    };
    match remembered {
        Some(p) => {
            go_to(cell, agent, 1, Some(p), None);
            Word::Looked.alone()
        }
        None => {
            go_to(cell, agent, 7, Some(home), None);
            Word::Slept.alone()
        }
    }
}

/// "1 found. Lock the remembered place p: took, stage 2, or held."
fn found(cell: &mut Cell, agent: u8) -> Stepped {
    let p = remembered(cell, agent);
    if !lock(cell, p, agent) {
        return Word::Held.alone();
    }
    go_to(cell, agent, 2, Some(p), None);
    Word::Took.alone()
}

/// "2 holding p. Enter or exit, and its place is no longer linked to p: release, back, stage 0. If the action can't fire: release,
/// slept, stage 7 on p. Otherwise lock the second place: took, stage 3, or held." "The second place is the agent's own for enter and
/// exit, the chosen one for open." Document 02, W11: of a release "the next step puts a new place".
fn holding_one(cell: &mut Cell, agent: u8, wish: u8) -> Stepped {
    let p = remembered(cell, agent);
    let home = cell.agents[&agent].home;
    let action = next_action(cell, agent);
    if action.kind == Kind::Release {
        return put(cell, agent, action.name);
    }
    if action.kind != Kind::Open && cell.places[&home].linked_to() != Some(p) {
        release(cell, agent);
        go_to(cell, agent, 0, None, None);
        return Word::Back.alone();
    }
    let chosen = choose(&cell.places, cell.children.under(p), home, p, action, wish);
    let fires = match action.kind {
        Kind::Exit => can_exit(&cell.places, p, action),
        _ => chosen.is_some(),
    };
    if !fires {
        release(cell, agent);
        go_to(cell, agent, 7, Some(p), None);
        return Word::Slept.alone();
    }
    let second = match (action.kind, chosen) {
        (Kind::Open, Some(chosen)) => chosen,
        _ => home,
    };
    if !lock(cell, second, agent) {
        return Word::Held.alone();
    }
    go_to(cell, agent, 3, Some(p), chosen);
    Word::Took.alone()
}

/// Document 02, W11: the agent "puts a new place named n there, under the smallest unused number ..; it wakes those asleep on its own place,
/// releases the lock and answers put, the action used up and the stage then as after opened. With all numbers in use it releases the lock and
/// sleeps (slept, on no place)". "a put place is the latest of W5."
fn put(cell: &mut Cell, agent: u8, name: u16) -> Stepped {
    let home = cell.agents[&agent].home;
    release(cell, agent);
    let Some(number) = smallest_unused(&cell.places) else {
        go_to(cell, agent, 7, None, None);
        return Word::Slept.alone();
    };
    cell.places.insert(number, Place::fresh(name, home));
    cell.children.comes(number, home);
    let woken = wake(cell, &[home]);
    use_up(cell, agent);
    start_again(cell, agent);
    Stepped { word: Word::Put, woken }
}

/// "3 holding both. If the action (on the chosen place) no longer fires: release both, back, stage 0."
fn holding_both(cell: &mut Cell, agent: u8) -> Stepped {
    let p = remembered(cell, agent);
    let home = cell.agents[&agent].home;
    let action = next_action(cell, agent);
    let chosen = cell.agents[&agent].chosen;
    let fires = match chosen {
        None => can_exit(&cell.places, p, action),
        Some(chosen) => qualifying(&cell.places, home, p, action).contains(&chosen),
    };
    release(cell, agent);
    match (fires, action.kind, chosen) {
        (true, Kind::Enter, Some(chosen)) => leave(cell, agent, p, chosen),
        (true, Kind::Open, Some(chosen)) => open(cell, agent, p, chosen),
        (true, Kind::Exit, _) => {
            let destination = cell.places[&p].linked_to().expect("an exit fires if p is linked");
            leave(cell, agent, p, destination)
        }
        _ => {
            go_to(cell, agent, 0, None, None);
            Word::Back.alone()
        }
    }
}

/// "Enter or exit: unlink its place; the destination is the chosen place, or p's parent as it is now; the action is used up; release
/// both; wake all asleep on p or its own place; left, stage 4."
fn leave(cell: &mut Cell, agent: u8, p: u8, destination: u8) -> Stepped {
    let home = cell.agents[&agent].home;
    cell.places.get_mut(&home).expect("a home is in use").stands = Stands::OnItsWay(destination);
    cell.children.leaves(home, p);
    use_up(cell, agent);
    go_to(cell, agent, 4, None, None);
    let woken = wake(cell, &[p, home]);
    Stepped { word: Word::Left, woken }
}

/// "Open: children and agents of the chosen place go to p, its number becomes unused, the moved agents that aren't done go to stage 0,
/// a lock that one of them held at stage 2 being released; wake all asleep on p or on it, and set to stage 0 all that remembered it at
/// stage 1; the action is used up; release both; opened." "The count of woken agents is of those that were at stage 7." Document 02, W3:
/// "When a place is opened, its count is pooled into the place of the agent that opened it." W5: children freed "become the latest". W11: with all
/// numbers in use a release agent sleeps on no place "until any opening, which wakes all such sleepers".
fn open(cell: &mut Cell, agent: u8, p: u8, chosen: u8) -> Stepped {
    for place in cell.places.values_mut() {
        if place.stands == Stands::Linked(chosen) {
            place.stands = Stands::Linked(p);
        }
    }
    cell.children.opened(chosen, p);
    let pooled = cell.places.remove(&chosen).map_or(0, |opened| opened.touches);
    let home = cell.agents[&agent].home;
    cell.places.get_mut(&home).expect("a home is in use").touches += pooled;
    let mut woken = 0;
    let numbers: Vec<u8> = cell.agents.keys().copied().collect();
    for number in numbers {
        let Agent { home, stage, remembered, .. } = cell.agents[&number];
        if home == chosen {
            cell.agents.get_mut(&number).expect("just read").home = p;
            if stage == 2 {
                release(cell, number);
            }
            if stage == 7 {
                woken += 1;
            }
            if stage != 8 {
                go_to(cell, number, 0, None, None);
            }
        } else if stage == 1 && remembered == Some(chosen) {
            go_to(cell, number, 0, None, None);
        }
    }
    woken += wake(cell, &[p, chosen]) + wake_from_no_place(cell);
    use_up(cell, agent);
    start_again(cell, agent);
    Stepped { word: Word::Opened, woken }
}

/// "4 on its way. Lock its own place: took, stage 5, or held."
fn leaving(cell: &mut Cell, agent: u8) -> Stepped {
    let home = cell.agents[&agent].home;
    if !lock(cell, home, agent) {
        return Word::Held.alone();
    }
    go_to(cell, agent, 5, None, None);
    Word::Took.alone()
}

/// "5. Lock the destination: took, stage 6, or held."
fn arriving(cell: &mut Cell, agent: u8) -> Stepped {
    let destination = destination(cell, agent);
    if !lock(cell, destination, agent) {
        return Word::Held.alone();
    }
    go_to(cell, agent, 6, None, None);
    Word::Took.alone()
}

/// "6. Link; release both; wake all asleep on its own place, the destination, or the place that the destination is linked to, if any;
/// came." Document 02, W5: "A place that comes is the latest".
fn linking(cell: &mut Cell, agent: u8) -> Stepped {
    let home = cell.agents[&agent].home;
    let destination = destination(cell, agent);
    cell.places.get_mut(&home).expect("a home is in use").stands = Stands::Linked(destination);
    cell.children.comes(home, destination);
    release(cell, agent);
    let mut places = vec![home, destination];
    places.extend(cell.places[&destination].linked_to());
    let woken = wake(cell, &places);
    start_again(cell, agent);
    Stepped { word: Word::Came, woken }
}

/// "Waking sets an agent to stage 0": wakes all asleep on one of these places and counts them.
fn wake(cell: &mut Cell, places: &[u8]) -> usize {
    wake_those(cell, |asleep_on| asleep_on.is_some_and(|place| places.contains(&place)))
}

/// Wakes all asleep on no place and counts them.
fn wake_from_no_place(cell: &mut Cell) -> usize {
    wake_those(cell, |asleep_on| asleep_on.is_none())
}

/// Wakes the sleepers for whom this is true of what they sleep on.
fn wake_those(cell: &mut Cell, woken_on: impl Fn(Option<u8>) -> bool) -> usize {
    let mut woken = 0;
    for agent in cell.agents.values_mut() {
        if agent.stage == 7 && woken_on(agent.remembered) {
            agent.stage = 0;
            agent.remembered = None;
            woken += 1;
        }
    }
    woken
}

/// "After opened or came the agent is at stage 0, or 8 if no action is left"; after put "as after opened" (document 02, W11).
fn start_again(cell: &mut Cell, agent: u8) {
    let stage = if cell.agents[&agent].unused.is_empty() { 8 } else { 0 };
    go_to(cell, agent, stage, None, None);
}

/// Locks the place, unless the lock "belongs to another agent".
fn lock(cell: &mut Cell, place: u8, agent: u8) -> bool {
    *cell.locks.entry(place).or_insert(agent) == agent
}

/// Releases every lock that the agent holds.
fn release(cell: &mut Cell, agent: u8) {
    cell.locks.retain(|_, holder| *holder != agent);
}

/// Sets the stage and what is remembered and chosen there; "otherwise nothing".
fn go_to(cell: &mut Cell, agent: u8, stage: u8, remembered: Option<u8>, chosen: Option<u8>) {
    let agent = cell.agents.get_mut(&agent).expect("the agent is in use");
    agent.stage = stage;
    agent.remembered = remembered;
    agent.chosen = chosen;
}

/// "the action is used up".
fn use_up(cell: &mut Cell, agent: u8) {
    cell.agents.get_mut(&agent).expect("the agent is in use").unused.remove(0);
}

/// The first unused action; "an agent at stages 0 to 3 or 7 has an action left".
fn next_action(cell: &Cell, agent: u8) -> Action {
    cell.agents[&agent].unused[0]
}

/// The remembered place; "An agent remembers a place at stages 1 to 3".
fn remembered(cell: &Cell, agent: u8) -> u8 {
    cell.agents[&agent].remembered.expect("remembered at stages 1 to 3")
}

/// The destination that the agent's place is on its way to, at stages 4 to 6.
fn destination(cell: &Cell, agent: u8) -> u8 {
    cell.places[&cell.agents[&agent].home].on_its_way_to().expect("on its way at stages 4 to 6")
}
