//! When a table is sound: document 01's list, with what the landed requests of document 02 add, read on the places and agents in use.
//! Nothing is asked of unused numbers, of used-up actions, or of a field that the agent's stage does not use.

use crate::cell::Kind;
use crate::table::{AgentRecord, Table};
use crate::touch::MOST_TOUCHES;

/// "A table is sound when:" all of this holds.
pub fn sound(table: &Table) -> bool {
    floor(table)
        && in_use(table)
        && in_range(table)
        && lead_to_the_floor(table)
        && travellers(table)
        && locks(table)
        && stage_three(table)
        && actions_left(table)
        && openers(table)
        && few_touches(table)
        && whole_row(table)
}

/// "the floor is as above": "Place 0 is the floor: name 0, no parent, never moves." Its way is not 0, since it is linked to nothing. Of its
/// keys, document 02, W6: "the floor's are 0"; those of another place may be any.
fn floor(table: &Table) -> bool {
    table.place(0).is_some_and(|floor| floor.name == 0 && floor.keys == [0; 3] && floor.parent == 0 && floor.way != 0)
}

/// "every parent, destination, home and remembered place is in use". Document 02, W11: asleep a release agent, "and no other agent, may remember no
/// place".
fn in_use(table: &Table) -> bool {
    let used = |number: u8| table.place(number).is_some();
    table.places_in_use().all(|(_, place)| used(place.parent))
        && table
            .agents_in_use()
            .all(|(_, agent)| used(agent.home) && agent.remembered_place().is_none_or(used) && agent.chosen_place().is_none_or(used))
}

/// "names, actions and stages are in range".
fn in_range(table: &Table) -> bool {
    table.places_in_use().all(|(number, place)| number == 0 || place.name >= 1)
        && table.agents_in_use().all(|(_, agent)| {
            let actions = agent.unused();
            agent.stage <= 8 && actions.is_some_and(|row| row.iter().all(|action| Kind::of(action.kind).is_some() && action.name >= 1))
        })
}

/// "following parents or destinations leads each place to the floor".
fn lead_to_the_floor(table: &Table) -> bool {
    table.places_in_use().all(|(start, _)| {
        let mut at = start;
        let mut steps = 0;
        while at != 0 && steps < 64 {
            at = table.places[at as usize].parent;
            steps += 1;
        }
        at == 0
    })
}

/// "a place on its way has exactly one of its agents at stages 4 to 6, the floor and a linked place none".
fn travellers(table: &Table) -> bool {
    let mut moving = vec![0; 64];
    for (_, agent) in table.agents_in_use().filter(|(_, agent)| (4..=6).contains(&agent.stage)) {
        moving[agent.home as usize] += 1;
    }
    table.places_in_use().all(|(number, place)| {
        let on_its_way = number != 0 && place.way != 0;
        moving[number as usize] == if on_its_way { 1 } else { 0 }
    })
}

/// "each lock is held just by the agent whose stage says so".
fn locks(table: &Table) -> bool {
    let mut holders = vec![Vec::new(); 64];
    for (number, agent) in table.agents_in_use() {
        for place in holds(table, agent) {
            holders[place as usize].push(number);
        }
    }
    table.places_in_use().all(|(place, _)| match table.locks[place as usize] {
        64 => holders[place as usize].is_empty(),
        lock => holders[place as usize] == [lock],
    })
}

/// The places whose locks the agent's stage says it holds: at 2 the remembered one, at 3 that and the second place, at 5 its own, at 6
/// that and the destination.
pub fn holds(table: &Table, agent: &AgentRecord) -> Vec<u8> {
    let second = if agent.next_kind() == Some(Kind::Open) { agent.chosen } else { agent.home };
    match agent.stage {
        2 => vec![agent.remembered],
        3 => vec![agent.remembered, second],
        5 => vec![agent.home],
        6 => vec![agent.home, table.places[agent.home as usize].parent],
        _ => vec![],
    }
}

/// "an agent at stage 3 has its place, and for enter its chosen place too, linked under the held parent (open: its target linked under
/// its home)". Document 02, W11: a release agent "is never at stage 3".
fn stage_three(table: &Table) -> bool {
    let linked = |place: u8, parent: u8| place != 0 && table.place(place).is_some_and(|place| place.way == 0 && place.parent == parent);
    table.agents_in_use().filter(|(_, agent)| agent.stage == 3).all(|(_, agent)| match agent.next_kind() {
        Some(Kind::Enter) => linked(agent.home, agent.remembered) && linked(agent.chosen, agent.remembered),
        Some(Kind::Exit) => linked(agent.home, agent.remembered),
        Some(Kind::Open) => linked(agent.chosen, agent.home),
        Some(Kind::Release) | None => false,
    })
}

/// "an agent at stages 0 to 3 or 7 has an action left, one at 8 has none".
fn actions_left(table: &Table) -> bool {
    table.agents_in_use().all(|(_, agent)| {
        let left = agent.unused().is_some_and(|row| !row.is_empty());
        match agent.stage {
            0..=3 | 7 => left,
            8 => !left,
            _ => true,
        }
    })
}

/// "an opener at stages 1 to 3 remembers its home." Document 02, W11: "a release agent is held to the opener's rule".
fn openers(table: &Table) -> bool {
    table
        .agents_in_use()
        .filter(|(_, agent)| (1..=3).contains(&agent.stage) && matches!(agent.next_kind(), Some(Kind::Open | Kind::Release)))
        .all(|(_, agent)| agent.remembered == agent.home)
}

/// Document 02, W3: "A table whose sum passes 1,000,000,000,000 is unsound": the sum over places in use, whatever the counts are.
fn few_touches(table: &Table) -> bool {
    table.places_in_use().map(|(number, _)| table.touches[number as usize] as u128).sum::<u128>() <= MOST_TOUCHES
}

/// Document 02, W5: "In a sound table this order is strict under each parent." The table keeps it as one row of all numbers, the longest
/// standing first; it is strict where every number, in use or not, has a position in it, and then none is above 63.
fn whole_row(table: &Table) -> bool {
    (0..64).all(|number| table.order.contains(&number))
}
