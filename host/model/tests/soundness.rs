//! Each clause of "A table is sound when", broken once; and what soundness does not ask.

use model::{file_of, load, sound, step, ActionRecord, AgentRecord, Cell, PlaceRecord, Stands, Table, NO_PLACE, SIZE};

/// The table that keeps a cell: unused numbers and fields hold zeros.
fn table(cell: &Cell) -> Table {
    let mut table = Table::read(&[0; SIZE]);
    for (&number, place) in &cell.places {
        let (parent, way) = match place.stands {
            Stands::TheFloor => (0, 1),
            Stands::Linked(parent) => (parent, 0),
            Stands::OnItsWay(destination) => (destination, 1),
        };
        table.places[number as usize] = PlaceRecord { name: place.name, keys: place.keys.numbers(), parent, way };
        table.locks[number as usize] = cell.locks.get(&number).copied().unwrap_or(64);
        table.touches[number as usize] = place.touches;
        table.used[number as usize] = true;
    }
    for (&number, agent) in &cell.agents {
        let mut actions = [ActionRecord { kind: 0, name: 0 }; 16];
        for (record, action) in actions.iter_mut().zip(&agent.unused) {
            *record = ActionRecord { kind: action.kind.number(), name: action.name };
        }
        let nowhere = if agent.stage == 7 { NO_PLACE } else { 0 };
        let (remembered, chosen) = (agent.remembered.unwrap_or(nowhere), agent.chosen.unwrap_or(0));
        let count = agent.unused.len() as u8;
        table.agents[number as usize] = AgentRecord { home: agent.home, stage: agent.stage, remembered, chosen, next: 0, count, actions };
        table.given[number as usize] = true;
    }
    let linked: Vec<u8> = cell.children.lists().flat_map(|(_, list)| list).copied().collect();
    table.order = (0..64).filter(|number| !linked.contains(number)).collect();
    table.order.extend(linked);
    table
}

/// The table of a term after steps of these agents.
fn after(term: &str, agents: &[u8]) -> Table {
    let mut cell = load(&file_of(term)).expect("the file is accepted");
    for &agent in agents {
        step(&mut cell, agent, 255).expect("the agent is there");
    }
    let table = table(&cell);
    assert_eq!(table.cell(), Some(cell));
    table
}

/// Whether the table stays sound after this change.
fn stays(term: &str, agents: &[u8], change: impl Fn(&mut Table)) -> bool {
    let mut table = after(term, agents);
    change(&mut table);
    sound(&table)
}

/// Place 1 (named 7) and place 3 (named 9) are on the floor, place 2 (named 8) in place 1; agents 0 and 1 live in place 1, agent 2 in 2.
const CELL: &str = "7[enter 9 | open 8 | 8[exit 7.exit 7]] | 9[]";

#[test]
fn the_floor() {
    assert!(!stays(CELL, &[], |t| t.places[0].name = 1));
    assert!(!stays(CELL, &[], |t| t.places[0].way = 0));
    assert!(stays(CELL, &[], |t| t.places[0].way = 2));
    assert!(!stays(CELL, &[], |t| t.places[0].parent = 1));
    assert!(!stays(CELL, &[], |t| t.used[0] = false));
    assert!(!sound(&Table::read(&[0; SIZE])));
}

#[test]
fn in_use() {
    assert!(!stays(CELL, &[], |t| t.places[2].parent = 9));
    assert!(!stays(CELL, &[], |t| t.places[2].parent = 200));
    assert!(!stays(CELL, &[], |t| t.agents[2].home = 4));
    assert!(!stays(CELL, &[], |t| t.agents[2].home = 64));
    assert!(!stays(CELL, &[0], |t| t.agents[0].remembered = 63));
    assert!(!stays(CELL, &[0, 0, 0], |t| t.agents[0].chosen = 63));
    assert!(!stays(CELL, &[], |t| t.used[2] = false));
}

#[test]
fn in_range() {
    assert!(!stays(CELL, &[], |t| t.places[3].name = 0));
    assert!(!stays(CELL, &[], |t| t.agents[0].stage = 9));
    assert!(!stays(CELL, &[], |t| t.agents[0].actions[0].kind = 5));
    assert!(stays(CELL, &[], |t| t.agents[0].actions[0].kind = 4));
    assert!(!stays(CELL, &[], |t| t.agents[2].actions[1].kind = 0));
    assert!(!stays(CELL, &[], |t| t.agents[2].actions[1].name = 0));
    assert!(!stays(CELL, &[], |t| t.agents[0].count = 17));
    assert!(!stays(CELL, &[], |t| t.agents[0].next = 2));
}

#[test]
fn keys() {
    for key in 0..3 {
        for number in [1, 7, 65_535] {
            assert!(!stays(CELL, &[], |t| t.places[0].keys[key] = number), "the floor's are 0");
            assert!(stays(CELL, &[], |t| t.places[1].keys[key] = number));
        }
        assert!(stays(CELL, &[], |t| t.places[1].keys[key] = 0), "nobody may");
    }
    assert!(stays(CELL, &[], |t| t.places[2].keys = [0; 3]));
    assert!(!stays(CELL, &[], |t| t.places[0].keys = [5; 3]));
    assert!(!stays(CELL, &[], |t| (t.places[3].name, t.places[3].keys) = (0, [9; 3])), "a name is asked for, whatever the keys are");
}

#[test]
fn one_tree() {
    assert!(!stays(CELL, &[], |t| t.places[1].parent = 2));
    assert!(!stays(CELL, &[], |t| t.places[3].parent = 3));
}

#[test]
fn on_its_way() {
    assert!(!stays(CELL, &[], |t| t.places[3].way = 1));
    assert!(!stays(CELL, &[0, 0, 0, 0], |t| t.places[1].way = 0));
    assert!(stays(CELL, &[0, 0, 0, 0], |t| t.places[1].way = 77));
    assert!(!stays(CELL, &[0, 0, 0, 0], |t| t.agents[1].stage = 4));
    assert!(!stays(CELL, &[0, 0, 0, 0], |t| t.agents[2].stage = 4));
}

#[test]
fn locks() {
    for holder in [0, 1, 2, 3, 63, 65, 255] {
        assert!(!stays(CELL, &[], |t| t.locks[2] = holder));
    }
    assert!(!stays(CELL, &[0, 0], |t| t.locks[0] = 64));
    assert!(!stays(CELL, &[0, 0], |t| t.locks[0] = 1));
    assert!(!stays(CELL, &[0, 0, 0], |t| t.locks[1] = 64));
    assert!(!stays(CELL, &[1, 1, 1], |t| t.locks[2] = 64));
    assert!(!stays(CELL, &[0, 0, 0, 0, 0, 0], |t| t.locks[3] = 64));
    assert!(!stays(CELL, &[0, 0, 2], |t| { (t.agents[2].stage, t.agents[2].remembered) = (2, 0) }));
}

#[test]
fn stage_three() {
    let chosen = |place: u8| move |t: &mut Table| t.agents[0].chosen = place;
    assert!(!stays(CELL, &[0, 0, 0], chosen(2)));
    assert!(!stays(CELL, &[0, 0, 0], chosen(0)));
    assert!(stays(CELL, &[0, 0, 0], chosen(1)), "stage 3 is sound without firing");
    assert!(stays(CELL, &[0, 0, 0], |t| t.places[3].keys = [5; 3]), "stage 3 is sound without firing");
    assert!(!stays(CELL, &[1, 1, 1], |t| t.places[2].parent = 3));
    assert!(!stays(CELL, &[2, 2, 2], |t| t.places[2].parent = 3));
}

#[test]
fn actions_left() {
    for steps in 0..4 {
        assert!(!stays(CELL, &vec![0; steps], |t| t.agents[0].next = 1));
    }
    assert!(stays(CELL, &[0, 0, 0, 0], |t| t.agents[0].next = t.agents[0].count));
    assert!(!stays(CELL, &[], |t| t.agents[0].stage = 8));
    assert!(stays(CELL, &[], |t| (t.agents[0].stage, t.agents[0].next) = (8, 1)));
}

#[test]
fn openers() {
    assert!(!stays(CELL, &[1], |t| t.agents[1].remembered = 0));
    assert!(stays(CELL, &[0], |t| t.agents[0].remembered = 3), "an enter agent at stage 1 may remember any place in use");
    assert!(stays(CELL, &[], |t| (t.agents[1].stage, t.agents[1].remembered) = (7, 3)), "a sleeper may sleep on any place in use");
}

/// Place 1 (named 7) is on the floor, place 2 (named 8) in place 1; agents 0 to 2 live in place 1.
const RELEASE: &str = "7[release 9.exit 7 | open 8 | enter 9 | 8[]]";

#[test]
fn release_agents() {
    // "held to the opener's rule": at stages 1 and 2 it remembers its home
    for steps in 1..=2 {
        for place in [0, 2, 3, 64] {
            assert!(!stays(RELEASE, &vec![0; steps], |t| t.agents[0].remembered = place));
        }
        assert!(stays(RELEASE, &vec![0; steps], |t| t.agents[0].chosen = 200), "it chooses nothing");
    }
    assert!(!stays(RELEASE, &[0, 0], |t| t.locks[1] = 64));
    assert!(!stays(RELEASE, &[0], |t| t.locks[1] = 0));
    // "never at stage 3", whatever it holds
    assert!(stays(RELEASE, &[1, 1, 1], |_| ()));
    assert!(!stays(RELEASE, &[1, 1, 1], |t| t.agents[1].actions[0].kind = 4), "as an opener is");
    assert!(!stays("9[7[exit 9]]", &[0, 0, 0], |t| t.agents[0].actions[0].kind = 4), "as an exit agent is");
    assert!(!stays(RELEASE, &[0, 0], |t| (t.agents[0].stage, t.agents[0].chosen) = (3, 1)));
    // on its way it may have a release next
    assert!(stays("9[7[exit 9.release 9]]", &[0, 0, 0, 0], |_| ()));
}

#[test]
fn asleep_on_no_place() {
    let asleep = |agent: usize, remembered: u8| move |t: &mut Table| (t.agents[agent].stage, t.agents[agent].remembered) = (7, remembered);
    assert!(stays(RELEASE, &[], asleep(0, 64)), "also while a number is unused");
    for place in [0, 1, 2] {
        assert!(stays(RELEASE, &[], asleep(0, place)), "it may remember any place in use");
    }
    for number in [3, 63, 65, 128, 255] {
        assert!(!stays(RELEASE, &[], asleep(0, number)), "no place is 64 and nothing else");
    }
    for agent in [1, 2] {
        assert!(!stays(RELEASE, &[], asleep(agent, 64)), "no other agent");
    }
    // its next action counts, not one that is used up or one after it
    assert!(!stays(RELEASE, &[], |t| (t.agents[0].next, t.agents[0].stage, t.agents[0].remembered) = (1, 7, 64)));
    assert!(!stays("7[exit 7.release 9]", &[], asleep(0, 64)));
    // and asleep, not at another stage that remembers a place
    for stage in [1, 2] {
        assert!(!stays(RELEASE, &[], |t| (t.agents[0].stage, t.agents[0].remembered) = (stage, 64)));
    }
    let mut table = after(RELEASE, &[]);
    asleep(0, 64)(&mut table);
    assert_eq!(table.cell().expect("sound").agents[&0].remembered, None);
}

#[test]
fn touches() {
    const MOST: u64 = 1_000_000_000_000;
    assert!(stays(CELL, &[], |t| t.touches[2] = MOST), "exactly the most is sound");
    assert!(!stays(CELL, &[], |t| t.touches[2] = MOST + 1));
    assert!(!stays(CELL, &[], |t| t.touches[0] = u64::MAX));
    assert!(stays(CELL, &[], |t| (t.touches[0], t.touches[3]) = (1, MOST - 1)), "the floor's touches count");
    assert!(!stays(CELL, &[], |t| (t.touches[0], t.touches[3]) = (1, MOST)));
    // sums that would wrap to a small number in 64 bits
    assert!(!stays(CELL, &[], |t| (t.touches[0], t.touches[3]) = (1, u64::MAX)));
    assert!(!stays(CELL, &[], |t| (t.touches[1], t.touches[2]) = (1 << 63, 1 << 63)));
    assert!(!stays(CELL, &[], |t| t.touches[..4].fill(1 << 62)));
    assert!(stays(CELL, &[], |t| t.touches[4..].fill(u64::MAX)), "nothing is asked of unused places");
}

#[test]
fn the_row() {
    let last = |t: &mut Table, number: u8| {
        t.order.retain(|&other| other != number);
        t.order.push(number);
    };
    assert!(!stays(CELL, &[], |t| t.order = vec![0; 64]), "every other number is missing");
    assert!(stays(CELL, &[], |t| t.order = (0..64).rev().collect()), "any order is one");
    for at in 0..64 {
        // another number in its place stands there twice, and its own number is missing; also where no place has it
        assert!(!stays(CELL, &[], |t| t.order[at] = t.order[(at + 1) % 64]));
        for number in [64, 65, 127, 128, 255] {
            assert!(!stays(CELL, &[], |t| t.order[at] = number));
        }
        assert!(!stays(CELL, &[], |t| t.order[at] += 64));
        assert!(stays(CELL, &[], |t| t.order.swap(at, 63)));
    }
    // the order under a parent is the row's, whatever stands between
    let under = |change: &dyn Fn(&mut Table)| {
        let mut table = after(CELL, &[]);
        change(&mut table);
        table.cell().expect("sound").children.under(0).to_vec()
    };
    assert_eq!(under(&|_| ()), [1, 3]);
    assert_eq!(under(&|t| last(t, 3)), [1, 3]);
    assert_eq!(under(&|t| last(t, 1)), [3, 1]);
    for number in [0, 2, 4, 63] {
        assert_eq!(under(&|t| last(t, number)), [1, 3], "the floor, one under another parent, unused ones");
    }
    assert_eq!(under(&|t| t.order.reverse()), [3, 1]);
}

#[test]
fn what_is_not_asked() {
    assert!(stays(CELL, &[], |t| t.places[9] = PlaceRecord { name: 0, keys: [0, 7, 9], parent: 200, way: 3 }));
    assert!(stays(CELL, &[], |t| t.locks[9] = 200));
    assert!(stays(CELL, &[], |t| t.agents[9].stage = 200));
    assert!(stays(CELL, &[], |t| t.agents[0].remembered = 200));
    assert!(stays(CELL, &[0], |t| t.agents[0].chosen = 200));
    assert!(stays(CELL, &[2, 2, 2], |t| t.agents[2].chosen = 200), "an exit chooses nothing");
    assert!(stays(CELL, &[], |t| t.agents[0].actions[1].kind = 200));
    assert!(stays(CELL, &[], |t| {
        t.agents[2].next = 1;
        t.agents[2].actions[0].name = 0;
    }));
}

#[test]
fn reading_bytes() {
    let mut bytes = [0; SIZE];
    bytes[9] = 1;
    bytes[640..704].fill(64);
    bytes[5184..5192].copy_from_slice(&(1u64 | 1 << 63).to_ne_bytes());
    bytes[5192..5200].copy_from_slice(&(1u64 << 63).to_ne_bytes());
    for (at, number) in [(630, 513u16), (632, 258), (634, 0), (636, 65_535)] {
        bytes[at..at + 2].copy_from_slice(&number.to_ne_bytes());
    }
    bytes[5704..5712].copy_from_slice(&70_000u64.to_ne_bytes());
    (0..64).for_each(|number| bytes[5775 - number] = number as u8);
    let agent = 704 + 63 * 70;
    bytes[agent..agent + 6].copy_from_slice(&[63, 0, 0, 0, 15, 16]);
    bytes[agent + 66] = 2;
    bytes[agent + 68..agent + 70].copy_from_slice(&7u16.to_ne_bytes());
    let cell = Table::read(&bytes).cell().expect("sound");
    assert_eq!(model::listing(&cell), "513/258/0/65535[exit 7]");
    assert_eq!((cell.places[&0].touches, cell.places[&63].touches), (0, 70_000));
    assert_eq!(cell.children.under(0), [63]);
    bytes[5712] = 62;
    assert_eq!(Table::read(&bytes).cell(), None);
}
