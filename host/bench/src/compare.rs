//! The three keepers side by side: the same answers, cells and buffers, or the benchmark stops.

use crate::card;
use crate::cell::{members, Cell, Name, LISTING_LONGEST, MOST_TOUCHES};
use crate::cells::{random, Random};
use crate::files::{keyed, more_digits, releasing, renumbered};
use crate::jobs::{Job, Room, Workload};
use crate::keeper::{Keeper, Proved};
use crate::plain::Plain;
use crate::texts;
use crate::trails;
use crate::tuned::Tuned;

/// Compares on every workload and on random cells; answers how many calls were compared, or the first difference.
pub fn compare(workloads: &[Workload], cells: usize) -> Result<usize, String> {
    let mut calls = 0;
    for workload in workloads {
        calls += job(&workload.job).map_err(|what| format!("{}: {what}", workload.name))?;
    }
    let mut numbers = Random(88172645463325252);
    for i in 0..cells {
        calls += one_random(&mut numbers, i % 3 == 0).map_err(|what| format!("random cell {i}: {what}"))?;
    }
    Ok(calls)
}

/// The same value from the plain peer, the tuned peer and the keeper, or a difference.
pub fn same<T: PartialEq>(what: &str, [plain, tuned, keeper]: [T; 3]) -> Result<(), String> {
    match (plain == keeper, tuned == keeper) {
        (true, true) => Ok(()),
        (false, true) => Err(format!("{what}: the plain peer differs")),
        (true, false) => Err(format!("{what}: the tuned peer differs")),
        (false, false) => Err(format!("{what}: the keeper differs from both peers")),
    }
}

fn job(job: &Job) -> Result<usize, String> {
    match job {
        Job::Step { start, order } => {
            let mut cells = [**start; 3];
            order.iter().try_for_each(|&(agent, wish)| step(&mut cells, agent, wish))?;
            Ok(order.len())
        }
        Job::Ask { cells, order } => {
            order.iter().try_for_each(|&(at, agent, wish)| ask(&cells[at], agent, wish).map(|_| ()))?;
            Ok(order.len())
        }
        Job::Commit { start, order } => {
            let mut cells = [**start; 3];
            order.iter().try_for_each(|&(agent, wish, asked)| commit(&mut cells, agent, wish, asked))?;
            Ok(order.len())
        }
        Job::Command { start, order } => card::agree(start, order),
        Job::Touch { start, order } => {
            let mut cells = [**start; 3];
            order.iter().try_for_each(|&(place, number)| touch(&mut cells, place, number))?;
            Ok(order.len())
        }
        Job::Nearest { cell, order } => {
            order.iter().try_for_each(|&(place, name)| nearest(cell, place, name))?;
            Ok(order.len())
        }
        Job::Common { cell, order } => {
            order.iter().try_for_each(|&(place, other)| common(cell, place, other))?;
            Ok(order.len())
        }
        Job::Load { file } => {
            (0..=file.len()).try_for_each(|length| load(&file[..length]).map(|_| ()))?;
            Ok(file.len() + 1)
        }
        Job::Read { text } => {
            let lengths: Vec<usize> = (0..=text.len()).rev().step_by(1 + text.len() / 500).collect();
            lengths.iter().try_for_each(|&length| read(&text[..length]))?;
            Ok(lengths.len())
        }
        Job::List { cell, .. } => lists(cell),
        Job::Check { cell } | Job::Idle { cell } | Job::Ceiling { cell } => asks(cell).map(|_| 3),
        Job::Walk { .. } => {
            let mut rooms = [Room::new(), Room::new(), Room::new()];
            let [one, two, three] = &mut rooms;
            same("lengths", [job.lap::<Plain>(one), job.lap::<Tuned>(two), job.lap::<Proved>(three)])?;
            same("cells", rooms.each_ref().map(|room| room.cell))?;
            same("texts", rooms.map(|room| room.text)).map(|_| 1)
        }
        Job::Audit { claim } => trails::audit(claim).map(|_| 1),
        Job::Trail { asks } => asks.iter().try_for_each(|&(agent, asked)| trails::trail(agent, asked)).map(|_| asks.len()),
        Job::Copy { .. } => Ok(0),
    }
}

fn step(cells: &mut [Cell; 3], agent: u8, wish: u8) -> Result<(), String> {
    let [one, two, three] = cells;
    let answers = [Plain::step(one, agent, wish), Tuned::step(two, agent, wish), Proved::step(three, agent, wish)];
    same(&format!("answers {answers:x?} of agent {agent} with wish {wish}"), answers)?;
    same(&format!("cells after agent {agent} with wish {wish}, answered {:x}", answers[0]), *cells)
}

/// An ask by each; answers its number.
fn ask(cell: &Cell, agent: u8, wish: u8) -> Result<u64, String> {
    let answers = [Plain::ask(cell, agent, wish), Tuned::ask(cell, agent, wish), Proved::ask(cell, agent, wish)];
    same(&format!("answers {answers:x?} of an ask of agent {agent} with wish {wish}"), answers)?;
    Ok(answers[0])
}

fn commit(cells: &mut [Cell; 3], agent: u8, wish: u8, asked: u64) -> Result<(), String> {
    let [one, two, three] = cells;
    let answers =
        [Plain::commit(one, agent, wish, asked), Tuned::commit(two, agent, wish, asked), Proved::commit(three, agent, wish, asked)];
    same(&format!("answers {answers:x?} of a commit of {asked:x} of agent {agent} with wish {wish}"), answers)?;
    same(&format!("cells after a commit of {asked:x} of agent {agent} with wish {wish}, answered {:x}", answers[0]), *cells)
}

/// An ask, a commit of a number that is not its one, and mostly a commit of it.
fn ask_and_commit(numbers: &mut Random, cells: &mut [Cell; 3], agent: u8, wish: u8) -> Result<(), String> {
    let asked = ask(&cells[0], agent, wish)?;
    commit(cells, agent, wish, asked ^ 1 << numbers.below(64))?;
    if numbers.below(4) != 0 {
        commit(cells, agent, wish, asked)?;
    }
    Ok(())
}

fn touch(cells: &mut [Cell; 3], place: u8, number: u32) -> Result<(), String> {
    let [one, two, three] = cells;
    let answers = [Plain::touch(one, place, number), Tuned::touch(two, place, number), Proved::touch(three, place, number)];
    same(&format!("answers {answers:x?} of {number} touches of place {place}"), answers)?;
    same(&format!("cells after {number} touches of place {place}, answered {:x}", answers[0]), *cells)?;
    let [one, two, three] = cells;
    same("answers of a place's touches", [Plain::touches(one, place), Tuned::touches(two, place), Proved::touches(three, place)])
}

fn nearest(cell: &Cell, place: u8, name: u16) -> Result<(), String> {
    let answers = [Plain::nearest(cell, place, name), Tuned::nearest(cell, place, name), Proved::nearest(cell, place, name)];
    same(&format!("answers {answers:x?} for the nearest {name} around place {place}"), answers)
}

fn common(cell: &Cell, place: u8, other: u8) -> Result<(), String> {
    let answers = [Plain::common(cell, place, other), Tuned::common(cell, place, other), Proved::common(cell, place, other)];
    same(&format!("answers {answers:x?} for what holds places {place} and {other}"), answers)
}

/// Where places are, in use or not, with a name of some place or 0.
fn questions(numbers: &mut Random, cell: &Cell) -> Result<usize, String> {
    for _ in 0..20 {
        let [place, other] = [(); 2].map(|()| numbers.below(66) as u8);
        nearest(cell, place, cell.places[other as usize % 64].name.name)?;
        common(cell, place, other)?;
    }
    Ok(40)
}

/// A load of a file into a bare floor by each; answers the cells.
fn load(file: &[u8]) -> Result<[Cell; 3], String> {
    let mut cells = [Cell::BARE; 3];
    let [one, two, three] = &mut cells;
    let answers = [Plain::load(one, file), Tuned::load(two, file), Proved::load(three, file)];
    same(&format!("answers {answers:x?} of a load"), answers)?;
    same("loaded cells", cells).map(|_| cells)
}

/// A reading of a text into a bare floor by each.
fn read(text: &[u8]) -> Result<(), String> {
    let mut cells = [Cell::BARE; 3];
    let [one, two, three] = &mut cells;
    let answers = [Plain::read(one, text), Tuned::read(two, text), Proved::read(three, text)];
    same(&format!("answers {answers:x?} of a reading of {}", text.escape_ascii()), answers)?;
    same(&format!("cells read from {}", text.escape_ascii()), cells)
}

/// The listing of a cell, whole and damaged; of an unsound one there is none.
fn reads(numbers: &mut Random, cell: &Cell) -> Result<usize, String> {
    let mut text = vec![0; LISTING_LONGEST];
    let length = (Tuned::list(cell, &mut text) >> 8) as usize;
    text.truncate(length);
    if text.is_empty() {
        return Ok(0);
    }
    read(&text)?;
    for _ in 0..8 {
        read(&texts::damaged(numbers, &text))?;
    }
    read(&texts::more(numbers, &text))?;
    Ok(10)
}

fn list(cell: &Cell, room: usize) -> Result<(), String> {
    let mut texts = [vec![b'#'; room], vec![b'#'; room], vec![b'#'; room]];
    let [one, two, three] = &mut texts;
    same("answers of a listing", [Plain::list(cell, one), Tuned::list(cell, two), Proved::list(cell, three)])?;
    same("listings", texts)
}

/// Listings into rooms of all sizes that matter: enough for every listing, about as long as this one, and none.
fn lists(cell: &Cell) -> Result<usize, String> {
    let length = (Tuned::list(cell, &mut [0; LISTING_LONGEST]) >> 8) as usize;
    let rooms = [LISTING_LONGEST + 1, LISTING_LONGEST, LISTING_LONGEST - 1, length + 1, length, length.saturating_sub(1), 0];
    rooms.into_iter().try_for_each(|room| list(cell, room))?;
    Ok(rooms.len())
}

fn asks(cell: &Cell) -> Result<(), String> {
    same("answers of a check", [Plain::check(cell), Tuned::check(cell), Proved::check(cell)])?;
    same("answers whether all are at rest", [Plain::idle(cell), Tuned::idle(cell), Proved::idle(cell)])?;
    let ceilings = [Plain::ceiling(cell), Tuned::ceiling(cell), Proved::ceiling(cell)];
    same(&format!("answers {ceilings:x?} how many calls can change the cell"), ceilings)
}

/// A cell at random and some calls on it; one that is damaged has bytes changed on the way, until a call answers 10.
fn one_random(numbers: &mut Random, damaged: bool) -> Result<usize, String> {
    let places = if numbers.below(3) == 0 { 60 + numbers.below(4) } else { numbers.below(64) };
    let (agents, actions) = (numbers.below(65), numbers.below(17));
    let names = 1 + numbers.below(6);
    let mut sketch = random(numbers, places, agents, actions, names, 6);
    sketch.touches = (0..=places).filter(|_| numbers.below(3) == 0).map(|place| (place as u8, place as u32 * 67_000_000)).collect();
    let mut file = renumbered(numbers, sketch.file());
    if numbers.below(2) == 0 {
        file = keyed(numbers, &file, names);
    }
    if numbers.below(4) != 0 {
        releasing(numbers, &mut file);
    }
    if numbers.below(2) == 0 {
        more_digits(&mut file);
    }
    let mut cells = load(&file)?;
    let audited = trails::audits(numbers, &file)?;
    let (mut touched, mut listed, mut asked) = (0, 0, 0);
    for i in 0..300 {
        if numbers.below(10) == 0 {
            touched += 1;
            touch(&mut cells, numbers.below(66) as u8, numbers.below(1 << 32) as u32)?;
        }
        if damaged && numbers.below(60) == 0 {
            damage(numbers, &mut cells);
        }
        let agent = if numbers.below(40) == 0 { numbers.below(256) } else { numbers.below(agents.max(1)) };
        if numbers.below(4) == 0 {
            asked += 1;
            let wish = numbers.below(70) as u8;
            ask_and_commit(numbers, &mut cells, agent as u8, wish)?;
        }
        step(&mut cells, agent as u8, numbers.below(70) as u8)?;
        if i % 50 == 0 {
            asks(&cells[0])?;
            listed += lists(&cells[0])?;
            listed += reads(numbers, &cells[0])?;
            listed += questions(numbers, &cells[0])?;
        }
    }
    let at = numbers.below(file.len());
    file[at] = numbers.below(256) as u8;
    load(&file)?;
    Ok(300 + 2 * touched + 2 * asked + listed + 6 * 3 + 2 + audited)
}

/// The touches of a place that a test looks at: at the most that is sound, past it, and so many that a sum of two wraps.
fn many_touches(numbers: &mut Random, cell: &Cell) -> u64 {
    let others: u128 = members(cell.used).map(|q| cell.touches[q as usize] as u128).sum();
    let left = MOST_TOUCHES.saturating_sub(others.min(MOST_TOUCHES as u128) as u64);
    numbers.one_of(&[0, left, left + 1, MOST_TOUCHES, MOST_TOUCHES + 1, 1 << 63, u64::MAX])
}

/// One byte, one count or one key of all cells becomes another, mostly one that a test looks at, or two numbers in the row change places.
fn damage(numbers: &mut Random, cells: &mut [Cell; 3]) {
    let (i, value) = (numbers.below(64), [numbers.below(10), numbers.below(66), numbers.below(256)][numbers.below(3)]);
    let field = numbers.below(14);
    let other = numbers.below(64);
    let touches = many_touches(numbers, &cells[0]);
    for cell in cells {
        match field {
            10 => cell.touches[i] = touches,
            11 => cell.order[i] = value as u8,
            12 => cell.order.swap(i, other),
            13 => {
                let Name { name, entering, exiting, opening } = &mut cell.places[i % 8].name;
                *[name, entering, exiting, opening][other % 4] = value as u16;
            }
            _ => {}
        }
        let (place, agent) = (&mut cell.places[i], &mut cell.agents[i]);
        let byte = match field {
            0 => &mut place.parent,
            1 => &mut place.way,
            2 => &mut cell.locks[i],
            3 => &mut agent.home,
            4 => &mut agent.stage,
            5 => &mut agent.remembered,
            6 => &mut agent.chosen,
            7 => &mut agent.next,
            8 => &mut agent.count,
            10.. => continue,
            _ => &mut agent.actions[i % 16].kind,
        };
        *byte = value as u8;
    }
}
