//! Trails that are checked: of a typical cell and of a full one in which every action is made; and trails of random cells, on which the keepers are compared.

use crate::cell::{members, Cell, LISTING_LONGEST};
use crate::cells::{enter, exit, open, release, typical, Random, Sketch};
use crate::compare::same;
use crate::jobs::{Goal, Job, Workload};
use crate::keeper::{Keeper, Proved};
use crate::plain::Plain;
use crate::tuned::Tuned;

/// A file, a trail from it and the listing that it leads to.
pub struct Claim {
    pub file: Vec<u8>,
    pub trail: Vec<u8>,
    pub listing: Vec<u8>,
}

/// The megabyte that a long trail has.
const MEGABYTE: usize = 1 << 20;

/// A full cell in which all 1,024 actions can be made: a bonder (20), a carrier (9), 61 holders (30) whose agents go into the bonder and out
/// of it, eight times, and three agents on the floor that open the carrier and put out an empty one, eight times.
fn moving() -> Sketch {
    let places = [(0, 20), (0, 9)].into_iter().chain((0..61).map(|_| (0, 30))).collect();
    let holders = (3..64).map(|holder| (holder, [enter(20), exit(20)].repeat(8)));
    let others = (0..3).map(|_| (0, [open(9), release(9)].repeat(8)));
    Sketch { places, agents: holders.chain(others).collect(), touches: vec![] }
}

/// The trail of a run of this cell, to rest or so many calls: as a host keeps it.
fn of_run(numbers: &mut Random, file: Vec<u8>, calls: usize) -> Claim {
    let mut cell = Cell::BARE;
    assert_eq!(Tuned::load(&mut cell, &file), 0, "the file is accepted");
    let agents: Vec<u8> = members(cell.given).collect();
    let mut trail = Vec::new();
    for _ in 0..if agents.is_empty() { 0 } else { calls } {
        let (agent, wish) = (numbers.one_of(&agents), numbers.below(80) as u8);
        let asked = Tuned::ask(&cell, agent, wish);
        Tuned::step(&mut cell, agent, wish);
        let mut room = [0; 2];
        let written = (Tuned::trail(agent, asked, &mut room) >> 8) as usize;
        trail.extend(&room[..written]);
    }
    let mut listing = vec![0; LISTING_LONGEST];
    let length = (Tuned::list(&cell, &mut listing) >> 8) as usize;
    listing.truncate(length);
    Claim { file, trail, listing }
}

/// All moves of the full cell: the holders one after another into the bonder, and one after another out of it, with the agents on the floor between.
fn of_full() -> Claim {
    let mut trail = Vec::new();
    for _ in 0..8 {
        (0..61).for_each(|agent| trail.extend([agent, 1]));
        (0..61).for_each(|agent| trail.extend([agent, 255]));
        (61..64).for_each(|agent| trail.extend([agent, 2, agent, 255]));
    }
    let parts = ["20[]".to_string()].into_iter().chain((0..61).map(|_| "30[]".to_string())).chain(["9[]".to_string()]);
    Claim { file: moving().file(), trail, listing: parts.collect::<Vec<_>>().join(" | ").into_bytes() }
}

/// The rows of checks, with this goal: a whole check; of a trail of a megabyte, which is denied after 1,024 moves; and what is written of asks.
pub fn workloads(goal: Option<Goal>) -> Vec<Workload> {
    let row = |name: &str, claim: Claim| Workload { name: name.to_string(), goal, job: Job::Audit { claim } };
    let mut long = of_full();
    long.trail.resize(MEGABYTE, 0);
    let asks = (0..400).map(|i| (i as u8 % 64, (i % 11) << 8 | (i % 64) << 24)).collect();
    vec![
        row("audit, typical", of_run(&mut Random(41), typical().file(), 4_000)),
        row("audit, full", of_full()),
        row("audit, a megabyte", long),
        Workload { name: "trail, of asks".to_string(), goal: None, job: Job::Trail { asks } },
    ]
}

/// An audit by each.
pub fn audit(claim: &Claim) -> Result<(), String> {
    let Claim { file, trail, listing } = claim;
    let answers = [Plain::audit(file, trail, listing), Tuned::audit(file, trail, listing), Proved::audit(file, trail, listing)];
    same(&format!("answers {answers:x?} of an audit of a trail of {} bytes", trail.len()), answers)
}

/// What is written of an ask by each, into rooms of several sizes.
pub fn trail(agent: u8, asked: u64) -> Result<(), String> {
    for size in 0..4 {
        let mut rooms = [[b'#'; 4]; 3];
        let [one, two, three] = &mut rooms;
        let (one, two, three) = (&mut one[..size], &mut two[..size], &mut three[..size]);
        let answers = [Plain::trail(agent, asked, one), Tuned::trail(agent, asked, two), Proved::trail(agent, asked, three)];
        same(&format!("answers {answers:x?} of a trail's bytes of {asked:x}"), answers)?;
        same(&format!("bytes of a trail of {asked:x}"), rooms)?;
    }
    Ok(())
}

/// The trail of a random run from this file: whole, with bytes changed, moves swapped, cut, and with another listing. It must be upheld as it is.
pub fn audits(numbers: &mut Random, file: &[u8]) -> Result<usize, String> {
    let mut claim = of_run(numbers, file.to_vec(), 300);
    if Tuned::audit(&claim.file, &claim.trail, &claim.listing) != 0 {
        return Err("the trail of a run is not upheld".to_string());
    }
    audit(&claim)?;
    let whole = claim.trail.clone();
    for _ in 0..12 {
        claim.trail.clone_from(&whole);
        let at = numbers.below(whole.len().max(1));
        match numbers.below(6) {
            0 => claim.trail.truncate(at),
            1 => claim.trail.push(numbers.below(64) as u8),
            2 => claim.trail.extend([numbers.below(64) as u8, numbers.one_of(&[255, 1, 2, 3])]),
            _ if whole.len() < 4 => claim.trail.extend([0, 255, 1, 255]),
            3 => claim.trail.swap(at, numbers.below(whole.len())),
            4 => (0..2).for_each(|byte| claim.trail.swap(at / 2 * 2 + byte, byte)),
            _ => claim.trail[at] = numbers.one_of(&[0, 1, 2, 255, 63, 64]),
        }
        audit(&claim)?;
    }
    claim.trail = whole;
    claim.listing.pop();
    audit(&claim)?;
    trail(numbers.below(256) as u8, (numbers.below(16) << 8 | numbers.below(256) << 24) as u64)?;
    Ok(14 + 4)
}
