//! Calls against the size of the cell: a step that changes nothing, a listing, the reading of that listing, and the check of a trail; against the
//! number of places and against the number of agents in use, with four actions an agent.

use crate::cell::LISTING_LONGEST;
use crate::cells::{self, enter, exit, Random, Sketch};
use crate::jobs::{quiet, Job, Workload};
use crate::keeper::Keeper;
use crate::trails::Claim;
use crate::tuned::Tuned;

/// The cells are the same for step, listing and reading, made at random; each workload is named by its columns in CSV.
pub fn sweep() -> Vec<Workload> {
    let calls: [(&str, fn(usize, usize) -> Job); 4] = [("step", step), ("list", list), ("read", read), ("trail", trail)];
    let places = (0..=63).step_by(3).map(|places| ("places", places, 8));
    let agents = (0..=64).step_by(4).map(|agents| ("agents", 12, agents));
    let sizes: Vec<(&str, usize, usize)> = places.chain(agents).collect();
    let mut workloads = vec![];
    for (call, job) in calls {
        for &(series, places, agents) in sizes.iter().filter(|(_, places, _)| call != "trail" || *places > 1) {
            workloads.push(Workload { name: format!("{call},{series},{places},{agents}"), goal: None, job: job(places, agents) });
        }
    }
    workloads
}

fn sketch(places: usize, agents: usize) -> Sketch {
    cells::random(&mut Random(11), places, agents, 4, 4, 8)
}

fn step(places: usize, agents: usize) -> Job {
    quiet(sketch(places, agents).finding_nothing())
}

fn list(places: usize, agents: usize) -> Job {
    Job::List { cell: Box::new(sketch(places, agents).cell()), room: LISTING_LONGEST }
}

fn read(places: usize, agents: usize) -> Job {
    let mut text = vec![0; LISTING_LONGEST];
    let length = (Tuned::list(&sketch(places, agents).cell(), &mut text) >> 8) as usize;
    text.truncate(length);
    Job::Read { text }
}

/// A bonder (20) and at least one holder (30), whose agents take them into the bonder and out of it, twice, one agent after another.
fn trail(places: usize, agents: usize) -> Job {
    let names: Vec<u16> = (0..places).map(|q| if q == 0 { 20 } else { 30 }).collect();
    let home = |x: usize| (2 + x % (places - 1)) as u8;
    let turns = [enter(20), exit(20)].repeat(2);
    let places = names.iter().map(|&name| (0, name)).collect();
    let file = Sketch { places, agents: (0..agents).map(|x| (home(x), turns.clone())).collect(), touches: vec![] }.file();
    let trail: Vec<u8> = (0..agents as u8).flat_map(|x| [x, 1, x, 255].repeat(2)).collect();
    let listing = names.iter().map(|name| format!("{name}[]")).collect::<Vec<_>>().join(" | ").into_bytes();
    assert_eq!(Tuned::audit(&file, &trail, &listing), 0, "the trail is upheld");
    Job::Audit { claim: Claim { file, trail, listing } }
}
