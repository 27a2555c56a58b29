//! What a call of the proved keeper costs beside two Rust keepers with the same tests, a plain and a tuned one, in one process.
//!
//! `bench [--quick] [NAME]` prints the table, of the workloads whose names contain NAME. `--sweep` prints the cost of four
//! calls against the size of the cell, as CSV. `--words` prints what the step calls answer. `--count` makes one lap of each for the script `instructions`.

mod card;
mod cell;
mod cells;
mod compare;
mod files;
mod jobs;
mod keeper;
mod measure;
mod plain;
mod rows;
mod sweep;
mod texts;
mod trails;
mod tuned;
mod walk;

use jobs::{Goal, Job, Room, Workload};
use keeper::{Keeper, Proved};
use measure::{measure, Pace};
use plain::Plain;
use rows::workloads;
use sweep::sweep;
use tuned::Tuned;

fn main() {
    let (options, names): (Vec<String>, Vec<String>) = std::env::args().skip(1).partition(|word| word.starts_with("--"));
    let option = |name: &str| options.iter().any(|word| word == name);
    let pace = if option("--quick") { Pace::QUICK } else { Pace::CAREFUL };
    let mut workloads = if option("--sweep") { sweep() } else { workloads() };
    workloads.retain(|workload| names.iter().all(|name| workload.name.contains(name.as_str())));
    if option("--count") {
        return count(&workloads);
    }
    match compare::compare(&workloads, pace.random_cells) {
        Ok(calls) => eprintln!("the peers and the keeper agree on {calls} calls"),
        Err(what) => {
            eprintln!("the peers and the keeper differ: {what}");
            std::process::exit(1);
        }
    }
    if option("--words") {
        words(&workloads);
    } else if option("--sweep") {
        csv(&workloads, &pace);
    } else {
        table(&workloads, &pace);
    }
}

/// The table: each workload with the time of a call, and its goal.
fn table(workloads: &[Workload], pace: &Pace) {
    println!("{:<28}{:>12}{:>12}{:>12}{:>9}{:>9}  goal", "", "plain ns", "tuned ns", "keeper ns", "k/plain", "k/tuned");
    for workload in workloads {
        let cost = measure(&workload.job, pace);
        let own = workload.job.is_own_of_plain();
        let if_own = |value: f64, digits: usize| if own { format!("{value:.digits$}") } else { String::new() };
        let (plain, ratio) = (if_own(cost.plain, 1), if_own(cost.keeper_to_plain, 2));
        print!("{:<28}{plain:>12}{:>12.1}{:>12.1}{ratio:>9}{:>9.2}", workload.name, cost.tuned, cost.keeper, cost.keeper_to_tuned);
        match workload.goal {
            None => println!(),
            Some(Goal::Tuned(goal)) => println!("  {goal:.2}, {}", verdict(cost.keeper_to_tuned, goal)),
            Some(Goal::Step(goal)) => println!("  {goal:.2} of step"),
        }
    }
}

/// Whether a ratio is within a goal; it is judged as it is printed, with two digits.
fn verdict(ratio: f64, goal: f64) -> &'static str {
    if (ratio * 100.0).round() / 100.0 <= goal {
        "met"
    } else {
        "missed"
    }
}

/// The sweep as CSV.
fn csv(workloads: &[Workload], pace: &Pace) {
    println!("call,series,places,agents,plain,tuned,keeper");
    for workload in workloads {
        let cost = measure(&workload.job, pace);
        println!("{},{:.1},{:.1},{:.1}", workload.name, cost.plain, cost.tuned, cost.keeper);
    }
}

/// How often each word is answered in a lap of the step workloads, and the places in use before and after.
fn words(workloads: &[Workload]) {
    const WORDS: [&str; 11] = ["looked", "took", "held", "back", "slept", "left", "came", "opened", "put", "asleep", "done"];
    for workload in workloads {
        let Job::Step { start, order } = &workload.job else { continue };
        let mut cell = **start;
        let (mut counts, mut refused) = ([0; 11], 0);
        for &(agent, wish) in order {
            let answer = Tuned::step(&mut cell, agent, wish);
            if answer & 255 == 0 {
                counts[(answer >> 8 & 255) as usize] += 1;
            } else {
                refused += 1;
            }
        }
        let said: Vec<String> = WORDS.iter().zip(counts).filter(|(_, n)| *n > 0).map(|(word, n)| format!("{word} {n}")).collect();
        let (before, after) = (start.used.count_ones() - 1, cell.used.count_ones() - 1);
        println!("{}: {} calls, refused {refused}, {}; places {before} to {after}", workload.name, order.len(), said.join(", "));
    }
}

/// One lap of each workload by each keeper, with a line that says which.
fn count(workloads: &[Workload]) {
    for workload in workloads {
        for (side, lap) in [("plain", Job::lap::<Plain> as Lap), ("tuned", Job::lap::<Tuned>), ("keeper", Job::lap::<Proved>)] {
            if side == "plain" && !workload.job.is_own_of_plain() {
                continue;
            }
            let mut room = Room::new();
            lap(&workload.job, &mut room);
            measured_lap(lap, &workload.job, &mut room);
            println!("{}\t{side}\t{}", workload.name, workload.job.calls());
        }
    }
}

type Lap = fn(&Job, &mut Room) -> u64;

/// What the script `instructions` counts; it finds the function by its name.
#[no_mangle]
#[inline(never)]
fn measured_lap(lap: Lap, job: &Job, room: &mut Room) -> u64 {
    std::hint::black_box(lap(job, room))
}
