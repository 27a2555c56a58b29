//! Times: short rounds of the three keepers in turn, so that whatever else the machine does meets all, and the median of the rounds.

use crate::jobs::{Job, Room};
use crate::keeper::{Keeper, Proved};
use crate::plain::Plain;
use crate::tuned::Tuned;
use std::hint::black_box;
use std::time::{Duration, Instant};

/// How long to measure.
pub struct Pace {
    /// For one workload in all.
    time: Duration,
    /// How many random cells are compared before.
    pub random_cells: usize,
}

impl Pace {
    pub const QUICK: Pace = Pace { time: Duration::from_millis(150), random_cells: 100 };
    pub const CAREFUL: Pace = Pace { time: Duration::from_secs(2), random_cells: 2000 };
}

/// A round of each keeper takes this long, or a lap where that is longer.
const ROUND: Duration = Duration::from_micros(200);

/// Medians: nanoseconds a call, and the ratios of neighbouring rounds.
pub struct Cost {
    pub plain: f64,
    pub tuned: f64,
    pub keeper: f64,
    pub keeper_to_plain: f64,
    pub keeper_to_tuned: f64,
}

/// The cost of a job, in at least seven rounds of the plain peer, the keeper and the tuned peer in turn.
pub fn measure(job: &Job, pace: &Pace) -> Cost {
    let mut room = Room::new();
    let mut round = |laps: usize| Times {
        plain: time::<Plain>(job, laps, &mut room),
        keeper: time::<Proved>(job, laps, &mut room),
        tuned: time::<Tuned>(job, laps, &mut room),
    };
    round(1);
    let first = round(1);
    let lap = first.plain.max(first.keeper).max(first.tuned);
    let laps = (ROUND.as_nanos() as f64 / lap).ceil();
    let rounds = (pace.time.as_nanos() as f64 / (3.0 * laps * lap)).ceil().max(7.0);
    let times: Vec<Times> = (0..rounds as usize).map(|_| round(laps as usize)).collect();
    let calls = job.calls() as f64;
    let of = |value: fn(&Times) -> f64| median(times.iter().map(value));
    Cost {
        plain: of(|times| times.plain) / calls,
        tuned: of(|times| times.tuned) / calls,
        keeper: of(|times| times.keeper) / calls,
        keeper_to_plain: of(|times| times.keeper / times.plain),
        keeper_to_tuned: of(|times| times.keeper / times.tuned),
    }
}

/// Nanoseconds a lap in one round.
struct Times {
    plain: f64,
    keeper: f64,
    tuned: f64,
}

/// Nanoseconds a lap.
fn time<K: Keeper>(job: &Job, laps: usize, room: &mut Room) -> f64 {
    let start = Instant::now();
    for _ in 0..laps {
        black_box(black_box(job).lap::<K>(room));
    }
    start.elapsed().as_nanos() as f64 / laps as f64
}

fn median(values: impl Iterator<Item = f64>) -> f64 {
    let mut values: Vec<f64> = values.collect();
    values.sort_by(f64::total_cmp);
    values[values.len() / 2]
}
