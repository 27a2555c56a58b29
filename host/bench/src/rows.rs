//! The rows of the table: each call on each cell, with its goal.

use crate::card;
use crate::cell::LISTING_LONGEST;
use crate::cells::{self, Random, Sketch};
use crate::jobs::{asks, busy, commits, quiet, Goal, Job, Workload};
use crate::texts;
use crate::trails;

const EMPTY: Option<Goal> = Some(Goal::Tuned(2.0));
const STEP: Option<Goal> = Some(Goal::Tuned(1.0));
const ASK: Option<Goal> = Some(Goal::Step(1.0));
const COMMIT: Option<Goal> = Some(Goal::Step(1.05));
const COMMAND: Option<Goal> = Some(Goal::Step(1.1));
const LOAD: Option<Goal> = Some(Goal::Tuned(1.5));
const READ: Option<Goal> = Some(Goal::Tuned(1.5));
const LIST: Option<Goal> = Some(Goal::Tuned(1.2));
const AUDIT: Option<Goal> = Some(Goal::Tuned(1.5));
const WALK: Option<Goal> = Some(Goal::Tuned(1.1));

/// All that is measured, in the order of the table.
pub fn workloads() -> Vec<Workload> {
    let boxed = |sketch: &Sketch| Box::new(sketch.cell());
    let load = |sketch: Sketch| Job::Load { file: sketch.file() };
    let read = |text: String| Job::Read { text: text.into_bytes() };
    let list = |sketch: Sketch| Job::List { cell: boxed(&sketch), room: LISTING_LONGEST };
    let check = |sketch: Sketch| Job::Check { cell: boxed(&sketch) };
    let idle = |sketch: Sketch| Job::Idle { cell: boxed(&sketch) };
    let ceiling = |sketch: Sketch| Job::Ceiling { cell: boxed(&sketch) };
    let touch = |sketch: Sketch| Job::Touch { order: cells::touching(&sketch.cell(), 400), start: boxed(&sketch) };
    let nearest = |sketch: Sketch| Job::Nearest { order: cells::named(&sketch.cell(), 400), cell: boxed(&sketch) };
    let common = |sketch: Sketch| Job::Common { order: cells::pairs(&sketch.cell(), 400), cell: boxed(&sketch) };
    let whole = |sketch: Sketch| {
        let mut random = Random(31);
        let agents = sketch.agents.len();
        let order = (0..16_384).flat_map(|_| [random.below(agents) as u8, random.below(80) as u8]).collect();
        Job::Walk { file: sketch.file(), order }
    };
    let of = |name: &str, goal, job| Workload { name: name.to_string(), goal, job };
    let mut rows = vec![
        of("step, no agents", EMPTY, quiet(cells::empty(0))),
        of("step, one agent, done", EMPTY, quiet(cells::empty(1))),
        of("step, typical, at rest", STEP, quiet(cells::typical())),
        of("step, typical, busy", STEP, busy(cells::typical(), 0)),
        of("step, full, at rest", STEP, quiet(cells::full().finding_nothing())),
        of("step, full, busy", STEP, busy(cells::full(), 300)),
        of("step, chain, at rest", STEP, quiet(cells::chain())),
        of("step, chain, busy", STEP, busy(cells::chain(), 0)),
        of("step, semaphores, busy", STEP, busy(cells::semaphores(), 0)),
        of("step, crowded, busy", STEP, busy(cells::crowded(), 300)),
        of("ask, typical, at rest", ASK, asks(quiet(cells::typical()))),
        of("ask, typical, busy", ASK, asks(busy(cells::typical(), 0))),
        of("ask, full, at rest", ASK, asks(quiet(cells::full().finding_nothing()))),
        of("ask, full, busy", ASK, asks(busy(cells::full(), 300))),
        of("commit, typical, at rest", COMMIT, commits(quiet(cells::typical()))),
        of("commit, typical, busy", COMMIT, commits(busy(cells::typical(), 0))),
        of("commit, full, at rest", COMMIT, commits(quiet(cells::full().finding_nothing()))),
        of("commit, full, busy", COMMIT, commits(busy(cells::full(), 300))),
        of("touch, typical", None, touch(cells::typical())),
        of("touch, full", None, touch(cells::full())),
        of("nearest, typical", None, nearest(cells::typical())),
        of("nearest, full", None, nearest(cells::full())),
        of("nearest, chain", None, nearest(cells::chain())),
        of("common, typical", None, common(cells::typical())),
        of("common, full", None, common(cells::full())),
        of("common, chain", None, common(cells::chain())),
        of("check, typical", None, check(cells::typical())),
        of("check, full", None, check(cells::full())),
        of("idle, typical", None, idle(cells::typical())),
        of("idle, full", None, idle(cells::full())),
        of("ceiling, typical", None, ceiling(cells::typical())),
        of("ceiling, full", None, ceiling(cells::full())),
        of("load, worked example", LOAD, load(cells::worked())),
        of("load, typical", LOAD, load(cells::typical())),
        of("load, longest", LOAD, load(cells::longest())),
        of("read, full", READ, read(texts::full())),
        of("read, typical", READ, read(texts::typical())),
        of("read, over-full", READ, read(texts::over_full())),
        of("read, refused at its end", READ, read(texts::refused())),
        of("list, typical", LIST, list(cells::typical())),
        of("list, full", LIST, list(cells::full())),
        of("list, chain", LIST, list(cells::chain())),
        of("list, longest", LIST, list(cells::longest())),
        of("list, equal siblings", LIST, list(cells::equal_siblings())),
        of("list, tree of equals", LIST, list(cells::tree_of_equals())),
        of("list, differ late", LIST, list(cells::differ_late())),
        of("list, all differ late", LIST, list(cells::all_differ_late())),
        of("list, caterpillar", LIST, list(cells::caterpillar())),
        of("list, found by search", LIST, list(cells::found_by_search())),
        of("walk, typical", WALK, whole(cells::typical())),
        of("walk, full", WALK, whole(cells::full())),
        of("a copy of the cell", None, Job::Copy { cell: boxed(&cells::full()) }),
    ];
    rows.extend(trails::workloads(AUDIT));
    rows.extend(card::rows().into_iter().map(|(name, job)| of(name, if name.starts_with("command") { COMMAND } else { None }, job)));
    rows
}
