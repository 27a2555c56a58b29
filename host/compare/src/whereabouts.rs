//! Where a place is: the two questions of document 02, W10, asked of both, and the part of a session that asks them of every place.

use crate::answer;
use crate::bench;
use crate::call::Call;
use crate::layouts;
use crate::orders::any_place;
use crate::pair::{same, Pair};
use crate::random::Random;
use crate::rounds::{Outcome, Session};
use model::{common, nearest, Cell, Place, UNSOUND};
use std::collections::BTreeSet;
use std::iter::successors;

impl Pair {
    /// "the nearest enclosing place of a given name": refused with 10 on an unsound table, else as the model says; it changes nothing.
    pub fn nearest(&mut self, place: u8, name: u16) -> Result<(), String> {
        let before = self.lent.clone();
        let found = self.cell.as_ref().ok_or(UNSOUND).and_then(|cell| nearest(cell, place, name));
        self.counts.nearest += 1;
        self.counts.nowhere += (found == Ok(None)) as u64;
        self.seen(place, found);
        let what = format!("nearest of place {place}, name {name}");
        same(&what, self.lent.nearest(place, name), answer::of_found(found), answer::found_text)?;
        self.unchanged("nearest", before.bytes())
    }

    /// "the innermost place that holds or is both of two given places": refused with 10 on an unsound table, else as the model says; it changes
    /// nothing.
    pub fn common(&mut self, place: u8, other: u8) -> Result<(), String> {
        let before = self.lent.clone();
        let found = self.cell.as_ref().ok_or(UNSOUND).and_then(|cell| common(cell, place, other)).map(Some);
        self.counts.common += 1;
        self.counts.at_the_floor += (found == Ok(Some(0))) as u64;
        self.seen(place, found);
        let what = format!("common of places {place} and {other}");
        same(&what, self.lent.common(place, other), answer::of_found(found), answer::found_text)?;
        self.unchanged("common", before.bytes())
    }

    /// Counts the refusal of a question, or that something was on its way between the place asked about and the floor.
    fn seen(&mut self, place: u8, found: Result<Option<u8>, u8>) {
        match (found, &self.cell) {
            (Err(refused), _) => *self.counts.questions_refused.entry(refused).or_default() += 1,
            (Ok(_), Some(cell)) => self.counts.by_way += on_its_way(cell, place) as u64,
            (Ok(_), None) => {}
        }
    }

    /// Both questions of every place in use, some that are not, and some above 63: with every name and key of a place and names that there
    /// are none of, and with every other place.
    pub fn everywhere(&mut self) -> Result<(), String> {
        let (places, names) = asked_about(self.cell.as_ref());
        for &place in &places {
            names.iter().try_for_each(|&name| self.nearest(place, name))?;
            places.iter().try_for_each(|&other| self.common(place, other))?;
        }
        Ok(())
    }
}

/// Whether a place, or one that it stands in, is on its way.
fn on_its_way(cell: &Cell, place: u8) -> bool {
    let around = |&number: &u8| cell.places.get(&number).and_then(Place::around);
    successors(Some(place), around).any(|number| cell.places.get(&number).is_some_and(|place| place.on_its_way_to().is_some()))
}

/// The places and names of all questions that are worth asking of a cell; of an unsound table there is nothing to choose by.
fn asked_about(cell: Option<&Cell>) -> (BTreeSet<u8>, BTreeSet<u16>) {
    let (mut places, mut names) = (BTreeSet::from([0, 64, 255]), BTreeSet::from([0, 1, 65_535]));
    let Some(cell) = cell else { return (places, names) };
    let unused = |number: &u8| !cell.places.contains_key(number);
    places.extend((0..64).find(unused).into_iter().chain((0..64).rev().find(unused)));
    places.extend(cell.places.keys());
    names.extend(cell.places.values().flat_map(|place| place.keys.numbers().into_iter().chain([place.name])));
    (places, names)
}

/// A question on a cell: mostly of places in use, with the name or a key of a place; now and then all there are.
pub fn question(random: &mut Random, cell: &Cell) -> Call {
    match random.below(20) {
        0 => Call::Everywhere,
        1..=9 => Call::Nearest { place: any_place(random, cell), name: name(random, cell) },
        _ => Call::Common { place: any_place(random, cell), other: any_place(random, cell) },
    }
}

/// A name to ask for: mostly that of a place in use.
fn name(random: &mut Random, cell: &Cell) -> u16 {
    let places: Vec<&Place> = cell.places.values().collect();
    let place = random.pick(&places);
    match random.below(10) {
        0 => random.next() as u16,
        1..=2 => random.pick(&place.keys.numbers()),
        _ => place.name,
    }
}

impl Session {
    /// Document 01's cases once more, and full cells after some steps of each of their agents: every place is asked about before the first call
    /// and after each.
    pub fn every_place(&mut self) -> Outcome {
        for case in bench::cases().into_iter().filter(|case| model::load(&case.file).is_ok()) {
            self.start_by(Call::Load(case.file))?;
            self.call(Call::Everywhere)?;
            for agent in case.agents {
                self.call(Call::Step { agent, wish: 255 })?;
                self.call(Call::Everywhere)?;
            }
        }
        for file in layouts::full_cells() {
            self.start_by(Call::Load(file))?;
            self.call(Call::Everywhere)?;
            for agent in 0..8 {
                (0..5).try_for_each(|_| self.call(Call::Step { agent, wish: 255 }))?;
                self.call(Call::Everywhere)?;
            }
        }
        Ok(())
    }
}
