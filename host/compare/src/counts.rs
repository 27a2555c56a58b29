//! What was done, to print at the end.

use crate::answer::reason_text;
use std::collections::BTreeMap;
use std::fmt;

/// How many of each.
#[derive(Default)]
pub struct Counts {
    pub steps: u64,
    pub steps_refused: u64,
    pub words: BTreeMap<&'static str, u64>,
    pub asks: u64,
    pub asks_refused: BTreeMap<u8, u64>,
    pub told: BTreeMap<&'static str, u64>,
    pub invented: u64,
    pub commits: u64,
    pub committed: BTreeMap<&'static str, u64>,
    pub commits_refused: BTreeMap<u8, u64>,
    pub choices: u64,
    pub not_lowest: u64,
    pub keyed: u64,
    pub by_key: u64,
    pub put: u64,
    pub put_again: u64,
    pub slept_nowhere: u64,
    pub woken_nowhere: u64,
    pub pooled: u64,
    pub touches: u64,
    pub touches_refused: BTreeMap<u8, u64>,
    pub nearest: u64,
    pub nowhere: u64,
    pub common: u64,
    pub at_the_floor: u64,
    pub by_way: u64,
    pub questions_refused: BTreeMap<u8, u64>,
    pub ceilings: u64,
    pub ceilings_refused: u64,
    pub changes: u64,
    /// The calls that changed a cell since its load, and the ceiling there, where they were the largest share of it.
    pub largest: (u64, u64),
    pub moves_kept: u64,
    pub trails_kept: u64,
    pub audits_yes: u64,
    pub audits_no: BTreeMap<&'static str, u64>,
    pub audits_refused: BTreeMap<u8, u64>,
    pub sums: u64,
    pub accepted: u64,
    pub refused: BTreeMap<u8, u64>,
    pub texts: u64,
    pub texts_refused: BTreeMap<u8, u64>,
    pub listings: u64,
    pub read_back: u64,
    pub renumbered: u64,
    pub otherwise: u64,
    pub compared: u64,
    pub alike: u64,
    pub sound: u64,
    pub unsound: u64,
    pub nine_steps: u64,
    pub going_on: u64,
    pub at_rest: u64,
    pub walks: u64,
    pub differences: u64,
}

impl Counts {
    /// How many steps were called and committed, to ask slow questions by turns.
    pub fn turns(&self) -> u64 {
        self.steps + self.commits
    }

    /// Which finding of audits came less often than this, if any: each reason, a yes, and a refused file.
    pub fn too_few_audits(&self, least: u64) -> Option<String> {
        let reasons = (1..=4).map(reason_text).map(|reason| (reason, self.audits_no.get(reason).copied().unwrap_or(0)));
        let refused = self.audits_refused.values().sum();
        let kept = [("kept", self.trails_kept), ("moves kept", self.moves_kept), ("yes", self.audits_yes), ("refused", refused)];
        let found = reasons.chain(kept).find(|(_, count)| *count < least);
        found.map(|(what, count)| format!("of audits there were {count} {what}, fewer than {least}"))
    }

    /// So many calls changed a cell since its load, where the ceiling was this: kept if there was no larger share.
    pub fn share(&mut self, changes: u64, ceiling: u64) {
        if changes * self.largest.1.max(1) > self.largest.0 * ceiling {
            self.largest = (changes, ceiling);
        }
    }
}

impl fmt::Display for Counts {
    fn fmt(&self, out: &mut fmt::Formatter<'_>) -> fmt::Result {
        write!(out, "step calls      {:>9}   ({} refused", self.steps, self.steps_refused)?;
        self.words.iter().try_for_each(|(word, count)| write!(out, ", {count} {word}"))?;
        writeln!(out, ")")?;
        let refused: u64 = self.asks_refused.values().sum();
        write!(out, "asks            {:>9}   ({} refused:", self.asks, refused)?;
        self.asks_refused.iter().try_for_each(|(number, count)| write!(out, " {count} with {number}"))?;
        write!(out, "; a place told")?;
        self.told.iter().try_for_each(|(word, count)| write!(out, ", {count} {word}"))?;
        writeln!(out, ")")?;
        let refused: u64 = self.commits_refused.values().sum();
        write!(out, "commits         {:>9}   ({} refused:", self.commits, refused)?;
        self.commits_refused.iter().try_for_each(|(number, count)| write!(out, " {count} with {number}"))?;
        self.committed.iter().try_for_each(|(word, count)| write!(out, ", {count} {word}"))?;
        writeln!(out, ")")?;
        writeln!(out, "invented numbers {:>8}   (committed and refused)", self.invented)?;
        writeln!(
            out,
            "choices         {:>9}   (among several, without a fitting wish; {} not the lowest number)",
            self.choices, self.not_lowest
        )?;
        writeln!(
            out,
            "places put      {:>9}   ({} under a number that an opening freed; {} slept on no place, {} of those were woken)",
            self.put, self.put_again, self.slept_nowhere, self.woken_nowhere
        )?;
        writeln!(out, "places by kind 6 {:>8}   ({} moves by a key that is not the name)", self.keyed, self.by_key)?;
        let refused: u64 = self.touches_refused.values().sum();
        write!(out, "touch calls     {:>9}   ({} refused:", self.touches, refused)?;
        self.touches_refused.iter().try_for_each(|(number, count)| write!(out, " {count} with {number}"))?;
        writeln!(out, ")")?;
        writeln!(out, "nearest         {:>9}   ({} found none)", self.nearest, self.nowhere)?;
        writeln!(out, "common          {:>9}   ({} the floor)", self.common, self.at_the_floor)?;
        let refused: u64 = self.questions_refused.values().sum();
        write!(
            out,
            "where, in all   {:>9}   ({} with something on its way, {} refused:",
            self.nearest + self.common,
            self.by_way,
            refused
        )?;
        self.questions_refused.iter().try_for_each(|(number, count)| write!(out, " {count} with {number}"))?;
        writeln!(out, ")")?;
        writeln!(out, "ceilings        {:>9}   ({} refused)", self.ceilings, self.ceilings_refused)?;
        let (most, ceiling) = self.largest;
        let share = 100.0 * most as f64 / ceiling.max(1) as f64;
        writeln!(
            out,
            "changing calls  {:>9}   (the largest share of a ceiling since a load: {most} of {ceiling}, {share:.1} %)",
            self.changes
        )?;
        writeln!(
            out,
            "trails kept     {:>9}   (checked with the run's listing; {} moves were written in all runs)",
            self.trails_kept, self.moves_kept
        )?;
        let (denied, refused): (u64, u64) = (self.audits_no.values().sum(), self.audits_refused.values().sum());
        write!(out, "audits          {:>9}   ({} yes, {denied} no:", self.audits_yes + denied + refused, self.audits_yes)?;
        self.audits_no.iter().try_for_each(|(reason, count)| write!(out, " {count} {reason},"))?;
        write!(out, " {refused} refused:")?;
        self.audits_refused.iter().try_for_each(|(number, count)| write!(out, " {count} with {number}"))?;
        writeln!(out, ")")?;
        writeln!(out, "sums of touches {:>9}   ({} openings pooled some)", self.sums, self.pooled)?;
        let refused: u64 = self.refused.values().sum();
        write!(out, "files           {:>9}   ({} accepted, {} refused:", self.accepted + refused, self.accepted, refused)?;
        self.refused.iter().try_for_each(|(number, count)| write!(out, " {count} with {number}"))?;
        writeln!(out, ")")?;
        let refused: u64 = self.texts_refused.values().sum();
        write!(out, "texts           {:>9}   ({} read, {} refused:", self.texts + refused, self.texts, refused)?;
        self.texts_refused.iter().try_for_each(|(number, count)| write!(out, " {count} with {number}"))?;
        writeln!(out, ")")?;
        writeln!(out, "listings        {:>9}   ({} read back and listed again)", self.listings, self.read_back)?;
        writeln!(out, "renumbered cells {:>8}   (listed alike; by number {} of them would not be)", self.renumbered, self.otherwise)?;
        writeln!(out, "layouts compared {:>8}   (after a small change; {} of them alike)", self.compared, self.alike)?;
        writeln!(out, "damaged cells   {:>9}   ({} sound, {} unsound)", self.sound + self.unsound, self.sound, self.unsound)?;
        writeln!(out, "demand 2, moves reached within nine steps       {:>9}", self.nine_steps)?;
        writeln!(out, "demand 3, cells where somebody can go on        {:>9}", self.going_on)?;
        writeln!(out, "demand 3, cells at rest without a permitted move {:>8}", self.at_rest)?;
        writeln!(out, "walks           {:>9}", self.walks)?;
        write!(out, "differences     {:>9}", self.differences)
    }
}
