//! Sessions of cards at random: commands and clears on random and damaged cells, the card's bytes changed at will between them.

use crate::call::Call;
use crate::cards::{example, Act, Card, OWN};
use crate::damage;
use crate::files;
use crate::random::Random;
use keeper::Window;
use model::{ALL_IDLE, REFUSED, STEP, TURNED_AWAY, WOKE};
use std::collections::BTreeMap;
use std::fmt;

/// What was done, to print at the end.
pub struct Done {
    sessions: u64,
    /// Commands by their number.
    commands: [u64; 256],
    /// Steps by what the window's answer says.
    answers: BTreeMap<u8, u64>,
    clears: u64,
    /// Flags that a command set or a clear took away, by their bit; and the line, raised and lowered.
    set: [u64; 8],
    cleared: [u64; 8],
    raised: u64,
    lowered: u64,
    /// Steps after which a flag stayed that they would not have set.
    kept: u64,
    damaged: u64,
    unsound: u64,
}

/// So many sessions; the same seed gives the same ones. Answers what was done, or the smallest example of a difference.
pub fn sessions(seed: u64, count: u64) -> Result<Done, String> {
    let mut done = Done::new();
    for at in 0..count {
        session(&mut Random::new(seed.wrapping_mul(7_000_003).wrapping_add(at)), &mut done)?;
    }
    Ok(done)
}

/// One session: on a random cell, with a window of zeros or of any bytes, to rest or for some turns more; then, mostly, on the cell with some bytes
/// changed.
fn session(random: &mut Random, done: &mut Done) -> Result<(), String> {
    let file = if random.percent(15) { files::crowded(random) } else { files::good(random) };
    let mut acts = Vec::new();
    if random.percent(50) {
        acts.extend((0..8).map(|at| Act::Write { at, byte: random.byte() }));
    }
    let mut card = Card::new(&file)?;
    let mut made = Vec::new();
    done.sessions += 1;
    let mut left = 40 + random.below(300);
    let mut whole = true;
    while left > 0 {
        left -= 1;
        acts.extend(turn(random, &card));
        if card.cell.as_ref().is_some_and(|cell| cell.idle()) {
            left = left.min(8);
        }
        if left == 0 && whole && random.percent(60) {
            (whole, left) = (false, 12);
            let writes = damage::writes(random, card.lent.bytes());
            acts.extend(writes.into_iter().filter_map(|write| match write {
                Call::Write { at, byte } => Some(Act::Damage { at, byte }),
                _ => None,
            }));
            done.damaged += 1;
        }
        for act in acts.drain(..) {
            let before = card.window;
            made.push(act);
            card.act(act).map_err(|_| example(&file, &made))?;
            done.count(act, before, card.window);
        }
        done.unsound += u64::from(card.cell.is_none());
    }
    Ok(())
}

/// The acts of a turn: mostly a step command with its agent and wish; else any other command, a clear, or a byte that the card writes.
fn turn(random: &mut Random, card: &Card) -> Vec<Act> {
    let write = |at, byte| Act::Write { at, byte };
    match random.below(20) {
        0 => vec![write(0, random.byte()), Act::Command],
        1..=3 => vec![Act::Clear { ones: random.pick(&[card.window.flags, 255, 0, 1, 2, 4, 7]) }],
        4 => vec![Act::Clear { ones: random.byte() }],
        5 => vec![write(random.pick(&OWN), random.byte())],
        6 => vec![write(6, random.pick(&[0, 1, 2, 4, 3, 7, 255]))],
        _ => vec![write(0, STEP), write(1, agent(random, card)), write(2, wish(random)), Act::Command],
    }
}

/// Mostly an agent of the cell that is neither asleep nor done, if there is one; now and then any of the cell, or any byte.
fn agent(random: &mut Random, card: &Card) -> u8 {
    let Some(cell) = &card.cell else { return random.byte() % 70 };
    let all: Vec<u8> = cell.agents.keys().copied().collect();
    let awake: Vec<u8> = all.iter().copied().filter(|number| cell.agents[number].stage < 7).collect();
    match random.below(20) {
        0 => random.byte(),
        1..=3 if !all.is_empty() => random.pick(&all),
        _ if !awake.is_empty() => random.pick(&awake),
        _ if !all.is_empty() => random.pick(&all),
        _ => random.byte(),
    }
}

/// A wish: none, a small number, or any.
fn wish(random: &mut Random) -> u8 {
    let (small, any) = (random.below(66) as u8, random.byte());
    random.pick(&[255, 255, small, small, any])
}

impl Done {
    fn new() -> Done {
        let answers = BTreeMap::new();
        let none = [0; 8];
        let (set, cleared) = (none, none);
        Done { sessions: 0, commands: [0; 256], answers, clears: 0, set, cleared, raised: 0, lowered: 0, kept: 0, damaged: 0, unsound: 0 }
    }

    /// Counts an act, told the window before and after it.
    fn count(&mut self, act: Act, before: Window, after: Window) {
        match act {
            Act::Command => {
                self.commands[before.command as usize] += 1;
                if before.command == STEP {
                    *self.answers.entry(after.answer).or_default() += 1;
                    let refused = after.answer >= REFUSED;
                    self.kept += u64::from(before.flags & if refused { WOKE | ALL_IDLE } else { TURNED_AWAY } != 0);
                }
            }
            Act::Clear { .. } => self.clears += 1,
            _ => return,
        }
        for bit in 0..8 {
            self.set[bit] += u64::from((after.flags & !before.flags) >> bit & 1);
            self.cleared[bit] += u64::from((before.flags & !after.flags) >> bit & 1);
        }
        self.raised += u64::from(before.line == 0 && after.line == 1);
        self.lowered += u64::from(before.line == 1 && after.line == 0);
    }

    /// What was done too seldom to say much, told the least number of each; of every command but 1 and of the rare answers, a part of it.
    pub fn too_few(&self, least: u64) -> Vec<String> {
        let answer = |number: u8| self.answers.get(&number).copied().unwrap_or(0);
        let answers = (0..=10).chain([REFUSED + 10, REFUSED + 11]).map(|number| (format!("answer {number}"), answer(number), least));
        let commands = (0..=255).map(|number| (format!("command {number}"), self.commands[number as usize], least / 100));
        let flags = (0..3)
            .flat_map(|bit| [(format!("flag {bit} set"), self.set[bit], least), (format!("flag {bit} cleared"), self.cleared[bit], least)]);
        let lines = [("line raised", self.raised), ("line lowered", self.lowered), ("flags kept", self.kept), ("unsound", self.unsound)];
        let lines = lines.map(|(name, count)| (name.to_string(), count, least));
        let all = answers.chain(commands).chain(flags).chain(lines);
        all.filter(|(_, count, least)| count < least).map(|(name, count, least)| format!("{name}: {count}, not {least}")).collect()
    }
}

impl fmt::Display for Done {
    fn fmt(&self, out: &mut fmt::Formatter<'_>) -> fmt::Result {
        let steps = self.commands[STEP as usize];
        let others: u64 = self.commands.iter().sum::<u64>() - steps;
        writeln!(out, "card sessions   {:>9}   ({} on a cell that was damaged)", self.sessions, self.damaged)?;
        write!(out, "step commands   {steps:>9}   (")?;
        for (number, count) in &self.answers {
            let (name, number) = if *number < REFUSED { ("answer", *number) } else { ("refused", number - REFUSED) };
            write!(out, "{}{count} {name} {number}", if number == 0 { "" } else { ", " })?;
        }
        writeln!(out, ")\nother commands  {others:>9}\nclears          {:>9}", self.clears)?;
        let [woke, rest, refused, ..] = self.set;
        writeln!(out, "flags set       {:>9}   ({woke} woke, {rest} rest, {refused} refused)", woke + rest + refused)?;
        write!(out, "lines raised    {:>9}   ({} lowered)", self.raised, self.lowered)
    }
}
