//! Steps, asks and commits, each by both; and the part of a session that commits numbers which no ask gave.

use crate::answer;
use crate::bench;
use crate::call::Call;
use crate::demands;
use crate::keys;
use crate::pair::{same, Pair};
use crate::rounds::{Outcome, Session};
use crate::rows;
use crate::touches;
use keeper::lent::Lent;
use model::{ask, commit, trailed_step, Asked, Stepped, Word, ANSWER_DIFFERS, NONE_CHOSEN, UNSOUND};

/// What is kept of a cell before a step: its bytes, the places among which the agent would choose, and whether it acts by a key that is not the
/// name.
struct Before {
    lent: Lent,
    several: Option<Vec<u8>>,
    by_key: bool,
}

impl Pair {
    /// A step: refused with 10 on an unsound table, with 11 for no such agent, else as the model says.
    pub fn step(&mut self, agent: u8, wish: u8) -> Result<(), String> {
        let before = self.before(agent, wish);
        let (asked, mut moves) = (self.lent.ask(agent, wish), Vec::new());
        let stepped = match &mut self.cell {
            None => Err(UNSOUND),
            Some(cell) => trailed_step(cell, &mut moves, agent, wish),
        };
        self.counts.steps += 1;
        let answer = self.lent.step(agent, wish);
        same("step", answer, answer::of_step(stepped), answer::step_text)?;
        match stepped {
            Err(_) => {
                self.counts.steps_refused += 1;
                self.unchanged("a refused step", before.lent.bytes())
            }
            Ok(Stepped { word, .. }) => {
                *self.counts.words.entry(word.text()).or_default() += 1;
                self.trailed(agent, asked, &moves)?;
                self.stepped(before, agent, wish, word)
            }
        }
    }

    /// What is kept before a step.
    fn before(&self, agent: u8, wish: u8) -> Before {
        let several = self.cell.as_ref().and_then(|cell| rows::several(cell, agent, wish));
        let by_key = self.cell.as_ref().is_some_and(|cell| keys::by_key(cell, agent));
        Before { lent: self.lent.clone(), several, by_key }
    }

    /// What can be seen after a step; and after a commit that went through, which "is a step call for every statement about cells".
    fn stepped(&mut self, before: Before, agent: u8, wish: u8, word: Word) -> Result<(), String> {
        self.counts.pooled += touches::pooled(before.lent.bytes(), self.lent.bytes())? as u64;
        rows::same(word.text(), self.bytes(), &rows::stepped(before.lent.bytes(), agent, word))?;
        keys::kept(before.lent.bytes(), self.lent.bytes(), agent)?;
        self.seen_of_numbers(before.lent.bytes());
        self.churned(before.lent.bytes(), word)?;
        self.counts.by_key += (before.by_key && matches!(word, Word::Left | Word::Opened)) as u64;
        if let (Word::Took, Some(found), Some(cell)) = (word, before.several, &self.cell) {
            self.counts.choices += 1;
            self.counts.not_lowest += (cell.agents[&agent].chosen != Some(found[0])) as u64;
        }
        if let Some(plain) = &mut self.plain {
            demands::follow(plain, agent, wish, word)?;
        }
        self.agree()
    }

    /// An ask: refused as a step is, else as the model says; it changes nothing. On a copy, a commit of its number is the step; and here, of eight
    /// numbers that differ from it in one byte each, no commit goes through.
    pub fn ask(&mut self, agent: u8, wish: u8) -> Result<(), String> {
        let number = self.asked(agent, wish)?;
        self.at_once(agent, wish, number)?;
        let other = 1 + self.counts.asks % 255;
        (0..8).try_for_each(|at| self.refused_commit(agent, wish, number, number ^ other << (8 * at)))
    }

    /// The same with every number that differs in one byte.
    pub fn invent(&mut self, agent: u8, wish: u8) -> Result<(), String> {
        let number = self.asked(agent, wish)?;
        self.at_once(agent, wish, number)?;
        let mut others = (0..8).flat_map(|at| (1..256u64).map(move |other| number ^ other << (8 * at)));
        others.try_for_each(|other| self.refused_commit(agent, wish, number, other))
    }

    /// The number that an ask gives, which is the model's; it changes nothing.
    fn asked(&mut self, agent: u8, wish: u8) -> Result<u64, String> {
        let before = self.lent.clone();
        let asked = self.cell.as_ref().ok_or(UNSOUND).and_then(|cell| ask(cell, agent, wish));
        self.counts.asks += 1;
        let number = self.lent.ask(agent, wish);
        same("ask", number, answer::of_ask(asked), answer::ask_text)?;
        match asked {
            Err(refused) => *self.counts.asks_refused.entry(refused).or_default() += 1,
            Ok(Asked { chosen: NONE_CHOSEN, .. }) => {}
            Ok(Asked { word, .. }) => *self.counts.told.entry(word.text()).or_default() += 1,
        }
        self.unchanged("an ask", before.bytes())?;
        Ok(number)
    }

    /// A commit with nothing between it and its ask is the step: it answers so, and leaves the same cell. Both are made on copies.
    fn at_once(&self, agent: u8, wish: u8, number: u64) -> Result<(), String> {
        let (mut committed, mut stepped) = (self.lent.clone(), self.lent.clone());
        let answers = [committed.commit(agent, wish, number), stepped.step(agent, wish)];
        if answers[0] != answers[1] {
            let [commit, step] = answers.map(answer::step_text);
            return Err(format!("a commit of {} answers {commit}, the step {step}", answer::ask_text(number)));
        }
        match committed.bytes().iter().zip(stepped.bytes()).position(|(one, other)| one != other) {
            None => Ok(()),
            Some(at) => Err(format!("a commit of {} leaves another byte {at} than the step", answer::ask_text(number))),
        }
    }

    /// A commit of a number that is not the ask's is refused with 18, or as the ask was, and changes nothing.
    fn refused_commit(&mut self, agent: u8, wish: u8, number: u64, other: u64) -> Result<(), String> {
        let before = self.lent.clone();
        let refused = if number & 255 == 0 { ANSWER_DIFFERS as u64 } else { number };
        self.counts.invented += 1;
        self.written(agent, other)?;
        let answer = self.lent.commit(agent, wish, other);
        if answer != refused {
            let answer = answer::step_text(answer);
            return Err(format!(
                "a commit of {other:#x}, where an ask gives {number:#x}, answers {answer} and is not refused with {refused}"
            ));
        }
        self.unchanged("a refused commit", before.bytes())
    }

    /// A commit: refused with 10 on an unsound table, with 11 for no such agent, with 18 if the model's ask would differ from what is handed
    /// back; else it is a step.
    pub fn commit(&mut self, agent: u8, wish: u8, asked: u64) -> Result<(), String> {
        let before = self.before(agent, wish);
        let (word, woken, chosen) = answer::handed_back(asked);
        let mut moves = Vec::new();
        let committed = match &mut self.cell {
            None => Err(UNSOUND),
            Some(cell) => {
                let _ = trailed_step(&mut cell.clone(), &mut moves, agent, wish);
                commit(cell, agent, wish, word, woken, chosen)
            }
        };
        self.counts.commits += 1;
        let answer = self.lent.commit(agent, wish, asked);
        same("commit", answer, answer::of_step(committed), answer::step_text)?;
        match committed {
            Err(refused) => {
                *self.counts.commits_refused.entry(refused).or_default() += 1;
                self.written(agent, asked)?;
                self.unchanged("a refused commit", before.lent.bytes())
            }
            Ok(Stepped { word, .. }) => {
                *self.counts.committed.entry(word.text()).or_default() += 1;
                self.trailed(agent, asked, &moves)?;
                self.stepped(before, agent, wish, word)
            }
        }
    }
}

impl Session {
    /// Document 01's cases once more, by asks and commits: at each call every agent of the case, and one that it has not, is asked with some
    /// wishes, and every number that differs in one byte is committed; then the call itself is committed.
    pub fn every_number(&mut self, wishes: &[u8]) -> Outcome {
        for case in bench::cases().into_iter().filter(|case| model::load(&case.file).is_ok()) {
            self.start_by(Call::Load(case.file))?;
            for &agent in &case.agents {
                let Some(cell) = &self.pair.cell else { break };
                let agents: Vec<u8> = cell.agents.keys().copied().chain([64]).collect();
                let asked = answer::of_ask(ask(cell, agent, 255));
                for (&other, &wish) in agents.iter().flat_map(|other| wishes.iter().map(move |wish| (other, wish))) {
                    self.call(Call::Invent { agent: other, wish })?;
                }
                self.call(Call::Commit { agent, wish: 255, asked })?;
            }
        }
        Ok(())
    }
}
