//! Steps: made at once, or asked for and then committed.

use super::Cell;
use crate::answer::Stepped;
use crate::asked::Asked;
use crate::refusal::{accepted, Refused};

impl Cell {
    /// One lock step of an agent. `wish` is the number of the place that an enter or open should choose where several qualify. It counts
    /// in the call in which the agent, holding its first lock, chooses. A wish for a place that does not qualify, or for none, such as 255,
    /// is passed over, and the qualifying place is chosen that has been under its parent longest: first in, first served. Loaded places count in
    /// file order, or in that of the text; a place that comes or is put is the latest, and so are those that an opening frees, in the order in which they stood. Which places
    /// qualify, their keys say ([`lent::Name`](crate::lent::Name)).
    ///
    /// Place numbers are given again: an opening frees that of the opened place ([`Word::Opened`](crate::Word::Opened)), and a release puts its
    /// place under the smallest number that is unused ([`Word::Put`](crate::Word::Put)). A host that keeps something by place number forgets it at
    /// each of the first, and learns the number at each of the second: it is the lowest bit of `lent().used` that is 0 before the step.
    ///
    /// ```
    /// use keeper::{Cell, Word};
    ///
    /// // A semaphore: agents 0 and 1 acquire carrier 9, place 1, by opening it, and release it by putting out an empty one.
    /// let mut cell = Cell::read("9[] | open 9.release 9 | open 9.release 9")?;
    /// while cell.step(0, 255)?.word != Word::Opened {}
    /// while cell.step(1, 255)?.word != Word::Slept {}
    /// let number = cell.lent().used.trailing_ones();
    /// assert_eq!(number, 1, "the number that the opening freed");
    /// let put = loop {
    ///     let stepped = cell.step(0, 255)?;
    ///     if stepped.word == Word::Put {
    ///         break stepped;
    ///     }
    /// };
    /// assert_eq!(put.woken, 1, "agent 1 looks for the carrier again");
    /// assert_eq!((cell.lent().places[1].name.name, cell.touches(1)?), (9, 0));
    /// # Ok::<(), keeper::Refused>(())
    /// ```
    ///
    /// # Errors
    ///
    /// Refused with 10 where the table is unsound, else with 11 where no such agent is in the cell; the cell is then as it was.
    pub fn step(&mut self, agent: u8, wish: u8) -> Result<Stepped, Refused> {
        let answer = self.lent.step(agent, wish);
        accepted(answer)?;
        Ok(Stepped::of(answer))
    }

    /// What a step of this agent with this wish would answer, and which place it would choose. No step is made. It is for a host that has
    /// something to do before the step, such as to park a gripper before the place under it leaves; [`Cell::commit`] then makes the step, if it
    /// is still the one that was told.
    ///
    /// ```
    /// use keeper::{Asked, Cell, Refusal, Word};
    ///
    /// // Agent 0 takes holder 30, place 1, into bonder 20, place 2; agent 1 takes magazine 40, place 3, into it.
    /// let mut cell = Cell::read("30[enter 20] | 20[] | 40[enter 20]")?;
    /// let mut parked = Vec::new();
    /// while !cell.idle()? {
    ///     let asked = cell.ask(0, 255)?;
    ///     if asked.word() == Word::Left {
    ///         // the gripper is parked before the holder leaves for the bonder
    ///         assert_eq!(asked.chosen(), Some(2));
    ///         parked.push(cell.lent().agents[0].home);
    ///     }
    ///     let stepped = cell.commit(asked)?;
    ///     assert_eq!((stepped.word, stepped.woken), (asked.word(), asked.woken()));
    ///     if stepped.word == Word::Done {
    ///         cell.step(1, 255)?;
    ///     }
    /// }
    /// assert_eq!(parked, [1]);
    ///
    /// // Another agent has locked the floor since the ask: the commit is refused, and the host asks again.
    /// let mut cell = Cell::read("30[enter 20] | 20[] | 40[enter 20]")?;
    /// cell.step(0, 255)?;
    /// cell.step(1, 255)?;
    /// let asked = cell.ask(0, 255)?;
    /// assert_eq!(asked, Asked::new(0, 255, Word::Took, 0, None));
    /// cell.step(1, 255)?;
    /// assert_eq!(cell.commit(asked).unwrap_err().refusal, Refusal::AnswerDiffers);
    /// assert_eq!(cell.ask(0, 255)?.word(), Word::Held);
    /// # Ok::<(), keeper::Refused>(())
    /// ```
    ///
    /// # Errors
    ///
    /// Refused with 10 where the table is unsound, else with 11 where no such agent is in the cell.
    pub fn ask(&self, agent: u8, wish: u8) -> Result<Asked, Refused> {
        let answer = self.lent.ask(agent, wish);
        accepted(answer)?;
        Ok(Asked::of(agent, wish, answer))
    }

    /// The step that was asked for, if it would still answer what the ask told: the same word, the same number woken and the same place. Then it is
    /// [`Cell::step`] with the agent and the wish of the ask. A commit right after its ask is always that step; one of [`Word::Held`](crate::Word::Held),
    /// [`Word::Asleep`](crate::Word::Asleep) or [`Word::Done`](crate::Word::Done) goes through and changes nothing; and what happened since the ask
    /// does not matter where the answer is still the same.
    ///
    /// # Errors
    ///
    /// Refused with 10 where the table is unsound, else with 11 where no such agent is in the cell, else with 18 where the step would answer
    /// otherwise; the cell is then as it was.
    pub fn commit(&mut self, asked: Asked) -> Result<Stepped, Refused> {
        let answer = self.lent.commit(asked.agent(), asked.wish(), asked.number());
        accepted(answer)?;
        Ok(Stepped::of(answer))
    }
}
