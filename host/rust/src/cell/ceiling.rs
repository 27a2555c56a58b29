//! The ceiling: how many step calls can still change a cell.

use super::Cell;
use crate::refusal::{accepted, Refused};

impl Cell {
    /// How many step calls can still change the cell, at most. No order churns forever: of all the calls of [`Cell::step`] from here on, with any
    /// agents and wishes in any order, and of [`Cell::commit`], no more than this number change the cell. Every other one is refused or answers
    /// [`Word::Held`](crate::Word::Held), [`Word::Asleep`](crate::Word::Asleep) or [`Word::Done`](crate::Word::Done). Touch calls may come between
    /// and count for nothing here.
    ///
    /// For a dispatcher it says when waiting may stop. From a load on, one that gives every agent a turn, round after round, has all of them asleep
    /// or done after so many rounds at the latest, since in each round before that some step changes the cell. Mostly rest comes far sooner, and
    /// [`Cell::idle`] tells when.
    ///
    /// With G agents in the cell, done ones too, and M the sum of 2 for each unused action and 1 for each agent on its way (stages 4 to 6), it is
    /// 5 × G × (M + 1) + M. So of a cell that was just loaded or read, with A actions in all, it is 5 × G × (2 × A + 1) + 2 × A: 657,728 of the
    /// fullest cell, and 0 exactly where there are no agents. A step or commit that answers left or came lowers it by 5 × G + 1, one that answers
    /// opened or put by twice that, and of the other calls only [`Cell::reload`] and [`Cell::reread`] change it. It is proved (crate `ceiling`); it
    /// is a ceiling and no forecast.
    ///
    /// ```
    /// use keeper::{Cell, Word};
    ///
    /// // Two agents with one action each.
    /// let mut cell = Cell::read("7[enter 9] | 9[exit 7]")?;
    /// let most = cell.ceiling()?;
    /// assert_eq!(most, 54);
    /// let mut changes = 0;
    /// while !cell.idle()? {
    ///     for agent in [0, 1] {
    ///         let word = cell.step(agent, 255)?.word;
    ///         changes += u64::from(!matches!(word, Word::Held | Word::Asleep | Word::Done));
    ///     }
    /// }
    /// assert!(0 < changes && changes <= most);
    /// # Ok::<(), keeper::Refused>(())
    /// ```
    ///
    /// # Errors
    ///
    /// Refused with 10 where the table is unsound.
    pub fn ceiling(&self) -> Result<u64, Refused> {
        let answer = self.lent.ceiling();
        accepted(answer)?;
        Ok(answer >> 8)
    }
}
