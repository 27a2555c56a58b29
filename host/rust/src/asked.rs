//! What an ask tells, to be handed back to a commit.

use crate::answer::{Stepped, Word};
use crate::lent;
use crate::refusal::{accepted, Refused};
use core::fmt;

/// What a step of an agent would answer, and the place that it would choose: [`Cell::ask`](crate::Cell::ask) tells it, and
/// [`Cell::commit`](crate::Cell::commit) takes it back. The library's number is kept in it as it is.
#[derive(Clone, Copy, PartialEq, Eq, Hash)]
pub struct Asked {
    agent: u8,
    wish: u8,
    number: u64,
}

impl Asked {
    /// The chosen place where there is none.
    const NONE_CHOSEN: u8 = 255;

    /// What was asked, with the library's number, which was not refused.
    pub(crate) fn of(agent: u8, wish: u8, number: u64) -> Asked {
        Asked { agent, wish, number }
    }

    /// The library's number.
    pub(crate) fn number(self) -> u64 {
        self.number
    }

    /// The same made by hand, of what a host kept or was told: agent, wish, and the three values that an ask tells. For what no ask of a cell
    /// tells, the commit is refused with [`Refusal::AnswerDiffers`](crate::Refusal::AnswerDiffers). A chosen place of 255 is none.
    pub fn new(agent: u8, wish: u8, word: Word, woken: u8, chosen: Option<u8>) -> Asked {
        let [word, woken, chosen] = [word.number(), woken, chosen.unwrap_or(Asked::NONE_CHOSEN)].map(u64::from);
        Asked { agent, wish, number: word << 8 | woken << 16 | chosen << 24 }
    }

    /// The agent that was asked for.
    pub fn agent(self) -> u8 {
        self.agent
    }

    /// The wish that was asked with.
    pub fn wish(self) -> u8 {
        self.wish
    }

    /// What the agent would do.
    pub fn word(self) -> Word {
        Stepped::of(self.number).word
    }

    /// How many sleeping agents that would wake.
    pub fn woken(self) -> u8 {
        Stepped::of(self.number).woken
    }

    /// The place that an enter would enter or an open would open. It is told where the agent holds its first lock (stage 2) and its action fires,
    /// also with [`Word::Held`], and where it holds both (stage 3) and its action still fires; not for an exit or a release, nor at any other stage.
    pub fn chosen(self) -> Option<u8> {
        match (self.number >> 24) as u8 {
            Asked::NONE_CHOSEN => None,
            place => Some(place),
        }
    }

    /// Writes the move that the step makes to the start of `room`, which is what is left of a trail, and answers how many bytes that are: 2, the agent
    /// and the place that it enters or opens, or 255 for an exit and a release; or 0 where it makes none, since its word is not [`Word::Left`],
    /// [`Word::Opened`] or [`Word::Put`]. A host keeps them if the step or the commit then goes through, as [`Asked::trail`] says. Bytes past them are as
    /// they were.
    ///
    /// # Errors
    ///
    /// Refused with 12 where there is a move and less room than two bytes; then nothing is written.
    pub fn write_move(self, room: &mut [u8]) -> Result<usize, Refused> {
        let answer = lent::trail(self.agent, self.number, room);
        accepted(answer)?;
        Ok((answer >> 8) as usize)
    }

    /// Adds the move that the step makes, if it makes one, to the trail of a run. It is called after a [`Cell::commit`](crate::Cell::commit) that went
    /// through, or after a [`Cell::step`](crate::Cell::step) that this ask was made right before; a commit that is refused makes no move. The trail that is so
    /// kept from a load on is upheld by [`audit`](crate::audit()), with the file and the listing of the cell, after every call (proved: crate `claims`,
    /// `asked-run` and `run-upheld`).
    ///
    /// ```
    /// use keeper::{audit, Cell, Finding};
    ///
    /// // The worked example: place 1, named 7, enters place 2, named 9, whose agent finds nothing to leave.
    /// let file = [1, 1, 0, 7, 0, 1, 2, 0, 9, 0, 2, 0, 1, 3, 0, 1, 9, 0, 2, 1, 2, 3, 1, 2, 7, 0, 4];
    /// let mut cell = Cell::load(&file)?;
    /// let mut trail = Vec::new();
    /// while !cell.idle()? {
    ///     for agent in [0, 1] {
    ///         let asked = cell.ask(agent, 255)?;
    ///         cell.commit(asked)?;
    ///         asked.trail(&mut trail)?;
    ///     }
    /// }
    /// assert_eq!(trail, [0, 2]);
    /// assert_eq!(audit(&file, &trail, cell.listing()?.as_bytes())?, Finding::Upheld);
    /// # Ok::<(), keeper::Refused>(())
    /// ```
    ///
    /// # Errors
    ///
    /// Only [`Refusal::OtherLibrary`](crate::Refusal::OtherLibrary); then the trail is as it was.
    #[cfg(feature = "alloc")]
    pub fn trail(self, trail: &mut alloc::vec::Vec<u8>) -> Result<(), Refused> {
        let mut room = [0; crate::MOVE_BYTES];
        let length = self.write_move(&mut room)?;
        trail.extend(room.iter().take(length));
        Ok(())
    }
}

impl fmt::Debug for Asked {
    fn fmt(&self, out: &mut fmt::Formatter<'_>) -> fmt::Result {
        let mut out = out.debug_struct("Asked");
        out.field("agent", &self.agent).field("wish", &self.wish);
        out.field("word", &self.word()).field("woken", &self.woken()).field("chosen", &self.chosen()).finish()
    }
}

#[cfg(test)]
mod tests {
    use super::{Asked, Stepped};

    #[test]
    fn what_is_made_by_hand_is_what_is_told() {
        for number in (0..=255).flat_map(|byte: u64| [byte << 8, byte << 16, byte << 24, byte << 8 | byte << 16 | byte << 24]) {
            let told = Asked::of(7, 9, number);
            assert_eq!(Asked::new(7, 9, told.word(), told.woken(), told.chosen()), told);
            assert_eq!((told.agent(), told.wish(), told.number()), (7, 9, number));
            assert_eq!(Stepped { word: told.word(), woken: told.woken() }, Stepped::of(number));
            assert_eq!(told.chosen(), Some((number >> 24) as u8).filter(|&place| place != 255));
        }
    }
}
