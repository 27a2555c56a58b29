//! Where a place is: in which place of a name, and what it shares with another.

use super::Cell;
use crate::refusal::{accepted, Refused};

/// What the library answers for a place where there is none.
const NOWHERE: u8 = 255;

impl Cell {
    /// Which place of this name a place is in, such as in which bonder a holder is: the nearest of the places around it, at any depth, that have
    /// the name. The place itself does not count, and a place on its way is read at its destination. `None` is an answer and no refusal: no place
    /// around it has the name. The name is compared with names and never with keys. The floor's is 0, so 0 finds the floor from every place but
    /// the floor, which nothing is around.
    ///
    /// ```
    /// use keeper::{Cell, Refusal, Word};
    ///
    /// // Holder 30, place 2, with its capillary, place 3, goes from one bonder 20, place 1, into another, place 4.
    /// let mut cell = Cell::read("20[30[exit 20.enter 20 | 60[]]] | 20[31[]]")?;
    /// assert_eq!(cell.nearest(3, 20)?, Some(1));
    /// while cell.step(0, 4)?.word != Word::Left {}
    /// assert_eq!(cell.nearest(3, 20)?, None, "on its way to the floor");
    /// while cell.step(0, 4)?.word != Word::Came {}
    /// while cell.step(0, 4)?.word != Word::Left {}
    /// assert_eq!(cell.nearest(3, 20)?, Some(4), "on its way into the other bonder");
    ///
    /// assert_eq!(cell.nearest(2, 30)?, None, "the holder itself does not count");
    /// assert_eq!(cell.nearest(3, 30)?, Some(2));
    /// assert_eq!(cell.nearest(6, 20).unwrap_err().refusal, Refusal::NotYetGiven);
    /// # Ok::<(), keeper::Refused>(())
    /// ```
    ///
    /// # Errors
    ///
    /// Refused with 10 where the table is unsound, else with 3 for a place above 63, else with 5 for one that is not in use.
    pub fn nearest(&self, place: u8, name: u16) -> Result<Option<u8>, Refused> {
        let answer = self.lent.nearest(place, name);
        accepted(answer)?;
        Ok(Some((answer >> 8) as u8).filter(|&found| found != NOWHERE))
    }

    /// The innermost place that holds or is both of two places, such as the bonder or the magazine that two holders are both in. A place holds
    /// what stands in it, at any depth, and a place on its way is read at its destination. So where one of the two stands in the other it is that
    /// other, and of a place and itself it is that place. Which of the two is named first does not matter. There always is such a place: the
    /// floor, 0, if nothing deeper.
    ///
    /// ```
    /// use keeper::Cell;
    ///
    /// // Bonder 20, place 1, with holders 30 and 31, places 2 and 4, a capillary, place 3, in the first; magazine 40, place 5.
    /// let cell = Cell::read("20[30[60[]] | 31[]] | 40[]")?;
    /// assert_eq!(cell.common(3, 4)?, 1, "the bonder");
    /// assert_eq!(cell.common(3, 2)?, 2, "the holder, which is one of them");
    /// assert_eq!(cell.common(3, 5)?, 0, "the floor");
    /// # Ok::<(), keeper::Refused>(())
    /// ```
    ///
    /// # Errors
    ///
    /// Refused with 10 where the table is unsound, else with 3 where one of the two is above 63, else with 5 where one of them is not in use.
    pub fn common(&self, place: u8, other: u8) -> Result<u8, Refused> {
        let answer = self.lent.common(place, other);
        accepted(answer)?;
        Ok((answer >> 8) as u8)
    }
}
