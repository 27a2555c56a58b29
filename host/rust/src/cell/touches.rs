//! Touches: added to a place, and counted.

use super::Cell;
use crate::refusal::{accepted, Refused};

impl Cell {
    /// Adds a number to the touch count of a place and answers its new count. The count stays with the place wherever it goes, and is added
    /// to the opener's place when the place is opened: the sum over all places in use is what the file gave and what was added since.
    ///
    /// ```
    /// use keeper::{Cell, Refusal};
    ///
    /// // Place 1, named 30, with 40 touches; agent 0, on the floor, opens it.
    /// let mut cell = Cell::load(&[1, 1, 0, 30, 0, 5, 1, 40, 0, 0, 0, 2, 0, 0, 3, 0, 3, 30, 0, 4])?;
    /// assert_eq!(cell.touch(1, 2)?, 42);
    /// while !cell.idle()? {
    ///     cell.step(0, 255)?;
    /// }
    /// assert_eq!(cell.touches(0)?, 42);
    /// assert_eq!(cell.touch(1, 1).unwrap_err().refusal, Refusal::NotYetGiven);
    /// # Ok::<(), keeper::Refused>(())
    /// ```
    ///
    /// # Errors
    ///
    /// Refused with 10 where the table is unsound, else with 3 for a place above 63, else with 5 for one that is not in use, else with 15
    /// where the sum over all places in use would pass [`TOUCHES_MOST`](crate::TOUCHES_MOST); the cell is then as it was.
    pub fn touch(&mut self, place: u8, number: u32) -> Result<u64, Refused> {
        let answer = self.lent.touch(place, number);
        accepted(answer)?;
        Ok(answer >> 8)
    }

    /// The touch count of a place.
    ///
    /// # Errors
    ///
    /// Refused with 10 where the table is unsound, else with 3 for a place above 63, else with 5 for one that is not in use.
    pub fn touches(&self, place: u8) -> Result<u64, Refused> {
        let answer = self.lent.touches(place);
        accepted(answer)?;
        Ok(answer >> 8)
    }
}
