//! The listing, in a lent text or as a string.

use super::Cell;
use crate::refusal::{accepted, Refused};
#[cfg(feature = "alloc")]
use crate::LISTING_LONGEST;

impl Cell {
    /// Writes the listing, in ASCII, to the start of the text and answers its length; bytes past it are as they were. A place whose three keys
    /// are its name is written as `7[]`, any other with its keys for entering, exiting and opening after the name, as `7/8/9/0[]`.
    ///
    /// One layout has one listing. Of what a place holds, the agents come first and then the places, each of the two in byte order of their
    /// texts, as `[u8]` is ordered: `70[] | 7[]`, `7[] | 7[enter 7]`. Numbers and the order in which places came play no part, so two cells hold
    /// the same layout exactly if their listings are equal (proved: crate `demands`, `same-listings`): the same places with the same names and
    /// keys in each other, and the same agents with unused actions in them. Locks, stages, touch counts, who came first, and whether a place is
    /// still on its way are not in it.
    ///
    /// # Errors
    ///
    /// Refused with 10 where the table is unsound, else with 12 where the listing is longer than the text; the whole text is then as it was.
    pub fn list(&self, text: &mut [u8]) -> Result<usize, Refused> {
        let answer = self.lent.list(text);
        accepted(answer)?;
        Ok((answer >> 8) as usize)
    }

    /// The listing as a string; two of them are equal exactly if the layouts are the same, as [`Cell::list`] says.
    ///
    /// # Errors
    ///
    /// Refused with 10 where the table is unsound.
    #[cfg(feature = "alloc")]
    pub fn listing(&self) -> Result<alloc::string::String, Refused> {
        let mut text = alloc::vec![0; LISTING_LONGEST];
        let length = self.list(&mut text)?;
        Ok(text.into_iter().take(length).map(char::from).collect())
    }
}
