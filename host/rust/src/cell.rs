//! A cell, and where it comes from: a file, a text, or memory that a host kept. Its other calls stand in the modules.

mod ceiling;
mod listing;
mod places;
mod steps;
mod touches;
mod window;

use crate::lent::Lent;
use crate::refusal::{accepted, accepted_whole, Refused};

/// A cell. One that came from [`Cell::bare`], [`Cell::load`] or [`Cell::read`] stays sound, so its calls are never refused with 10.
#[derive(Clone, Debug)]
pub struct Cell {
    lent: Lent,
}

impl Default for Cell {
    fn default() -> Cell {
        Cell::bare()
    }
}

impl Cell {
    /// A bare floor, with no other place and no agent. Where the library does not fit, nothing is written, and each call of the cell is refused.
    pub fn bare() -> Cell {
        let mut lent = Lent::zeros();
        lent.bare();
        Cell { lent }
    }

    /// The cell that the cell file says. A file of length 0 is a bare floor with no agents, as `[4]` is; one that begins and lacks its end is
    /// cut short. Any other file is a row of records, each a byte of kind and a body; numbers of two and of four bytes have the low byte first:
    ///
    /// | kind | bytes | what | the body, one byte for each number unless it says otherwise |
    /// |---|---|---|---|
    /// | 1 | 5 | a place, whose three keys are its name | number (1 to 63), parent (0 to 63), name (2 bytes, from 1 on) |
    /// | 2 | 3 | an agent | number (0 to 63), the place that it lives in (0 to 63) |
    /// | 3 | 5 | an action, after the agent's earlier ones | agent, kind (1 enter, 2 exit, 3 open, 4 release), its number (2 bytes, from 1 on) |
    /// | 4 | 1 | the end, last | nothing |
    /// | 5 | 6 | the touches of a place, once for each | place (0 to 63), count (4 bytes) |
    /// | 6 | 11 | a place with its keys | number, parent, name (2 bytes), keys for entering, exiting and opening (2 bytes each) |
    ///
    /// What a record names has been given before it; the floor, place 0, always is. `docs/MEANING.md` has a file byte by byte (section 4) and
    /// every refusal with what to do about it (section 7).
    ///
    /// # Errors
    ///
    /// Refused with 1 to 9, 13 or 14 where the file is faulty, with the byte offset of the first faulty record.
    pub fn load(file: &[u8]) -> Result<Cell, Refused> {
        let mut cell = Cell::bare();
        cell.reload(file)?;
        Ok(cell)
    }

    /// Makes the cell what the cell file says. What it held before plays no part.
    ///
    /// # Errors
    ///
    /// As for [`Cell::load`]; the cell is then as it was.
    pub fn reload(&mut self, file: &[u8]) -> Result<(), Refused> {
        accepted_whole(self.lent.load(file))
    }

    /// The cell that a text says, which a person may have typed. A text is one line in the language of the listing ([`Cell::list`]):
    ///
    /// | text | what it says |
    /// |---|---|
    /// | `0` | a bare floor; a `0` stands for that alone, never inside a place |
    /// | `7[]` | a place named 7 with nothing in it |
    /// | `9[7[] \| 8[]]` | places in a place: parts side by side have a bar between them, with one space on each side of it |
    /// | `7[enter 9.exit 9] \| 9[]` | an agent in place 7 with two actions, joined by a dot; the other kinds are `open 9` and `release 9` |
    /// | `20/20/20/0[]` | a place with its keys for entering, exiting and opening; left off, each of them is the name |
    ///
    /// Numbers are decimal without leading zeros: names and those of actions 1 to 65535, keys 0 to 65535. Parts may stand in any order. There are no
    /// other spaces, and no line end: a host that reads lines leaves their ends off, as `str::lines` does.
    ///
    /// Places are numbered from 1 and agents from 0 in the order in which their first bytes stand in the text, an outer place before those in it.
    /// Touches are 0, and of places under one parent the one that stands first counts as having been there longest. Every listing can be read, and
    /// the listing of what was read has the same bytes.
    ///
    /// All bytes before the offset of an error are right, so that a caret under the offset's byte shows what to mend:
    ///
    /// ```
    /// use keeper::{Cell, Refusal};
    ///
    /// let line = "20[30[]] | 40[enter 20.exit 020]";
    /// let refused = Cell::read(line).unwrap_err();
    /// assert_eq!(refused.refusal, Refusal::OutsideLanguage);
    /// let shown = format!("{line}\n{}^", " ".repeat(refused.offset.unwrap_or(0)));
    /// println!("{refused}\n{shown}");
    /// # #[rustfmt::skip]
    /// assert_eq!(shown, concat!(
    ///     "20[30[]] | 40[enter 20.exit 020]\n",
    ///     "                            ^"));
    /// ```
    ///
    /// # Errors
    ///
    /// Refused with 16 where the text is not one of the language, with the offset of the first byte that no text of it could continue: the text's
    /// length where it stops too early. Else with 17 where it has more than 63 places, more than 64 agents or an agent with more than sixteen
    /// actions, with the text's length.
    pub fn read(text: &str) -> Result<Cell, Refused> {
        let mut cell = Cell::bare();
        cell.reread(text)?;
        Ok(cell)
    }

    /// Makes the cell what the text says. What it held before plays no part.
    ///
    /// # Errors
    ///
    /// As for [`Cell::read`]; the cell is then as it was.
    pub fn reread(&mut self, text: &str) -> Result<(), Refused> {
        accepted_whole(self.lent.read(text.as_bytes()))
    }

    /// Whether the table is sound: only a cell from [`Cell::from_lent`] can be unsound.
    ///
    /// # Errors
    ///
    /// Refused with 10 where it is unsound.
    pub fn check(&self) -> Result<(), Refused> {
        accepted(self.lent.check())
    }

    /// Whether all agents are asleep or done, so that no step changes the cell any more. Where there are no agents, they are.
    ///
    /// # Errors
    ///
    /// Refused with 10 where the table is unsound.
    pub fn idle(&self) -> Result<bool, Refused> {
        let answer = self.lent.idle();
        accepted(answer)?;
        Ok(answer >> 8 & 1 == 1)
    }

    /// The cell in memory that something else has written. It may be unsound: then each call but [`Cell::reload`] and [`Cell::reread`] is refused with
    /// 10, a [`Cell::command`] in its window.
    pub fn from_lent(lent: Lent) -> Cell {
        Cell { lent }
    }

    /// The memory of the cell, to read its fields or to keep it.
    pub fn lent(&self) -> &Lent {
        &self.lent
    }
}
