//! Steps through the register window of a card.

use super::Cell;
use crate::answer::{Stepped, Word};
use crate::lent::Window;
use crate::refusal::{Refusal, Refused};

impl Cell {
    /// Carries out the command in a card's window. [`Window::STEP`] is the step of the window's agent with its wish: the cell is left as
    /// [`Cell::step`] leaves it, and the window tells of it.
    ///
    /// | byte | what a step writes |
    /// |---|---|
    /// | `answer` | the number of the word; or [`Window::REFUSED_FROM`] plus 10 where the table is unsound, else plus 11 for no such agent |
    /// | `woken` | how many sleeping agents it woke; 0 where it was refused |
    /// | `flags` | [`Window::WOKE`] is set if it woke someone, and [`Window::REST`] if all agents are asleep or done after it |
    ///
    /// A refused step sets [`Window::REFUSED`] and no other flag, and leaves the cell as it was. A flag that is set stays set until [`Window::clear`]
    /// names it. Any other command leaves the cell, and of the window all but the line. After every command the line is 1 exactly if flags and mask
    /// share a bit, else 0; command, agent, wish and mask are as they were. After any commands and clears the cell is the one that the same calls of
    /// [`Cell::step`] give.
    ///
    /// A step that was refused is no error here: the window says so.
    ///
    /// ```
    /// use keeper::{Cell, Refusal, Window, Word};
    ///
    /// let mut cell = Cell::read("7[enter 9] | 9[]")?;
    /// let mut window = Window { command: Window::STEP, wish: 255, mask: Window::REST | Window::REFUSED, ..Window::default() };
    /// while window.line == 0 {
    ///     cell.command(&mut window)?;
    ///     println!("{}", window.stepped()?.word);
    /// }
    /// assert_eq!((window.flags, window.stepped()?.word), (Window::REST, Word::Came));
    /// window.clear(window.flags)?;
    /// assert_eq!((window.flags, window.line), (0, 0));
    ///
    /// window.agent = 1;
    /// cell.command(&mut window)?;
    /// assert_eq!((window.flags, window.line, window.answer), (Window::REFUSED, 1, Window::REFUSED_FROM + 11));
    /// assert_eq!(window.stepped().unwrap_err().refusal, Refusal::NoSuchAgent);
    /// # Ok::<(), keeper::Refused>(())
    /// ```
    ///
    /// # Errors
    ///
    /// [`Refusal::OtherLibrary`] where the linked library does not fit; then neither the cell nor the window changes.
    pub fn command(&mut self, window: &mut Window) -> Result<(), Refused> {
        made(self.lent.command(window))
    }
}

impl Window {
    /// The command that makes a step.
    pub const STEP: u8 = 1;

    /// What is added to the number of a refusal in `answer`; every answer below it is a word.
    pub const REFUSED_FROM: u8 = 128;

    /// The flag of a step that woke someone.
    pub const WOKE: u8 = 1;

    /// The flag of a step that was not refused and after which all agents are asleep or done, so that no step changes the cell any more.
    pub const REST: u8 = 2;

    /// The flag of a step that was refused.
    pub const REFUSED: u8 = 4;

    /// Clears the flags that are ones in `ones`; the others stay. Then the line is 1 exactly if flags and mask share a bit, else 0. Nothing else
    /// changes.
    ///
    /// # Errors
    ///
    /// [`Refusal::OtherLibrary`] where the linked library does not fit; then the window does not change.
    pub fn clear(&mut self, ones: u8) -> Result<(), Refused> {
        made(self.without(ones))
    }

    /// What the latest step answered, as `answer` and `woken` have it: what [`Cell::step`] would have answered.
    ///
    /// # Errors
    ///
    /// Refused as the step was.
    pub fn stepped(&self) -> Result<Stepped, Refused> {
        match self.answer.checked_sub(Window::REFUSED_FROM) {
            None => Ok(Stepped { word: Word::of(self.answer), woken: self.woken }),
            Some(number) => Err(Refused { refusal: Refusal::of(number), offset: None }),
        }
    }
}

/// A call that was made, or refused since the library does not fit.
fn made(fits: bool) -> Result<(), Refused> {
    if fits {
        Ok(())
    } else {
        Err(Refused { refusal: Refusal::OtherLibrary, offset: None })
    }
}

#[cfg(test)]
mod tests {
    use super::{made, Refusal};

    #[test]
    fn another_library_is_refused() {
        assert_eq!(made(false).unwrap_err().refusal, Refusal::OtherLibrary);
        assert_eq!(made(true), Ok(()));
    }
}
