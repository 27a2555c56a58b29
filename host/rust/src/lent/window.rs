//! The register window of a card, and the exports that change it.

use super::{fits, Lent};
use core::mem::{offset_of, size_of};

/// The size of a window in bytes.
pub const WINDOW_SIZE: usize = 8;

/// The register window of a card, such as a bonder's, that makes its steps itself and has an interrupt line. Eight zeros, the default, are a window
/// in which nothing has happened.
///
/// | byte | name | who writes it | what it holds |
/// |---|---|---|---|
/// | 0 | `command` | the card | [`Window::STEP`]: a step. Any other number: nothing, but the line is set anew |
/// | 1 | `agent` | the card | whose step it is |
/// | 2 | `wish` | the card | its wish, as [`Cell::step`](crate::Cell::step) has it; 255 for none |
/// | 3 | `answer` | a step | the number of the word, 0 to 10; or [`Window::REFUSED_FROM`] plus the number of a refusal |
/// | 4 | `woken` | a step | how many sleeping agents the step woke; 0 where it was refused |
/// | 5 | `flags` | a step, a clear | what has happened since the card last cleared it, a bit for each |
/// | 6 | `mask` | the card | the flags that the card wants to hear of |
/// | 7 | `line` | a command, a clear | 1 if flags and mask share a bit, else 0 |
#[repr(C)]
#[derive(Clone, Copy, PartialEq, Eq, Hash, Debug, Default)]
pub struct Window {
    /// What is to be done: [`Window::STEP`], or anything else for nothing.
    pub command: u8,
    /// Whose step it is.
    pub agent: u8,
    /// The place that an enter or open should choose where several qualify.
    pub wish: u8,
    /// The word of the latest step by its number, or [`Window::REFUSED_FROM`] plus the number of its refusal; [`Window::stepped`] takes it apart.
    pub answer: u8,
    /// How many sleeping agents the latest step woke.
    pub woken: u8,
    /// [`Window::WOKE`], [`Window::REST`] and [`Window::REFUSED`], each set until it is cleared.
    pub flags: u8,
    /// The flags that raise the line.
    pub mask: u8,
    /// 1 if flags and mask share a bit, else 0: after each command and each clear.
    pub line: u8,
}

const _: () = assert!(size_of::<Window>() == WINDOW_SIZE && offset_of!(Window, agent) == 1 && offset_of!(Window, wish) == 2);
const _: () = assert!(offset_of!(Window, answer) == 3 && offset_of!(Window, woken) == 4 && offset_of!(Window, flags) == 5);
const _: () = assert!(offset_of!(Window, mask) == 6 && offset_of!(Window, line) == 7);

extern "C" {
    fn keeper_command(cell: *mut Lent, window: *mut Window);
    fn keeper_clear(window: *mut Window, ones: u8);
}

// SAFETY of both calls: as of those in `lent`; of a window, too, all fields are integers without gaps between them.

impl Lent {
    /// Carries out the command in a window; says whether the call was made, which it is where the library fits.
    pub fn command(&mut self, window: &mut Window) -> bool {
        let fits = fits();
        if fits {
            unsafe { keeper_command(self, window) }
        }
        fits
    }
}

impl Window {
    /// The window with these bytes.
    pub fn from_bytes(bytes: [u8; WINDOW_SIZE]) -> Window {
        let [command, agent, wish, answer, woken, flags, mask, line] = bytes;
        Window { command, agent, wish, answer, woken, flags, mask, line }
    }

    /// The bytes of the window.
    pub fn bytes(self) -> [u8; WINDOW_SIZE] {
        [self.command, self.agent, self.wish, self.answer, self.woken, self.flags, self.mask, self.line]
    }

    /// Clears the flags that are ones; says whether the call was made, which it is where the library fits.
    pub(crate) fn without(&mut self, ones: u8) -> bool {
        let fits = fits();
        if fits {
            unsafe { keeper_clear(self, ones) }
        }
        fits
    }
}
