//! The register window of the bonder's card: document 02, W14. "Eight bytes: command .., agent, wish, answer .., woken, flags, mask, line."

use crate::cell::Cell;
use crate::step::step;
use crate::word::Stepped;
use crate::UNSOUND;

/// The command that makes a step: "1 step, any other nothing".
pub const STEP: u8 = 1;
/// What is added to a refusal's number in the answer: "128 plus the number if refused".
pub const REFUSED: u8 = 128;
/// "Flag bit 0 is set when a step woke someone".
pub const WOKE: u8 = 1;
/// "bit 1 when all agents are asleep or done after it".
pub const ALL_IDLE: u8 = 2;
/// "bit 2 on a refusal, which sets no other bit and gives woken 0".
pub const TURNED_AWAY: u8 = 4;

/// "Eight bytes", in the order of the request.
#[derive(Clone, Copy, PartialEq, Eq, Debug, Default)]
pub struct Window {
    pub command: u8,
    pub agent: u8,
    pub wish: u8,
    pub answer: u8,
    pub woken: u8,
    pub flags: u8,
    pub mask: u8,
    pub line: u8,
}

impl Window {
    /// The window with these bytes.
    pub fn of(bytes: [u8; 8]) -> Window {
        let [command, agent, wish, answer, woken, flags, mask, line] = bytes;
        Window { command, agent, wish, answer, woken, flags, mask, line }
    }

    /// The bytes of the window.
    pub fn bytes(self) -> [u8; 8] {
        [self.command, self.agent, self.wish, self.answer, self.woken, self.flags, self.mask, self.line]
    }
}

/// One command, on a sound cell: "command (1 step, any other nothing)". "a refused one leaves the cell, not the window, as it was." "After every
/// command, unknown ones too, .. the line is 1 exactly if flags and mask share a bit".
pub fn command(cell: &mut Cell, window: &mut Window) {
    if window.command == STEP {
        match step(cell, window.agent, window.wish) {
            Ok(stepped) => made(window, stepped, cell.idle()),
            Err(number) => turned_away(window, number),
        }
    }
    set_line(window);
}

/// One command on a table that is not sound: its step is refused as any step call is there, with 10, and any other command is no call on it.
pub fn command_on_unsound(window: &mut Window) {
    if window.command == STEP {
        turned_away(window, UNSOUND);
    }
    set_line(window);
}

/// "Ones written to the flags clear those bits. After .. every clear, the line is 1 exactly if flags and mask share a bit, else 0."
pub fn clear(window: &mut Window, ones: u8) {
    window.flags &= !ones;
    set_line(window);
}

/// What a step that was made writes: the word's number, the number woken, and bits 0 and 1 where they are due; "a set flag stays until cleared".
fn made(window: &mut Window, stepped: Stepped, idle: bool) {
    window.answer = stepped.word.number();
    window.woken = u8::try_from(stepped.woken).expect("there are 64 agents at most");
    if stepped.woken > 0 {
        window.flags |= WOKE;
    }
    if idle {
        window.flags |= ALL_IDLE;
    }
}

/// What a refused step writes: "128 plus the number", "bit 2 .., which sets no other bit and gives woken 0".
fn turned_away(window: &mut Window, number: u8) {
    window.answer = REFUSED + number;
    window.woken = 0;
    window.flags |= TURNED_AWAY;
}

/// "the line is 1 exactly if flags and mask share a bit, else 0", whichever of the eight bits it is.
fn set_line(window: &mut Window) {
    window.line = if window.flags & window.mask != 0 { 1 } else { 0 };
}
