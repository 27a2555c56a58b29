//! A card's window (document 02, W14) by the library and by the model, and beside them a second cell on which the same steps are step calls.

use crate::answer;
use crate::differing::differing;
use keeper::lent::Lent;
use keeper::Window;
use model::{Cell, Table, UNSOUND};
use std::fmt;

/// The bytes of a window that are the card's: command, agent, wish and mask.
pub const OWN: [usize; 4] = [0, 1, 2, 6];

/// What is done in a session.
#[derive(Clone, Copy, PartialEq, Debug)]
pub enum Act {
    /// A byte of the window is written: by the card, or, before its session, by anybody.
    Write { at: usize, byte: u8 },
    /// The command that stands in the window.
    Command,
    /// Ones written to the flags.
    Clear { ones: u8 },
    /// Somebody else writes a byte of the cell.
    Damage { at: usize, byte: u8 },
}

/// The lent cell and window, the model's, where the table is sound, and the cell of the step calls.
pub struct Card {
    pub lent: Lent,
    pub cell: Option<Cell>,
    pub window: Window,
    of_model: model::Window,
    by_steps: Lent,
}

impl Card {
    /// A window of zeros and the cell of a file, which is accepted.
    pub fn new(file: &[u8]) -> Result<Card, String> {
        let cell = model::load(file).map_err(|refused| format!("the model refuses the file with {}", refused.number))?;
        let mut lent = Lent::zeros();
        if lent.load(file) != 0 {
            return Err("the library refuses the file".to_string());
        }
        let by_steps = lent.clone();
        Ok(Card { lent, cell: Some(cell), window: Window::default(), of_model: model::Window::default(), by_steps })
    }

    /// One act by both; says what differs.
    pub fn act(&mut self, act: Act) -> Result<(), String> {
        match act {
            Act::Write { at, byte } => {
                let mut bytes = self.window.bytes();
                bytes[at] = byte;
                (self.window, self.of_model) = (Window::from_bytes(bytes), model::Window::of(bytes));
                Ok(())
            }
            Act::Command => self.command(),
            Act::Clear { ones } => {
                self.window.clear(ones).map_err(|refused| refused.to_string())?;
                model::clear(&mut self.of_model, ones);
                self.same_windows()
            }
            Act::Damage { at, byte } => {
                self.lent.bytes_mut()[at] = byte;
                self.by_steps.bytes_mut()[at] = byte;
                self.cell = Table::read(self.lent.bytes()).cell();
                Ok(())
            }
        }
    }

    /// A command by both: the same window and cell; and where it is a step, the answer and the cell of the step call, and where it is none or is
    /// refused, the cell as it was, byte for byte.
    fn command(&mut self) -> Result<(), String> {
        let (before, asked) = (self.lent.clone(), self.window);
        if !self.lent.command(&mut self.window) {
            return Err("the library does not fit".to_string());
        }
        match &mut self.cell {
            Some(cell) => model::command(cell, &mut self.of_model),
            None => model::command_on_unsound(&mut self.of_model),
        }
        self.same_windows()?;
        let mut stays = true;
        if asked.command == model::STEP {
            let answer = self.by_steps.step(asked.agent, asked.wish);
            let told = match self.window.answer.checked_sub(model::REFUSED) {
                None => (self.window.answer as u64) << 8 | (self.window.woken as u64) << 16,
                Some(number) => number as u64,
            };
            if told != answer {
                return Err(format!("the window tells {}, the step call {}", answer::step_text(told), answer::step_text(answer)));
            }
            stays = answer as u8 != 0;
        }
        if stays && self.lent != before {
            return Err("a command that is no step, or is refused, changes the cell".to_string());
        }
        if fields(&self.lent) != fields(&self.by_steps) {
            return Err("the cell is not the one that the same step calls give".to_string());
        }
        let seen = Table::read(self.lent.bytes()).cell();
        match (&seen, &self.cell) {
            _ if seen == self.cell => Ok(()),
            (Some(seen), Some(cell)) => Err(differing(seen, cell)),
            _ => Err(format!("the library leaves a table that the model finds otherwise than {UNSOUND} says")),
        }
    }

    /// All eight bytes are the same.
    fn same_windows(&self) -> Result<(), String> {
        let (library, model) = (self.window.bytes(), self.of_model.bytes());
        if library == model {
            Ok(())
        } else {
            Err(format!("the window is {library:?}, in the model {model:?}"))
        }
    }
}

/// The cell with nothing in the bytes that mean nothing.
fn fields(lent: &Lent) -> Lent {
    let mut lent = lent.clone();
    lent.agents.iter_mut().flat_map(|agent| &mut agent.actions).for_each(|action| action.padding = 0);
    lent
}

/// What differs when these acts are done one after another on the cell of a file, and at which act.
fn difference(file: &[u8], acts: &[Act]) -> Option<(usize, String)> {
    match Card::new(file) {
        Err(text) => Some((0, text)),
        Ok(mut card) => acts.iter().enumerate().find_map(|(at, &act)| card.act(act).err().map(|text| (at, text))),
    }
}

/// The smallest example found by leaving acts out, and what differs in it.
pub fn example(file: &[u8], acts: &[Act]) -> String {
    let mut acts = acts.to_vec();
    let mut size = acts.len();
    while size > 0 {
        let mut at = 0;
        while at < acts.len() {
            let mut fewer = acts.clone();
            fewer.drain(at..(at + size).min(acts.len()));
            match difference(file, &fewer) {
                Some(_) => acts = fewer,
                None => at += size,
            }
        }
        size /= 2;
    }
    let text = difference(file, &acts).map_or("it did not show again".to_string(), |(_, text)| text);
    let listed = model::load(file).map_or(String::new(), |cell| model::listing(&cell));
    let lines: Vec<String> = acts.iter().map(|act| format!("  {act}\n")).collect();
    format!("in a card's session on {listed}, of the file {file:02X?}:\n{}  {text}", lines.concat())
}

impl fmt::Display for Act {
    fn fmt(&self, out: &mut fmt::Formatter<'_>) -> fmt::Result {
        const NAMES: [&str; 8] = ["command", "agent", "wish", "answer", "woken", "flags", "mask", "line"];
        match self {
            Act::Write { at, byte } => write!(out, "{} of the window is {byte}", NAMES[*at]),
            Act::Command => write!(out, "the command is carried out"),
            Act::Clear { ones } => write!(out, "{ones:#010b} is written to the flags"),
            Act::Damage { at, byte } => write!(out, "somebody writes {byte:02X} at byte {at} of the cell"),
        }
    }
}
