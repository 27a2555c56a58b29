//! What a step answers: words, with the library's numbers and names.

use core::fmt;

/// What a step did. A later library may answer words that are not named here.
#[derive(Clone, Copy, PartialEq, Eq, Hash, Debug)]
#[non_exhaustive]
pub enum Word {
    /// The agent found the place that it will lock first.
    Looked,
    /// It took a lock.
    Took,
    /// The lock that it needs is held by another agent; nothing changed.
    Held,
    /// Its action no longer fires, or its place has moved: it gave its locks back and will look again.
    Back,
    /// Its action cannot fire; it holds no lock and sleeps until another agent's step wakes it. A release that finds all 64 place numbers in use
    /// sleeps on no place until any opening, which frees one.
    Slept,
    /// Its place left and is on its way; the action is used up.
    Left,
    /// Its place came to its destination.
    Came,
    /// It opened a place: what was inside stands in the agent's own place now, the opened place's touches are added to that place's, and its
    /// number is unused; the action is used up.
    Opened,
    /// It put a new empty place into its own place, under the smallest number that was unused: one that an opening freed may come into use again.
    /// The place has no touches, is named by the action's number, which is its three keys too, and is the latest there; the action is used up.
    Put,
    /// It sleeps; nothing changed.
    Asleep,
    /// It has no action left; nothing changed.
    Done,
    /// A word of a later library, by its number.
    Unknown(u8),
}

/// What a step or a commit did.
#[derive(Clone, Copy, PartialEq, Eq, Hash, Debug)]
pub struct Stepped {
    /// What the agent did.
    pub word: Word,
    /// How many sleeping agents that woke.
    pub woken: u8,
}

impl Word {
    /// The word with the library's number.
    pub(crate) fn of(number: u8) -> Word {
        match number {
            0 => Word::Looked,
            1 => Word::Took,
            2 => Word::Held,
            3 => Word::Back,
            4 => Word::Slept,
            5 => Word::Left,
            6 => Word::Came,
            7 => Word::Opened,
            8 => Word::Put,
            9 => Word::Asleep,
            10 => Word::Done,
            _ => Word::Unknown(number),
        }
    }

    /// The library's number of the word.
    pub(crate) fn number(self) -> u8 {
        match self {
            Word::Looked => 0,
            Word::Took => 1,
            Word::Held => 2,
            Word::Back => 3,
            Word::Slept => 4,
            Word::Left => 5,
            Word::Came => 6,
            Word::Opened => 7,
            Word::Put => 8,
            Word::Asleep => 9,
            Word::Done => 10,
            Word::Unknown(number) => number,
        }
    }

    /// The word as `walk` prints it; "unknown" for one that is not named here.
    pub fn name(self) -> &'static str {
        match self {
            Word::Looked => "looked",
            Word::Took => "took",
            Word::Held => "held",
            Word::Back => "back",
            Word::Slept => "slept",
            Word::Left => "left",
            Word::Came => "came",
            Word::Opened => "opened",
            Word::Put => "put",
            Word::Asleep => "asleep",
            Word::Done => "done",
            Word::Unknown(_) => "unknown",
        }
    }
}

impl Stepped {
    /// The word and the number woken, where an answer that was not refused has them.
    pub(crate) fn of(answer: u64) -> Stepped {
        Stepped { word: Word::of((answer >> 8) as u8), woken: (answer >> 16) as u8 }
    }
}

impl fmt::Display for Word {
    fn fmt(&self, out: &mut fmt::Formatter<'_>) -> fmt::Result {
        out.pad(self.name())
    }
}

#[cfg(test)]
mod tests {
    use super::Word;

    #[test]
    fn every_number_has_a_word() {
        assert!((0..=255).all(|number| (Word::of(number) == Word::Unknown(number)) == (number > 10)));
        assert!((0..=255).all(|number| Word::of(number).number() == number));
        assert_eq!([8, 11].map(|number| Word::of(number).name()), ["put", "unknown"]);
    }
}
