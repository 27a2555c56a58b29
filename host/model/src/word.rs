//! What a step call answers: "The answer is a word and how many agents the step woke".

/// The words that a step call answers.
#[derive(Clone, Copy, PartialEq, Eq, Debug)]
pub enum Word {
    Looked,
    Took,
    Held,
    Back,
    Slept,
    Left,
    Came,
    Opened,
    Put,
    Asleep,
    Done,
}

/// "The answer is a word and how many agents the step woke".
#[derive(Clone, Copy, PartialEq, Eq, Debug)]
pub struct Stepped {
    pub word: Word,
    pub woken: usize,
}

impl Word {
    /// The word as the paper writes it.
    pub fn text(self) -> &'static str {
        match self {
            Word::Looked => "looked",
            Word::Took => "took",
            Word::Held => "held",
            Word::Back => "back",
            Word::Slept => "slept",
            Word::Left => "left",
            Word::Came => "came",
            Word::Opened => "opened",
            Word::Put => "put",
            Word::Asleep => "asleep",
            Word::Done => "done",
        }
    }

    /// The number of the word; document 02, W14: "0 looked, 1 took, 2 held, 3 back, 4 slept, 5 left, 6 came, 7 opened, 8 put, 9 asleep, 10 done".
    pub fn number(self) -> u8 {
        match self {
            Word::Looked => 0,
            Word::Took => 1,
            Word::Held => 2,
            Word::Back => 3,
            Word::Slept => 4,
            Word::Left => 5,
            Word::Came => 6,
            Word::Opened => 7,
            Word::Put => 8,
            Word::Asleep => 9,
            Word::Done => 10,
        }
    }

    /// The answer of a step that wakes nobody.
    pub(crate) fn alone(self) -> Stepped {
        Stepped { word: self, woken: 0 }
    }
}
