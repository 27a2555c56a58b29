//! Refusals, with the library's numbers and texts.

use core::error::Error;
use core::fmt;

/// Why a call was refused, and what to do about it (more on it: `docs/MEANING.md`, section 7). A later library may refuse for reasons that are
/// not named here.
#[derive(Clone, Copy, PartialEq, Eq, Hash, Debug)]
#[non_exhaustive]
pub enum Refusal {
    /// 1: the file is cut short: a body incomplete, or no end record. A file of length 0 is not: it is a bare floor. Copy the file anew; put the
    /// byte 4 at its end.
    CutShort,
    /// 2: a record of unknown kind, not 1 to 6. Look at the record before it too: a byte too many or too few there shifts all that follows.
    UnknownKind,
    /// 3: a place record's own number is above 63, or 0; or the place of a touch record, or one that a call names, is above 63. Number places 1 to
    /// 63 and do not give the floor.
    TooLarge,
    /// 4: a number, or a place's touches, given twice. Give each once, touches also where they are 0.
    GivenTwice,
    /// 5: a parent, home, agent or touched place not yet given: put parents before what stands in them, agents before their actions, places before
    /// their touches. Of a call, a place that is not in use: if it was opened, what stood in it stands in the opener's place now, which has its
    /// touches too. Mind that a release may have given its number to another place: then the call is not refused.
    NotYetGiven,
    /// 6: name 0 in a place or action; a key may be 0. Use 1 to 65,535, and mind the low byte first.
    NameZero,
    /// 7: an action kind that is not 1 (enter), 2 (exit), 3 (open) or 4 (release).
    ActionKind,
    /// 8: an agent's seventeenth action. A second agent of the same place can take the rest.
    SeventeenthAction,
    /// 9: bytes after the end record. Cut the file there, or move the end record to the end.
    AfterTheEnd,
    /// 10: an unsound table. Somebody else wrote the cell, or it was restored from a damaged copy: load again.
    Unsound,
    /// 11: no such agent in the cell. Correct the order.
    NoSuchAgent,
    /// 12: the listing is longer than the text lent for it, or the two bytes of a move are more than the room lent for them.
    /// [`LISTING_LONGEST`](crate::LISTING_LONGEST) bytes are enough for every cell, [`TRAIL_LONGEST`](crate::TRAIL_LONGEST) for the trail of every run.
    ListingTooLong,
    /// 13: a place's parent or an agent's home is above 63. Look at the record's third byte.
    ParentTooLarge,
    /// 14: the number of an agent, in an agent or an action record, is above 63. Look at the record's second byte. A step for such an agent is
    /// [`Refusal::NoSuchAgent`].
    AgentTooLarge,
    /// 15: the touch call would bring the places in use past [`TOUCHES_MOST`](crate::TOUCHES_MOST) touches. No line comes near that many: find out
    /// who adds them.
    TooManyTouches,
    /// 16: the text is not one of the listing's language. The offset is the first byte that cannot stand there, whatever follows it, or the text's
    /// length where it stops too early: [`Cell::read`](crate::Cell::read) says what the language is. Show the text with a caret under that byte.
    OutsideLanguage,
    /// 17: the text has more than 63 places, more than 64 agents, or an agent with more than sixteen actions. The offset is the text's length.
    /// Leave something out.
    TooMany,
    /// 18: the step would not answer what the commit hands back: another call came between, or no ask gave it. Ask again.
    AnswerDiffers,
    /// 255, which no library answers: the linked library is not one that this crate was made for, and was not called.
    OtherLibrary,
    /// A refusal of a later library, by its number.
    Unknown(u8),
}

/// A refused call: it changed nothing.
#[derive(Clone, Copy, PartialEq, Eq, Hash, Debug)]
pub struct Refused {
    /// Why.
    pub refusal: Refusal,
    /// For a file that the library refused, the byte offset of the faulty record: of a missing end record, the file's length; of bytes
    /// after the end record, the first of them. For a text, the offset of the byte at which it goes wrong, or the text's length.
    pub offset: Option<usize>,
}

impl Refusal {
    /// The library's refusals, 1 to 18, in the order of their numbers.
    pub const ALL: [Refusal; 18] = [
        Refusal::CutShort,
        Refusal::UnknownKind,
        Refusal::TooLarge,
        Refusal::GivenTwice,
        Refusal::NotYetGiven,
        Refusal::NameZero,
        Refusal::ActionKind,
        Refusal::SeventeenthAction,
        Refusal::AfterTheEnd,
        Refusal::Unsound,
        Refusal::NoSuchAgent,
        Refusal::ListingTooLong,
        Refusal::ParentTooLarge,
        Refusal::AgentTooLarge,
        Refusal::TooManyTouches,
        Refusal::OutsideLanguage,
        Refusal::TooMany,
        Refusal::AnswerDiffers,
    ];

    /// The number of [`Refusal::OtherLibrary`].
    pub(crate) const OTHER_LIBRARY: u8 = 255;

    /// The refusal with this number, which is not 0.
    pub(crate) fn of(number: u8) -> Refusal {
        match number {
            1 => Refusal::CutShort,
            2 => Refusal::UnknownKind,
            3 => Refusal::TooLarge,
            4 => Refusal::GivenTwice,
            5 => Refusal::NotYetGiven,
            6 => Refusal::NameZero,
            7 => Refusal::ActionKind,
            8 => Refusal::SeventeenthAction,
            9 => Refusal::AfterTheEnd,
            10 => Refusal::Unsound,
            11 => Refusal::NoSuchAgent,
            12 => Refusal::ListingTooLong,
            13 => Refusal::ParentTooLarge,
            14 => Refusal::AgentTooLarge,
            15 => Refusal::TooManyTouches,
            16 => Refusal::OutsideLanguage,
            17 => Refusal::TooMany,
            18 => Refusal::AnswerDiffers,
            Refusal::OTHER_LIBRARY => Refusal::OtherLibrary,
            _ => Refusal::Unknown(number),
        }
    }

    /// The refusal's number.
    pub fn number(self) -> u8 {
        match self {
            Refusal::CutShort => 1,
            Refusal::UnknownKind => 2,
            Refusal::TooLarge => 3,
            Refusal::GivenTwice => 4,
            Refusal::NotYetGiven => 5,
            Refusal::NameZero => 6,
            Refusal::ActionKind => 7,
            Refusal::SeventeenthAction => 8,
            Refusal::AfterTheEnd => 9,
            Refusal::Unsound => 10,
            Refusal::NoSuchAgent => 11,
            Refusal::ListingTooLong => 12,
            Refusal::ParentTooLarge => 13,
            Refusal::AgentTooLarge => 14,
            Refusal::TooManyTouches => 15,
            Refusal::OutsideLanguage => 16,
            Refusal::TooMany => 17,
            Refusal::AnswerDiffers => 18,
            Refusal::OtherLibrary => Refusal::OTHER_LIBRARY,
            Refusal::Unknown(number) => number,
        }
    }

    /// What the number means; "unknown" for one that is not named here.
    pub fn text(self) -> &'static str {
        match self {
            Refusal::CutShort => "cut short: a body incomplete, or no end record",
            Refusal::UnknownKind => "unknown kind, not 1 to 6",
            Refusal::TooLarge => "place number above 63, or 0 in a place record",
            Refusal::GivenTwice => "number or touches given twice",
            Refusal::NotYetGiven => "not yet given, or not in use",
            Refusal::NameZero => "name 0 in a place or action",
            Refusal::ActionKind => "action kind not 1 to 4",
            Refusal::SeventeenthAction => "seventeenth action",
            Refusal::AfterTheEnd => "bytes after the end record",
            Refusal::Unsound => "unsound table",
            Refusal::NoSuchAgent => "no such agent",
            Refusal::ListingTooLong => "listing or move longer than the buffer",
            Refusal::ParentTooLarge => "parent or home above 63",
            Refusal::AgentTooLarge => "agent number above 63",
            Refusal::TooManyTouches => "more than 1,000,000,000,000 touches in all",
            Refusal::OutsideLanguage => "not a text of the listing's language",
            Refusal::TooMany => "more than 63 places, 64 agents or sixteen actions of one agent",
            Refusal::AnswerDiffers => "the step would answer otherwise",
            Refusal::OtherLibrary => "not the library that this crate was made for",
            Refusal::Unknown(_) => "unknown",
        }
    }
}

/// The number in bits 0 to 7 of an answer: 0, or why the call was refused.
pub(crate) fn accepted(answer: u64) -> Result<(), Refused> {
    match answer as u8 {
        0 => Ok(()),
        number => Err(Refused { refusal: Refusal::of(number), offset: None }),
    }
}

/// The same of a file or a text, which is refused with an offset; what another library would say of it is not known.
pub(crate) fn accepted_whole(answer: u64) -> Result<(), Refused> {
    accepted(answer).map_err(|refused| match refused.refusal {
        Refusal::OtherLibrary => refused,
        _ => Refused { offset: Some((answer >> 8) as usize), ..refused },
    })
}

impl fmt::Display for Refusal {
    fn fmt(&self, out: &mut fmt::Formatter<'_>) -> fmt::Result {
        out.pad(self.text())
    }
}

impl fmt::Display for Refused {
    fn fmt(&self, out: &mut fmt::Formatter<'_>) -> fmt::Result {
        write!(out, "refused with {}: {}", self.refusal.number(), self.refusal)?;
        match self.offset {
            Some(offset) => write!(out, ", at byte {offset}"),
            None => Ok(()),
        }
    }
}

impl Error for Refusal {}

impl Error for Refused {}

#[cfg(test)]
mod tests {
    use super::Refusal;

    #[test]
    fn every_number_has_a_refusal() {
        for number in 1..=255 {
            assert_eq!(Refusal::of(number).number(), number);
        }
    }

    #[test]
    fn unknown_numbers_have_a_text() {
        assert!((1..=254).all(|number| (Refusal::of(number) == Refusal::Unknown(number)) == (number > 18)));
        assert_eq!(Refusal::of(19).text(), "unknown");
    }
}
