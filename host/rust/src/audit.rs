//! Checking a trail: the moves that somebody says were made, from a cell file to a listing.

use crate::lent;
use crate::refusal::{accepted_whole, Refused};
use core::fmt;

/// What [`audit`] finds of a trail from an accepted file.
#[derive(Clone, Copy, PartialEq, Eq, Hash, Debug)]
pub enum Finding {
    /// Yes: every move is permitted, and the layout after the last one has the given listing.
    Upheld,
    /// No.
    Denied {
        /// How many moves stand before what is wrong: `trail[2 * moves]` is the agent of the move that is denied, or the odd byte; of
        /// [`Reason::OtherLayout`] all moves of the trail.
        moves: usize,
        /// Why.
        reason: Reason,
    },
}

/// Why a trail is denied. A later library may have reasons that are not named here.
#[derive(Clone, Copy, PartialEq, Eq, Hash, Debug)]
#[non_exhaustive]
pub enum Reason {
    /// 1: the next action of the move's agent cannot be made there: the byte names a place that the action does not act on, or is not 255 for an
    /// exit or a release, or the action is not one that the calculus permits in the layout reached.
    NotPermitted,
    /// 2: the agent of the move is not given in the file, or has no action left.
    NoActionLeft,
    /// 3: the trail ends in half a move: it was cut, or a byte is missing. None of its moves was looked at.
    OddByte,
    /// 4: all moves are permitted, and the layout after them has another listing than the given one.
    OtherLayout,
    /// A reason of a later library, by its number.
    Unknown(u8),
}

impl Reason {
    /// The reason with this number, which is not 0.
    fn of(number: u8) -> Reason {
        match number {
            1 => Reason::NotPermitted,
            2 => Reason::NoActionLeft,
            3 => Reason::OddByte,
            4 => Reason::OtherLayout,
            _ => Reason::Unknown(number),
        }
    }

    /// The reason's number.
    pub fn number(self) -> u8 {
        match self {
            Reason::NotPermitted => 1,
            Reason::NoActionLeft => 2,
            Reason::OddByte => 3,
            Reason::OtherLayout => 4,
            Reason::Unknown(number) => number,
        }
    }

    /// The reason as `audit` prints it; "unknown" for one that is not named here.
    pub fn text(self) -> &'static str {
        match self {
            Reason::NotPermitted => "not permitted",
            Reason::NoActionLeft => "no action left",
            Reason::OddByte => "odd last byte",
            Reason::OtherLayout => "other layout",
            Reason::Unknown(_) => "unknown",
        }
    }
}

impl Finding {
    /// What the library's number says, which was not refused.
    fn of(answer: u64) -> Finding {
        match (answer >> 8) as u8 {
            0 => Finding::Upheld,
            number => Finding::Denied { moves: (answer >> 16) as usize, reason: Reason::of(number) },
        }
    }

    /// Whether it is a yes.
    pub fn is_upheld(self) -> bool {
        self == Finding::Upheld
    }
}

impl fmt::Display for Reason {
    fn fmt(&self, out: &mut fmt::Formatter<'_>) -> fmt::Result {
        out.pad(self.text())
    }
}

impl fmt::Display for Finding {
    fn fmt(&self, out: &mut fmt::Formatter<'_>) -> fmt::Result {
        match self {
            Finding::Upheld => out.pad("yes"),
            Finding::Denied { moves, reason } => write!(out, "no: {reason}, after {moves} moves"),
        }
    }
}

/// Whether a trail leads from a cell file to a listing, such as the trail that the dispatcher's maker delivers with each shift. The file is one as for
/// [`Cell::load`](crate::Cell::load). The trail has two bytes for each move, as [`Asked::trail`](crate::Asked::trail) writes them: the agent, and the
/// place that it enters or opens, or 255 for an exit and a release. The listing is compared byte for byte with that of the layout at the end, as
/// [`Cell::list`](crate::Cell::list) writes it, without a line end.
///
/// A yes means that each move is one that the calculus permits for its agent's next action in the layout that the moves before it have reached, and that
/// the layout after the last one has this listing; the trail of every run of the keeper is a yes (both are proved: crates `trail` and `claims`). It does
/// not mean that the keeper made them, nor that it would have in this order: locks, wishes, ways, sleep and touches play no part, a trail may stop
/// anywhere, and whether the plant's carriers are where the listing says, no trail shows.
///
/// A bad file is refused as a load refuses it, whatever the trail and the listing; then an odd trail is a no, whatever its moves; then the first move
/// that is denied decides, and the listing last.
///
/// ```
/// use keeper::{audit, Finding, Reason};
///
/// // Place 1, named 7, and place 2, named 9, stand on the floor; agent 0 lives in place 1 and has one action: enter 9.
/// let file = [1, 1, 0, 7, 0, 1, 2, 0, 9, 0, 2, 0, 1, 3, 0, 1, 9, 0, 4];
/// assert_eq!(audit(&file, &[0, 2], b"9[7[]]")?, Finding::Upheld);
/// assert_eq!(audit(&file, &[], b"7[enter 9] | 9[]")?, Finding::Upheld);
/// // Place 1 cannot enter itself; after the move its agent has no action left.
/// assert_eq!(audit(&file, &[0, 1], b"9[7[]]")?, Finding::Denied { moves: 0, reason: Reason::NotPermitted });
/// assert_eq!(audit(&file, &[0, 2, 0, 2], b"9[7[]]")?, Finding::Denied { moves: 1, reason: Reason::NoActionLeft });
/// assert_eq!(audit(&file, &[0, 2, 0], b"9[7[]]")?, Finding::Denied { moves: 1, reason: Reason::OddByte });
/// assert_eq!(audit(&file, &[0, 2], b"7[9[]]")?, Finding::Denied { moves: 1, reason: Reason::OtherLayout });
/// // The file lacks its end.
/// assert_eq!(audit(&file[..18], &[0, 2], b"9[7[]]").unwrap_err().offset, Some(18));
/// # Ok::<(), keeper::Refused>(())
/// ```
///
/// # Errors
///
/// Refused with 1 to 9, 13 or 14 where the file is faulty, with the byte offset of the first faulty record, as [`Cell::load`](crate::Cell::load) is.
pub fn audit(file: &[u8], trail: &[u8], listing: &[u8]) -> Result<Finding, Refused> {
    let answer = lent::audit(file, trail, listing);
    accepted_whole(answer)?;
    Ok(Finding::of(answer))
}

#[cfg(test)]
mod tests {
    use super::{Finding, Reason};

    #[test]
    fn every_number_has_a_reason() {
        assert!((1..=255).all(|number| Reason::of(number).number() == number));
        assert!((1..=255).all(|number| (Reason::of(number) == Reason::Unknown(number)) == (number > 4)));
        assert!((1..=255).all(|number| (Reason::of(number).text() == "unknown") == (number > 4)));
    }

    #[test]
    fn what_a_number_says() {
        assert_eq!(Finding::of(0), Finding::Upheld);
        for moves in [0, 1, 255, 256, 1 << 40] {
            for number in 1..=255 {
                let denied = Finding::Denied { moves, reason: Reason::of(number) };
                assert_eq!(Finding::of((moves as u64) << 16 | u64::from(number) << 8), denied);
                assert!(!denied.is_upheld());
            }
        }
    }
}
