//! The cell keeper once more, written from document 01 and the landed requests of document 02 and not from the library, in plain vectors and
//! maps.
//!
//! It serves one purpose: the library is compared with it, call by call. So it follows the papers' sentences one after another, is
//! slow where slow is simpler, and shares nothing with the library. The sentence that a function stands for is quoted above it; one of
//! document 02 is named there with its request.

mod alike;
mod ask;
mod calculus;
mod ceiling;
mod cell;
mod children;
mod choice;
mod file;
mod listing;
mod nested;
mod plain;
mod reading;
mod sound;
mod step;
mod table;
mod term;
mod touch;
mod trail;
mod walk;
mod whereabouts;
mod window;
mod word;

pub use alike::alike;
pub use ask::{ask, commit, Asked, NONE_CHOSEN};
pub use calculus::{make, permitted, Ambient, Move, Tree};
pub use ceiling::{ceiling, changes_nothing, changing_calls, loaded_ceiling};
pub use cell::{Action, Agent, Cell, Keys, Kind, Place, Places, Stands};
pub use children::Children;
pub use choice::{can_exit, choose, qualifying, smallest_unused};
pub use file::{load, Refused};
pub use listing::listing;
pub use plain::Plain;
pub use reading::{is_beginning, read, tree};
pub use sound::{holds, sound};
pub use step::step;
pub use table::{ActionRecord, AgentRecord, PlaceRecord, Table, NO_PLACE, SIZE};
pub use term::file_of;
pub use touch::{touch, touch_sum, touches, MOST_TOUCHES};
pub use trail::{check, trail_of, trailed_step, Verdict, Why};
pub use walk::{typed_walk, walk};
pub use whereabouts::{common, nearest};
pub use window::{clear, command, command_on_unsound, Window, ALL_IDLE, REFUSED, STEP, TURNED_AWAY, WOKE};
pub use word::{Stepped, Word};

/// "cut short: a body incomplete, or no end record"
pub const CUT_SHORT: u8 = 1;
/// "unknown kind, not 1 to 4"; document 02, W3: "Kind 5 leaves the unknown kinds"; W6: "Kind 6 leaves the unknown kinds"
pub const UNKNOWN_KIND: u8 = 2;
/// "number too large, or place number 0"; document 02, W2: "for a place record's own number"; W3: for "a place above 63" in kind 5 and in a
/// touch call; W10: for "a place number above 63" in a question
pub const TOO_LARGE: u8 = 3;
/// "number given twice"; document 02, W3: "a second record for a place"
pub const GIVEN_TWICE: u8 = 4;
/// "not yet given"; document 02, W3: "a place not given", and in a touch call "an unused one"; W10: in a question "an unused one"
pub const NOT_YET_GIVEN: u8 = 5;
/// "name 0 in a place or action"; a key may be 0 (document 02, W6: "0 means nobody may")
pub const NAME_ZERO: u8 = 6;
/// "action kind not 1 to 3"; document 02, W11: "Action kind 4 leaves the wrong kinds"
pub const ACTION_KIND: u8 = 7;
/// "seventeenth action"
pub const SEVENTEENTH_ACTION: u8 = 8;
/// "bytes after the end record"
pub const AFTER_THE_END: u8 = 9;
/// "unsound table"
pub const UNSOUND: u8 = 10;
/// "no such agent"
pub const NO_SUCH_AGENT: u8 = 11;
/// "listing longer than the buffer"
pub const LISTING_TOO_LONG: u8 = 12;
/// Document 02, W2: "A parent or home above 63"
pub const PARENT_TOO_LARGE: u8 = 13;
/// Document 02, W2: "an agent number above 63"
pub const AGENT_TOO_LARGE: u8 = 14;
/// Document 02, W3: "15, last in a touch call, if that call would make it so": a table whose touches pass [`MOST_TOUCHES`]
pub const TOO_MANY_TOUCHES: u8 = 15;
/// Document 02, W8: "16 for text outside the language"
pub const OUTSIDE_LANGUAGE: u8 = 16;
/// Document 02, W8: "17, at the text's length, for too many of anything"
pub const TOO_MANY: u8 = 17;
/// Document 02, W9: "18 if the answer would differ, after 10 and 11"
pub const ANSWER_DIFFERS: u8 = 18;
