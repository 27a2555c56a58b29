//! The cell keeper, for hosts in Rust.
//!
//! A cell holds places nested in each other and agents that move them, one lock step at a time. A [`Cell`] is loaded from a cell file, or read
//! from a line that a person typed, and stepped once per lock step. Every call ends, every input is accepted or refused with a number, and a refused call changes nothing;
//! only a card's [`Window`] is told of the refusal.
//!
//! The crate is a thin safe layer over the C exports of libkeeper.a and libauditor.a, which it links from the folder that the environment variable
//! KEEPER_LIB_DIR names by its absolute path (or from the repository's target/staticlib). It needs no `std`. It allocates only in
//! `Cell::listing` and `Asked::trail`, which the feature `alloc`, on by default, adds. No function of it panics.
//!
//! ```
//! use keeper::{Cell, Refusal, Word};
//!
//! // Place 1, named 7, and place 2, named 9, stand on the floor; agent 0 lives in place 1 and has one action: enter 9.
//! let file = [1, 1, 0, 7, 0, 1, 2, 0, 9, 0, 2, 0, 1, 3, 0, 1, 9, 0, 4];
//! let mut cell = Cell::load(&file)?;
//! let mut text = [0; keeper::LISTING_LONGEST];
//! let length = cell.list(&mut text)?;
//! assert_eq!(&text[..length], b"7[enter 9] | 9[]");
//!
//! while !cell.idle()? {
//!     let stepped = cell.step(0, 255)?;
//!     println!("{} {}", stepped.word, stepped.woken);
//! }
//! let length = cell.list(&mut text)?;
//! assert_eq!(&text[..length], b"9[7[]]");
//! assert_eq!(cell.step(0, 255)?.word, Word::Done);
//! assert_eq!(cell.step(1, 255).unwrap_err().refusal, Refusal::NoSuchAgent);
//!
//! // Touches travel with the place: the capillary of place 1 touched down 1,200 times, wherever it stands.
//! assert_eq!(cell.touch(1, 1_200)?, 1_200);
//! assert_eq!(cell.touch(1, 300)?, 1_500);
//! assert_eq!(cell.touches(1)?, 1_500);
//!
//! // Rights: place 1, named 20, may be entered with 20 and left with 20, and nobody may open it. Agent 0 takes place 2, named 40, into it;
//! // the open 20 of agent 1, which lives on the floor, never fires.
//! let file = [6, 1, 0, 20, 0, 20, 0, 20, 0, 0, 0, 1, 2, 0, 40, 0, 2, 0, 2, 3, 0, 1, 20, 0, 2, 1, 0, 3, 1, 3, 20, 0, 4];
//! let mut cell = Cell::load(&file)?;
//! while !cell.idle()? {
//!     cell.step(0, 255)?;
//!     cell.step(1, 255)?;
//! }
//! let length = cell.list(&mut text)?;
//! assert_eq!(&text[..length], b"open 20 | 20/20/20/0[40[]]");
//! assert_eq!(cell.lent().places[1].name.opening, 0);
//!
//! // One layout, one listing: two hosts that number the same carriers differently list them with the same bytes.
//! let one = Cell::load(&[1, 1, 0, 40, 0, 1, 2, 0, 20, 0, 1, 3, 2, 30, 0, 4])?;
//! let other = Cell::load(&[1, 7, 0, 20, 0, 1, 5, 7, 30, 0, 1, 2, 0, 40, 0, 4])?;
//! let (length, mut line) = (one.list(&mut text)?, [0; keeper::LISTING_LONGEST]);
//! assert_eq!(&text[..length], b"20[30[]] | 40[]");
//! assert_eq!(other.list(&mut line)?, length);
//! assert_eq!(text[..length], line[..length]);
//!
//! // A layout that was typed: the listing's language, parts in any order. What cannot be read is refused at the byte where it goes wrong.
//! let mut cell = Cell::read("9[] | 7[enter 9]")?;
//! let length = cell.list(&mut text)?;
//! assert_eq!(&text[..length], b"7[enter 9] | 9[]");
//! assert_eq!(cell.step(0, 255)?.word, Word::Looked);
//! assert_eq!(Cell::read("9[] | 7[enter 0]").unwrap_err().offset, Some(14));
//!
//! // Ask, then commit: what a step would do is told first, so that a gripper can be parked before place 1 leaves for place 2. The step is made
//! // only if it is still that.
//! let mut cell = Cell::read("7[enter 9] | 9[]")?;
//! loop {
//!     let asked = cell.ask(0, 255)?;
//!     if asked.word() == Word::Left {
//!         assert_eq!(asked.chosen(), Some(2));
//!     }
//!     if cell.commit(asked)?.word == Word::Came {
//!         break;
//!     }
//! }
//! let length = cell.list(&mut text)?;
//! assert_eq!(&text[..length], b"9[7[]]");
//!
//! // A semaphore: the carrier 9 is acquired by opening it and released by putting out an empty one, here under the number that the opening freed.
//! let mut cell = Cell::read("9[] | open 9.release 9")?;
//! while cell.step(0, 255)?.word != Word::Put {}
//! let length = cell.list(&mut text)?;
//! assert_eq!(&text[..length], b"9[]");
//! assert_eq!(cell.lent().used, 0b11);
//!
//! // Which bonder is it in: the nearest place named 20 around the capillary, place 3; and the innermost that holds
//! // both the capillary and the other holder, places 3 and 4.
//! let cell = Cell::read("20[30[60[]] | 31[]] | 20[]")?;
//! assert_eq!(cell.nearest(3, 20)?, Some(1));
//! assert_eq!(cell.nearest(3, 40)?, None);
//! assert_eq!(cell.common(3, 4)?, 1);
//!
//! // No order churns forever: so many calls can change the cell, at most, whatever the dispatcher sends.
//! let mut cell = Cell::read("7[enter 9] | 9[exit 7]")?;
//! assert_eq!(cell.ceiling()?, 54);
//! while cell.step(0, 255)?.word != Word::Came {}
//! assert_eq!(cell.ceiling()?, 32);
//!
//! // Checking a claim: the trail says that agent 0 took its place 1, named 7, into place 2. From this file that leads to the first listing and not to the
//! // second.
//! let (file, trail) = ([1, 1, 0, 7, 0, 1, 2, 0, 9, 0, 2, 0, 1, 3, 0, 1, 9, 0, 4], [0, 2]);
//! assert!(keeper::audit(&file, &trail, b"9[7[]]")?.is_upheld());
//! assert!(!keeper::audit(&file, &trail, b"7[9[]]")?.is_upheld());
//!
//! // A card with an interrupt line drives the cell through eight bytes, until the line says that all agents are asleep or done.
//! let mut window = keeper::Window { command: keeper::Window::STEP, wish: 255, mask: keeper::Window::REST, ..Default::default() };
//! let mut cell = Cell::read("7[enter 9] | 9[]")?;
//! while window.line == 0 {
//!     cell.command(&mut window)?;
//! }
//! assert_eq!(window.stepped()?.word, Word::Came);
//!
//! // A file of length 0 is a bare floor: a line with nothing on it yet.
//! let cell = Cell::load(&[])?;
//! let length = cell.list(&mut text)?;
//! assert_eq!(&text[..length], b"0");
//! # Ok::<(), keeper::Refused>(())
//! ```
//!
//! # What a host owes
//!
//! The thread that calls has [`STACK`] bytes of stack left. Rust's own threads have 2 MiB unless they are given less. Calls on different cells
//! may run at the same time, and on one cell those that only read it, which take `&self`; the compiler sees to it that no others do.
//!
//! # The library
//!
//! Before each call of the library the crate asks for its version and the size of its cells ([`lent::fits`]). One that it was not made for is not
//! called: everything is refused with [`Refusal::OtherLibrary`]. [`check_library`] asks for nothing but that.

#![no_std]
#![deny(missing_docs)]

#[cfg(feature = "alloc")]
extern crate alloc;

mod answer;
mod asked;
mod audit;
mod cell;
pub mod lent;
mod refusal;

pub use answer::{Stepped, Word};
pub use asked::Asked;
pub use audit::{audit, Finding, Reason};
pub use cell::Cell;
pub use lent::Window;
pub use refusal::{Refusal, Refused};

/// The version of the library that this crate was made for: the major number from bit 16 on, the minor one in bits 8 to 15, the patch in
/// bits 0 to 7.
pub const VERSION: u64 = 393_984;

/// The longest cell file that can be accepted.
pub const FILE_LONGEST: usize = 6_390;

/// How many bytes of a file, at its start, always decide the answer to it: of a longer file a host may read and load those.
pub const FILE_DECIDING: usize = 6_400;

/// The longest listing: with a text of this size, [`Cell::list`] is never refused with 12 (proved). No text that [`Cell::read`] accepts is
/// longer (counted and not proved).
pub const LISTING_LONGEST: usize = 16_225;

/// How many bytes a trail has for a move: the agent, and the place that it enters or opens, or 255.
pub const MOVE_BYTES: usize = 2;

/// The longest trail of a run from one load: every move uses up an action, and a cell has 64 times sixteen (counted and not proved).
pub const TRAIL_LONGEST: usize = 2_048;

/// The touches that the places in use may have together, at most.
pub const TOUCHES_MOST: u64 = 1_000_000_000_000;

/// The stack that a call uses, in bytes, at most, [`audit`](audit()) among them: measured by `host/c/stack.c`, not proved.
pub const STACK: usize = 65_536;

/// A name for the same number, for hosts that call [`audit`](audit()) only.
pub const AUDIT_STACK: usize = STACK;

/// Whether the linked library is one that this crate was made for.
///
/// # Errors
///
/// [`Refusal::OtherLibrary`] where it is not; then every other call is refused with it too.
pub fn check_library() -> Result<(), Refused> {
    if lent::fits() {
        Ok(())
    } else {
        Err(Refused { refusal: Refusal::OtherLibrary, offset: None })
    }
}
