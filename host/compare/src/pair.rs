//! The library and the model side by side: each call goes to both, and everything that can be seen is compared after it.

use crate::answer;
use crate::audits::Trail;
use crate::call::Call;
use crate::churn::Churn;
use crate::counts::Counts;
use crate::demands;
use crate::differing::{differing, forgotten};
use crate::keys;
use crate::random::Random;
use crate::renumber;
use crate::rows;
use crate::touches;
use keeper::lent::Lent;
use model::{listing, load, permitted, touch, Cell, Plain, Table, Tree, LISTING_TOO_LONG, UNSOUND};
use std::collections::BTreeSet;

/// A byte that no listing has, with which buffers are filled before they are lent.
pub const FILL: u8 = 0xAA;
/// The longest listing.
pub const LONGEST: usize = 16_225;
/// The longest listing and some bytes more.
pub const ROOM: usize = LONGEST + 21;
/// A buffer before it is lent.
static FILLED: [u8; ROOM] = [FILL; ROOM];

/// The lent cell; the model's cell, none where the table is unsound; and the plain tree and all touches loaded and added, both kept from an
/// accepted load on for as long as nobody else writes the cell; and the step calls that changed the cell since its load or since somebody else wrote
/// it, none where the table is unsound.
pub struct Pair {
    pub lent: Lent,
    pub cell: Option<Cell>,
    pub plain: Option<Plain>,
    pub total: u128,
    pub churn: Option<Churn>,
    /// The trail since the last load, as a host keeps it; none where nothing was loaded or somebody else wrote the cell.
    pub trail: Option<Trail>,
    pub text: Vec<u8>,
    thorough: bool,
    /// The numbers that openings freed and that were not given again.
    pub freed: BTreeSet<u8>,
    pub counts: Counts,
}

/// A cell to come back to.
pub struct Kept {
    lent: Lent,
    cell: Option<Cell>,
    plain: Option<Plain>,
    total: u128,
    churn: Option<Churn>,
    trail: Option<Trail>,
}

impl Pair {
    /// Both with a bare floor. A thorough pair asks the slow questions after every call, another one now and then.
    pub fn new(thorough: bool) -> Result<Pair, String> {
        let mut lent = Lent::zeros();
        lent.bytes_mut().fill(FILL);
        let answer = lent.bare();
        let (cell, churn) = (Some(Cell::bare()), Some(Churn::from(&Cell::bare(), true)));
        let (text, freed) = (vec![FILL; ROOM], BTreeSet::new());
        let mut pair = Pair { lent, cell, plain: None, total: 0, churn, trail: None, text, thorough, freed, counts: Counts::default() };
        same("bare", answer, 0, answer::value_text)?;
        rows::same("bare", pair.bytes(), &rows::loaded(&[]))?;
        pair.agree()?;
        Ok(pair)
    }

    /// The cell as it is.
    pub fn keep(&self) -> Kept {
        let (plain, trail) = (self.plain.clone(), self.trail.clone());
        Kept { lent: self.lent.clone(), cell: self.cell.clone(), plain, total: self.total, churn: self.churn, trail }
    }

    /// Back to the cell as it was.
    pub fn put_back(&mut self, kept: &Kept) {
        self.lent = kept.lent.clone();
        self.cell = kept.cell.clone();
        self.plain = kept.plain.clone();
        self.total = kept.total;
        self.churn = kept.churn;
        self.trail = kept.trail.clone();
        self.freed.clear();
    }

    /// The bytes of the lent cell.
    pub fn bytes(&self) -> &[u8; model::SIZE] {
        self.lent.bytes()
    }

    /// One call of both; says what differs.
    pub fn call(&mut self, call: &Call) -> Result<(), String> {
        match *call {
            Call::Load(ref file) => self.load(file),
            Call::Read(ref text) => self.read(text),
            Call::Step { agent, wish } => self.step(agent, wish),
            Call::Ask { agent, wish } => self.ask(agent, wish),
            Call::Commit { agent, wish, asked } => self.commit(agent, wish, asked),
            Call::Invent { agent, wish } => self.invent(agent, wish),
            Call::Touch { place, number } => self.touch(place, number),
            Call::Nearest { place, name } => self.nearest(place, name),
            Call::Common { place, other } => self.common(place, other),
            Call::Everywhere => self.everywhere(),
            Call::Upheld => self.upheld(),
            Call::Audit { ref file, ref trail, ref listing } => self.audited(file, trail, listing).map(|_| ()),
            Call::List { room } => self.list(room),
            Call::Renumber { seed } => match &self.cell {
                Some(cell) => renumber::compare(&mut Random::new(seed), &self.lent, cell, &mut self.counts),
                None => Ok(()),
            },
            Call::Write { at, byte } => self.write(at, byte),
        }
    }

    /// A load: it never looks at the cell that was there, and a refused one leaves it.
    fn load(&mut self, file: &[u8]) -> Result<(), String> {
        let before = self.lent.clone();
        let loaded = load(file);
        let answer = self.lent.load(file);
        same("load", answer, answer::of_load(loaded.as_ref().err().copied()), answer::load_text)?;
        match loaded {
            Err(refused) => {
                *self.counts.refused.entry(refused.number).or_default() += 1;
                self.unchanged("a refused load", before.bytes())
            }
            Ok(cell) => {
                self.counts.accepted += 1;
                self.plain = Some(Plain::of_load(&cell));
                self.total = touches::loaded(file);
                self.churn = Some(Churn::from(&cell, true));
                self.trail = Some(Trail::from(file));
                self.freed.clear();
                rows::same("a load", self.bytes(), &rows::loaded(file))?;
                self.counts.keyed += keys::loaded(self.bytes(), file)? as u64;
                self.cell = Some(cell);
                self.agree()
            }
        }
    }

    /// A touch call: refused with 10 on an unsound table, else as the model says; it changes the count of its place alone, and the plain
    /// tree passes over it.
    fn touch(&mut self, place: u8, number: u32) -> Result<(), String> {
        let before = self.lent.clone();
        let touched = match &mut self.cell {
            None => Err(UNSOUND),
            Some(cell) => touch(cell, place, number),
        };
        self.counts.touches += 1;
        let answer = self.lent.touch(place, number);
        same("touch", answer, answer::of_count(touched), answer::value_text)?;
        match touched {
            Err(refused) => {
                *self.counts.touches_refused.entry(refused).or_default() += 1;
                self.unchanged("a refused touch call", before.bytes())?;
                self.count(place)
            }
            Ok(_) => {
                self.total += number as u128;
                self.unchanged("a touch call", &touches::added(before.bytes(), place, number))?;
                self.count(place)?;
                self.agree()
            }
        }
    }

    /// The library says the count of a place as the model does.
    fn count(&self, place: u8) -> Result<(), String> {
        let count = self.cell.as_ref().ok_or(UNSOUND).and_then(|cell| model::touches(cell, place));
        same(&format!("touches of place {place}"), self.lent.touches(place), answer::of_count(count), answer::value_text)
    }

    /// A byte that somebody else writes: the table may be unsound afterwards, and no plain tree stands beside it.
    fn write(&mut self, at: usize, byte: u8) -> Result<(), String> {
        self.lent.bytes_mut()[at] = byte;
        self.plain = None;
        self.trail = None;
        self.cell = Table::read(self.lent.bytes()).cell();
        self.churn = self.cell.as_ref().map(|cell| Churn::from(cell, false));
        match self.cell {
            Some(_) => self.counts.sound += 1,
            None => self.counts.unsound += 1,
        }
        self.agree()
    }

    /// A listing into a buffer of this size; refused with 12 where it is longer.
    fn list(&mut self, room: usize) -> Result<(), String> {
        self.counts.listings += 1;
        let listed = self.cell.as_ref().map(listing);
        let expected = match &listed {
            None => Err(UNSOUND),
            Some(listed) if listed.len() > room => Err(LISTING_TOO_LONG),
            Some(listed) => Ok(listed.len()),
        };
        let answer = self.lent.list(&mut self.text[..room]);
        same("list", answer, answer::of_value(expected), answer::value_text)?;
        let length = expected.unwrap_or(0);
        if length > 0 && self.text[..length] != *listed.unwrap_or_default().as_bytes() {
            return Err(format!("the library lists {}", String::from_utf8_lossy(&self.text[..length])));
        }
        if self.text[length..] != FILLED[length..] {
            return Err(format!("list with room for {room} bytes writes past its {length} bytes"));
        }
        self.text[..length].fill(FILL);
        Ok(())
    }

    /// What can be seen between two calls: check, idle, the ceiling, the listing, the count of one place or, in a thorough pair, of all, and the fields of
    /// the table.
    pub fn agree(&mut self) -> Result<(), String> {
        let before = self.lent.clone();
        let table = Table::read(self.lent.bytes());
        let seen = table.cell();
        if seen != self.cell {
            return Err(match (&seen, &self.cell) {
                (Some(seen), Some(cell)) => differing(seen, cell),
                _ => "the library leaves an unsound table".to_string(),
            });
        }
        if self.plain.is_some() {
            forgotten(&table)?;
            self.counts.sums += 1;
            touches::all_there(&table, self.total)?;
        }
        let sound = self.cell.as_ref().map(|_| 0).ok_or(UNSOUND);
        let idle = self.cell.as_ref().map(|cell| cell.idle() as usize).ok_or(UNSOUND);
        same("check", self.lent.check(), answer::of_value(sound), answer::value_text)?;
        same("idle", self.lent.idle(), answer::of_value(idle), answer::value_text)?;
        self.ceiling()?;
        self.list(ROOM)?;
        if self.thorough || self.counts.listings % 32 == 0 {
            self.read_back()?;
        }
        let one = (self.counts.turns() % 67) as u8;
        let (first, last) = if self.thorough { (0, 255) } else { (one, one) };
        (first..=last).try_for_each(|place| self.count(place))?;
        self.unchanged("check, idle, ceiling, list or touches", before.bytes())?;
        self.demands()
    }

    /// Demands 2 and 3 of the model's cell, if it came from a load; the slow questions now and then.
    fn demands(&mut self) -> Result<(), String> {
        let (Some(cell), Some(plain)) = (&self.cell, &self.plain) else { return Ok(()) };
        demands::same_tree(plain, cell)?;
        if cell.idle() {
            self.counts.at_rest += 1;
            demands::at_rest(cell)?;
        } else if self.thorough || self.counts.turns() % 64 == 0 {
            self.counts.going_on += 1;
            demands::somebody_can_go_on(cell)?;
        }
        if cell.settled() && (self.thorough || self.counts.turns() % 8 == 0) {
            let moves = permitted(&Tree::of(cell));
            let most = if self.thorough { moves.len() } else { 3 };
            let start = self.counts.turns() as usize % moves.len().max(1);
            for &reached in moves.iter().cycle().skip(start).take(most.min(moves.len())) {
                self.counts.nine_steps += 1;
                demands::nine_steps(cell, reached)?;
            }
        }
        Ok(())
    }

    /// The lent cell has these bytes.
    pub fn unchanged(&self, what: &str, bytes: &[u8; model::SIZE]) -> Result<(), String> {
        match self.lent.bytes().iter().zip(bytes).position(|(now, then)| now != then) {
            None => Ok(()),
            Some(at) => Err(format!("{what} makes byte {at} of the cell {:02X} and not {:02X}", self.lent.bytes()[at], bytes[at])),
        }
    }
}

/// The library's answer is the model's.
pub fn same(call: &str, library: u64, model: u64, text: fn(u64) -> String) -> Result<(), String> {
    if library == model {
        Ok(())
    } else {
        Err(format!("{call}: the library answers {}, the model {}", text(library), text(model)))
    }
}
