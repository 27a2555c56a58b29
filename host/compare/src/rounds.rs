//! The parts of a session, each of which ends with the calls that led to a difference, if there is one.

use crate::bench;
use crate::call::Call;
use crate::counts::Counts;
use crate::damage;
use crate::files;
use crate::layouts;
use crate::orders::{touch, unsound, Order};
use crate::pair::{Pair, LONGEST};
use crate::random::Random;
use crate::texts;
use crate::touches;
use model::Table;

/// A pair, and the calls since its last load.
pub struct Session {
    pub pair: Pair,
    calls: Vec<Call>,
}

/// What a part of the session answers: nothing, or the calls that led to a difference.
pub type Outcome = Result<(), Vec<Call>>;

impl Session {
    /// A session on a bare floor.
    pub fn new() -> Result<Session, String> {
        Ok(Session { pair: Pair::new(false)?, calls: Vec::new() })
    }

    /// The counts so far.
    pub fn counts_mut(&mut self) -> &mut Counts {
        &mut self.pair.counts
    }

    /// Makes a call.
    pub fn call(&mut self, call: Call) -> Outcome {
        self.calls.push(call);
        let last = &self.calls[self.calls.len() - 1];
        self.pair.call(last).map_err(|_| self.calls.clone())
    }

    /// Loads a file. An accepted one is a new start, and a refused one has left everything as it was.
    fn start(&mut self, file: Vec<u8>) -> Outcome {
        self.start_by(Call::Load(file))
    }

    /// A new start by a file or by a text.
    pub fn start_by(&mut self, call: Call) -> Outcome {
        let before = self.pair.counts.accepted + self.pair.counts.texts;
        self.call(call)?;
        let accepted = self.pair.counts.accepted + self.pair.counts.texts > before;
        let last = self.calls.len() - 1;
        if accepted {
            self.calls.drain(..last);
        } else {
            self.calls.truncate(last);
        }
        Ok(())
    }

    /// Document 01's worked example and bench cases.
    pub fn cases(&mut self) -> Outcome {
        for case in bench::cases() {
            assert!(case.holds_of_the_model(), "the model does not write {}", case.written);
            for call in case.calls() {
                match call {
                    Call::Load(file) => self.start(file)?,
                    call => self.call(call)?,
                }
            }
        }
        Ok(())
    }

    /// Touches up to the most there may be, from a full file and from an empty one: there the call that would pass it is refused, and the one
    /// that just reaches it is not; then steps that pool some, with touch calls among them.
    pub fn most_touches(&mut self) -> Outcome {
        let mut random = Random::new(15);
        let cells = ["0", "open 7.open 8 | 7[8[] | enter 8.exit 7]", "open 1.open 2 | 1[2[open 3 | 3[]]]"];
        for file in cells.map(model::file_of).into_iter().chain([bench::longest_file()]) {
            self.start(file)?;
            self.up_to_the_most(&mut random)?;
        }
        Ok(())
    }

    /// Touches of places in use until none may be added; then some calls.
    fn up_to_the_most(&mut self, random: &mut Random) -> Outcome {
        loop {
            let table = Table::read(self.pair.bytes());
            let left = touches::left(&table);
            let used: Vec<u8> = table.places_in_use().map(|(place, _)| place).collect();
            let place = random.pick(&used);
            let number = left.min(u32::MAX as u128) as u32;
            if left < u32::MAX as u128 {
                self.call(Call::Touch { place, number: number + 1 })?;
                self.call(Call::Touch { place: 64, number: number + 1 })?;
                self.call(Call::Touch { place: random.below(64) as u8, number: u32::MAX })?;
            }
            if left == 0 {
                break;
            }
            self.call(Call::Touch { place, number: if random.percent(2) { number / 2 } else { number } })?;
        }
        let mut order = Order::new(random);
        for _ in 0..40 {
            let Some(cell) = &self.pair.cell else { break };
            let call = if random.percent(20) { touch(random, cell) } else { order.next(random, cell) };
            self.call(call)?;
        }
        Ok(())
    }

    /// Full cells whose texts are equal, or differ late, or are long and have to go behind others at every level: in rooms about as long as their
    /// listings, under other numbers, and after some steps.
    pub fn full_listings(&mut self) -> Outcome {
        let mut random = Random::new(7);
        for file in layouts::full_cells() {
            self.start(file)?;
            for _ in 0..4 {
                let Some(cell) = &self.pair.cell else { break };
                let length = model::listing(cell).len();
                for room in [length - 1, length, length + 1, LONGEST - 1, LONGEST, LONGEST + 1] {
                    self.call(Call::List { room })?;
                }
                for _ in 0..8 {
                    self.call(Call::Renumber { seed: random.below(1_000_000) as u64 })?;
                }
                let agent = random.below(64) as u8;
                for _ in 0..9 {
                    self.call(Call::Step { agent, wish: 255 })?;
                }
            }
        }
        Ok(())
    }

    /// Every mixture of faults in a record; every single-byte change and every truncation of the small files, down to length 0; of the
    /// longest file truncations and some changes at every `thinned`th byte, and after it a file of length 0, which takes its place.
    pub fn changed_files(&mut self, thinned: usize) -> Outcome {
        for file in bench::faulty_records() {
            self.start(file)?;
        }
        for file in bench::small_files() {
            self.start(file.clone())?;
            for length in 0..file.len() {
                self.start(file[..length].to_vec())?;
            }
            for at in 0..file.len() {
                for byte in (0..=255).filter(|&byte| byte != file[at]) {
                    let mut changed = file.clone();
                    changed[at] = byte;
                    self.start(changed)?;
                }
            }
        }
        let file = bench::longest_file();
        self.start(file.clone())?;
        self.start(Vec::new())?;
        self.start(file.clone())?;
        let keyed = [6, 9, 0, 7, 0, 7, 0, 7, 0, 7, 0, 4];
        let touched = [&[5, 9, 0, 0, 0, 0][..], &[5, 64, 0, 0, 0, 0, 4]];
        for after in [&[0][..], &[4], &[1, 1, 0, 7, 0], &[3, 0, 1, 7, 0, 4], &keyed, &keyed[..11], &keyed[..10]].into_iter().chain(touched)
        {
            self.start([&file[..], after].concat())?;
            self.start([&file[..file.len() - 1], after].concat())?;
        }
        for at in (0..file.len()).step_by(thinned) {
            self.start(file[..at].to_vec())?;
            for byte in [0, 1, 4, 63, 64, 255] {
                let mut changed = file.clone();
                changed[at] = byte;
                self.start(changed)?;
            }
        }
        Ok(())
    }

    /// One round of random files, orders and changed cells; the same seed gives the same round.
    pub fn round(&mut self, seed: u64) -> Outcome {
        let mut random = Random::new(seed);
        for _ in 0..200 {
            let file = match random.below(10) {
                0..=1 => files::good(&mut random),
                2..=6 => files::nearly_good(&mut random),
                _ => files::wild(&mut random),
            };
            self.start(file)?;
        }
        for _ in 0..25 {
            self.start(files::good(&mut random))?;
            self.order(&mut random)?;
        }
        self.texts(&mut random)?;
        self.crowded(&mut random)?;
        self.some_churning(&mut random, 300)?;
        for _ in 0..10 {
            self.changed_cell(&mut random)?;
        }
        if random.percent(10) {
            self.start(files::good(&mut random))?;
            self.up_to_the_most(&mut random)?;
        }
        Ok(())
    }

    /// A random order on the cell, with touch calls, asks, commits, questions where a place is, listings into small buffers and listings under other
    /// numbers among the steps; at its end the trail is checked.
    pub fn order(&mut self, random: &mut Random) -> Outcome {
        let mut order = Order::new(random);
        let agents = self.pair.cell.as_ref().map_or(0, |cell| cell.agents.len());
        let most = 10 + random.below(10 + 30 * agents);
        let mut after_rest = 0;
        for _ in 0..most {
            let Some(cell) = &self.pair.cell else { break };
            if cell.idle() {
                after_rest += 1;
            }
            if after_rest > 6 {
                break;
            }
            let call = match random.below(100) {
                0..=2 => room(random, cell),
                3..=5 => Call::Renumber { seed: random.below(1_000_000) as u64 },
                _ => order.next(random, cell),
            };
            self.call(call)?;
        }
        self.call(Call::Upheld)
    }

    /// A cell somewhere in an order, of which bytes are changed in several ways; after each, some calls on it.
    fn changed_cell(&mut self, random: &mut Random) -> Outcome {
        let file = if random.percent(20) { files::crowded(random) } else { files::good(random) };
        self.start(file)?;
        let mut order = Order::new(random);
        for _ in 0..random.below(60) {
            let Some(cell) = &self.pair.cell else { break };
            let call = order.next(random, cell);
            self.call(call)?;
        }
        let kept = self.pair.keep();
        let before = self.calls.len();
        for _ in 0..30 {
            for write in damage::writes(random, self.pair.bytes()) {
                self.call(write)?;
            }
            self.after_damage(random)?;
            self.pair.put_back(&kept);
            self.calls.truncate(before);
        }
        Ok(())
    }

    /// Calls on a cell that may be unsound. A load or a reading that is refused leaves every byte of it, and an accepted one replaces it.
    fn after_damage(&mut self, random: &mut Random) -> Outcome {
        let mut order = Order::new(random);
        for _ in 0..1 + random.below(8) {
            let call = match &self.pair.cell {
                Some(cell) => order.next(random, cell),
                None => unsound(random),
            };
            self.call(call)?;
            if let (Some(cell), true) = (&self.pair.cell, random.percent(20)) {
                let call = touch(random, cell);
                self.call(call)?;
            }
            if self.pair.cell.is_none() {
                self.call(Call::Touch { place: random.byte() % 80, number: random.below(3) as u32 })?;
                self.call(Call::List { room: random.below(100) })?;
                if random.percent(10) {
                    let file = if random.percent(20) { Vec::new() } else { files::nearly_good(random) };
                    self.call(Call::Load(file))?;
                } else if random.percent(10) {
                    self.call(Call::Read(texts::nearly_good(random)))?;
                }
                break;
            }
        }
        Ok(())
    }
}

/// A listing into a buffer that is about as long as the listing.
fn room(random: &mut Random, cell: &model::Cell) -> Call {
    let length = model::listing(cell).len();
    let room = match random.below(7) {
        0 => length - 1,
        1 => length,
        2 => length + 1,
        3 => 0,
        4 => random.below(length + 1),
        5 => LONGEST - 1 + random.below(3),
        _ => length + random.below(20),
    };
    Call::List { room }
}
