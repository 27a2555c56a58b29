//! Reading texts: the call of both, listings that are read back, and the parts of a session that read texts.

use crate::answer;
use crate::call::Call;
use crate::churn::Churn;
use crate::pair::{same, Pair, FILL};
use crate::random::Random;
use crate::rounds::{Outcome, Session};
use crate::rows;
use crate::texts;
use model::{listing, read, Plain, Table};

impl Pair {
    /// A reading of a text: it never looks at the cell that was there, a refused one leaves it, and an accepted one "counts as loaded". What is
    /// listed of it says the same as the text, and reads as the same layout.
    pub fn read(&mut self, text: &[u8]) -> Result<(), String> {
        let before = self.lent.clone();
        let read = read(text);
        let answer = self.lent.read(text);
        same("read", answer, answer::of_load(read.as_ref().err().copied()), answer::load_text)?;
        match read {
            Err(refused) => {
                *self.counts.texts_refused.entry(refused.number).or_default() += 1;
                self.unchanged("a refused reading", before.bytes())
            }
            Ok(cell) => {
                self.counts.texts += 1;
                self.plain = Some(Plain::of_load(&cell));
                self.total = 0;
                self.churn = Some(Churn::from(&cell, true));
                self.trail = None;
                self.freed.clear();
                rows::same("a reading", self.bytes(), &rows::read(cell.places.len() - 1))?;
                self.cell = Some(cell);
                self.agree()
            }
        }
    }

    /// The listing of the cell is a text of the language, and the listing of what it gives has the same bytes: the library and the model say so
    /// of a cell of their own, which the cell's fields do not show.
    pub fn read_back(&mut self) -> Result<(), String> {
        let Some(cell) = &self.cell else { return Ok(()) };
        let text = listing(cell).into_bytes();
        self.counts.read_back += 1;
        let again =
            read(&text).map_err(|refused| format!("the model refuses its own listing with {} at {}", refused.number, refused.offset))?;
        if listing(&again).as_bytes() != text {
            return Err("the model lists what it read of a listing with other bytes".to_string());
        }
        let mut lent = self.lent.clone();
        same("read of a listing", lent.read(&text), 0, answer::load_text)?;
        if Table::read(lent.bytes()).cell().as_ref() != Some(&again) {
            return Err(format!("the library reads {} as another cell than the model", String::from_utf8_lossy(&text)));
        }
        let answer = lent.list(&mut self.text);
        same("list of what was read", answer, answer::of_value(Ok(text.len())), answer::value_text)?;
        if self.text[..text.len()] != text {
            return Err(format!("the library lists what it read of {} with other bytes", String::from_utf8_lossy(&text)));
        }
        self.text[..text.len()].fill(FILL);
        Ok(())
    }
}

impl Session {
    /// Reads a text.
    fn text(&mut self, text: Vec<u8>) -> Outcome {
        self.start_by(Call::Read(text))
    }

    /// Every truncation and every single-byte change of small texts; texts at and past each limit, with faults at their ends; very deep ones; of
    /// the longest text truncations, and a change, at one byte of 64 or, where this is thinned, of more.
    pub fn changed_texts(&mut self, thinned: usize) -> Outcome {
        for text in texts::SMALL.map(str::as_bytes) {
            self.text(text.to_vec())?;
            for at in 0..text.len() {
                self.text(text[..at].to_vec())?;
                for byte in 0..=255 {
                    self.text([&text[..at], &[byte], &text[at + 1..]].concat())?;
                    self.text([&text[..at], &[byte], &text[at..]].concat())?;
                }
                self.text([&text[..at], &text[at + 1..]].concat())?;
            }
            (0..=255).try_for_each(|byte| self.text([text, &[byte]].concat()))?;
        }
        let mut random = Random::new(16);
        for text in texts::limits(&mut random) {
            for after in ["", " ", " | ", " | 7[]", "]", ".", ".exit 1", "0", "\n"] {
                self.text([&text[..], after.as_bytes()].concat())?;
            }
            self.text(texts::damaged(&mut random, &text))?;
        }
        for depth in [1_000, 100_000] {
            texts::deep(depth).into_iter().try_for_each(|text| self.text(text))?;
        }
        let longest = texts::longest();
        for at in (0..longest.len()).step_by(64 * thinned + 1) {
            self.text(longest[..at].to_vec())?;
            self.text([&longest[..at], b"!", &longest[at + 1..]].concat())?;
        }
        Ok(())
    }

    /// Random texts, good, damaged and wild ones, some truncated at every byte; nearly full and over-full ones; and orders on cells that were
    /// read.
    pub fn texts(&mut self, random: &mut Random) -> Outcome {
        for _ in 0..60 {
            let text = texts::good(random);
            match random.below(12) {
                0..=2 => self.text(text)?,
                3..=8 => self.text(texts::damaged(random, &text))?,
                9..=10 => self.text(texts::wild(random))?,
                _ if text.len() < 200 => (0..=text.len()).try_for_each(|length| self.text(text[..length].to_vec()))?,
                _ => self.text(text[..random.below(text.len())].to_vec())?,
            }
        }
        let text = texts::nearly_full(random);
        self.text(text.clone())?;
        self.text(texts::damaged(random, &text))?;
        for _ in 0..4 {
            self.text(texts::good(random))?;
            self.order(random)?;
        }
        Ok(())
    }
}
