//! Release of a fresh carrier (document 02, W11): cases, which numbers come into use and go out of it, and the part of a session on cells in which
//! few numbers or none are unused.

use crate::bench::{alone, Case};
use crate::call::Call;
use crate::files;
use crate::pair::Pair;
use crate::random::Random;
use crate::rounds::{Outcome, Session};
use crate::texts;
use model::{file_of, Table, NO_PLACE, SIZE};

/// What is put and where; two agents that take turns at a carrier; the last number, none left, and one that an opening elsewhere frees.
pub fn cases() -> Vec<Case> {
    let crowd = |count: usize| " | 5[]".repeat(count);
    let (last, full) = (format!("release 9{}", crowd(62)), format!("release 9{}", crowd(63)));
    let elsewhere = format!("7[open 6 | 6[]] | 8[release 9]{}", crowd(60));
    let woken = "1 looked 0\n1 took 0\n1 slept 0\n0 looked 0\n0 took 0\n0 took 0\n0 opened 1\n1 looked 0\n1 took 0\n1 put 0\n";
    let turns = "0 looked 0\n0 took 0\n0 took 0\n0 opened 0\n1 looked 0\n1 took 0\n1 slept 0\n0 looked 0\n0 took 0\n0 put 1\n1 looked 0\n1 took 0\n\
                 1 took 0\n1 opened 0\n1 looked 0\n1 took 0\n1 put 0\n";
    let of = |term: &str, agents: &[u8], lines: &str, start: &str, end: &str| Case {
        file: file_of(term),
        agents: agents.to_vec(),
        written: format!("start {start}\n{lines}end {end}\n"),
    };
    let five = "5[] | ".repeat(60);
    vec![
        alone("release 9", "looked took put done", "9[]"),
        alone("7[release 9.open 9]", "looked took put looked took took opened done", "7[]"),
        alone("7[enter 8.release 9] | 8[]", "looked took took left took took came looked took put done", "8[7[9[]]]"),
        alone(&last, "looked took put done", &format!("{}9[]", "5[] | ".repeat(62))),
        alone(&full, "looked took slept asleep", &full),
        of(
            "9[] | open 9.release 9 | open 9.release 9",
            &[0, 0, 0, 0, 1, 1, 1, 0, 0, 0, 1, 1, 1, 1, 1, 1, 1],
            turns,
            "open 9.release 9 | open 9.release 9 | 9[]",
            "9[]",
        ),
        of(
            &elsewhere,
            &[1, 1, 1, 0, 0, 0, 0, 1, 1, 1],
            woken,
            &format!("{five}7[open 6 | 6[]] | 8[release 9]"),
            &format!("{five}7[] | 8[9[]]"),
        ),
    ]
}

/// The agents that sleep on no place.
fn asleep_on_no_place(table: &Table) -> usize {
    table.agents_in_use().filter(|(_, agent)| agent.stage == 7 && agent.remembered == NO_PLACE).count()
}

impl Pair {
    /// Counts what came into use since these bytes, and whether under a number that an opening freed; and who fell asleep on no place or was woken.
    pub fn seen_of_numbers(&mut self, before: &[u8; SIZE]) {
        let (before, after) = (Table::read(before), Table::read(self.lent.bytes()));
        for number in 0..64 {
            match (before.used[number as usize], after.used[number as usize]) {
                (true, false) => drop(self.freed.insert(number)),
                (false, true) => {
                    self.counts.put += 1;
                    self.counts.put_again += self.freed.remove(&number) as u64;
                }
                _ => {}
            }
        }
        let (then, now) = (asleep_on_no_place(&before), asleep_on_no_place(&after));
        self.counts.slept_nowhere += now.saturating_sub(then) as u64;
        self.counts.woken_nowhere += then.saturating_sub(now) as u64;
    }
}

impl Session {
    /// Random orders on cells with 61 to 64 places in use, from files and from texts, most of whose agents release and open.
    pub fn crowded(&mut self, random: &mut Random) -> Outcome {
        for _ in 0..2 {
            self.start_by(Call::Load(files::crowded(random)))?;
            self.order(random)?;
        }
        self.start_by(Call::Read(texts::crowded(random)))?;
        self.order(random)
    }
}
