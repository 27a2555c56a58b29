//! Makes an example on which library and model differ as small as greedy steps can.

use crate::call::Call;
use crate::chance::shorter;
use crate::edits::{agents, bytes, bytes_of, halves, names, numbers, pieces, plainer, rows, Edit, Edits};
use crate::files::records;
use crate::pair::Pair;
use std::time::{Duration, Instant};

/// How long a smaller example is looked for.
const TIME: Duration = Duration::from_secs(30);

/// What differs when these calls are made one after another, if anything, and at which call.
pub fn difference(calls: &[Call], thorough: bool) -> Option<(usize, String)> {
    let mut pair = match Pair::new(thorough) {
        Ok(pair) => pair,
        Err(text) => return Some((0, text)),
    };
    calls.iter().enumerate().find_map(|(at, call)| pair.call(call).err().map(|text| (at, text)))
}

/// An example that is being made smaller.
struct Shrinking {
    calls: Vec<Call>,
    thorough: bool,
    end: Instant,
}

/// The smallest example found, and what differs in it: as long as a smaller one still differs, it is taken.
pub fn smallest(calls: &[Call]) -> (Vec<Call>, Option<String>) {
    let thorough = difference(calls, false).is_none();
    let mut shrinking = Shrinking { calls: calls.to_vec(), thorough, end: Instant::now() + TIME };
    shrinking.cut();
    let fewer: &[Edits] = &[agents, halves, rows, pieces];
    let plainer: &[Edits] = &[numbers, bytes, plainer];
    while shrinking.rounds(fewer) | shrinking.rounds(plainer) | shrinking.by_chance() {}
    let text = difference(&shrinking.calls, thorough).map(|(_, text)| text);
    (shrinking.calls, text)
}

impl Shrinking {
    /// Tries these edits until none of them makes the example smaller; whether any did.
    fn rounds(&mut self, sorts: &[Edits]) -> bool {
        let start = self.calls.clone();
        loop {
            let before = self.calls.clone();
            for edits in sorts {
                edits(&self.calls).into_iter().for_each(|edit| self.take(edit));
            }
            if self.calls == before {
                return self.calls != start;
            }
        }
    }

    /// Looks for a shorter order by chance.
    fn by_chance(&mut self) -> bool {
        let found = if Instant::now() < self.end { shorter(&self.calls, self.thorough) } else { None };
        found.map(|calls| self.calls = calls).is_some()
    }

    /// Leaves out the calls after the one at which they differ.
    fn cut(&mut self) {
        if let Some((at, _)) = difference(&self.calls, self.thorough) {
            self.calls.truncate(at + 1);
        }
    }

    /// Takes the edited example if it is smaller and still differs.
    fn take(&mut self, edit: Edit) {
        let Some(other) = edited(&self.calls, edit) else { return };
        if weight(&other) < weight(&self.calls) && Instant::now() < self.end && difference(&other, self.thorough).is_some() {
            self.calls = other;
            self.cut();
        }
    }
}

/// How far a wish is from none.
fn far(wish: u8) -> usize {
    if wish == 255 {
        0
    } else {
        256 + wish as usize
    }
}

/// How large an example is: calls first, then the bytes of its files, then how far its numbers are from plain ones.
fn weight(calls: &[Call]) -> (usize, usize, usize) {
    let bytes = |call: &Call| match call {
        Call::Load(bytes) | Call::Read(bytes) => bytes.len(),
        Call::Audit { file, trail, listing } => file.len() + trail.len() + listing.len(),
        _ => 0,
    };
    let sum = |bytes: &[u8]| bytes.iter().map(|&byte| byte as usize).sum();
    let numbers = |call: &Call| match call {
        Call::Load(bytes) | Call::Read(bytes) => sum(bytes),
        Call::Audit { file, .. } => sum(file),
        Call::Upheld => 0,
        Call::Step { agent, wish } => *agent as usize + far(*wish),
        Call::Ask { agent, wish } => 500 + *agent as usize + far(*wish),
        Call::Invent { agent, wish } => 1_000 + *agent as usize + far(*wish),
        Call::Commit { agent, wish, asked } => 1_000 + *agent as usize + far(*wish) + asked.count_ones() as usize,
        Call::Touch { place, number } => *place as usize + *number as usize,
        Call::Nearest { place, name } => *place as usize + *name as usize,
        Call::Common { place, other } => *place as usize + *other as usize,
        Call::Everywhere => 1_000,
        Call::List { room } => *room,
        Call::Renumber { seed } => *seed as usize,
        Call::Write { byte, .. } => *byte as usize,
    };
    (calls.len(), calls.iter().map(bytes).sum(), calls.iter().map(numbers).sum())
}

/// The agent that a call names.
fn agent_of(call: &Call) -> Option<u8> {
    match *call {
        Call::Step { agent, .. } | Call::Ask { agent, .. } | Call::Commit { agent, .. } | Call::Invent { agent, .. } => Some(agent),
        _ => None,
    }
}

/// The places that a call names.
fn places_of(call: &mut Call) -> Vec<&mut u8> {
    match call {
        Call::Touch { place, .. } | Call::Nearest { place, .. } => vec![place],
        Call::Common { place, other } => vec![place, other],
        _ => vec![],
    }
}

/// The example with the edit, if it applies.
fn edited(calls: &[Call], edit: Edit) -> Option<Vec<Call>> {
    let mut other = calls.to_vec();
    match edit {
        Edit::Agent(number) => {
            other.retain(|call| agent_of(call) != Some(number));
            each_file(&mut other, |rows| rows.retain(|row| !(matches!(row[0], 2 | 3) && row.get(1) == Some(&number))));
        }
        Edit::Calls(from, count) => {
            if from + count > other.len() {
                return None;
            }
            other.drain(from..from + count);
        }
        Edit::Record(at, row) | Edit::Opened(at, row) => {
            let mut only = vec![other.get(at)?.clone()];
            each_file(&mut only, |rows| take_out(rows, row, matches!(edit, Edit::Opened(..))));
            other[at] = only.pop()?;
        }
        Edit::AgentNumber(from, to) => {
            each_file(&mut other, |rows| {
                rows.iter_mut().filter(|row| matches!(row[0], 2 | 3)).for_each(|row| replace(row, &[1], from, to))
            });
            for call in &mut other {
                if let Call::Step { agent, .. } | Call::Ask { agent, .. } | Call::Commit { agent, .. } | Call::Invent { agent, .. } = call {
                    *agent = if *agent == from { to } else { *agent };
                }
            }
        }
        Edit::PlaceNumber(from, to) => {
            each_file(&mut other, |rows| {
                rows.iter_mut().for_each(|row| match row[0] {
                    1 | 6 => replace(row, &[1, 2], from, to),
                    2 => replace(row, &[2], from, to),
                    5 => replace(row, &[1], from, to),
                    _ => {}
                })
            });
            for call in &mut other {
                places_of(call).into_iter().filter(|place| **place == from).for_each(|place| *place = to);
            }
        }
        Edit::Name(from, to) => {
            each_file(&mut other, |rows| {
                for row in rows.iter_mut() {
                    names(row)
                        .filter(|&at| row[at..at + 2] == from)
                        .collect::<Vec<_>>()
                        .iter()
                        .for_each(|&at| row[at..at + 2].copy_from_slice(&to));
                }
            });
            for call in &mut other {
                if let Call::Nearest { name, .. } = call {
                    *name = if name.to_le_bytes() == from { u16::from_le_bytes(to) } else { *name };
                }
            }
        }
        Edit::Keyless(at, row) => {
            let mut only = vec![other.get(at)?.clone()];
            each_file(&mut only, |rows| {
                if let Some([kind @ 6, ..]) = rows.get_mut(row).map(Vec::as_mut_slice) {
                    *kind = 1;
                    rows[row].truncate(5);
                }
            });
            other[at] = only.pop()?;
        }
        Edit::Byte(at, index, to) => match other.get_mut(at)? {
            Call::Load(file) | Call::Audit { file, .. } => *file.get_mut(index)? = to,
            _ => return None,
        },
        Edit::Piece(at, which, from, count) => match bytes_of(other.get_mut(at)?, which)? {
            bytes if from + count <= bytes.len() => drop(bytes.drain(from..from + count)),
            _ => return None,
        },
        Edit::Plainer(at) => match other.get_mut(at)? {
            Call::Step { wish, .. } | Call::Ask { wish, .. } | Call::Invent { wish, .. } if *wish != 255 => *wish = 255,
            Call::Commit { wish, .. } if *wish != 255 => *wish = 255,
            Call::Step { .. } => return None,
            Call::Invent { agent, wish } => other[at] = Call::Ask { agent: *agent, wish: *wish },
            Call::Ask { agent, wish } | Call::Commit { agent, wish, .. } => other[at] = Call::Step { agent: *agent, wish: *wish },
            Call::Touch { number, .. } => *number /= 2,
            Call::Nearest { name, .. } => *name /= 2,
            Call::Common { other: second, .. } => *second /= 2,
            Call::Everywhere | Call::Upheld | Call::Audit { .. } => return None,
            Call::List { room } => *room /= 2,
            Call::Renumber { seed } => *seed /= 2,
            Call::Write { byte, .. } => *byte /= 2,
            Call::Load(bytes) | Call::Read(bytes) => drop(bytes.pop()),
        },
    }
    Some(other)
}

/// Changes the records of every file.
fn each_file(calls: &mut [Call], change: impl Fn(&mut Vec<Vec<u8>>)) {
    for call in calls {
        if let Call::Load(file) | Call::Audit { file, .. } = call {
            let mut rows = records(file);
            change(&mut rows);
            *file = rows.concat();
        }
    }
}

/// Takes a record out; if it is a place that is opened, what stood in it stands around it, and its touches are left out.
fn take_out(rows: &mut Vec<Vec<u8>>, row: usize, opened: bool) {
    if row >= rows.len() {
        return;
    }
    let gone = rows.remove(row);
    if let (true, [1 | 6, number, parent, ..]) = (opened, &gone[..]) {
        rows.retain(|row| !(row[0] == 5 && row.get(1) == Some(number)));
        for row in rows.iter_mut().filter(|row| matches!(row[0], 1 | 2 | 6)) {
            replace(row, &[2], *number, *parent);
        }
    }
}

/// Replaces a number in these bytes of a record.
fn replace(row: &mut [u8], bytes: &[usize], from: u8, to: u8) {
    for &at in bytes {
        if row.get(at) == Some(&from) {
            row[at] = to;
        }
    }
}
