//! No order can churn forever: document 02, W12. The ceiling, asked of both; the step calls that change the cell, counted from each load on; and the
//! part of a session in which moves are put off for as long as anything else changes the cell.

use crate::answer;
use crate::call::Call;
use crate::files;
use crate::pair::{same, Pair};
use crate::random::Random;
use crate::rounds::{Outcome, Session};
use model::{ask, ceiling, changes_nothing, file_of, Cell, Table, Word, SIZE, UNSOUND};

/// The calls that changed the cell since a start; the ceiling there; how many such calls there may be by the ceiling of every cell since, which is a
/// start too; and whether the start was a load or a reading.
#[derive(Clone, Copy)]
pub struct Churn {
    changes: u64,
    ceiling: u64,
    allowed: u64,
    loaded: bool,
}

impl Churn {
    /// From this cell on.
    pub fn from(cell: &Cell, loaded: bool) -> Churn {
        Churn { changes: 0, ceiling: ceiling(cell), allowed: ceiling(cell), loaded }
    }
}

impl Pair {
    /// The ceiling: refused with 10 on an unsound table, else as the model says.
    pub fn ceiling(&mut self) -> Result<(), String> {
        let most = self.cell.as_ref().map(ceiling).ok_or(UNSOUND);
        self.counts.ceilings += 1;
        self.counts.ceilings_refused += most.is_err() as u64;
        same("ceiling", self.lent.ceiling(), answer::of_count(most), answer::value_text)
    }

    /// A step call, or a commit that went through, on a cell with these bytes: it changes the cell, or it "answers held, asleep or done"; and of those
    /// that change it there are no more than the ceiling says, from the start and from every cell since.
    pub fn churned(&mut self, before: &[u8; SIZE], word: Word) -> Result<(), String> {
        let changed = Table::read(before) != Table::read(self.lent.bytes());
        if changed == changes_nothing(Ok(word)) {
            let what = if changed { "changes the cell" } else { "leaves the cell as it was" };
            return Err(format!("a step call that answers {} {what}", word.text()));
        }
        let (Some(churn), Some(cell)) = (&mut self.churn, &self.cell) else { return Ok(()) };
        churn.changes += changed as u64;
        churn.allowed = churn.allowed.min(churn.changes + ceiling(cell));
        self.counts.changes += changed as u64;
        if churn.loaded {
            self.counts.share(churn.changes, churn.ceiling);
        }
        if churn.changes <= churn.allowed {
            return Ok(());
        }
        Err(format!("{} step calls changed the cell, where by the ceilings there are {} at most", churn.changes, churn.allowed))
    }
}

/// Cells in which one move wakes many: sleepers in a place that goes in and out, on a floor on which places come and go, at carriers, and behind each
/// other's locks.
const WAKING: [&str; 6] = [
    "1[enter 2.exit 2.enter 2.exit 2.enter 2.exit 2 | open 9 | open 9 | open 9 | open 9] | 2[]",
    "1[enter 2.exit 2.enter 2.exit 2] | 2[] | 3[enter 9] | 4[enter 9] | open 9 | open 8",
    "9[] | open 9.release 9 | open 9.release 9 | open 9.release 9 | open 9.release 9",
    "1[enter 2.exit 2 | enter 2.exit 2 | enter 2.exit 2] | 2[enter 1.exit 1]",
    "7[enter 9] | 9[exit 7]",
    "9[7[exit 9]]",
];

/// A step that changes the cell and moves nothing, of any agent with any wish; one that makes a move where there is no such step; none at rest.
fn putting_off(random: &mut Random, cell: &Cell) -> Option<(u8, u8, u64)> {
    let mut agents: Vec<u8> = cell.agents.iter().filter(|(_, agent)| agent.stage < 7).map(|(&number, _)| number).collect();
    random.shuffle(&mut agents);
    let wish = random.pick(&[255, 1, 2, 3]);
    let asked = |&agent: &u8| ask(cell, agent, wish).ok().map(|asked| (agent, asked));
    let changing: Vec<_> = agents.iter().filter_map(asked).filter(|(_, asked)| !changes_nothing(Ok(asked.word))).collect();
    let moves = |word: Word| matches!(word, Word::Left | Word::Came | Word::Opened | Word::Put);
    let (agent, asked) = changing.iter().find(|(_, asked)| !moves(asked.word)).or(changing.first())?;
    Some((*agent, wish, answer::of_ask(Ok(*asked))))
}

impl Session {
    /// Such cells, by steps and by commits, to rest: several times each.
    pub fn churning(&mut self, times: usize) -> Outcome {
        let mut random = Random::new(12);
        for term in WAKING {
            for _ in 0..times {
                self.put_off(&mut random, file_of(term), usize::MAX)?;
            }
        }
        Ok(())
    }

    /// A random cell, so many calls at most.
    pub fn some_churning(&mut self, random: &mut Random, most: usize) -> Outcome {
        let file = files::good(random);
        self.put_off(random, file, most)
    }

    /// The cell of a file, from its load to rest, or so many calls, with moves put off.
    fn put_off(&mut self, random: &mut Random, file: Vec<u8>, most: usize) -> Outcome {
        self.start_by(Call::Load(file))?;
        for _ in 0..most {
            let Some((agent, wish, asked)) = self.pair.cell.as_ref().and_then(|cell| putting_off(random, cell)) else { break };
            let call = if random.percent(50) { Call::Step { agent, wish } } else { Call::Commit { agent, wish, asked } };
            self.call(call)?;
        }
        Ok(())
    }
}
