//! Orders: which agent steps next and what it wishes, with touch calls, asks, commits and questions where a place is among the steps.

use crate::answer;
use crate::call::Call;
use crate::random::Random;
use crate::whereabouts::question;
use model::{ask, Cell};

/// How agents are chosen.
#[derive(Clone, Copy)]
enum Manner {
    /// Any agent of the cell.
    Any,
    /// Mostly the agent of the call before, as long as its steps change something.
    Same,
    /// One after another, mostly of those that are neither asleep nor done.
    InTurn,
    /// Mostly one that is neither asleep nor done.
    Awake,
    /// The same agent until the cell is settled, so that whole moves are made.
    WholeMoves,
}

/// How many asks are kept to be committed later.
const KEPT: usize = 12;

/// The manner of an order, how many of a hundred calls touch, how many ask where a place is, and how many of the others ask or commit, the agent
/// of the step before, the stage it was at before that, and asks that were made and not committed yet: agent, wish and number.
pub struct Order {
    manner: Manner,
    touching: usize,
    questions: usize,
    asking: usize,
    agent: u8,
    stage: u8,
    asks: Vec<(u8, u8, u64)>,
}

impl Order {
    /// An order in one of the manners.
    pub fn new(random: &mut Random) -> Order {
        use Manner::*;
        let manner = random.pick(&[Any, Same, Same, InTurn, Awake, Awake, WholeMoves, WholeMoves]);
        let (touching, asking) = (random.pick(&[0, 3, 10, 40]), random.pick(&[0, 10, 50, 100]));
        let questions = random.pick(&[0, 2, 10]);
        Order { manner, touching, questions, asking, agent: random.below(64) as u8, stage: 0, asks: Vec::new() }
    }

    /// The next call: a touch call or a question where a place is now and then, else a step call, an ask or a commit, which sometimes names no
    /// agent of the cell.
    pub fn next(&mut self, random: &mut Random, cell: &Cell) -> Call {
        if random.percent(self.touching) {
            return touch(random, cell);
        }
        if random.percent(self.questions) {
            return question(random, cell);
        }
        let (agent, wish) = (self.agent(random, cell), wish(random, cell));
        if random.percent(self.asking) {
            self.asking(random, cell, agent, wish)
        } else {
            Call::Step { agent, wish }
        }
    }

    /// An ask; a commit of what an ask would tell now; one of an ask that was made some calls before; or one of an invented number.
    fn asking(&mut self, random: &mut Random, cell: &Cell, agent: u8, wish: u8) -> Call {
        let now = answer::of_ask(ask(cell, agent, wish));
        match random.below(10) {
            0..=2 => {
                self.asks.truncate(KEPT - 1);
                self.asks.insert(0, (agent, wish, now));
                Call::Ask { agent, wish }
            }
            3..=4 if !self.asks.is_empty() => {
                let latest = random.below(self.asks.len()).min(random.below(self.asks.len()));
                let (agent, wish, asked) = self.asks.remove(latest);
                Call::Commit { agent, wish, asked }
            }
            5 => Call::Commit { agent, wish, asked: invented(random, cell, now) },
            _ => Call::Commit { agent, wish, asked: now },
        }
    }

    /// The agent of the next call.
    fn agent(&mut self, random: &mut Random, cell: &Cell) -> u8 {
        if cell.agents.is_empty() || random.percent(1) {
            return random.byte();
        }
        let went_on = cell.agents.get(&self.agent).is_some_and(|agent| agent.stage != self.stage && agent.stage < 7);
        self.agent = match self.manner {
            Manner::Any => any(random, cell),
            Manner::Same if went_on && random.percent(80) => self.agent,
            Manner::InTurn => in_turn(cell, self.agent, random.percent(90)),
            Manner::WholeMoves if went_on && !(cell.settled() && random.percent(40)) => self.agent,
            _ if random.percent(3) => any(random, cell),
            _ => awake(random, cell),
        };
        self.stage = cell.agents[&self.agent].stage;
        self.agent
    }
}

/// A number that is not this one: another word, number woken or place, a refusal or something above bit 31 beside it, a refusal alone, or any.
pub fn invented(random: &mut Random, cell: &Cell, number: u64) -> u64 {
    let with = |at: u32, byte: u8| number & !(255 << at) | (byte as u64) << at;
    let any = random.next();
    let other = match random.below(8) {
        0 => with(8, random.below(12) as u8),
        1 => with(8, random.byte()),
        2 => with(16, random.pick(&[0, 1, 2, 64, 255])),
        3 => with(24, place(random, cell)),
        4 => with(24, random.pick(&[0, 63, 64, 254, 255])),
        5 => with(0, random.pick(&[1, 10, 11, 18, 255])),
        6 => number | 1 << (32 + random.below(32)),
        _ => random.pick(&[0, 10, 11, 18, u64::MAX, any]),
    };
    if other == number {
        number ^ (1 + random.below(255) as u64) << (8 * random.below(8))
    } else {
        other
    }
}

/// The agent with the next number, if asked for the next that is neither asleep nor done; the first one after the last.
fn in_turn(cell: &Cell, before: u8, awake: bool) -> u8 {
    let fits = |number: &&u8| !awake || cell.idle() || cell.agents[*number].stage < 7;
    let mut numbers = cell.agents.keys().filter(fits);
    let first = numbers.clone().next().expect("some agent fits");
    *numbers.find(|&&number| number > before).unwrap_or(first)
}

/// Any agent of the cell.
fn any(random: &mut Random, cell: &Cell) -> u8 {
    let numbers: Vec<u8> = cell.agents.keys().copied().collect();
    random.pick(&numbers)
}

/// An agent that is neither asleep nor done, or any if there is none.
fn awake(random: &mut Random, cell: &Cell) -> u8 {
    let numbers: Vec<u8> = cell.agents.iter().filter(|(_, agent)| agent.stage < 7).map(|(&number, _)| number).collect();
    if numbers.is_empty() {
        any(random, cell)
    } else {
        random.pick(&numbers)
    }
}

/// A wish: mostly none or a place in use.
fn wish(random: &mut Random, cell: &Cell) -> u8 {
    match random.below(10) {
        0..=3 => 255,
        4..=8 => place(random, cell),
        _ => random.byte(),
    }
}

/// A place in use.
fn place(random: &mut Random, cell: &Cell) -> u8 {
    let numbers: Vec<u8> = cell.places.keys().copied().collect();
    random.pick(&numbers)
}

/// A step, an ask or a commit of any agent, or a question about any place, on an unsound table.
pub fn unsound(random: &mut Random) -> Call {
    let (agent, wish, any) = (random.byte() % 80, random.byte(), random.next());
    match random.below(5) {
        0 => Call::Step { agent, wish },
        1 => Call::Ask { agent, wish },
        2 => Call::Nearest { place: agent, name: random.below(80) as u16 },
        3 => Call::Common { place: agent, other: wish },
        _ => Call::Commit { agent, wish, asked: random.pick(&[0, 10, 11, 18, 255 << 24, 1 << 8 | 255 << 24, any]) },
    }
}

/// A place that a call names: mostly one in use.
pub fn any_place(random: &mut Random, cell: &Cell) -> u8 {
    match random.below(20) {
        0 => random.byte(),
        1 => random.below(66) as u8,
        _ => place(random, cell),
    }
}

/// A touch call: mostly of a place in use, with a number that is small, at a limit of its bytes, or any.
pub fn touch(random: &mut Random, cell: &Cell) -> Call {
    Call::Touch { place: any_place(random, cell), number: count(random) }
}

/// A four-byte count.
pub fn count(random: &mut Random) -> u32 {
    match random.below(8) {
        0..=3 => random.below(20) as u32,
        4 => random.pick(&[255, 256, 65_535, 65_536, 16_777_216, u32::MAX - 1]),
        5 => u32::MAX,
        _ => random.next() as u32,
    }
}
