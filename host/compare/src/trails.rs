//! Trails (document 02, W13): the parts of a session that check trails of random runs, of moves that the calculus permits, and both changed in every way.

use crate::call::Call;
use crate::files;
use crate::orders::Order;
use crate::random::Random;
use crate::rounds::{Outcome, Session};
use model::{listing, load, make, permitted, Agent, Cell, Kind, Move, Place, Stands, Tree};

/// A file, a trail from it, and the listing before its moves and after each.
struct Claim {
    file: Vec<u8>,
    trail: Vec<u8>,
    listings: Vec<Vec<u8>>,
}

/// The most moves that a trail of any cell has: 64 agents with sixteen actions.
const MOST_MOVES: usize = 1_024;

impl Session {
    /// So many random runs with what becomes of their trails; and as many trails of the calculus alone.
    pub fn trails(&mut self, random: &mut Random, runs: usize) -> Outcome {
        for _ in 0..runs {
            let run = self.run_with_trail(random)?;
            self.claims(random, &run)?;
            let file = file(random);
            let moves = of_calculus(random, &file);
            self.claims(random, &moves)?;
        }
        Ok(())
    }

    /// A random order on a random cell, with touch calls, commits, refused ones too, and questions among the steps: the trail that is kept of it, which leads
    /// to the cell's listing.
    fn run_with_trail(&mut self, random: &mut Random) -> Result<Claim, Vec<Call>> {
        let file = file(random);
        self.start_by(Call::Load(file.clone()))?;
        let mut order = Order::new(random);
        let mut claim = Claim { file, trail: Vec::new(), listings: self.listed() };
        let agents = self.pair.cell.as_ref().map_or(0, |cell| cell.agents.len());
        for _ in 0..10 + random.below(10 + 40 * agents.min(8)) {
            let Some(cell) = &self.pair.cell else { break };
            if cell.idle() {
                break;
            }
            let call = order.next(random, cell);
            self.call(call)?;
            claim.trail = self.pair.trail.as_ref().map_or(Vec::new(), |trail| trail.moves.clone());
            if claim.trail.len() == 2 * claim.listings.len() {
                claim.listings.extend(self.listed());
            }
        }
        self.call(Call::Upheld)?;
        Ok(claim)
    }

    /// The listing of the cell.
    fn listed(&self) -> Vec<Vec<u8>> {
        self.pair.cell.iter().map(|cell| listing(cell).into_bytes()).collect()
    }

    /// A claim as it is, shortened, cut, changed and with other files and listings.
    fn claims(&mut self, random: &mut Random, claim: &Claim) -> Outcome {
        let last = &claim.listings[claim.listings.len() - 1];
        self.claim(&claim.file, &claim.trail, last)?;
        self.shortened(random, claim)?;
        for _ in 0..12 {
            self.claim(&claim.file, &changed(random, claim), last)?;
        }
        for _ in 0..4 {
            let (file, listing) = (damaged(random, &claim.file), relisted(random, claim));
            self.claim(&file, &claim.trail, last)?;
            self.claim(&claim.file, &claim.trail, &listing)?;
        }
        Ok(())
    }

    /// Shortened by whole moves, with the listing there and with the last one; and cut within a move.
    fn shortened(&mut self, random: &mut Random, claim: &Claim) -> Outcome {
        let moves = claim.trail.len() / 2;
        let last = &claim.listings[moves];
        for _ in 0..moves.min(3) {
            let made = random.below(moves);
            self.claim(&claim.file, &claim.trail[..2 * made], &claim.listings[made])?;
            self.claim(&claim.file, &claim.trail[..2 * made], last)?;
            self.claim(&claim.file, &claim.trail[..2 * made + 1], &claim.listings[made])?;
        }
        let odd = [&claim.trail[..], &[random.byte()]].concat();
        self.claim(&claim.file, &odd, last)
    }

    /// Both check it; the cell plays no part.
    fn claim(&mut self, file: &[u8], trail: &[u8], listing: &[u8]) -> Outcome {
        let call = Call::Audit { file: file.to_vec(), trail: trail.to_vec(), listing: listing.to_vec() };
        self.pair.call(&call).map_err(|_| vec![call])
    }

    /// As many moves as a cell's actions allow: half of the agents put out carriers, each of which one of the others opens. All of them; one more; every
    /// carrier under another number; and long trails, of which the first wrong move decides.
    pub fn full_trail(&mut self) -> Outcome {
        let actions = |agent: u8| [vec![2, agent, 0], [3, agent, 4 - agent % 2, 9, 0].repeat(16)].concat();
        let file = [(0..64).flat_map(actions).collect(), vec![4]].concat();
        let pair = |turn: usize| [2 * (turn / 16) as u8, 255, 2 * (turn / 16) as u8 + 1, 1];
        let trail: Vec<u8> = (0..MOST_MOVES / 2).flat_map(pair).collect();
        self.claim(&file, &trail, b"0")?;
        for after in [&[0, 255][..], &[63, 1], &[0], &[64, 255], &vec![0; 1 << 20], &vec![0; (1 << 20) + 1]] {
            self.claim(&file, &[&trail[..], after].concat(), b"0")?;
        }
        for moves in [1, 2, 63, 64, 126, 127, 128, 1_022, 1_023] {
            self.claim(&file, &trail[..2 * moves], b"0")?;
            self.claim(&file, &[&trail[..2 * moves - 1], &[2]].concat(), b"0")?;
        }
        let puts: Vec<u8> = (0..64).flat_map(|turn| [2 * (turn / 16), 255]).collect();
        let after = |number: u8| [&puts[..126], &[1, number, 8, 255]].concat();
        self.claim(&file, &puts, b"0")?;
        (1..64).try_for_each(|number| self.claim(&file, &after(number), b"0"))
    }
}

/// An accepted file, one in five with nearly all numbers in use.
fn file(random: &mut Random) -> Vec<u8> {
    if random.percent(20) {
        files::crowded(random)
    } else {
        files::good(random)
    }
}

/// A row of moves that the calculus permits, one after another, whether the keeper's locks would hold them up or not.
fn of_calculus(random: &mut Random, file: &[u8]) -> Claim {
    let mut tree = Tree::of(&load(file).expect("a good file is accepted"));
    let mut claim = Claim { file: file.to_vec(), trail: Vec::new(), listings: vec![listing_of(&tree)] };
    for _ in 0..random.below(40) {
        let moves = permitted(&tree);
        if moves.is_empty() {
            break;
        }
        let found = random.pick(&moves);
        tree = make(&tree, found);
        claim.trail.extend(bytes(&found));
        claim.listings.push(listing_of(&tree));
    }
    claim
}

/// The two bytes of a move.
fn bytes(found: &Move) -> [u8; 2] {
    match found.kind {
        Kind::Enter | Kind::Open => [found.agent, found.with],
        Kind::Exit | Kind::Release => [found.agent, 255],
    }
}

/// The listing of the cell in which each place and agent of the tree is.
fn listing_of(tree: &Tree) -> Vec<u8> {
    let mut cell = Cell::bare();
    for (&number, place) in &tree.places {
        let stands = place.stands.map_or(Stands::TheFloor, Stands::Linked);
        cell.places.insert(number, Place { name: place.name, keys: place.keys, stands, touches: 0 });
    }
    for (&number, (home, unused)) in &tree.agents {
        cell.agents.insert(number, Agent { home: *home, stage: 0, remembered: None, chosen: None, unused: unused.clone() });
    }
    listing(&cell).into_bytes()
}

/// A trail with a byte changed, two moves swapped, two neighbouring bytes exchanged, a move put in, taken out or put after it; or any bytes.
fn changed(random: &mut Random, claim: &Claim) -> Vec<u8> {
    let mut trail = claim.trail.clone();
    let moves = trail.len() / 2;
    match random.below(10) {
        0 => return (0..random.below(10)).map(|_| byte(random, claim)).collect(),
        1 => trail.extend([byte(random, claim), byte(random, claim)]),
        2 => {
            let at = 2 * random.below(moves + 1);
            trail.splice(at..at, [byte(random, claim), byte(random, claim)]);
        }
        _ if moves == 0 => trail.push(random.byte()),
        3 => drop(trail.drain(2 * (moves - 1) - 2 * random.below(moves)..).take(2).count()),
        4..=5 => {
            let (one, other) = (2 * random.below(moves), 2 * random.below(moves));
            (0..2).for_each(|byte| trail.swap(one + byte, other + byte));
        }
        6..=7 => {
            let at = random.below(trail.len() - 1);
            trail.swap(at, at + 1);
        }
        _ => {
            let at = random.below(trail.len());
            trail[at] = byte(random, claim);
        }
    }
    trail
}

/// A byte of a trail: mostly one that stands in this one or in its file, or 255.
fn byte(random: &mut Random, claim: &Claim) -> u8 {
    match random.below(8) {
        0..=1 if !claim.trail.is_empty() => random.pick(&claim.trail),
        2..=4 => random.pick(&claim.file),
        5 => 255,
        6 => random.byte(),
        _ => random.below(66) as u8,
    }
}

/// A file with a byte changed, mostly to a small number, cut off, or with a byte put after it; or another one.
fn damaged(random: &mut Random, file: &[u8]) -> Vec<u8> {
    let mut file = file.to_vec();
    let at = random.below(file.len());
    match random.below(8) {
        0..=4 => file[at] = if random.percent(70) { random.below(10) as u8 } else { random.byte() },
        5 => file.truncate(at),
        6 => file.push(random.byte()),
        _ => file = files::nearly_good(random),
    }
    file
}

/// A listing with a byte more, less or changed; an earlier one; or none.
fn relisted(random: &mut Random, claim: &Claim) -> Vec<u8> {
    let mut listing = claim.listings[claim.listings.len() - 1].clone();
    let (at, byte) = (random.below(listing.len()), random.pick(b"0123456789[]/| .enterxiopls\n\0"));
    match random.below(8) {
        0..=1 => listing[at] = byte,
        2 => drop(listing.remove(at)),
        3 => listing.insert(at, byte),
        4 => listing.push(byte),
        5 => drop(listing.pop()),
        6 => listing.clear(),
        _ => listing = claim.listings[random.below(claim.listings.len())].clone(),
    }
    listing
}
