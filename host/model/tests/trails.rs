//! Document 02, W13: trails of random runs, and what becomes of them when they are changed. What the definition says of a trail is found here by
//! the moves that the flat tree of `calculus` lists, each made in it.

use model::{check, listing, load, make, permitted, trailed_step, Agent, Cell, Kind, Move, Place, Stands, Tree, Verdict, Why};

/// A number below the limit; the same seed gives the same numbers.
fn below(seed: &mut u64, limit: usize) -> usize {
    *seed = seed.wrapping_mul(6_364_136_223_846_793_005).wrapping_add(1_442_695_040_888_963_407);
    (*seed >> 33) as usize % limit
}

/// A random file with few names, some places with keys of their own, numbers in no order, most agents with something to do, some to release; one
/// in four has nearly all numbers in use.
fn random_file(seed: &mut u64) -> Vec<u8> {
    let count = if below(seed, 4) == 0 { 58 + below(seed, 6) } else { 1 + below(seed, 9) };
    let mut numbers: Vec<u8> = (1..64).collect();
    (0..63).for_each(|at| numbers.swap(at, below(seed, at + 1)));
    let mut given = vec![0];
    let mut file = Vec::new();
    for &number in &numbers[..count] {
        let name = 1 + below(seed, 3) as u8;
        let parent = given[below(seed, given.len())];
        match below(seed, 5) {
            0 => file.extend([6, number, parent, name, 0, below(seed, 4) as u8, 0, below(seed, 4) as u8, 0, below(seed, 4) as u8, 0]),
            _ => file.extend([1, number, parent, name, 0]),
        }
        given.push(number);
    }
    for agent in 0..1 + below(seed, 6) as u8 {
        file.extend([2, 9 * agent, given[below(seed, given.len())]]);
        (0..below(seed, 7)).for_each(|_| file.extend([3, 9 * agent, 1 + below(seed, 4) as u8, 1 + below(seed, 3) as u8, 0]));
    }
    file.push(4);
    file
}

/// The cell in which each place and agent of the tree is, to list it.
fn cell(tree: &Tree) -> Cell {
    let mut cell = Cell::bare();
    for (&number, place) in &tree.places {
        let stands = place.stands.map_or(Stands::TheFloor, Stands::Linked);
        cell.places.insert(number, Place { name: place.name, keys: place.keys, stands, touches: 0 });
    }
    for (&number, (home, unused)) in &tree.agents {
        cell.agents.insert(number, Agent { home: *home, stage: 0, remembered: None, chosen: None, unused: unused.clone() });
    }
    cell
}

/// The two bytes of a move.
fn bytes(found: &Move) -> [u8; 2] {
    match found.kind {
        Kind::Enter | Kind::Open => [found.agent, found.with],
        Kind::Exit | Kind::Release => [found.agent, 255],
    }
}

/// What the definition says of a trail from an accepted file.
fn defined(file: &[u8], trail: &[u8], last: &str) -> Verdict {
    let mut tree = Tree::of(&load(file).expect("the file is accepted"));
    if trail.len() % 2 == 1 {
        return Verdict::No { made: trail.len() / 2, why: Why::OddByte };
    }
    for made in 0..trail.len() / 2 {
        let pair = [trail[2 * made], trail[2 * made + 1]];
        let Some(found) = permitted(&tree).into_iter().find(|found| bytes(found) == pair) else {
            let acts = tree.agents.get(&pair[0]).is_some_and(|(_, unused)| !unused.is_empty());
            return Verdict::No { made, why: if acts { Why::NotPermitted } else { Why::NothingLeft } };
        };
        tree = make(&tree, found);
    }
    match listing(&cell(&tree)) == last {
        true => Verdict::Yes,
        false => Verdict::No { made: trail.len() / 2, why: Why::OtherLayout },
    }
}

/// A run of the keeper from this file, to rest or stopped somewhere: the trail, and the listing after each of its moves, the first before any.
fn run(seed: &mut u64, file: &[u8]) -> (Vec<u8>, Vec<String>) {
    let mut cell = load(file).expect("the file is accepted");
    let (mut trail, mut listings) = (Vec::new(), vec![listing(&cell)]);
    let stop = 1 + below(seed, 400);
    for _ in 0..stop {
        if cell.idle() {
            break;
        }
        let agent = 9 * below(seed, 7) as u8;
        let _ = trailed_step(&mut cell, &mut trail, agent, below(seed, 70) as u8);
        if listings.len() <= trail.len() / 2 {
            listings.push(listing(&cell));
        }
    }
    assert_eq!(listings.last(), Some(&listing(&cell)), "between two moves the listing stays");
    (trail, listings)
}

#[test]
fn of_runs() {
    let mut seed = 13;
    let (mut moves, mut longest) = (0, 0);
    for _ in 0..4_000 {
        let file = random_file(&mut seed);
        let (trail, listings) = run(&mut seed, &file);
        let last = listings.last().expect("one before any move");
        assert_eq!(check(&file, &trail, last.as_bytes()), Verdict::Yes, "{trail:?} from {file:?}");
        // shortened it is upheld with the listing then, and with the last one it is not: an action fewer is used up
        for made in 0..listings.len() {
            let shorter = &trail[..2 * made];
            assert_eq!(check(&file, shorter, listings[made].as_bytes()), Verdict::Yes);
            let other = if 2 * made == trail.len() { Verdict::Yes } else { Verdict::No { made, why: Why::OtherLayout } };
            assert_eq!(check(&file, shorter, last.as_bytes()), other);
            if 2 * made < trail.len() {
                let cut = &trail[..2 * made + 1];
                assert_eq!(check(&file, cut, last.as_bytes()), Verdict::No { made, why: Why::OddByte });
            }
        }
        moves += trail.len() / 2;
        longest = longest.max(trail.len() / 2);
    }
    assert!(moves > 6_000 && longest > 12, "{moves} moves, at most {longest}");
}

#[test]
fn of_runs_changed() {
    let mut seed = 31;
    let mut said = [0; 4];
    for _ in 0..4_000 {
        let file = random_file(&mut seed);
        let (trail, listings) = run(&mut seed, &file);
        let last = listings.last().expect("one before any move");
        if trail.is_empty() {
            continue;
        }
        let used: Vec<u8> = load(&file).unwrap().places.into_keys().collect();
        for at in 0..trail.len() {
            let mut changed = trail.clone();
            let among = [used[below(&mut seed, used.len())], 255, 9 * below(&mut seed, 6) as u8, below(&mut seed, 256) as u8];
            changed[at] = among[below(&mut seed, 4)];
            if changed == trail {
                continue;
            }
            let verdict = defined(&file, &changed, last);
            assert_eq!(check(&file, &changed, last.as_bytes()), verdict, "{changed:?} from {file:?}");
            said[count(verdict)] += 1;
        }
        let (one, other) = (2 * below(&mut seed, trail.len() / 2), 2 * below(&mut seed, trail.len() / 2));
        let mut swapped = trail.clone();
        (0..2).for_each(|byte| swapped.swap(one + byte, other + byte));
        let verdict = defined(&file, &swapped, last);
        assert_eq!(check(&file, &swapped, last.as_bytes()), verdict, "{swapped:?} from {file:?}");
        said[count(verdict)] += 1;
    }
    assert!(said.iter().zip([400, 4_000, 4_000, 20]).all(|(&number, least)| number > least), "{said:?}");
}

/// Under which verdict it is counted.
fn count(verdict: Verdict) -> usize {
    match verdict {
        Verdict::Yes => 0,
        Verdict::No { why: Why::NotPermitted, .. } => 1,
        Verdict::No { why: Why::NothingLeft, .. } => 2,
        _ => 3,
    }
}

#[test]
fn every_pair_after_moves_of_the_calculus() {
    let mut seed = 5;
    let (mut right, mut kinds) = (0, [0; 4]);
    for _ in 0..200 {
        let file = random_file(&mut seed);
        let mut tree = Tree::of(&load(&file).unwrap());
        let mut trail = Vec::new();
        loop {
            let moves = permitted(&tree);
            assert_eq!(check(&file, &trail, listing(&cell(&tree)).as_bytes()), Verdict::Yes);
            for agent in tree.agents.keys().copied().chain([1, 64]) {
                for byte in 0..=255 {
                    let next = [&trail[..], &[agent, byte]].concat();
                    let made = !matches!(check(&file, &next, b""), Verdict::No { made, .. } if made == trail.len() / 2);
                    assert_eq!(made, moves.iter().any(|found| bytes(found) == [agent, byte]), "{next:?} from {file:?}");
                    right += made as usize;
                }
            }
            if moves.is_empty() {
                break;
            }
            let found = moves[below(&mut seed, moves.len())];
            kinds[found.kind.number() as usize - 1] += 1;
            trail.extend(bytes(&found));
            tree = make(&tree, found);
        }
    }
    assert!(right > 500 && kinds.iter().all(|&number| number > 20), "{right} {kinds:?}");
}
