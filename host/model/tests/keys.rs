//! Document 02, W6: separate rights to enter, leave and open.

use model::{file_of, listing, load, make, permitted, step, walk, Action, Cell, Keys, Kind, Plain, Refused, Tree, Word};

/// The number and the offset with which a file is refused.
fn refusal(file: &[u8]) -> (u8, usize) {
    let Refused { number, offset } = load(file).expect_err("the file is refused");
    (number, offset)
}

/// The cell of a term.
fn cell(term: &str) -> Cell {
    load(&file_of(term)).expect("the file is accepted")
}

/// Steps of this agent until it is asleep or done, the plain tree kept beside the cell; the last word and the listing.
fn alone(term: &str, agent: u8) -> (Word, String) {
    let mut cell = cell(term);
    let mut plain = Plain::of_load(&cell);
    loop {
        let word = step(&mut cell, agent, 255).expect("the agent is there").word;
        plain.follow(agent, 255, word);
        assert!(plain.equals(&cell) && plain.same_order(&cell) && cell.one_tree());
        if matches!(word, Word::Asleep | Word::Done) {
            return (word, listing(&cell));
        }
    }
}

#[test]
fn a_record_gives_the_keys() {
    let given = load(&[6, 1, 0, 1, 2, 3, 4, 5, 6, 7, 8, 1, 2, 1, 9, 1, 4]).unwrap();
    assert_eq!((given.places[&1].name, given.places[&1].keys.numbers()), (0x0201, [0x0403, 0x0605, 0x0807]));
    assert_eq!((given.places[&2].name, given.places[&2].keys.numbers()), (0x0109, [0x0109; 3]), "kind 1 sets all three to the name");
    assert_eq!(given.places[&0].keys.numbers(), [0; 3], "the floor's are 0");
    assert_eq!(Cell::bare().places[&0].keys, Keys { enter: None, exit: None, open: None });
    let nobody = load(&[6, 1, 0, 7, 0, 0, 0, 0, 0, 0, 0, 4]).unwrap();
    assert_eq!(nobody.places[&1].keys, nobody.places[&0].keys);
    // with keys that all equal the name it is the record of kind 1
    assert_eq!(load(&[6, 1, 0, 7, 1, 7, 1, 7, 1, 7, 1, 4]), load(&[1, 1, 0, 7, 1, 4]));
}

#[test]
fn kind_6_is_checked_as_kind_1_is() {
    let before = [&[1, 1, 0, 7, 0][..], &[6, 2, 1, 8, 0, 0, 0, 1, 0, 255, 255]].concat();
    for number in [0, 1, 2, 3, 63, 64, 255] {
        for parent in [0, 1, 2, 3, 4, 63, 64, 255] {
            for name in [[0, 0], [7, 0], [0, 7], [255, 255]] {
                let plain = [&before[..], &[1, number, parent], &name, &[4]].concat();
                for keys in [[0; 6], [7, 0, 7, 0, 7, 0], [255; 6], [0, 1, 2, 3, 0, 0]] {
                    let keyed = [&before[..], &[6, number, parent], &name, &keys, &[4]].concat();
                    assert_eq!(load(&keyed).err(), load(&plain).err());
                }
            }
        }
    }
    // 2 for the kinds that are still unknown, 1 for a cut body whatever its bytes say, 6 for the name alone
    assert_eq!([refusal(&[7]), refusal(&[0]), refusal(&[1, 1, 0, 7, 0, 255])], [(2, 0), (2, 0), (2, 5)]);
    for length in 1..11 {
        assert_eq!(refusal(&[6, 64, 64, 0, 0, 7, 0, 7, 0, 7, 0][..length]), (1, 0));
    }
    assert_eq!(refusal(&[6, 1, 0, 7, 0, 7, 0, 7, 0, 7, 0]), (1, 11), "a missing end");
    assert_eq!(refusal(&[6, 1, 0, 0, 0, 7, 0, 7, 0, 7, 0, 4]), (6, 0));
    assert_eq!(refusal(&[6, 1, 0, 7, 0, 0, 0, 0, 0, 0, 0, 1, 1, 0, 7, 0, 4]), (4, 11));
    // what stands after it names it as any other place
    assert!(load(&[6, 1, 0, 7, 0, 0, 0, 0, 0, 0, 0, 1, 2, 1, 8, 0, 2, 0, 1, 5, 1, 9, 0, 0, 0, 4]).is_ok());
}

#[test]
fn the_key_of_its_kind_decides() {
    let (slept, done) = (Word::Asleep, Word::Done);
    // the place named 9 is entered with 5, left with 6 and opened with 8; neither its name nor another key will do
    for (number, word) in [(5, done), (6, slept), (8, slept), (9, slept), (1, slept)] {
        assert_eq!(alone(&format!("9/5/6/8[] | 7[enter {number}]"), 0).0, word, "enter {number}");
    }
    for (number, word) in [(6, done), (5, slept), (8, slept), (9, slept), (1, slept)] {
        assert_eq!(alone(&format!("9/5/6/8[7[exit {number}]]"), 0).0, word, "exit {number}");
    }
    for (number, word) in [(8, done), (5, slept), (6, slept), (9, slept), (1, slept)] {
        assert_eq!(alone(&format!("open {number} | 9/5/6/8[]"), 0).0, word, "open {number}");
    }
    // the agent's own place plays no part: its keys are 0
    assert_eq!(alone("9[] | 7/0/0/0[enter 9.exit 9]", 0), (done, "7/0/0/0[] | 9[]".to_string()));
    // a place goes out of one whose key for entering is 0, and cannot go back
    assert_eq!(alone("9/0/9/0[7[exit 9.enter 9]]", 0), (slept, "7[enter 9] | 9/0/9/0[]".to_string()));
    // the same numbers under another name
    assert_eq!(alone("1/9/9/9[] | 7[enter 9.exit 9]", 0), (done, "1/9/9/9[] | 7[]".to_string()));
    assert_eq!(alone("open 65535 | 1/0/0/65535[8/0/0/0[]]", 0), (done, "8/0/0/0[]".to_string()));
}

#[test]
fn a_suppliers_magazine() {
    // magazine 40 goes into bonder 20 and out of it; then the magazine is opened, and its agent, on the floor now, would open the bonder
    let order: Vec<u8> = [vec![0; 17], vec![1; 4], vec![0; 4]].concat().into_iter().flat_map(|agent| [agent, 255]).collect();
    let moves = "0 looked 0\n0 took 0\n0 took 0\n0 left 0\n0 took 0\n0 took 0\n0 came 0\n".repeat(2);
    let opens = "0 looked 0\n0 took 0\n0 slept 0\n1 looked 0\n1 took 0\n1 took 0\n1 opened 1\n0 looked 0\n0 took 0\n";
    let text = |bonder: &str, last: &str, end: &str| {
        format!("start open 40 | {bonder}[30[]] | 40[enter 20.exit 20.open 20]\n{moves}{opens}{last}end {end}\n")
    };
    let walk = |bonder: &str| walk(&file_of(&format!("{bonder}[30[]] | 40[enter 20.exit 20.open 20] | open 40")), &order);
    assert_eq!(walk("20/20/20/0"), text("20/20/20/0", "0 slept 0\n0 asleep 0\n", "open 20 | 20/20/20/0[30[]]"));
    assert_eq!(walk("20"), text("20", "0 took 0\n0 opened 0\n", "30[]"), "without keys of its own the bonder is opened");
}

#[test]
fn first_served_among_those_whose_key_fits() {
    // places 1, 2 and 3 have names of their own; enter 7 fits the second and the third, which came in this order
    let loaded = || cell("7/1/7/7[] | 9/7/0/0[] | 7[] | 8[enter 7]");
    let chosen = |wish: u8| {
        let mut cell = loaded();
        for _ in 0..3 {
            step(&mut cell, 0, wish).expect("the agent is there");
        }
        cell.agents[&0].chosen
    };
    assert_eq!([255, 1, 2, 3, 4, 0].map(chosen), [2, 2, 2, 3, 2, 2].map(Some));
    assert_eq!(permitted(&Tree::of(&loaded())).iter().map(|made| made.with).collect::<Vec<u8>>(), [2, 3]);
    assert_eq!(alone("7/1/7/7[] | 9/7/0/0[] | 7[] | 8[enter 7]", 0).1, "7/1/7/7[] | 7[] | 9/7/0/0[8[]]");
}

#[test]
fn listed_with_keys_where_one_is_not_the_name() {
    for term in ["7[]", "7/8/7/7[]", "7/7/8/7[]", "7/7/7/8[]", "7/0/0/0[]", "7/7/7/0[]", "65535/300/256/0[1/2/3/4[] | 7[open 1]]"] {
        assert_eq!(listing(&cell(term)), term);
    }
    assert_eq!(listing(&cell("7/7/7/7[8/8/8/8[]]")), "7[8[]]");
    // keys are neither taken away nor changed by moves, and those that an opening frees keep theirs
    assert_eq!(alone("open 6 | 5/4/3/6[9/1/2/3[] | 8[]]", 0).1, "8[] | 9/1/2/3[]");
    assert_eq!(alone("5/0/0/0[enter 9] | 9[]", 0).1, "9[5/0/0/0[]]");
}

#[test]
fn the_plain_tree_compares_keys() {
    let loaded = cell("9/5/6/8[] | 7[enter 5]");
    let plain = Plain::of_load(&loaded);
    assert!(plain.equals(&loaded));
    for other in
        ["9/4/6/8[] | 7[enter 5]", "9/5/4/8[] | 7[enter 5]", "9/5/6/4[] | 7[enter 5]", "8/5/6/8[] | 7[enter 5]", "9[] | 7[enter 5]"]
    {
        assert!(!plain.equals(&cell(other)), "{other}");
        assert!(Tree::of(&cell(other)) != plain.tree(), "{other}");
    }
}

/// A number below the limit; the same seed gives the same numbers.
fn below(seed: &mut u64, limit: u64) -> u64 {
    *seed = seed.wrapping_mul(6_364_136_223_846_793_005).wrapping_add(1_442_695_040_888_963_407);
    (*seed >> 33) % limit
}

/// A random cell whose names and keys are few, keys of 0 among them.
fn random_cell(seed: &mut u64) -> Cell {
    let places = 1 + below(seed, 12) as u8;
    let mut file = Vec::new();
    for place in 1..=places {
        let (parent, name) = (below(seed, place as u64) as u8, 1 + below(seed, 3) as u8);
        let key = |seed: &mut u64| below(seed, 4) as u8;
        match below(seed, 3) {
            0 => file.extend([1, place, parent, name, 0]),
            _ => file.extend([6, place, parent, name, 0, key(seed), 0, key(seed), 0, key(seed), 0]),
        }
    }
    for agent in 0..1 + below(seed, 6) as u8 {
        file.extend([2, agent, below(seed, places as u64 + 1) as u8]);
        for _ in 0..below(seed, 10) {
            file.extend([3, agent, 1 + below(seed, 3) as u8, 1 + below(seed, 3) as u8, 0]);
        }
    }
    file.push(4);
    load(&file).expect("the file is accepted")
}

/// The place entered, left or opened by a call that answered this word, as it was before the call.
fn acted_on(before: &Cell, agent: u8, word: Word) -> Option<(u8, Action)> {
    let acting = &before.agents[&agent];
    matches!(word, Word::Left | Word::Opened).then(|| (acting.chosen.or(acting.remembered).expect("at stage 3"), acting.unused[0]))
}

/// "the calculus rules and the plain tree, which keeps and compares keys as it does names, are read with that comparison": each move is
/// one that the calculus permits, by the key of its kind; and nothing is left to do where all are asleep or done.
#[test]
fn moves_by_keys_after_any_calls() {
    let mut seed = 6;
    let (mut by_key, mut not_by_name) = ([0; 3], 0);
    for _ in 0..2_000 {
        let mut cell = random_cell(&mut seed);
        let mut plain = Plain::of_load(&cell);
        for _ in 0..below(&mut seed, 200) {
            let (agent, wish) = (below(&mut seed, cell.agents.len() as u64) as u8, below(&mut seed, 40) as u8);
            let (before, tree) = (cell.clone(), plain.tree());
            let word = step(&mut cell, agent, wish).unwrap().word;
            plain.follow(agent, wish, word);
            assert!(plain.equals(&cell) && plain.same_order(&cell) && cell.one_tree());
            if let Some((place, action)) = acted_on(&before, agent, word) {
                let at = action.kind.number() as usize - 1;
                assert_eq!(before.places[&place].keys.numbers()[at], action.name);
                let made = permitted(&tree).into_iter().find(|made| made.agent == agent && made.with == place);
                assert_eq!(plain.tree(), make(&tree, made.expect("the calculus permits it")));
                by_key[at] += 1;
                not_by_name += (before.places[&place].name != action.name) as usize;
            }
            if cell.idle() {
                assert!(permitted(&Tree::of(&cell)).is_empty());
                break;
            }
        }
    }
    assert!(by_key.iter().all(|&count| count > 200) && not_by_name > 300, "{by_key:?} moves, {not_by_name} of another name");
}

#[test]
fn kinds_have_their_keys_in_the_order_of_the_file() {
    let keys = Keys::of([3, 0, 65_535]);
    assert_eq!(keys, Keys { enter: Some(3), exit: None, open: Some(65_535) });
    let fit = |kind: Kind, name: u16| keys.fit(Action { kind, name });
    assert!(fit(Kind::Enter, 3) && fit(Kind::Open, 65_535));
    assert!(!fit(Kind::Enter, 65_535) && !fit(Kind::Open, 3) && !fit(Kind::Enter, 1));
    assert!((0..=65_535).all(|name| !fit(Kind::Exit, name)), "nobody may");
}
