//! Document 02, W3: touches travel with the holder.

use model::{file_of, listing, load, step, touch, touch_sum, touches, walk, Cell, Plain, Refused, Word, MOST_TOUCHES};

/// The file of a term with these touch records before its end.
fn touched(term: &str, counts: &[(u8, u32)]) -> Vec<u8> {
    let mut file = file_of(term);
    file.pop();
    for &(place, count) in counts {
        file.extend([5, place]);
        file.extend(count.to_le_bytes());
    }
    file.push(4);
    file
}

/// The number and the offset with which a file is refused.
fn refusal(file: &[u8]) -> (u8, usize) {
    let Refused { number, offset } = load(file).expect_err("the file is refused");
    (number, offset)
}

/// The counts of the places in use.
fn counts(cell: &Cell) -> Vec<(u8, u64)> {
    cell.places.iter().map(|(&number, place)| (number, place.touches)).collect()
}

#[test]
fn a_record_gives_a_count() {
    let cell = load(&[5, 0, 1, 0, 0, 0, 1, 1, 0, 7, 0, 5, 1, 4, 3, 2, 1, 1, 2, 1, 8, 0, 4]).unwrap();
    assert_eq!(counts(&cell), [(0, 1), (1, 0x01020304), (2, 0)]);
    assert_eq!(listing(&cell), "7[8[]]", "the listing shows no counts");
    let most = load(&touched("7[]", &[(1, u32::MAX)])).unwrap();
    assert_eq!(counts(&most), [(0, 0), (1, 4_294_967_295)]);
    assert_eq!(counts(&Cell::bare()), [(0, 0)]);
}

#[test]
fn refused_records() {
    for place in [64, 65, 255] {
        assert_eq!(refusal(&[5, place, 1, 0, 0, 0, 4]), (3, 0));
    }
    assert_eq!(refusal(&[5, 63, 1, 0, 0, 0, 4]), (5, 0));
    assert_eq!(refusal(&[5, 0, 1, 0, 0, 0, 5, 0, 1, 0, 0, 0, 4]), (4, 6));
    // a count of 0 is a record too; a record before its place is not yet given, and does not count as a first one
    assert_eq!(refusal(&[5, 0, 0, 0, 0, 0, 5, 0, 0, 0, 0, 0, 4]), (4, 6));
    assert_eq!(refusal(&[5, 1, 1, 0, 0, 0, 1, 1, 0, 7, 0, 4]), (5, 0));
    for length in 1..6 {
        assert_eq!(refusal(&[5, 64, 1, 0, 0, 0][..length]), (1, 0), "a cut body is 1, whatever its bytes say");
    }
    assert_eq!(refusal(&[5, 0, 1, 0, 0, 0]), (1, 6));
    assert_eq!(refusal(&[7]), (2, 0));
}

#[test]
fn a_touch_call() {
    let mut cell = load(&touched("7[] | 9[]", &[(2, 40)])).unwrap();
    assert_eq!([touch(&mut cell, 1, 5), touch(&mut cell, 2, 2), touch(&mut cell, 0, 0)], [Ok(5), Ok(42), Ok(0)]);
    assert_eq!(touch(&mut cell, 1, u32::MAX), Ok(4_294_967_300));
    let before = cell.clone();
    assert_eq!([touch(&mut cell, 3, 1), touch(&mut cell, 63, 0)], [Err(5), Err(5)]);
    assert_eq!([touch(&mut cell, 64, 1), touch(&mut cell, 255, 0)], [Err(3), Err(3)]);
    assert_eq!([touches(&cell, 0), touches(&cell, 2), touches(&cell, 3), touches(&cell, 64)], [Ok(0), Ok(42), Err(5), Err(3)]);
    assert_eq!(cell, before);
}

#[test]
fn the_most_touches() {
    let mut cell = load(&touched("7[]", &[])).unwrap();
    let step_to = |cell: &mut Cell, sum: u128| {
        while touch_sum(cell) < sum {
            let number = (sum - touch_sum(cell)).min(u32::MAX as u128) as u32;
            touch(cell, 1, number).expect("there is room");
        }
    };
    step_to(&mut cell, MOST_TOUCHES - 10);
    let before = cell.clone();
    assert_eq!([touch(&mut cell, 0, 11), touch(&mut cell, 1, u32::MAX)], [Err(15), Err(15)]);
    assert_eq!([touch(&mut cell, 64, 11), touch(&mut cell, 2, 11)], [Err(3), Err(5)], "15 is tested last");
    assert_eq!(cell, before);
    assert_eq!(touch(&mut cell, 0, 10), Ok(10), "exactly the most is allowed");
    assert_eq!([touch(&mut cell, 0, 0), touch(&mut cell, 1, 0)], [Ok(10), Ok(999_999_999_990)]);
    assert_eq!(touch(&mut cell, 0, 1), Err(15));
    // the longest load is far from it
    let whole: Vec<u8> =
        (1..64).flat_map(|place| [1, place, 0, 7, 0]).chain((0..64).flat_map(|place| [5, place, 255, 255, 255, 255])).collect();
    assert_eq!(touch_sum(&load(&[&whole[..], &[4]].concat()).unwrap()), 274_877_906_880);
}

#[test]
fn an_opening_pools_and_moves_carry() {
    // agent 1 takes holder 3 into bonder 1; agent 0, in the bonder, opens tray 2
    let file = touched("20[open 50 | 50[]] | 30[enter 20]", &[(3, 1_200), (2, 40), (0, 7)]);
    let mut cell = load(&file).unwrap();
    assert_eq!(counts(&cell), [(0, 7), (1, 0), (2, 40), (3, 1_200)]);
    for _ in 0..7 {
        step(&mut cell, 1, 255).unwrap();
    }
    assert_eq!((listing(&cell), counts(&cell)), ("20[open 50 | 30[] | 50[]]".to_string(), vec![(0, 7), (1, 0), (2, 40), (3, 1_200)]));
    assert_eq!(touch(&mut cell, 3, 300), Ok(1_500));
    for _ in 0..4 {
        step(&mut cell, 0, 255).unwrap();
    }
    assert_eq!((listing(&cell), counts(&cell)), ("20[30[]]".to_string(), vec![(0, 7), (1, 40), (3, 1_500)]));
    assert_eq!(touch(&mut cell, 2, 1), Err(5), "the opened place's number is unused");
    let order: Vec<u8> = [1; 7].iter().chain(&[0; 4]).flat_map(|&agent| [agent, 255]).collect();
    assert_eq!(walk(&file, &order), walk(&file_of("20[open 50 | 50[]] | 30[enter 20]"), &order), "walk shows no counts");
}

/// A number below the limit; the same seed gives the same numbers.
fn below(seed: &mut u64, limit: u64) -> u64 {
    *seed = seed.wrapping_mul(6_364_136_223_846_793_005).wrapping_add(1_442_695_040_888_963_407);
    (*seed >> 33) % limit
}

/// A random file with few names, many openers, and a touch record after about every other place; and the sum of its touch records.
fn random_file(seed: &mut u64) -> (Vec<u8>, u128) {
    let (mut file, mut loaded) = (Vec::new(), 0);
    let places = below(seed, 12) as u8;
    for place in 0..=places {
        if place > 0 {
            file.extend([1, place, below(seed, place as u64) as u8, 1 + below(seed, 2) as u8, 0]);
        }
        if below(seed, 2) == 0 {
            let count = if below(seed, 4) == 0 { u32::MAX } else { below(seed, 1_000) as u32 };
            file.extend([5, place]);
            file.extend(count.to_le_bytes());
            loaded += count as u128;
        }
    }
    for agent in 0..below(seed, 6) as u8 {
        file.extend([2, agent, below(seed, places as u64 + 1) as u8]);
        for _ in 0..below(seed, 8) {
            file.extend([3, agent, [1, 2, 3, 3, 4][below(seed, 5) as usize], 1 + below(seed, 2) as u8, 0]);
        }
    }
    file.push(4);
    (file, loaded)
}

/// "The sum over places in use equals all touches loaded and added, after any mixture of calls", and "Demand 3 reads as before over lists
/// with touch calls mixed in, which the plain tree passes over."
#[test]
fn the_sum_after_any_mixture_of_calls() {
    let mut seed = 3;
    let (mut pooled, mut refused) = (0, 0);
    for _ in 0..2_000 {
        let (file, loaded) = random_file(&mut seed);
        let mut cell = load(&file).expect("the file is accepted");
        let (mut plain, mut total) = (Plain::of_load(&cell), loaded);
        for _ in 0..below(&mut seed, 240) {
            if below(&mut seed, 5) == 0 {
                let (place, number) = (below(&mut seed, 70) as u8, (below(&mut seed, 65_536) * 65_537) as u32);
                match touch(&mut cell, place, number) {
                    Ok(count) => {
                        total += number as u128;
                        assert_eq!(touches(&cell, place), Ok(count));
                    }
                    Err(_) => refused += 1,
                }
            } else {
                let (agent, wish) = (below(&mut seed, 7) as u8, below(&mut seed, 20) as u8);
                if let Ok(stepped) = step(&mut cell, agent, wish) {
                    plain.follow(agent, wish, stepped.word);
                    pooled += (stepped.word == Word::Opened) as usize;
                }
            }
            assert_eq!(touch_sum(&cell), total);
            assert!(plain.equals(&cell) && cell.one_tree());
        }
    }
    assert!(pooled > 500 && refused > 1_000, "{pooled} openings, {refused} refused touch calls");
}
