//! Document 01's worked example and bench cases, as the landed requests of document 02 change them.

use model::{file_of, listing, load, step, walk, Cell, Refused, Word};

/// The number and the offset with which a file is refused.
fn refusal(file: &[u8]) -> (u8, usize) {
    let Refused { number, offset } = load(file).expect_err("the file is refused");
    (number, offset)
}

/// Agent 0 steps until it is asleep or done; the words it answered, and the cell.
fn alone(term: &str) -> (Vec<Word>, Cell) {
    let mut cell = load(&file_of(term)).expect("the file is accepted");
    let mut words = Vec::new();
    while !cell.idle() {
        words.push(step(&mut cell, 0, 255).expect("agent 0 is there").word);
    }
    (words, cell)
}

#[test]
fn the_worked_example() {
    let file = [
        0x01, 0x01, 0x00, 0x07, 0x00, 0x01, 0x02, 0x00, 0x09, 0x00, 0x02, 0x00, 0x01, 0x03, 0x00, 0x01, 0x09, 0x00, 0x02, 0x01, 0x02, 0x03,
        0x01, 0x02, 0x07, 0x00, 0x04,
    ];
    let order: Vec<u8> = [0, 1, 0, 1, 0, 0, 1, 1, 0, 0, 0, 0, 1].iter().flat_map(|&agent| [agent, 255]).collect();
    let text = "start 7[enter 9] | 9[exit 7]\n0 looked 0\n1 looked 0\n0 took 0\n1 held 0\n0 took 0\n0 left 0\n1 took 0\n1 slept 0\n\
                0 took 0\n0 took 0\n0 came 1\n0 done 0\n1 looked 0\nend 9[exit 7 | 7[]]\n";
    assert_eq!(walk(&file, &order), text);
}

#[test]
fn refused_files() {
    assert_eq!(refusal(&[4, 4]), (9, 1));
    assert_eq!(refusal(&[1, 1, 0, 7, 0]), (1, 5));
    assert_eq!(refusal(&[1, 5, 5, 7, 0, 4]), (5, 0));
    assert_eq!(refusal(&[1, 1, 0, 0, 0, 4]), (6, 0));
    assert_eq!(refusal(&[1, 0x40, 0, 7, 0, 4]), (3, 0));
    assert!(load(&[1, 0x3F, 0, 7, 0, 4]).is_ok());
    assert_eq!(refusal(&[1, 0x40]), (1, 0));
    assert_eq!(refusal(&[1, 1, 0, 7, 0, 9]), (2, 5));
    assert_eq!(refusal(&[1, 0, 0, 7, 0, 4]), (3, 0));
    assert_eq!(refusal(&[1, 1, 0, 7, 0, 1, 1, 1, 7, 0, 4]), (4, 5));
    assert_eq!(refusal(&[3, 0, 9, 0, 0, 4]), (5, 0));
    assert_eq!(refusal(&[2, 0, 0, 3, 0, 5, 0, 0, 4]), (7, 3));
    assert_eq!(refusal(&[2, 0, 0, 3, 0, 4, 0, 0, 4]), (6, 3));
    assert_eq!(refusal(&[2, 0, 0, 3, 0, 3, 0, 0, 4]), (6, 3));
}

#[test]
fn an_empty_floor() {
    assert_eq!(listing(&load(&[4]).unwrap()), "0");
    assert_eq!(listing(&load(&[2, 5, 0, 4]).unwrap()), "0");
    assert_eq!(walk(&[4], &[]), "start 0\nend 0\n");
    assert_eq!(walk(&[4], &[64, 1, 0, 0, 7]), "start 0\n64 refused 11\n0 refused 11\nend 0\n");
}

#[test]
fn a_line_with_nothing_on_it() {
    assert_eq!(load(&[]), load(&[4]));
    assert_eq!(load(&[]), Ok(Cell::bare()));
    assert_eq!(walk(&[], &[]), "start 0\nend 0\n");
    assert_eq!(walk(&[], &[0, 0, 63, 1, 64, 255, 7]), "start 0\n0 refused 11\n63 refused 11\n64 refused 11\nend 0\n");
}

#[test]
fn which_number_was_too_large() {
    // of a place: its own number, then its parent
    for (number, parent, refused) in [(64, 0, 3), (255, 0, 3), (0, 0, 3), (64, 64, 3), (0, 64, 3), (0, 255, 3), (2, 64, 13), (2, 255, 13)] {
        assert_eq!(refusal(&[1, number, parent, 7, 0, 4]), (refused, 0));
    }
    // of an agent: its number, then its home
    for (number, home, refused) in [(64, 0, 14), (255, 0, 14), (64, 64, 14), (255, 255, 14), (0, 64, 13), (63, 255, 13)] {
        assert_eq!(refusal(&[2, number, home, 4]), (refused, 0));
    }
    // of an action: its agent
    for agent in [64, 65, 255] {
        assert_eq!(refusal(&[3, agent, 9, 0, 0, 4]), (14, 0));
    }
}

#[test]
fn the_range_of_numbers_is_tested_before_what_was_given() {
    // given twice, not yet given, and the faults after them, each beside a number that is too large
    assert_eq!(refusal(&[1, 1, 0, 7, 0, 1, 1, 64, 0, 0, 4]), (13, 5));
    assert_eq!(refusal(&[1, 1, 0, 7, 0, 1, 1, 9, 0, 0, 4]), (4, 5));
    assert_eq!(refusal(&[2, 0, 0, 2, 0, 64, 4]), (13, 3));
    assert_eq!(refusal(&[2, 0, 0, 2, 0, 9, 4]), (4, 3));
    assert_eq!(refusal(&[1, 2, 64]), (1, 0));
    assert_eq!(refusal(&[2, 64]), (1, 0));
    assert_eq!(refusal(&[3, 64, 1, 7]), (1, 0));
    assert!(load(&[1, 63, 0, 7, 0, 1, 62, 63, 7, 0, 2, 63, 63, 3, 63, 1, 7, 0, 4]).is_ok());
    // a step call for an agent above 63 is still 11
    let mut cell = load(&[2, 63, 0, 4]).unwrap();
    assert_eq!([step(&mut cell, 64, 0), step(&mut cell, 255, 0)], [Err(11), Err(11)]);
}

#[test]
fn a_file_that_begins_and_lacks_its_end() {
    let file = [1, 1, 0, 7, 0, 2, 0, 1, 3, 0, 1, 7, 0];
    let records = [0, 5, 8, 13];
    for length in 1..=file.len() {
        let offset = records.into_iter().rfind(|&start| start <= length).expect("the first record starts at 0");
        assert_eq!(refusal(&file[..length]), (1, offset));
    }
}

#[test]
fn sixteen_actions_and_the_seventeenth() {
    let mut file = vec![2, 0, 0];
    for _ in 0..16 {
        file.extend([3, 0, 1, 9, 0]);
    }
    let sixteen = load(&[file.as_slice(), &[4]].concat()).unwrap();
    assert_eq!(sixteen.agents[&0].unused.len(), 16);
    assert_eq!(refusal(&[file.as_slice(), &[3, 0, 1, 9, 0, 4]].concat()), (8, 83));
}

#[test]
fn moves_of_one_agent() {
    use Word::*;
    let (words, cell) = alone("7[enter 7]");
    assert_eq!((words, listing(&cell)), (vec![Looked, Took, Slept], "7[enter 7]".to_string()));
    let (words, cell) = alone("7[enter 7] | 7[]");
    assert_eq!((words, listing(&cell)), (vec![Looked, Took, Took, Left, Took, Took, Came], "7[7[]]".to_string()));
    assert_eq!(cell.agents[&0].home, 1);
    let (words, cell) = alone("9[exit 9]");
    assert_eq!((words, listing(&cell)), (vec![Looked, Took, Slept], "9[exit 9]".to_string()));
    let (words, cell) = alone("9[7[exit 9]]");
    assert_eq!((words, listing(&cell)), (vec![Looked, Took, Took, Left, Took, Took, Came], "7[] | 9[]".to_string()));
    let (words, cell) = alone("open 7 | 7[8[]]");
    assert_eq!((words, listing(&cell)), (vec![Looked, Took, Took, Opened], "8[]".to_string()));
}

#[test]
fn the_longest_file_and_the_longest_listing() {
    let mut file = Vec::new();
    for place in 1..64 {
        file.extend([6, place, 0, 0xFF, 0xFF, 0x10, 0x27, 0x10, 0x27, 0x10, 0x27]);
    }
    for agent in 0..64 {
        file.extend([2, agent, 0]);
        for _ in 0..16 {
            file.extend([3, agent, 4, 0xFF, 0xFF]);
        }
    }
    for place in 0..64 {
        file.extend([5, place, 0xFF, 0xFF, 0xFF, 0xFF]);
    }
    file.push(4);
    assert_eq!(file.len(), 6_390);
    assert_eq!(listing(&load(&file).unwrap()).len(), 16_225);
    // any record more is refused, and the longest one that can decide has eleven bytes
    file.pop();
    let records: [&[u8]; 5] =
        [&[1, 63, 0, 7, 0], &[2, 63, 0], &[3, 63, 1, 7, 0], &[5, 63, 0, 0, 0, 0], &[6, 63, 0, 7, 0, 7, 0, 7, 0, 7, 0]];
    for record in records {
        let refused = refusal(&[&file[..], record].concat());
        assert!(matches!(refused, (4 | 8, 6_389)));
        assert_eq!(refusal(&[&file[..], record, &[4; 99]].concat()), refused);
        assert_eq!(refusal(&[&file[..], &record[..record.len() - 1]].concat()), (1, 6_389));
    }
    assert_eq!(file.len() + records[4].len(), 6_400);
}

#[test]
fn walk_takes_16384_pairs() {
    let text = walk(&file_of("7[]"), &vec![70; 40_001]);
    assert_eq!(text.lines().count(), 2 + 16_384);
    assert!(text.lines().nth(1) == Some("70 refused 11"));
}
