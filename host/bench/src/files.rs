//! Cell files changed so that they show more: keys, names of several digits, and places in another order than that of their numbers.

use crate::cells::Random;

/// The length of a record of this kind.
fn length(kind: u8) -> usize {
    match kind {
        1 | 3 => 5,
        2 => 3,
        5 => 6,
        6 => 11,
        _ => 1,
    }
}

/// The file with keys for some of its places: numbers that actions have too, and 0.
pub fn keyed(numbers: &mut Random, file: &[u8], names: usize) -> Vec<u8> {
    let mut keyed = Vec::new();
    let mut at = 0;
    while at < file.len() {
        let (kind, body) = (file[at], &file[at + 1..at + length(file[at])]);
        if kind == 1 && numbers.below(2) == 0 {
            let keys: Vec<u8> = (0..3).flat_map(|_| [numbers.below(names + 1) as u8, 0]).collect();
            keyed.extend([&[6], body, &keys].concat());
        } else {
            keyed.extend([&[kind], body].concat());
        }
        at += length(kind);
    }
    keyed
}

/// The file with releases in the place of some of its actions.
pub fn releasing(numbers: &mut Random, file: &mut [u8]) {
    let mut at = 0;
    while at < file.len() {
        if file[at] == 3 && numbers.below(3) == 0 {
            file[at + 2] = 4;
        }
        at += length(file[at]);
    }
}

/// The file's names, keys and actions' numbers up to 6 with other ones in their place, some of which begin with others of them.
pub fn more_digits(file: &mut [u8]) {
    const NUMBERS: [u16; 7] = [0, 70, 7, 65_535, 700, 6_553, 71];
    let mut at = 0;
    while at < file.len() {
        let end = at + length(file[at]);
        if matches!(file[at], 1 | 3 | 6) {
            for number in file[at + 3..end].chunks_exact_mut(2) {
                number.copy_from_slice(&NUMBERS[number[0] as usize].to_le_bytes());
            }
        }
        at = end;
    }
}

/// The file with other numbers for its places, so that they stand in it in another order than that of their numbers.
pub fn renumbered(numbers: &mut Random, mut file: Vec<u8>) -> Vec<u8> {
    let mut other: [u8; 64] = std::array::from_fn(|q| q as u8);
    (2..64).for_each(|q| other.swap(q, 1 + numbers.below(q)));
    let mut at = 0;
    while at < file.len() {
        let places = match file[at] {
            1 => at + 1..at + 3,
            2 => at + 2..at + 3,
            5 => at + 1..at + 2,
            _ => at..at,
        };
        file[places].iter_mut().for_each(|q| *q = other[*q as usize]);
        at += length(file[at]);
    }
    file
}
