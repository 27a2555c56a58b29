//! The library's answers as keeper.h lays them out: what the model's answers are as numbers, and what a number says.

use model::{Asked, Refused, Stepped, Verdict, Word};

/// The words with their numbers.
const WORDS: [(Word, u64); 11] = [
    (Word::Looked, 0),
    (Word::Took, 1),
    (Word::Held, 2),
    (Word::Back, 3),
    (Word::Slept, 4),
    (Word::Left, 5),
    (Word::Came, 6),
    (Word::Opened, 7),
    (Word::Put, 8),
    (Word::Asleep, 9),
    (Word::Done, 10),
];

/// The answer of a load: 0, or the refusal's number and the offset above it.
pub fn of_load(refused: Option<Refused>) -> u64 {
    refused.map_or(0, |refused| refused.number as u64 | (refused.offset as u64) << 8)
}

/// The answer of a step: the refusal's number, or the word in bits 8 to 15 and the number woken in bits 16 to 23.
pub fn of_step(stepped: Result<Stepped, u8>) -> u64 {
    match stepped {
        Err(number) => number as u64,
        Ok(Stepped { word, woken }) => {
            let number = WORDS.iter().find(|entry| entry.0 == word).expect("every word has a number").1;
            number << 8 | (woken as u64) << 16
        }
    }
}

/// The answer of an ask: the refusal's number, or the word and the number woken as a step's, and the chosen place in bits 24 to 31.
pub fn of_ask(asked: Result<Asked, u8>) -> u64 {
    match asked {
        Err(number) => number as u64,
        Ok(Asked { word, woken, chosen }) => of_step(Ok(Stepped { word, woken })) | (chosen as u64) << 24,
    }
}

/// What a commit that hands back this number says: the word, the number woken and the chosen place. A number that no ask gives says a word that
/// does not exist: one with a refusal in bits 0 to 7, or with anything above bit 31.
pub fn handed_back(number: u64) -> (Option<Word>, usize, u8) {
    let byte = |at: u32| (number >> at & 255) as u8;
    let word = WORDS.iter().find(|entry| entry.1 == byte(8) as u64).map(|entry| entry.0);
    (word.filter(|_| byte(0) == 0 && number >> 32 == 0), byte(16) as usize, byte(24))
}

/// The answer of a listing, an idle call or a check: the refusal's number, or a value above it.
pub fn of_value(value: Result<usize, u8>) -> u64 {
    of_count(value.map(|value| value as u64))
}

/// The answer of a touch call, or of one for a place's count: the refusal's number, or the count above it.
pub fn of_count(count: Result<u64, u8>) -> u64 {
    match count {
        Err(number) => number as u64,
        Ok(count) => count << 8,
    }
}

/// No place that was found.
const NOWHERE: u8 = 255;

/// The answer of a question where a place is: the refusal's number, or the place that was found above it.
pub fn of_found(found: Result<Option<u8>, u8>) -> u64 {
    of_count(found.map(|place| place.unwrap_or(NOWHERE) as u64))
}

/// Such an answer in words.
pub fn found_text(answer: u64) -> String {
    match (answer & 255, answer >> 8) {
        (0, 255) => "none".to_string(),
        (0, place) => format!("place {place}"),
        _ => value_text(answer),
    }
}

/// A step's answer in words.
pub fn step_text(answer: u64) -> String {
    match (answer & 255, WORDS.iter().find(|entry| entry.1 == (answer >> 8 & 255))) {
        (0, Some((word, _))) if answer >> 24 == 0 => format!("{} {}", word.text(), answer >> 16),
        _ => value_text(answer),
    }
}

/// An ask's answer in words.
pub fn ask_text(answer: u64) -> String {
    match (answer & 255, answer >> 24) {
        (0, 255) => format!("{}, no place", step_text(answer & 0xFF_FFFF)),
        (0, place @ 0..=254) => format!("{}, place {place}", step_text(answer & 0xFF_FFFF)),
        _ => value_text(answer),
    }
}

/// A load's answer in words.
pub fn load_text(answer: u64) -> String {
    match answer & 255 {
        0 => value_text(answer),
        number => format!("refused {number} at {}", answer >> 8),
    }
}

/// The answer of an audit: the refusal of the file as a load's; else 0 for a yes, or the reason in bits 8 to 15 and the moves above.
pub fn of_audit(verdict: Verdict) -> u64 {
    match verdict {
        Verdict::Yes => 0,
        Verdict::No { made, why } => (made as u64) << 16 | (why.number() as u64) << 8,
        Verdict::Refused(refused) => of_load(Some(refused)),
    }
}

/// An audit's answer in words.
pub fn audit_text(answer: u64) -> String {
    match (answer & 255, answer >> 8 & 255) {
        (0, 0) if answer == 0 => "yes".to_string(),
        (0, reason) => format!("no, {} after {} moves", reason_text(reason as u8), answer >> 16),
        _ => load_text(answer),
    }
}

/// An audit's reason in words.
pub fn reason_text(reason: u8) -> &'static str {
    match reason {
        1 => "not permitted",
        2 => "no action left",
        3 => "odd last byte",
        4 => "other layout",
        _ => "an unknown reason",
    }
}

/// Any other answer in words.
pub fn value_text(answer: u64) -> String {
    match (answer & 255, answer >> 8) {
        (0, value) => format!("{value}"),
        (number, 0) => format!("refused {number}"),
        (number, above) => format!("refused {number} with {above} above it"),
    }
}
