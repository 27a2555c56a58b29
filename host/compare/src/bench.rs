//! Document 01's worked example and bench cases, as the landed requests of document 02 change them, and files that every byte is changed in.

use crate::call::Call;
use crate::layouts;
use crate::releases;
use model::{file_of, walk};

/// A case: the cell file, the agents that step, and what `walk` writes.
pub struct Case {
    pub file: Vec<u8>,
    pub agents: Vec<u8>,
    pub written: String,
}

impl Case {
    /// The calls of the case.
    pub fn calls(&self) -> Vec<Call> {
        let steps = self.agents.iter().map(|&agent| Call::Step { agent, wish: 255 });
        std::iter::once(Call::Load(self.file.clone())).chain(steps).collect()
    }

    /// The model writes what the paper says.
    pub fn holds_of_the_model(&self) -> bool {
        let order: Vec<u8> = self.agents.iter().flat_map(|&agent| [agent, 255]).collect();
        walk(&self.file, &order) == self.written
    }
}

/// A case whose file is refused with this number at this offset.
fn refused(file: &[u8], number: u8, offset: usize) -> Case {
    Case { file: file.to_vec(), agents: vec![], written: format!("refused {number} {offset}\n") }
}

/// A case of one agent that answers these words, with nobody to wake; the term is as it is listed.
pub fn alone(term: &str, words: &str, end: &str) -> Case {
    alone_in(term, term, words, end)
}

/// The same of a term that is listed as another one: the places of the file stand in the order of the term.
fn alone_in(term: &str, start: &str, words: &str, end: &str) -> Case {
    let lines: String = words.split(' ').map(|word| format!("0 {word} 0\n")).collect();
    let agents = vec![0; words.split(' ').count()];
    Case { file: file_of(term), agents, written: format!("start {start}\n{lines}end {end}\n") }
}

/// The worked example and the bench cases.
pub fn cases() -> Vec<Case> {
    let example = "start 7[enter 9] | 9[exit 7]\n0 looked 0\n1 looked 0\n0 took 0\n1 held 0\n0 took 0\n0 left 0\n1 took 0\n1 slept 0\n\
                   0 took 0\n0 took 0\n0 came 1\n0 done 0\n1 looked 0\nend 9[exit 7 | 7[]]\n";
    let bare_floor = "start 0\n0 refused 11\n63 refused 11\n64 refused 11\nend 0\n";
    let sixteen = [&[2, 0, 0][..], &[3, 0, 2, 9, 0].repeat(16), &[4]].concat();
    let seventeen = [&[2, 0, 0][..], &[3, 0, 2, 9, 0].repeat(17), &[4]].concat();
    let listed = ["exit 9"; 16].join(".");
    let mut cases = vec![
        Case {
            file: vec![1, 1, 0, 7, 0, 1, 2, 0, 9, 0, 2, 0, 1, 3, 0, 1, 9, 0, 2, 1, 2, 3, 1, 2, 7, 0, 4],
            agents: vec![0, 1, 0, 1, 0, 0, 1, 1, 0, 0, 0, 0, 1],
            written: example.to_string(),
        },
        Case { file: vec![], agents: vec![], written: "start 0\nend 0\n".to_string() },
        Case { file: vec![], agents: vec![0, 63, 64], written: bare_floor.to_string() },
        Case { file: vec![4], agents: vec![0, 63, 64], written: bare_floor.to_string() },
        Case { file: vec![4], agents: vec![], written: "start 0\nend 0\n".to_string() },
        refused(&[4, 4], 9, 1),
        refused(&[1, 1, 0, 7, 0], 1, 5),
        refused(&[1], 1, 0),
        refused(&[2, 0, 0], 1, 3),
        refused(&[1, 5, 5, 7, 0, 4], 5, 0),
        refused(&[1, 1, 0, 0, 0, 4], 6, 0),
        refused(&[1, 0x40, 0, 7, 0, 4], 3, 0),
        refused(&[1, 0, 0x40, 7, 0, 4], 3, 0),
        refused(&[1, 0x40, 0x40, 7, 0, 4], 3, 0),
        refused(&[1, 1, 0x40, 7, 0, 4], 13, 0),
        refused(&[1, 1, 0, 7, 0, 1, 1, 0x40, 0, 0, 4], 13, 5),
        refused(&[2, 0, 0x40, 4], 13, 0),
        refused(&[2, 0, 0, 2, 0, 0x40, 4], 13, 3),
        refused(&[2, 0x40, 0, 4], 14, 0),
        refused(&[2, 0x40, 0x40, 4], 14, 0),
        refused(&[3, 0x40, 9, 0, 0, 4], 14, 0),
        refused(&[2, 0, 0, 3, 0, 5, 0, 0, 4], 7, 3),
        refused(&[2, 0, 0, 3, 0, 4, 0, 0, 4], 6, 3),
        refused(&[5], 1, 0),
        refused(&[5, 0x40, 1, 0, 0], 1, 0),
        refused(&[7], 2, 0),
        refused(&[5, 0x40, 1, 0, 0, 0, 4], 3, 0),
        refused(&[5, 0, 1, 0, 0, 0, 5, 0, 1, 0, 0, 0, 4], 4, 6),
        refused(&[5, 1, 1, 0, 0, 0, 1, 1, 0, 7, 0, 4], 5, 0),
        Case {
            file: vec![5, 0, 255, 255, 255, 255, 1, 1, 0, 7, 0, 5, 1, 0, 0, 0, 0, 4],
            agents: vec![],
            written: "start 7[]\nend 7[]\n".to_string(),
        },
        Case { file: vec![1, 0x3F, 0, 7, 0, 4], agents: vec![], written: "start 7[]\nend 7[]\n".to_string() },
        alone("7[enter 7]", "looked took slept asleep", "7[enter 7]"),
        alone("7[] | 7[enter 7]", "looked took took left took took came done", "7[7[]]"),
        alone("9[exit 9]", "looked took slept asleep", "9[exit 9]"),
        alone("9[7[exit 9]]", "looked took took left took took came done", "7[] | 9[]"),
        alone("open 7 | 7[8[]]", "looked took took opened done", "8[]"),
        Case { file: sixteen, agents: vec![0, 64], written: format!("start {listed}\n0 slept 0\n64 refused 11\nend {listed}\n") },
        refused(&seventeen, 8, 83),
    ];
    cases.extend(first_served());
    cases.extend(rights());
    cases.extend(layouts::cases());
    cases.extend(releases::cases());
    cases
}

/// Keys: places that are entered, left and opened each with a number of its own, and by nobody; records of kind 6 that are refused.
fn rights() -> Vec<Case> {
    let record = [6, 1, 0, 7, 0, 7, 0, 7, 0, 7, 0];
    let with =
        |at: usize, byte: u8| record.iter().enumerate().map(|(index, &old)| if index == at { byte } else { old }).collect::<Vec<u8>>();
    vec![
        alone(
            "7[enter 5.exit 6] | 9/5/6/0[]",
            "looked took took left took took came looked took took left took took came done",
            "7[] | 9/5/6/0[]",
        ),
        alone("7[enter 9] | 9/5/6/8[]", "looked took slept asleep", "7[enter 9] | 9/5/6/8[]"),
        alone("9/5/6/8[7[exit 5]]", "looked took slept asleep", "9/5/6/8[7[exit 5]]"),
        alone("open 6 | 9/5/6/8[]", "looked took slept asleep", "open 6 | 9/5/6/8[]"),
        alone("open 8 | 9/5/6/8[1/0/0/0[]]", "looked took took opened done", "1/0/0/0[]"),
        alone("open 20 | 20/20/20/0[]", "looked took slept asleep", "open 20 | 20/20/20/0[]"),
        alone_in(
            "9/7/0/0[] | 7[] | 8/0/0/0[enter 7]",
            "7[] | 8/0/0/0[enter 7] | 9/7/0/0[]",
            "looked took took left took took came done",
            "7[] | 9/7/0/0[8/0/0/0[]]",
        ),
        Case { file: [&record[..], &[4]].concat(), agents: vec![], written: "start 7[]\nend 7[]\n".to_string() },
        refused(&record, 1, 11),
        refused(&record[..10], 1, 0),
        refused(&with(1, 0x40), 3, 0),
        refused(&with(1, 0), 3, 0),
        refused(&with(2, 0x40), 13, 0),
        refused(&with(2, 1), 5, 0),
        refused(&with(3, 0), 6, 0),
        refused(&[&record[..], &record].concat(), 4, 11),
    ]
}

/// First in, first served: place 3, with place 4 in it, stands before place 2 in the file; place 1 comes back as the latest, so that place 2 is opened; and of
/// the places that an opening frees, which come after place 4, place 3 is before place 2.
fn first_served() -> [Case; 3] {
    let goes = "0 looked 0\n0 took 0\n0 took 0\n0 left 0\n0 took 0\n0 took 0\n0 came 0\n";
    let opens = "0 looked 0\n0 took 0\n0 took 0\n0 opened 0\n";
    let opens_too = opens.replace('0', "1").replace(" 1\n", " 0\n");
    let box_and_trays = [[1, 5, 0, 8, 0], [1, 3, 5, 9, 0], [1, 2, 5, 9, 0], [1, 4, 0, 9, 0], [1, 1, 3, 1, 0], [1, 6, 2, 6, 0]].concat();
    let opener = [&[2, 0, 0][..], &[3, 0, 3, 8, 0], &[3, 0, 3, 9, 0], &[3, 0, 3, 9, 0], &[4]].concat();
    [
        Case {
            file: vec![1, 1, 0, 7, 0, 1, 3, 0, 9, 0, 1, 2, 0, 9, 0, 1, 4, 3, 6, 0, 2, 0, 1, 3, 0, 1, 9, 0, 4],
            agents: vec![0; 7],
            written: format!("start 7[enter 9] | 9[6[]] | 9[]\n{goes}end 9[6[] | 7[]] | 9[]\n"),
        },
        Case {
            file: file_of("9[enter 8.exit 8] | 9[6[]] | 8[] | open 9"),
            agents: [vec![0; 14], vec![1; 4]].concat(),
            written: format!("start open 9 | 8[] | 9[6[]] | 9[enter 8.exit 8]\n{goes}{goes}{opens_too}end 6[] | 8[] | 9[]\n"),
        },
        Case {
            file: [box_and_trays, opener].concat(),
            agents: vec![0; 12],
            written: format!("start open 8.open 9.open 9 | 8[9[1[]] | 9[6[]]] | 9[]\n{opens}{opens}{opens}end 1[] | 9[6[]]\n"),
        },
    ]
}

/// Good files of which every single-byte change and every truncation is tried.
pub fn small_files() -> Vec<Vec<u8>> {
    let terms = [
        "0",
        "7[]",
        "7[enter 9] | 9[exit 7]",
        "open 1 | 1[2[3[exit 2]]]",
        "open 1 | 2[1[exit 2 | enter 2]]",
        "1[enter 1 | exit 1] | 1[]",
        "open 7.open 8 | 7[8[] | enter 8.exit 7]",
        "258[enter 65535] | 65535[exit 258.open 513]",
        "1[2[3[4[5[exit 4.exit 3.exit 2.exit 1]]]]]",
        "9/5/6/0[] | 7[enter 5.exit 6]",
        "release 9.open 9 | 7[release 258.exit 7]",
        "open 258 | 7/7/7/258[1/0/0/0[exit 7] | 65535/1/65535/513[]]",
    ];
    let mut files: Vec<Vec<u8>> = terms.iter().map(|term| file_of(term)).collect();
    files.push([&[1, 63, 0, 7, 0, 2, 63, 63][..], &[3, 63, 1, 7, 0].repeat(16), &[4]].concat());
    files.push(vec![5, 0, 1, 2, 3, 4, 1, 1, 0, 7, 0, 5, 1, 255, 0, 0, 255, 1, 63, 1, 8, 0, 2, 0, 1, 5, 63, 0, 0, 0, 0, 3, 0, 3, 8, 0, 4]);
    files
}

/// Files whose last record has any mixture of faults, for the order of the tests within a record: before it stand place 1, agent 0 with
/// sixteen actions, agent 1 with none, and place 1's touches; after it the end record, or nothing, or a byte too many.
pub fn faulty_records() -> Vec<Vec<u8>> {
    let before = [&[1, 1, 0, 7, 0, 2, 0, 1][..], &[3, 0, 1, 7, 0].repeat(16), &[2, 1, 0], &[5, 1, 9, 0, 0, 0]].concat();
    let names = [[0, 0], [7, 0], [0, 7]];
    let mut rows: Vec<Vec<u8>> = Vec::new();
    for name in names {
        for number in [0, 1, 2, 63, 64, 255] {
            for parent in [0, 1, 2, 3, 63, 64, 255] {
                rows.push([&[1, number, parent][..], &name].concat());
                rows.extend([[0; 6], [7, 0, 0, 7, 0, 0]].map(|keys| [&[6, number, parent][..], &name, &keys].concat()));
            }
        }
        for agent in [0, 1, 2, 63, 64, 255] {
            rows.extend([0, 1, 3, 4, 5, 255].map(|kind| [&[3, agent, kind][..], &name].concat()));
        }
    }
    for agent in [0, 1, 2, 63, 64, 255] {
        rows.extend([0, 1, 2, 63, 64, 255].map(|home| vec![2, agent, home]));
    }
    for place in [0, 1, 2, 63, 64, 255] {
        rows.extend([0, 1, 255].map(|byte| vec![5, place, byte, 0, 0, byte]));
    }
    rows.extend([[0], [4], [7], [255]].map(Vec::from));
    let after: [&[u8]; 4] = [&[4], &[], &[4, 4], &[9]];
    let mut files: Vec<Vec<u8>> = rows.iter().flat_map(|row| after.map(|after| [&before, &row[..], after].concat())).collect();
    files.extend(rows.iter().flat_map(|row| (1..row.len()).map(|cut| [&before, &row[..cut]].concat())));
    files
}

/// The longest file that is accepted.
pub fn longest_file() -> Vec<u8> {
    let mut file = Vec::new();
    for place in 1..64 {
        file.extend([6, place, place - 1, 255, 255, 255, 255, 254, 255, 255, 255]);
    }
    for agent in 0..64 {
        file.extend([2, agent, agent]);
        file.extend([3, agent, 1 + agent % 4, 255, 255].repeat(16));
        file.extend([5, agent, 255, 255, 255, 255]);
    }
    file.push(4);
    file
}
