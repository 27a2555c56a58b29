//! Program `walk`, run on files and on typed layouts, beside what the model says it writes.

use crate::bench;
use crate::files;
use crate::layouts;
use crate::random::Random;
use crate::texts;
use std::fs;
use std::path::{Path, PathBuf};
use std::process::Command;

/// A cell file, or a file with a typed layout, and an order, either of which may be absent.
struct Case {
    cell: Option<Vec<u8>>,
    order: Option<Vec<u8>>,
}

/// What the program is run on.
#[derive(Clone, Copy, PartialEq)]
enum On {
    Files,
    Texts,
}

/// The program and a folder of its own to run it in.
struct Walks {
    program: PathBuf,
    folder: PathBuf,
    on: On,
}

/// Runs the program on document 01's cases and so many random ones; how many were alike, or the first that was not.
pub fn walks(program: &Path, seed: u64, count: usize) -> Result<usize, String> {
    run(program, On::Files, cases(seed, count))
}

/// Runs `PROGRAM --text` on so many random typed layouts, good and refused ones; how many were alike, or the first that was not.
pub fn typed_walks(program: &Path, seed: u64, count: usize) -> Result<usize, String> {
    run(program, On::Texts, typed_cases(seed, count))
}

/// Runs the program on these cases, in a folder of its own.
fn run(program: &Path, on: On, cases: Vec<Case>) -> Result<usize, String> {
    let folder = std::env::temp_dir().join(format!("compare-walk-{}", std::process::id()));
    let program = program.canonicalize().map_err(|error| format!("{}: {error}", program.display()))?;
    fs::create_dir_all(&folder).map_err(|error| format!("{}: {error}", folder.display()))?;
    let walks = Walks { program, folder, on };
    let outcome = cases.iter().try_for_each(|case| walks.alike(case)).map(|()| cases.len());
    let _ = fs::remove_dir_all(&walks.folder);
    outcome
}

/// Document 01's cases, absent, empty and overlong files, full cells, and random ones.
fn cases(seed: u64, count: usize) -> Vec<Case> {
    let mut random = Random::new(seed);
    let order = |agents: &[u8]| agents.iter().flat_map(|&agent| [agent, 255]).collect::<Vec<u8>>();
    let mut cases: Vec<Case> =
        bench::cases().into_iter().map(|case| Case { cell: Some(case.file), order: Some(order(&case.agents)) }).collect();
    let longest = bench::longest_file();
    cases.push(Case { cell: None, order: None });
    cases.push(Case { cell: None, order: Some(vec![0, 0]) });
    cases.push(Case { cell: Some(vec![]), order: None });
    for cell in [None, Some(vec![])] {
        cases.push(Case { cell, order: Some((0..40_001).map(|_| random.byte()).collect()) });
    }
    cases.push(Case { cell: Some(vec![4]), order: None });
    cases.push(Case { cell: Some([&longest[..], &[4]].concat()), order: None });
    cases.push(Case { cell: Some([&longest[..longest.len() - 1], &[9; 4000]].concat()), order: None });
    cases.push(Case { cell: Some([&longest[..longest.len() - 1], &[5, 63, 1, 2, 3, 4, 4], &[5; 4000]].concat()), order: None });
    cases.push(Case {
        cell: Some([&longest[..longest.len() - 1], &[6, 63, 0, 7, 0, 7, 0, 7, 0, 7, 0, 4], &[6; 4000]].concat()),
        order: None,
    });
    cases.push(Case { cell: Some(longest), order: Some((0..40_001).map(|_| random.byte() % 64).collect()) });
    for cell in layouts::full_cells() {
        cases.push(Case { cell: Some(cell), order: Some((0..300).map(|_| random.byte() % 64).collect()) });
    }
    for _ in 0..count {
        let cell = if random.percent(80) { files::good(&mut random) } else { files::nearly_good(&mut random) };
        let length = random.pick(&[10, 100, 1_000]);
        let agents = random.pick(&[6, 66]);
        let order = (0..random.below(length)).map(|at| if at % 2 == 0 { random.below(agents) as u8 } else { random.byte() });
        cases.push(Case { cell: Some(cell), order: Some(order.collect()) });
    }
    cases
}

/// Absent and empty files, layouts at and past each limit, and random ones, good, damaged and wild, with a line end or without.
fn typed_cases(seed: u64, count: usize) -> Vec<Case> {
    let mut random = Random::new(seed);
    let mut cases = vec![Case { cell: None, order: None }, Case { cell: Some(vec![]), order: Some(vec![0, 255]) }];
    let texts = texts::limits(&mut random).into_iter().chain([texts::longest()]).chain(texts::deep(1_000));
    cases.extend(texts.map(|text| Case { cell: Some(text), order: None }));
    for _ in 0..count {
        let mut text = texts::good(&mut random);
        match random.below(10) {
            0..=4 => {}
            5..=8 => text = texts::damaged(&mut random, &text),
            _ => text = texts::wild(&mut random),
        }
        text.extend(random.pick(&["", "\n", "\r\n", "\n\n", "\r"]).bytes());
        let order = (0..random.below(200)).map(|at| if at % 2 == 0 { random.below(8) as u8 } else { random.byte() });
        cases.push(Case { cell: Some(text), order: Some(order.collect()) });
    }
    cases
}

impl Walks {
    /// The program writes what the model says.
    fn alike(&self, case: &Case) -> Result<(), String> {
        let [cell, order] = ["cell", "order"].map(|name| self.folder.join(name));
        put(&cell, &case.cell).and_then(|()| put(&order, &case.order)).map_err(|error| error.to_string())?;
        let words: &[&str] = if self.on == On::Texts { &["--text", "cell", "order"] } else { &[] };
        let output = Command::new(&self.program).args(words).current_dir(&self.folder).output();
        let written = output.map_err(|error| format!("{}: {error}", self.program.display()))?.stdout;
        let empty = Vec::new();
        let (cell, order) = (case.cell.as_ref().unwrap_or(&empty), case.order.as_ref().unwrap_or(&empty));
        let expected = if self.on == On::Texts { model::typed_walk(cell, order) } else { model::walk(cell, order) };
        if written == expected.as_bytes() {
            return Ok(());
        }
        let written = String::from_utf8_lossy(&written).into_owned();
        let at = expected.lines().zip(written.lines()).take_while(|(one, other)| one == other).count();
        let line = |text: &str| text.lines().nth(at).unwrap_or("nothing").to_string();
        Err(format!(
            "walk\n  cell  {cell:02X?}\n  order {order:02X?}\n  line {}: it writes {}, the model {}",
            at + 1,
            line(&written),
            line(&expected)
        ))
    }
}

/// Writes a file, or takes it away.
fn put(path: &Path, bytes: &Option<Vec<u8>>) -> std::io::Result<()> {
    match bytes {
        Some(bytes) => fs::write(path, bytes),
        None if path.exists() => fs::remove_file(path),
        None => Ok(()),
    }
}
