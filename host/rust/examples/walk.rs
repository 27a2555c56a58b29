//! A host: reads a cell file, or a layout that was typed, and an order of pairs agent, wish, steps through it, and prints what each step did.
//!
//!     walk [CELL [ORDER]]
//!     walk --text TEXT [ORDER]
//!
//! The files are `cell` and `order` unless named. An absent file reads as empty, and an empty cell file is a bare floor; an odd last byte
//! and pairs past the limit are passed over. A file that is there and cannot be read is an error, and nothing is printed.
//!
//! TEXT holds one line, a layout as the listing writes it; the line end after it, LF or CR LF, is not part of the text. Where it is refused, the
//! text is printed too, with a caret under the byte where it goes wrong.

use keeper::{check_library, Cell, Refused};
use std::ffi::OsString;
use std::io::{self, BufWriter, Write};
use std::process::ExitCode;

/// How many pairs of an order are taken.
const PAIRS: usize = 16_384;

/// How many bytes of a refused text are shown, at most, and how many of them before the faulty one where the text is longer.
const SHOWN: usize = 72;
const BEFORE: usize = 40;

fn main() -> io::Result<ExitCode> {
    if let Err(refused) = check_library() {
        eprintln!("libkeeper.a: {refused}");
        return Ok(ExitCode::FAILURE);
    }
    let mut names = std::env::args_os().skip(1);
    let cell = names.next().unwrap_or("cell".into());
    let text = if cell == "--text" { names.next() } else { None };
    if cell == "--text" && text.is_none() {
        eprintln!("usage: walk [CELL [ORDER]] or walk --text TEXT [ORDER]");
        return Ok(ExitCode::FAILURE);
    }
    let order = read(names.next().unwrap_or("order".into()))?;
    let out = &mut BufWriter::new(io::stdout().lock());
    match text {
        None => walk(Cell::load(&read(cell)?).map_err(refusal), &order, out)?,
        Some(text) => {
            let file = read(text)?;
            let line = line(&file);
            walk(typed(line).map_err(|refused| refusal(refused) + &caret(line, refused.offset.unwrap_or(0))), &order, out)?
        }
    }
    Ok(ExitCode::SUCCESS)
}

/// The bytes of a file; an absent one has none. One that cannot be read must not pass for an empty one, which is accepted.
fn read(name: OsString) -> io::Result<Vec<u8>> {
    match std::fs::read(name) {
        Err(error) if error.kind() == io::ErrorKind::NotFound => Ok(Vec::new()),
        read => read,
    }
}

/// The bytes of a file without the line end that an editor writes after a line.
fn line(file: &[u8]) -> &[u8] {
    match file.strip_suffix(b"\n") {
        Some(line) => line.strip_suffix(b"\r").unwrap_or(line),
        None => file,
    }
}

/// The cell of a typed line. What is not UTF-8 is outside the language where it starts, or before.
fn typed(line: &[u8]) -> Result<Cell, Refused> {
    Cell::read(&String::from_utf8_lossy(line))
}

/// The line of a refusal.
fn refusal(refused: Refused) -> String {
    format!("refused {} {}\n", refused.refusal.number(), refused.offset.unwrap_or(0))
}

/// The part of a text about this byte, with question marks for what cannot be printed, and a caret under the byte.
fn caret(line: &[u8], offset: usize) -> String {
    let from = if line.len() > SHOWN { offset.saturating_sub(BEFORE) } else { 0 };
    let shown = line[from..].iter().take(SHOWN).map(|&byte| if matches!(byte, 32..=126) { char::from(byte) } else { '?' });
    format!("{}\n{:>2$}\n", shown.collect::<String>(), '^', offset - from + 1)
}

/// Writes why there is no cell; or the first and the last listing and, between them, a line for each step.
fn walk(cell: Result<Cell, String>, order: &[u8], out: &mut impl Write) -> io::Result<()> {
    let mut cell = match cell {
        Ok(cell) => cell,
        Err(refused) => return out.write_all(refused.as_bytes()),
    };
    writeln!(out, "start {}", cell.listing().map_err(io::Error::other)?)?;
    for pair in order.chunks_exact(2).take(PAIRS) {
        match cell.step(pair[0], pair[1]) {
            Ok(stepped) => writeln!(out, "{} {} {}", pair[0], stepped.word, stepped.woken)?,
            Err(refused) => writeln!(out, "{} refused {}", pair[0], refused.refusal.number())?,
        }
    }
    writeln!(out, "end {}", cell.listing().map_err(io::Error::other)?)?;
    out.flush()
}
