//! Compares the library with the model, call by call, through the C exports.
//!
//!     compare [--quick] [--seconds N] [--seed S] [--walk PROGRAM] [--typed-walk PROGRAM]..
//!
//! First document 01's cases, by steps and by asks and commits, where every place is after each of their calls, orders that put moves off for
//! as long as anything else changes the cell, touches up to the most there may be, listings of full cells, every single-byte change and
//! truncation of good files and of texts, and texts at and past each limit; then rounds of random files, random orders of steps, asks, commits,
//! touch calls and questions where a place is on random cells, some of them with 61 to 64 places in use, random texts, damaged ones and orders
//! on cells that were read, and cells with bytes changed, those of keys, of the row of places and of agents that release too: a fixed number of
//! rounds, or as many as fit in N seconds. Trails are kept of all runs from files, as a host keeps them and by the model; those of some runs,
//! and of moves of the calculus, are checked by both: whole, shortened, cut, changed, with changed files and with changed listings. After each
//! call the ceiling is compared, and the step calls that changed the cell are counted from its load on: there must be no more of them, and the
//! largest share is printed. Listings are read back. Cells are also listed under other numbers, which must give the same bytes. Cards drive
//! random and damaged cells through their windows, and the same steps are made beside them. The same seed gives the same rounds. With a program `walk`, what it writes is compared too; with programs that run typed layouts (PROGRAM --text TEXT
//! ORDER), what those write. At a difference the smallest example found is printed and the exit status is 1; it is 1 too where some finding on
//! trails, or some answer, flag or command of a card, came up too seldom.

mod answer;
mod audits;
mod bench;
mod call;
mod cards;
mod chance;
mod churn;
mod counts;
mod damage;
mod demands;
mod differing;
mod edits;
mod files;
mod keys;
mod layouts;
mod orders;
mod pair;
mod random;
mod reading;
mod releases;
mod renumber;
mod rounds;
mod rows;
mod sessions;
mod shrink;
mod steps;
mod texts;
mod touches;
mod trails;
mod walks;
mod whereabouts;

use call::Call;
use random::Random;
use rounds::Session;
use std::path::PathBuf;
use std::process::ExitCode;
use std::time::{Duration, Instant};

/// What the command line may ask for.
const USAGE: &str = "usage: compare [--quick] [--seconds N] [--seed S] [--walk PROGRAM] [--typed-walk PROGRAM]..";

/// How many random runs have their trails changed before the rounds; how often each finding must have come up at least, in a whole session and in a quick one.
const TRAILS: usize = 1_500;
const LEAST: [u64; 2] = [1_000, 100];
/// How many sessions of cards there are, and how often, at least, each answer, flag and change of the line comes in them.
const SESSIONS: u64 = 20_000;
const LEAST_OF_CARDS: u64 = 5_000;

/// What the command line asks for.
struct Options {
    quick: bool,
    seconds: Option<u64>,
    seed: u64,
    walk: Option<PathBuf>,
    typed_walks: Vec<PathBuf>,
}

/// Reads the command line.
fn options() -> Result<Options, String> {
    let mut options = Options { quick: false, seconds: None, seed: 1, walk: None, typed_walks: Vec::new() };
    let mut words = std::env::args().skip(1);
    while let Some(word) = words.next() {
        let mut next = || words.next().ok_or(format!("{word} takes a value"));
        let number = |text: String| text.parse().map_err(|_| format!("{text} is no number"));
        match word.as_str() {
            "--quick" => options.quick = true,
            "--seconds" => options.seconds = Some(number(next()?)?),
            "--seed" => options.seed = number(next()?)?,
            "--walk" => options.walk = Some(PathBuf::from(next()?)),
            "--typed-walk" => options.typed_walks.push(PathBuf::from(next()?)),
            _ => return Err(format!("unknown option {word}\n{USAGE}")),
        }
    }
    Ok(options)
}

/// The session that the options ask for; it ends at the first difference.
fn run(session: &mut Session, options: &Options) -> Result<(), Vec<Call>> {
    let start = Instant::now();
    session.cases()?;
    session.every_number(if options.quick { &[255] } else { &[255, 2, 3] })?;
    session.every_place()?;
    session.churning(if options.quick { 2 } else { 50 })?;
    session.most_touches()?;
    session.full_listings()?;
    session.changed_files(if options.quick { 64 } else { 4 })?;
    session.changed_texts(if options.quick { 64 } else { 4 })?;
    session.full_trail()?;
    session.trails(&mut Random::new(13), if options.quick { 100 } else { TRAILS })?;
    let rounds = if options.quick { 20 } else { 500 };
    let mut round = 0;
    while match options.seconds {
        Some(seconds) => start.elapsed() < Duration::from_secs(seconds),
        None => round < rounds,
    } {
        let seed = options.seed.wrapping_mul(1_000_003).wrapping_add(round);
        session.round(seed)?;
        session.trails(&mut Random::new(seed), 2)?;
        round += 1;
    }
    Ok(())
}

fn main() -> ExitCode {
    let options = match options() {
        Ok(options) => options,
        Err(text) => {
            eprintln!("{text}");
            return ExitCode::from(2);
        }
    };
    let start = Instant::now();
    let mut session = match Session::new() {
        Ok(session) => session,
        Err(text) => {
            println!("difference on a bare floor: {text}");
            return ExitCode::FAILURE;
        }
    };
    let outcome = run(&mut session, &options);
    if let Err(calls) = &outcome {
        session.counts_mut().differences += 1;
        print_example(calls);
    }
    if let (Ok(()), Some(text)) = (&outcome, session.counts_mut().too_few_audits(LEAST[options.quick as usize])) {
        session.counts_mut().differences += 1;
        println!("{text}");
    }
    let count = if options.quick { 100 } else { 1_000 };
    let walks = options.walk.iter().map(|program| walks::walks(program, options.seed, count));
    let typed = options.typed_walks.iter().map(|program| walks::typed_walks(program, options.seed, count));
    for outcome in walks.chain(typed) {
        match outcome {
            Ok(count) => session.counts_mut().walks += count as u64,
            Err(text) => {
                session.counts_mut().differences += 1;
                println!("difference: {text}");
            }
        }
    }
    match sessions::sessions(options.seed, if options.quick { SESSIONS / 50 } else { SESSIONS }) {
        Ok(done) => {
            println!("{done}");
            for text in done.too_few(if options.quick { 0 } else { LEAST_OF_CARDS }) {
                session.counts_mut().differences += 1;
                println!("too few in the sessions of cards: {text}");
            }
        }
        Err(text) => {
            session.counts_mut().differences += 1;
            println!("difference {text}");
        }
    }
    println!("{}", session.counts_mut());
    println!("seed {}, {:.1} seconds", options.seed, start.elapsed().as_secs_f64());
    ExitCode::from(if session.counts_mut().differences == 0 { 0 } else { 1 })
}

/// Prints the smallest example found and what differs in it.
fn print_example(calls: &[Call]) {
    println!("difference after {} calls; the smallest example found:", calls.len());
    let (smallest, text) = shrink::smallest(calls);
    for call in &smallest {
        println!("  {call}");
    }
    println!("  {}", text.unwrap_or("it did not show again when the calls were repeated".to_string()));
}
