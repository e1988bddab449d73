// The second program: judges by the papers alone, and compares with the proved library.
// It is written apart from the library, so that an error in both at the same place is unlikely.
// Usage: compare [--seed N] [--count N] -- COMMAND ARGS..   The command speaks the protocol of host/drive.c.
//        compare --outcomes <BOOK            The lines that the program `outcomes` must print for a case book.
//        compare --differing LINES <BOOK     The first case for which the file has other lines.
//        compare --book SEED COUNT >BOOK     A book of so many cases; what it meets is told on standard error.
// It leans on compare for the comparison, and on book, outcomes, make_book and kinds for case books.

mod answer;
mod answers;
mod board;
mod book;
mod broken;
mod case;
mod check;
mod compare;
mod damage;
mod description;
mod descriptions;
mod distort;
mod excuses;
mod expand;
mod given;
mod job;
mod jobs;
mod kinds;
mod make;
mod make_book;
mod moves;
mod moving;
mod named;
mod named_broken;
mod named_others;
mod named_widenings;
mod outcome;
mod outcomes;
mod pipe;
mod random;
mod read;
mod room;
mod settled;
mod shapes;
mod solve;
mod spoil;
mod steps;
mod tasks;
mod ties;
mod widen;
mod widenings;
mod wider;
mod write;

use book::{read_book, write_book, BookCase};
use compare::{compare_all, Settings};
use std::io::{self, Read, Write};
use std::process::ExitCode;

const USAGE: &str = "usage: compare [--seed N] [--count N] -- COMMAND ARGS..
       compare --outcomes <BOOK
       compare --differing LINES <BOOK
       compare --book SEED COUNT >BOOK";
const SEED: u64 = 1;

/// A difference was found, or a book can't be made as it must be.
const FAILED: u8 = 1;
/// What is given can't be used.
const UNUSABLE: u8 = 2;

fn main() -> ExitCode {
    let arguments: Vec<String> = std::env::args().skip(1).collect();
    let words: Vec<&str> = arguments.iter().map(String::as_str).collect();
    let ended = match words[..] {
        ["--outcomes"] => print_outcomes(),
        ["--differing", lines] => show_difference(lines),
        ["--book", seed, count] => print_book(seed, count),
        _ => return compare_with(arguments.into_iter()),
    };
    match ended {
        Ok(()) => ExitCode::SUCCESS,
        Err((status, message)) => {
            eprintln!("compare: {message}");
            ExitCode::from(status)
        }
    }
}

/// The exit status and what is said along.
type Failure = (u8, String);

fn unusable(message: impl ToString) -> Failure {
    (UNUSABLE, message.to_string())
}

fn failed(message: impl ToString) -> Failure {
    (FAILED, message.to_string())
}

fn print_outcomes() -> Result<(), Failure> {
    let lines = outcomes::lines(&given_book()?);
    print_bytes(lines.as_bytes())
}

fn show_difference(lines: &str) -> Result<(), Failure> {
    let printed = std::fs::read(lines).map_err(|error| unusable(format!("{lines} can't be read: {error}")))?;
    match outcomes::first_difference(&given_book()?, &String::from_utf8_lossy(&printed)) {
        Some(difference) => Err(failed(difference)),
        None => Ok(()),
    }
}

fn print_book(seed: &str, count: &str) -> Result<(), Failure> {
    let (Ok(seed), Ok(count)) = (seed.parse(), count.parse()) else {
        return Err(unusable(USAGE));
    };
    let cases = make_book::make_book(seed, count).map_err(failed)?;
    eprint!("{}", kinds::coverage(&cases).map_err(failed)?);
    print_bytes(&write_book(&cases))
}

/// The book on standard input.
fn given_book() -> Result<Vec<BookCase>, Failure> {
    let mut book = Vec::new();
    io::stdin().read_to_end(&mut book).map_err(unusable)?;
    read_book(&book).map_err(unusable)
}

fn print_bytes(bytes: &[u8]) -> Result<(), Failure> {
    let mut out = io::stdout();
    out.write_all(bytes).and_then(|()| out.flush()).map_err(failed)
}

/// The comparison over the C face.
fn compare_with(arguments: impl Iterator<Item = String>) -> ExitCode {
    match settings(arguments).and_then(|settings| compare_all(&settings)) {
        Ok(cases) => {
            println!("compare: {cases} cases equal");
            ExitCode::SUCCESS
        }
        Err(message) => {
            println!("compare: {message}");
            ExitCode::FAILURE
        }
    }
}

fn settings(mut arguments: impl Iterator<Item = String>) -> Result<Settings, String> {
    let mut settings = Settings { seed: SEED, count: None, command: Vec::new() };
    while let Some(argument) = arguments.next() {
        match argument.as_str() {
            "--seed" => settings.seed = number(arguments.next())?,
            "--count" => settings.count = Some(number(arguments.next())? as usize),
            "--" => settings.command = arguments.by_ref().collect(),
            _ => return Err(USAGE.into()),
        }
    }
    if settings.command.is_empty() {
        return Err(USAGE.into());
    }
    Ok(settings)
}

fn number(text: Option<String>) -> Result<u64, String> {
    text.and_then(|text| text.parse().ok()).ok_or(USAGE.into())
}
