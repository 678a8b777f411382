//! The independent count: a second way to every figure that the bench prints, which shares nothing with the proved code.
//!
//! It works with sets of objects, counts pairs over developed blocks, solves the normal equations in exact fractions,
//! takes deviations and their squares from the solved values, and searches the spread. Built with nothing but the compiler:
//!
//!     mkdir -p target/count
//!     rustc -O --edition 2021 tests/count/main.rs -o target/count/count

mod balanced;
mod card;
mod certificate;
mod coefficients;
mod compare;
mod damage;
mod design;
mod editions;
mod field;
mod groups;
mod job;
mod listing;
mod papers;
mod parts;
mod pooled;
mod practice;
mod publishing;
mod second;
mod seed;
mod selftest;
mod sheet;
mod solve;
mod stored;
mod verbs;

use std::io::{Read, Write};
use std::path::Path;
use std::process::ExitCode;

const USAGE: &str = "\
count listing < FILE                    the listing of a job file
count make FOLDER                       write the stored examples and trials below FOLDER
count verify FOLDER                     fail where a stored file is not what make makes
count compare PROGRAM.. -- SEED COUNT   run a program on COUNT seeded jobs and compare
count verbs PROGRAM.. -- SEED COUNT     run each of the program's verbs on COUNT seeded files and compare
count job SEED INDEX > FILE             the bytes of one of these jobs
count lists                             the table of printed lists
count selftest                          the figures of the request";

fn main() -> ExitCode {
    let arguments: Vec<String> = std::env::args().skip(1).collect();
    let words: Vec<&str> = arguments.iter().map(String::as_str).collect();
    let (message, status) = match done(&words, &arguments) {
        Ok(()) => return ExitCode::SUCCESS,
        Err(Stop::Found(message)) => (message, 1),
        Err(Stop::Asked(message)) => (message, 2),
    };
    if !message.is_empty() {
        eprintln!("{message}");
    }
    ExitCode::from(status)
}

/// Why nothing more is done: something was found to be wrong, status 1, or what was asked for makes no sense, status 2.
enum Stop {
    Found(String),
    Asked(String),
}

impl From<String> for Stop {
    fn from(message: String) -> Stop {
        Stop::Found(message)
    }
}

fn done(words: &[&str], arguments: &[String]) -> Result<(), Stop> {
    match words {
        ["listing"] => print_listing()?,
        ["make", folder] => stored::make(Path::new(folder))?,
        ["verify", folder] => println!("{} stored files are what the count makes", stored::verify(Path::new(folder))?),
        ["job", seed, index] => write_job(number(seed)?, number(index)?)?,
        ["lists"] => stored::list_rows().iter().for_each(|row| println!("{row}")),
        ["selftest"] => println!("{} figures as the request has them", selftest::selftest()),
        ["compare", program @ .., "--", seed, count] if !program.is_empty() => {
            compare_all(&arguments[1..1 + program.len()], number(seed)?, number(count)?)?
        }
        ["verbs", program @ .., "--", seed, count] if !program.is_empty() => {
            let (seed, count) = (number(seed)?, number(count)?);
            let (passed, failed) = verbs::compare(&arguments[1..1 + program.len()], seed, count);
            println!("{passed} passed, {failed} failed");
            if failed > 0 {
                return Err(Stop::Found(String::new()));
            }
        }
        _ => return Err(Stop::Asked(USAGE.to_string())),
    }
    Ok(())
}

fn number(word: &str) -> Result<u64, Stop> {
    word.parse().map_err(|_| Stop::Asked(format!("{word} is no number")))
}

fn print_listing() -> Result<(), String> {
    let mut bytes = Vec::new();
    std::io::stdin().take(listing::READ_LIMIT as u64).read_to_end(&mut bytes).map_err(|error| error.to_string())?;
    print_bytes(listing::listing(&bytes).as_bytes())
}

fn print_bytes(bytes: &[u8]) -> Result<(), String> {
    let mut output = std::io::stdout().lock();
    output.write_all(bytes).and_then(|()| output.flush()).map_err(|error| error.to_string())
}

fn write_job(seed: u64, index: u64) -> Result<(), String> {
    let trial = compare::trial(&compare::fixed(), seed, index);
    eprintln!("{}", trial.about);
    print_bytes(&trial.bytes)
}

/// The last line tells how many passed, as the gate's own last line does; so nothing is said after it.
fn compare_all(program: &[String], seed: u64, count: u64) -> Result<(), Stop> {
    let fixed = compare::fixed();
    let least = compare::least(&fixed);
    if count < least {
        return Err(Stop::Asked(format!("COUNT is {count}, but must be at least {least}: every fourth job is one of {} that are always tried", fixed.len())));
    }
    let failed = compare::compare(program, &fixed, seed, count);
    println!("{} passed, {failed} failed", count - failed);
    if failed == 0 {
        Ok(())
    } else {
        Err(Stop::Found(String::new()))
    }
}
