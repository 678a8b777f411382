//! Runs a program on many jobs and compares what it prints with the count, byte for byte.

use crate::damage::{seeded, Trial};
use crate::listing::listing;
use crate::stored;
use std::collections::BTreeMap;
use std::io::Write;
use std::process::{Command, Stdio};
use std::sync::atomic::{AtomicU64, Ordering};
use std::sync::Mutex;
use std::thread;
use std::time::Duration;

/// Heads at each bound of the sizes, on both sides of it: n, flag, p, m. Alone in a file they are refused by 4 or for the missing field.
pub const HEADS: [[u8; 4]; 38] = [
    [3, 0, 1, 1],
    [2, 0, 1, 1],
    [2, 1, 1, 1],
    [50, 0, 1, 1],
    [51, 0, 1, 1],
    [255, 0, 1, 1],
    [49, 1, 25, 26],
    [50, 1, 25, 26],
    [50, 0, 25, 26],
    [50, 0, 25, 27],
    [50, 0, 26, 1],
    [49, 0, 24, 1],
    [49, 0, 25, 1],
    [3, 0, 2, 1],
    [3, 1, 2, 1],
    [5, 2, 1, 1],
    [5, 255, 1, 1],
    [5, 0, 0, 1],
    [5, 0, 128, 1],
    [5, 0, 129, 1],
    [5, 0, 255, 1],
    [5, 0, 1, 0],
    [5, 0, 1, 64],
    [5, 0, 1, 65],
    [5, 0, 1, 255],
    [20, 0, 10, 64],
    [25, 1, 13, 52],
    [26, 0, 13, 50],
    [26, 0, 13, 51],
    [21, 0, 10, 61],
    [21, 0, 10, 62],
    [31, 0, 15, 42],
    [8, 2, 4, 64],
    [9, 2, 5, 1],
    [9, 3, 5, 64],
    [9, 4, 1, 1],
    [49, 3, 25, 26],
    [10, 3, 1, 1],
];

/// Jobs that do not depend on the seed: what is stored, heads alone, every cut of A, and every byte of A changed in three ways.
pub fn fixed() -> Vec<Trial> {
    let mut all: Vec<Trial> = stored::trials().into_iter().map(|trial| Trial { about: trial.name, bytes: trial.bytes }).collect();
    for head in HEADS {
        all.push(Trial { about: format!("head {head:?} alone"), bytes: [&[1, 0, 4], &head[..]].concat() });
    }
    for place in 0..stored::A.len() {
        all.push(Trial { about: format!("A cut to {place} bytes"), bytes: stored::A[..place].to_vec() });
        for byte in [stored::A[place].wrapping_add(1), stored::A[place] ^ 0x80, 255] {
            let mut bytes = stored::A.to_vec();
            bytes[place] = byte;
            all.push(Trial { about: format!("A with {byte} at {place}"), bytes });
        }
    }
    all
}

/// The job with this index: every fourth is a fixed one while these last.
pub fn trial(fixed: &[Trial], seed: u64, index: u64) -> Trial {
    match fixed.get((index / 4) as usize) {
        Some(trial) if index % 4 == 3 => Trial { about: trial.about.clone(), bytes: trial.bytes.clone() },
        _ => seeded(seed, index),
    }
}

/// The number of jobs that takes in every fixed one; with fewer a comparison would leave some out and not say so.
pub fn least(fixed: &[Trial]) -> u64 {
    4 * fixed.len() as u64
}

/// The number of jobs on which the program fails. Several run at a time; what is told comes in the order of the jobs.
pub fn compare(program: &[String], fixed: &[Trial], seed: u64, count: u64) -> u64 {
    let next = AtomicU64::new(0);
    let failures = Mutex::new(Vec::new());
    let answers = Mutex::new(BTreeMap::new());
    let workers = thread::available_parallelism().map_or(1, |cores| cores.get().min(4));
    thread::scope(|scope| {
        for _ in 0..workers {
            scope.spawn(|| loop {
                let index = next.fetch_add(1, Ordering::Relaxed);
                if index >= count {
                    return;
                }
                let trial = trial(fixed, seed, index);
                let expected = listing(&trial.bytes);
                *answers.lock().expect("no worker stops").entry(kind(&expected)).or_insert(0) += 1;
                if let Err(failure) = run(program, &trial.bytes, &expected, index % 50 == 0) {
                    failures.lock().expect("no worker stops").push((index, trial.about, failure));
                }
            });
        }
    });
    let mut failures = failures.into_inner().expect("no worker stops");
    failures.sort();
    for (index, about, failure) in failures.iter().take(20) {
        println!("job {seed} {index} ({about}): {failure}");
    }
    let answers: Vec<String> = answers.into_inner().expect("no worker stops").iter().map(|(kind, count)| format!("{count} {kind}")).collect();
    println!("jobs: {}", answers.join(", "));
    failures.len() as u64
}

/// What becomes of a job: `accepted`, or `refused` with its number.
fn kind(listing: &str) -> String {
    match listing.split_whitespace().collect::<Vec<_>>()[..] {
        ["refused", number, _] => format!("refused {number}"),
        _ => "accepted".to_string(),
    }
}

/// One job through standard input; in two pieces with a pause where `slowly`, so that a reader that stops at a short read is found out.
fn run(program: &[String], bytes: &[u8], expected: &str, slowly: bool) -> Result<(), String> {
    let mut child = Command::new(&program[0])
        .args(&program[1..])
        .stdin(Stdio::piped())
        .stdout(Stdio::piped())
        .stderr(Stdio::piped())
        .spawn()
        .map_err(|error| format!("{} does not start: {error}", program[0]))?;
    let mut input = child.stdin.take().expect("standard input is piped");
    let (first, second) = bytes.split_at(if slowly { bytes.len() / 2 } else { 0 });
    // A program may stop reading at 8,192 bytes and be gone: that is no fault.
    let _ = input.write_all(first);
    if slowly {
        let _ = input.flush();
        thread::sleep(Duration::from_millis(30));
    }
    let _ = input.write_all(second);
    drop(input);
    let output = child.wait_with_output().map_err(|error| error.to_string())?;
    let said = String::from_utf8_lossy(&output.stderr);
    let aside = said.lines().next().map_or(String::new(), |line| format!("; on standard error it says `{line}`"));
    if !output.status.success() {
        return Err(format!("it ends with {}{aside}", output.status));
    }
    if output.stdout != expected.as_bytes() {
        let printed = String::from_utf8_lossy(&output.stdout).into_owned();
        let mut pairs = printed.split('\n').zip(expected.split('\n'));
        let (found, wanted) = pairs.find(|(found, wanted)| found != wanted).unwrap_or(("", "more or fewer lines"));
        return Err(format!("it prints `{found}`, the count `{wanted}`{aside}"));
    }
    // The bench has nothing to say beside its listing.
    if aside.is_empty() {
        Ok(())
    } else {
        Err(format!("it prints what it should{aside}"))
    }
}
