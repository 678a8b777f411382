//! The listing of any bytes, as the bench prints it.

use crate::job::{self, Job, Refusal};
use crate::solve::{solve, Results};
use std::fmt::Write;

/// The bench takes no more of its input than this.
pub const READ_LIMIT: usize = 8192;

pub fn listing(bytes: &[u8]) -> String {
    match job::read(&bytes[..bytes.len().min(READ_LIMIT)]) {
        Ok(job) => accepted(&job, &solve(&job)),
        Err(refusal) => refused(refusal),
    }
}

/// The line of a refusal.
pub fn refused(refusal: Refusal) -> String {
    format!("refused {} {}\n", refusal.number, refusal.place)
}

/// The lines of a job that is accepted.
pub fn accepted(job: &Job, results: &Results) -> String {
    let mut text = String::new();
    let mut line = |words: &[&str], numbers: &[i128]| {
        let shown: Vec<String> = words.iter().map(|word| word.to_string()).chain(numbers.iter().map(|number| number.to_string())).collect();
        writeln!(text, "{}", shown.join(" ")).expect("text in memory");
    };
    let balance = job.balance;
    let (v, b, p) = (job.head.objects() as i128, job.blocks.len() as i128, job.blocks[0].left.len() as i128);
    line(&["design"], &[v, b, balance.appearances, p, balance.company, balance.opposition]);
    for (object, numerator) in results.numerators.iter().enumerate() {
        line(&["value"], &[object as i128, *numerator, results.denominator, results.hundredths[object]]);
    }
    for (block, deviation) in results.deviations.iter().enumerate() {
        line(&["dev"], &[block as i128, *deviation, results.deviation_denominator]);
    }
    let mut last = vec![results.q, results.deviation_denominator, results.freedom];
    match results.spread {
        Some(k) => {
            last.push(k);
            line(&["spread"], &last);
        }
        None => {
            let numbers: Vec<String> = last.iter().map(|number| number.to_string()).collect();
            line(&["spread", &numbers.join(" "), "none"], &[]);
        }
    }
    text
}
