//! The files that the bench writes against those that the count writes, job by job.
//!
//! The count has its own writer and its own refusals; the bench is called through its crate for Rust. Built by `hosts/test`, which links the two:
//!
//!     writes SEED COUNT      COUNT seeded jobs by their parts, many of them damaged; then every stored file and, of the next seed, COUNT seeded ones:
//!                            those that the count accepts, read and written again
//!
//! A job that the count accepts must be written byte for byte as the count writes it: into room of just its length, into longer room, whose later bytes stay,
//! and not at all into room one byte short. A job that it refuses must be refused by the same number at the same place, and the room stays as it was.

// The count's own program uses what this one does not.
#![allow(dead_code)]

mod balanced;
mod damage;
mod design;
mod field;
mod job;
mod listing;
mod papers;
mod parts;
mod publishing;
mod seed;
mod solve;
mod stored;

use job::{Draft, Refusal};
use mass_bench::{calls, refusal_in};
use parts::parts_of;
use std::collections::BTreeMap;
use std::process::ExitCode;

fn main() -> ExitCode {
    let numbers: Vec<Option<u64>> = std::env::args().skip(1).map(|word| word.parse().ok()).collect();
    let [Some(seed), Some(count)] = numbers[..] else {
        eprintln!("usage: writes SEED COUNT, two whole numbers");
        return ExitCode::from(2);
    };
    let (mut alike, mut failed) = (BTreeMap::new(), 0);
    let mut tell = |about: String, outcome: Result<String, String>| match outcome {
        Ok(kind) => *alike.entry(kind).or_insert(0) += 1,
        Err(failure) => {
            failed += 1;
            println!("{about}: {failure}");
        }
    };
    for index in 0..count {
        let parts = damage::parts(seed, index);
        tell(format!("parts {seed} {index} ({})", parts.about), compared(&parts.draft));
    }
    let stored = stored::trials().into_iter().map(|trial| (trial.name, trial.bytes));
    let seeded = (0..count).map(|index| damage::seeded(seed + 1, index)).map(|trial| (trial.about, trial.bytes));
    for (about, bytes) in stored.chain(seeded) {
        if let Some(draft) = parts_of(&bytes) {
            tell(about, if draft.file() == bytes { compared(&draft) } else { Err("the count does not write it again".to_string()) });
        }
    }
    let kinds: Vec<String> = alike.iter().map(|(kind, count)| format!("{count} {kind}")).collect();
    println!("jobs: {}", kinds.join(", "));
    println!("{} passed, {failed} failed", alike.values().sum::<u64>());
    if failed == 0 {
        ExitCode::SUCCESS
    } else {
        ExitCode::FAILURE
    }
}

/// What both make of a job, `written` or `refused` with its number; where they differ, how.
fn compared(draft: &Draft) -> Result<String, String> {
    let file = draft.file();
    match refusal(draft) {
        None => {
            for (room, expected) in [(file.len(), Ok(file.len())), (file.len() + 9, Ok(file.len())), (file.len() - 1, Err((10, 0)))] {
                let (found, bytes) = written(draft, room);
                let mut wanted = vec![UNTOUCHED; room];
                if expected.is_ok() {
                    wanted[..file.len()].copy_from_slice(&file);
                }
                same(&format!("room for {room} bytes"), (found, bytes), (expected, wanted))?;
            }
            Ok("written".to_string())
        }
        Some(Refusal { number, place, .. }) => {
            // the room is looked at last: with none at all the refusal is the same
            for room in [7000, 0] {
                same(&format!("a refused job, room for {room} bytes"), written(draft, room), (Err((number, place as u64)), vec![UNTOUCHED; room]))?;
            }
            Ok(format!("refused {number}"))
        }
    }
}

/// What a lent room holds before a call.
const UNTOUCHED: u8 = 0xA5;

/// How many bytes were written, or the number and place of the refusal; and the room after.
type Written = (Result<usize, (u8, u64)>, Vec<u8>);

fn written(draft: &Draft, room: usize) -> Written {
    let (mut out, mut length) = (vec![UNTOUCHED; room], [0]);
    let [n, flag, p, m] = [draft.n, draft.flag, draft.p, draft.m].map(usize::from);
    let returned = calls::write(n, flag, p, m, &draft.objects, draft.restraint, draft.sum, &draft.readings, &mut out, &mut length);
    let answer = refusal_in(returned).map(|()| length[0] as usize);
    (answer.map_err(|refusal| (refusal.reason.number(), refusal.place)), out)
}

fn same(about: &str, found: Written, wanted: Written) -> Result<(), String> {
    if found.0 != wanted.0 {
        return Err(format!("{about}: the bench answers {:?}, the count {:?}", found.0, wanted.0));
    }
    match found.1.iter().zip(&wanted.1).position(|(found, wanted)| found != wanted) {
        Some(place) => Err(format!("{about}: byte {place} is {}, the count's {}", found.1[place], wanted.1[place])),
        None => Ok(()),
    }
}

/// What a call that takes the parts themselves says of them: the refusal of their file, at the index of the object or of the reading, else at 0.
/// The file of a draft has its four fields and nothing after them, so it is never refused by 1, 2 or 9.
fn refusal(draft: &Draft) -> Option<Refusal> {
    let Refusal { number, place, .. } = job::read(&draft.file()).err()?;
    assert!(![1, 2, 9].contains(&number), "a draft's file is whole");
    let place = match number {
        5 => place - 10,
        8 => (place - 32 - draft.objects.len()) / 4,
        _ => 0,
    };
    Some(Refusal { number, index: 0, place })
}
