//! The parts of a job file, for the programs that hand the bench a job by its parts.

use crate::job::{self, Draft};

/// The parts of a file that nothing refuses.
pub fn parts_of(bytes: &[u8]) -> Option<Draft> {
    let job = job::read(bytes).ok()?;
    Some(Draft {
        n: bytes[3],
        flag: bytes[4],
        p: bytes[5],
        m: bytes[6],
        objects: bytes[10..10 + 2 * job.head.p * job.head.m].to_vec(),
        restraint: job.restraint.iter().map(|object| 1 << object).sum(),
        sum: job.sum as i64,
        readings: job.readings.iter().map(|reading| *reading as i32).collect(),
    })
}
