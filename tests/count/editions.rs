//! Files of the second edition and names, whole and damaged in every way, for the calls that take them.

use crate::second::{field, with_names, LIMIT, NAMES};
use crate::seed::Seed;

/// How many objects a file of the first edition speaks of, and how many elements, right or wrong: with an odd flag the fixed object is one more.
fn counts(first: &[u8]) -> (usize, usize) {
    let byte = |at: usize| first.get(at).copied().map_or(0, usize::from);
    (byte(3) + byte(4) % 2, byte(3))
}

/// Names of the right length, of none, and of lengths beside it.
pub fn names(first: &[u8], seed: &mut Seed) -> Vec<u8> {
    let (v, n) = counts(first);
    let length = match seed.below(8) {
        0 | 1 => 0,
        2 => (8 * v).saturating_sub(1),
        3 => 8 * v + 1,
        4 => 8 * n,
        _ => 8 * v,
    };
    (0..length).map(|_| seed.next() as u8).collect()
}

/// A file of the second edition made of one of the first, whole or itself damaged: with optional fields of every kind, and once more damaged in every way.
pub fn made(first: &[u8], seed: &mut Seed) -> Vec<u8> {
    let mut bytes = with_names(first, &[]);
    let (v, _) = counts(first);
    let body = |seed: &mut Seed, length: usize| -> Vec<u8> { (0..length).map(|_| seed.next() as u8).collect() };
    let rising = |seed: &mut Seed, low: u8| low + 1 + seed.below(usize::from(254 - low)) as u8;
    match seed.below(16) {
        0..=2 => {}
        3 | 4 => bytes.extend(field(NAMES, &body(seed, 8 * v))),
        5 => bytes.extend(field(NAMES, &names(first, seed))),
        6 => {
            bytes.extend(field(NAMES, &body(seed, 8 * v)));
            let tag = rising(seed, NAMES);
            let length = seed.below(40);
            bytes.extend(field(tag, &body(seed, length)));
            bytes.extend(field(255, &[]));
        }
        // equal tags, falling ones, one that is too low
        7 => {
            let tag = rising(seed, NAMES - 1);
            bytes.extend(field(tag, &body(seed, if tag == NAMES { 8 * v } else { 3 })));
            bytes.extend(field(tag, &body(seed, if tag == NAMES { 8 * v } else { 3 })));
        }
        8 => {
            let tag = rising(seed, NAMES);
            bytes.extend(field(tag, &body(seed, 2)));
            let lower = seed.below(usize::from(tag)) as u8;
            bytes.extend(field(lower, &body(seed, 8 * v)));
        }
        9 => bytes.extend(field(seed.below(usize::from(NAMES)) as u8, &[1, 2])),
        // bytes left over, and a body that runs past the end
        10 => {
            let left = 1 + seed.below(2);
            bytes.extend(body(seed, left));
        }
        11 => {
            let mut last = field(rising(seed, NAMES), &body(seed, 9));
            last.truncate(3 + seed.below(9));
            bytes.extend(last);
        }
        // at both sides of the limit
        12 | 13 => {
            let length = (LIMIT + seed.below(2)).saturating_sub(bytes.len() + 3);
            bytes.extend(field(rising(seed, NAMES), &body(seed, length)));
        }
        14 => {
            let length = LIMIT + 1 + seed.below(9);
            bytes.resize(length, 0x81);
        }
        _ => bytes.extend(field(rising(seed, NAMES), &body(seed, 5))),
    }
    match seed.below(12) {
        0 => bytes[0] = seed.next() as u8,
        1 => bytes[2] = seed.next() as u8,
        2 => bytes[3] = seed.next() as u8,
        3 => {
            let place = seed.below(bytes.len());
            bytes[place] = seed.next() as u8;
        }
        4 => bytes.truncate(seed.below(bytes.len())),
        _ => {}
    }
    bytes
}
