//! The job file: written from a draft, and taken apart by a cursor of its own, with the refusals in file order.

use crate::design::{balance, develop, Balance, Block};
use crate::field::Field;
use std::collections::BTreeSet;

/// How the fixed object is written in a block list.
pub const INFINITY: u8 = 255;

/// The widest reading and the widest accepted sum.
pub const READING_LIMIT: i128 = 200_000_000;
pub const SUM_LIMIT: i128 = 1_000_000_000_000;

/// Number and place, as the listing prints them; and of several jobs the index of the one that is refused, 0 everywhere else.
#[derive(Clone, Copy, PartialEq, Eq, Debug)]
pub struct Refusal {
    pub number: u8,
    pub index: usize,
    pub place: usize,
}

pub fn refused<T>(number: u8, place: usize) -> Result<T, Refusal> {
    Err(Refusal { number, index: 0, place })
}

/// What the first field says.
#[derive(Clone, Copy, PartialEq, Eq, Debug)]
pub struct Head {
    pub n: usize,
    pub flag: usize,
    pub p: usize,
    pub m: usize,
}

impl Head {
    /// Flags 0 and 2 are without the fixed object, 1 and 3 with it.
    pub fn with_fixed(&self) -> bool {
        self.flag == 1 || self.flag == 3
    }

    /// Flags 2 and 3 ask for the addition of a field.
    pub fn field(&self) -> Option<&'static Field> {
        if self.flag == 2 || self.flag == 3 {
            Field::of(self.n)
        } else {
            None
        }
    }

    pub fn objects(&self) -> usize {
        self.n + usize::from(self.with_fixed())
    }

    pub fn blocks(&self) -> usize {
        self.m * self.n
    }

    /// All sizes kept. A direct call may ask with numbers of any size: each is bounded before it is added or multiplied.
    pub fn in_size(&self) -> bool {
        (3..=50).contains(&self.n)
            && (self.flag <= 1 || self.flag <= 3 && self.field().is_some())
            && self.objects() <= 50
            && self.p >= 1
            && self.p <= self.objects() / 2
            && (1..=64).contains(&self.m)
            && self.blocks() <= 1300
    }
}

/// A job's parts as they stand in the file, right or wrong.
#[derive(Clone, PartialEq, Eq, Debug)]
pub struct Draft {
    pub n: u8,
    pub flag: u8,
    pub p: u8,
    pub m: u8,
    pub objects: Vec<u8>,
    pub restraint: u64,
    pub sum: i64,
    pub readings: Vec<i32>,
}

impl Draft {
    /// The file. Lengths are those of what is there, so a draft with a wrong head gives a file that is refused for it.
    pub fn file(&self) -> Vec<u8> {
        let mut bytes = field(1, vec![self.n, self.flag, self.p, self.m]);
        bytes.extend(field(2, self.objects.clone()));
        let mut restraint = self.restraint.to_be_bytes().to_vec();
        restraint.extend(self.sum.to_be_bytes());
        bytes.extend(field(3, restraint));
        bytes.extend(field(4, self.readings.iter().flat_map(|reading| reading.to_be_bytes()).collect()));
        bytes
    }
}

fn field(tag: u8, body: Vec<u8>) -> Vec<u8> {
    let mut bytes = vec![tag];
    bytes.extend((body.len() as u16).to_be_bytes());
    bytes.extend(body);
    bytes
}

/// A job that nothing refuses, with its design developed and counted.
pub struct Job {
    pub head: Head,
    pub blocks: Vec<Block>,
    pub balance: Balance,
    pub restraint: BTreeSet<usize>,
    pub sum: i128,
    pub readings: Vec<i128>,
}

/// What is left of the file, and where that begins.
pub struct Cursor<'a> {
    rest: &'a [u8],
    pub place: usize,
}

impl<'a> Cursor<'a> {
    /// At a place of some bytes; past their end nothing is left.
    pub fn at(bytes: &'a [u8], place: usize) -> Cursor<'a> {
        Cursor { rest: bytes.get(place..).unwrap_or(&[]), place }
    }

    /// Start, tag, length, body: in this order, every refusal at the field's start.
    pub fn field(&mut self, tag: u8, length: usize) -> Result<&'a [u8], Refusal> {
        let [found, high, low, after @ ..] = self.rest else {
            return refused(1, self.place);
        };
        if *found != tag {
            return refused(2, self.place);
        }
        if usize::from(*high) * 256 + usize::from(*low) != length {
            return refused(3, self.place);
        }
        if after.len() < length {
            return refused(1, self.place);
        }
        let (body, rest) = after.split_at(length);
        self.rest = rest;
        self.place += 3 + length;
        Ok(body)
    }
}

/// The job in these bytes, or the first refusal in file order.
pub fn read(bytes: &[u8]) -> Result<Job, Refusal> {
    read_fields(Cursor::at(bytes, 0), |_, place| if place < bytes.len() { refused(9, place) } else { Ok(()) })
}

/// The job in the four fields from a cursor on, of either edition; what must hold of the bytes after them is looked at before what stands in them.
pub fn read_fields(mut cursor: Cursor, after: impl FnOnce(&Head, usize) -> Result<(), Refusal>) -> Result<Job, Refusal> {
    let start = cursor.place;
    let sizes = cursor.field(1, 4)?;
    let head = Head { n: sizes[0].into(), flag: sizes[1].into(), p: sizes[2].into(), m: sizes[3].into() };
    if !head.in_size() {
        return refused(4, start);
    }
    let objects_place = cursor.place + 3;
    let objects = cursor.field(2, 2 * head.p * head.m)?;
    let restraint_place = cursor.place;
    let restraint = cursor.field(3, 16)?;
    let readings_place = cursor.place + 3;
    let readings = cursor.field(4, 4 * head.blocks())?;
    after(&head, cursor.place)?;

    if let Some(index) = first_unclean(&head, objects) {
        return refused(5, objects_place + index);
    }
    let blocks = develop(&head, objects);
    let Some(balance) = balance(head.objects(), &blocks) else {
        return refused(6, 0);
    };
    let (set, sum) = restraint.split_at(8);
    let set = members(set.iter().fold(0, |word, byte| word << 8 | u64::from(*byte)));
    let sum = signed(sum);
    if !is_restraint(&head, &set, sum) {
        return refused(7, restraint_place);
    }
    if is_one_standard(&set) {
        return refused(11, restraint_place);
    }
    let readings: Vec<i128> = readings.chunks(4).map(signed).collect();
    if let Some(index) = first_far(&readings) {
        return refused(8, readings_place + 4 * index);
    }
    Ok(Job { head, blocks, balance, restraint: set, sum, readings })
}

/// The objects of a restraint set, which has a bit for each.
pub fn members(set: u64) -> BTreeSet<usize> {
    (0..64).filter(|object| set >> object & 1 == 1).collect()
}

/// Whether a set has objects, all of this design, and its accepted sum is in range.
pub fn is_restraint(head: &Head, set: &BTreeSet<usize>, sum: i128) -> bool {
    !set.is_empty() && set.iter().all(|object| *object < head.objects()) && sum.abs() <= SUM_LIMIT
}

/// Whether a set has one object: nothing would show that this standard is bad.
pub fn is_one_standard(set: &BTreeSet<usize>) -> bool {
    set.len() == 1
}

/// The index of the first reading out of range.
pub fn first_far(readings: &[i128]) -> Option<usize> {
    readings.iter().position(|reading| reading.abs() > READING_LIMIT)
}

/// The index of the first byte that is no object of this design, or stood in its block before.
pub fn first_unclean(head: &Head, objects: &[u8]) -> Option<usize> {
    let mut seen = BTreeSet::new();
    for (index, object) in objects.iter().enumerate() {
        if index % (2 * head.p) == 0 {
            seen.clear();
        }
        let known = usize::from(*object) < head.n || *object == INFINITY && head.with_fixed();
        if !known || !seen.insert(*object) {
            return Some(index);
        }
    }
    None
}

/// A signed number from its bytes, the highest first.
pub fn signed(bytes: &[u8]) -> i128 {
    let whole = bytes.iter().fold(0i128, |sum, byte| sum * 256 + i128::from(*byte));
    let range = 1i128 << (8 * bytes.len());
    if whole >= range / 2 {
        whole - range
    } else {
        whole
    }
}
