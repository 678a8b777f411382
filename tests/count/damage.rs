//! Seeded jobs, whole ones and damaged ones. The same seed and index always give the same bytes.

use crate::balanced::{around_a_word, design, largest_q, Design};
use crate::job::{Draft, INFINITY, READING_LIMIT, SUM_LIMIT};
use crate::seed::Seed;

/// The widest reading and the widest accepted sum as a file has them.
const LIMIT: i32 = READING_LIMIT as i32;
const SUM: i64 = SUM_LIMIT as i64;

/// A job to be tried, with a few words on what it is.
pub struct Trial {
    pub about: String,
    pub bytes: Vec<u8>,
}

/// Harm to the parts of a job, which is then written with the lengths of what it has, and harm to the written bytes.
const TO_PARTS: [(&str, fn(&mut Draft, &mut Seed)); 14] = [
    ("object out of range", object_out_of_range),
    ("infinity", infinity),
    ("object twice", object_twice),
    ("two bad objects", two_bad_objects),
    ("object replaced", object_replaced),
    ("objects exchanged", objects_exchanged),
    ("initial block dropped", initial_block_dropped),
    ("restraint", restraint),
    ("one standard", one_standard),
    ("sum", sum),
    ("reading", reading),
    ("several readings", several_readings),
    ("size", size),
    ("readings too few or many", readings_too_few_or_many),
];
const TO_BYTES: [(&str, fn(&mut Vec<u8>, &[usize; 5], &mut Seed)); 12] = [
    ("cut", cut),
    ("cut at a border", cut_at_a_border),
    ("one byte changed", one_byte_changed),
    ("two bytes changed", two_bytes_changed),
    ("tag", tag),
    ("length", length),
    ("length of a cut field", length_of_a_cut_field),
    ("bytes added", bytes_added),
    ("more than is read", more_than_is_read),
    ("fields in another order", fields_in_another_order),
    ("seven bytes", seven_bytes),
    ("noise", noise),
];

/// Two of three seeded jobs are damaged, the kinds of damage in turn; half of these twice or three times, so that the order shows.
pub fn seeded(seed: u64, index: u64) -> Trial {
    let Parts { mut about, draft, chosen, mut source } = parts(seed, index);
    let mut bytes = draft.file();
    let borders = borders(&draft);
    for (name, harm) in chosen.iter().filter_map(|kind| kind.checked_sub(TO_PARTS.len())).map(|kind| &TO_BYTES[kind]) {
        about = format!("{about}, {name}");
        if bytes.len() == borders[4] {
            harm(&mut bytes, &borders, &mut source);
        }
    }
    Trial { about, bytes }
}

/// The parts of a seeded job, with the damage that is done to parts; the rest of what was chosen is done to its bytes.
pub struct Parts {
    pub about: String,
    pub draft: Draft,
    chosen: Vec<usize>,
    source: Seed,
}

pub fn parts(seed: u64, index: u64) -> Parts {
    let mut source = Seed::new(seed, index);
    let (design, mut draft) = whole(&mut source);
    let mut about = format!("{} n {} flag {} p {} m {}", design.kind, draft.n, draft.flag, draft.p, draft.m);
    if index % 3 == 0 {
        return Parts { about, draft, chosen: Vec::new(), source };
    }
    let kinds = TO_PARTS.len() + TO_BYTES.len();
    let mut chosen = vec![(index - index / 3) as usize % kinds];
    if source.once_in(2) {
        chosen.push(source.below(kinds));
        if source.once_in(3) {
            chosen.push(source.below(kinds));
        }
    }
    for (name, harm) in chosen.iter().filter_map(|kind| TO_PARTS.get(*kind)) {
        about = format!("{about}, {name}");
        harm(&mut draft, &mut source);
    }
    Parts { about, draft, chosen, source }
}

/// Where the four fields begin, and where the last ends.
fn borders(draft: &Draft) -> [usize; 5] {
    let restraint = 7 + 3 + draft.objects.len();
    [0, 7, restraint, restraint + 19, restraint + 19 + 3 + 4 * draft.readings.len()]
}

/// A whole job over some design, which may yet be unbalanced; now and then one with the largest Q, or with a Q around 2 to the power 64.
fn whole(seed: &mut Seed) -> (Design, Draft) {
    let (design, readings) = match seed.below(60) {
        0 => largest_q(),
        1 | 2 => around_a_word()[seed.below(2)].clone(),
        _ => {
            let design = design(seed);
            let readings = readings(&design, seed);
            (design, readings)
        }
    };
    let v = u32::from(design.v());
    let every = u64::MAX >> (64 - v);
    let restraint = match seed.below(5) {
        0 => 3,
        1 => every,
        // one standard, which is too few; mostly another beside it
        2 => 1 << seed.below(v as usize) | if seed.once_in(4) { 0 } else { 1 << seed.below(v as usize) },
        _ => seed.next() & every,
    };
    let sum = match seed.below(5) {
        0 => 0,
        1 => seed.pick(&[SUM, -SUM]),
        2 => seed.between(-SUM, SUM),
        _ => seed.between(-50, 50),
    };
    let draft = Draft {
        n: design.n,
        flag: design.flag,
        p: design.p,
        m: design.m() as u8,
        restraint: if restraint == 0 { 3 } else { restraint },
        sum,
        readings,
        objects: design.objects.clone(),
    };
    (design, draft)
}

/// Readings of several kinds: small, wide, at the limits, all 0, and such as whole true values give, so that every deviation is 0.
fn readings(design: &Design, seed: &mut Seed) -> Vec<i32> {
    let count = design.m() * usize::from(design.n);
    let drawn = |seed: &mut Seed, low: i64, high: i64| (0..count).map(|_| seed.between(low, high) as i32).collect();
    match seed.below(8) {
        0 => vec![0; count],
        1 => drawn(seed, (-LIMIT).into(), LIMIT.into()),
        2 => (0..count).map(|_| seed.pick(&[LIMIT, -LIMIT])).collect(),
        3 => vec![seed.pick(&[LIMIT, -LIMIT, 1, -1]); count],
        4 => drawn(seed, -1, 1),
        5 => exact_readings(design, seed, 0),
        6 => exact_readings(design, seed, 3),
        _ => drawn(seed, -5_000, 5_000),
    }
}

/// The left sum less the right sum of true values, and noise; the objects of a block are those of its initial block, shifted as the design says.
fn exact_readings(design: &Design, seed: &mut Seed, noise: i64) -> Vec<i32> {
    let p = usize::from(design.p);
    let truth: Vec<i64> = (0..=design.n).map(|_| seed.between(-3_000, 3_000)).collect();
    let mut readings = Vec::new();
    for block in design.objects.chunks(2 * p) {
        for shift in 0..design.n {
            let value = |object: &u8| match design.sum(*object, shift) {
                INFINITY => truth[usize::from(design.n)],
                object => truth[usize::from(object)],
            };
            let left: i64 = block[..p].iter().map(value).sum();
            let right: i64 = block[p..].iter().map(value).sum();
            readings.push((left - right + seed.between(-noise, noise)) as i32);
        }
    }
    readings
}

fn place_of_object(draft: &Draft, seed: &mut Seed) -> Option<usize> {
    (!draft.objects.is_empty()).then(|| seed.below(draft.objects.len()))
}

fn object_out_of_range(draft: &mut Draft, seed: &mut Seed) {
    if let Some(place) = place_of_object(draft, seed) {
        draft.objects[place] = match seed.below(3) {
            0 => draft.n,
            1 => 254,
            _ => seed.between(draft.n.into(), 254.max(draft.n.into())) as u8,
        };
    }
}

/// The fixed object where it does not take part, or a second time, or once too often over the design.
fn infinity(draft: &mut Draft, seed: &mut Seed) {
    for _ in 0..1 + seed.below(2) {
        if let Some(place) = place_of_object(draft, seed) {
            draft.objects[place] = INFINITY;
        }
    }
}

fn object_twice(draft: &mut Draft, seed: &mut Seed) {
    if let Some(place) = place_of_object(draft, seed) {
        let size = 2 * usize::from(draft.p.max(1));
        let first = place - place % size;
        let other = (first + seed.below(size)).min(draft.objects.len() - 1);
        draft.objects[place] = draft.objects[other];
        if seed.once_in(4) {
            draft.objects[other] = INFINITY;
            draft.objects[place] = INFINITY;
        }
    }
}

fn two_bad_objects(draft: &mut Draft, seed: &mut Seed) {
    object_twice(draft, seed);
    object_out_of_range(draft, seed);
}

/// Another residue that keeps the block clean: what is left to find is the lost balance.
fn object_replaced(draft: &mut Draft, seed: &mut Seed) {
    if let Some(place) = place_of_object(draft, seed) {
        let size = 2 * usize::from(draft.p.max(1));
        let first = place - place % size;
        let block = draft.objects[first..(first + size).min(draft.objects.len())].to_vec();
        let free: Vec<u8> = (0..draft.n).filter(|residue| !block.contains(residue)).collect();
        if !free.is_empty() {
            draft.objects[place] = seed.pick(&free);
        }
    }
}

/// One object of each side of a block: it keeps every appearance, and mostly not the balance.
fn objects_exchanged(draft: &mut Draft, seed: &mut Seed) {
    let p = usize::from(draft.p.max(1));
    if draft.objects.len() >= 2 * p {
        let first = 2 * p * seed.below(draft.objects.len() / (2 * p));
        draft.objects.swap(first + seed.below(p), first + p + seed.below(p));
    }
}

fn initial_block_dropped(draft: &mut Draft, seed: &mut Seed) {
    let (p, n) = (usize::from(draft.p.max(1)), usize::from(draft.n));
    let m = draft.objects.len() / (2 * p);
    if m > 0 && draft.readings.len() >= n {
        let dropped = seed.below(m);
        draft.objects.drain(2 * p * dropped..2 * p * (dropped + 1));
        draft.readings.truncate(draft.readings.len() - n);
        draft.m = draft.m.wrapping_sub(1);
    }
}

fn restraint(draft: &mut Draft, seed: &mut Seed) {
    let v = u32::from(draft.n) + u32::from(draft.flag % 2);
    let at = |bit: u32| 1u64.checked_shl(bit).unwrap_or(0);
    draft.restraint = match seed.below(7) {
        0 => 0,
        1 => at(v),
        2 => draft.restraint | at(v),
        3 => u64::MAX,
        4 => draft.restraint | 1 << 63,
        5 => at(v.wrapping_sub(1)),
        _ => 1 << seed.below(64),
    };
}

/// One object of the design alone; mostly with what is looked for right before it or right after it.
fn one_standard(draft: &mut Draft, seed: &mut Seed) {
    draft.restraint = 1 << seed.below(usize::from(draft.n).clamp(1, 50));
    match seed.below(3) {
        0 => draft.sum = seed.pick(&[1_000_000_000_001, -1_000_000_000_001]),
        1 => several_readings(draft, seed),
        _ => {}
    }
}

fn sum(draft: &mut Draft, seed: &mut Seed) {
    draft.sum =
        seed.pick(&[SUM, -SUM, SUM + 1, -SUM - 1, i64::MIN, i64::MAX, i64::MIN + 1, 1 << 40, -(1 << 40)]);
}

fn reading(draft: &mut Draft, seed: &mut Seed) {
    if !draft.readings.is_empty() {
        let place = match seed.below(4) {
            0 => 0,
            1 => draft.readings.len() - 1,
            _ => seed.below(draft.readings.len()),
        };
        draft.readings[place] = seed.pick(&[LIMIT, -LIMIT, LIMIT + 1, -LIMIT - 1, LIMIT + 1, -LIMIT - 1, i32::MIN, i32::MAX]);
    }
}

fn several_readings(draft: &mut Draft, seed: &mut Seed) {
    for _ in 0..3 {
        reading(draft, seed);
    }
}

/// A size broken in the head alone; the rest stays, and its lengths with it.
fn size(draft: &mut Draft, seed: &mut Seed) {
    match seed.below(9) {
        0 => draft.n = seed.pick(&[0, 1, 2, 51, 52, 128, 255]),
        1 => draft.flag = seed.pick(&[2, 3, 4, 5, 128, 255]),
        2 => (draft.n, draft.flag) = (50, 1),
        3 => draft.p = seed.pick(&[0, 26, 127, 128, 129, 255]),
        4 => draft.p = (draft.n + draft.flag % 2) / 2 + 1,
        5 => draft.m = seed.pick(&[0, 65, 128, 255]),
        6 => (draft.n, draft.flag, draft.m) = seed.pick(&[(50, 0, 27), (49, 1, 27), (21, 0, 62), (26, 0, 51), (41, 1, 32), (20, 1, 65)]),
        7 => (draft.n, draft.flag) = seed.pick(&[(4, 2), (7, 3), (10, 2), (24, 3), (26, 2), (28, 3), (48, 2), (50, 2), (8, 4), (9, 5)]),
        _ => (draft.n, draft.flag, draft.p, draft.m) = seed.pick(&[(50, 0, 25, 26), (49, 1, 25, 26), (20, 0, 10, 64), (3, 0, 1, 64), (3, 1, 2, 1)]),
    }
}

fn readings_too_few_or_many(draft: &mut Draft, seed: &mut Seed) {
    match seed.below(3) {
        0 => draft.readings.push(0),
        1 => draft.readings.truncate(draft.readings.len().saturating_sub(1)),
        _ => draft.readings.clear(),
    }
}

fn cut(bytes: &mut Vec<u8>, _: &[usize; 5], seed: &mut Seed) {
    bytes.truncate(seed.below(bytes.len()));
}

fn cut_at_a_border(bytes: &mut Vec<u8>, borders: &[usize; 5], seed: &mut Seed) {
    let near = seed.pick(borders) as i64 + seed.between(-2, 4);
    bytes.truncate(near.max(0) as usize);
}

fn one_byte_changed(bytes: &mut Vec<u8>, _: &[usize; 5], seed: &mut Seed) {
    let place = if seed.once_in(3) { seed.below(bytes.len().min(40)) } else { seed.below(bytes.len()) };
    bytes[place] = match seed.below(5) {
        0 => 0,
        1 => 255,
        2 => bytes[place].wrapping_add(1),
        3 => bytes[place] ^ (1 << seed.below(8)),
        _ => seed.next() as u8,
    };
}

fn two_bytes_changed(bytes: &mut Vec<u8>, borders: &[usize; 5], seed: &mut Seed) {
    one_byte_changed(bytes, borders, seed);
    one_byte_changed(bytes, borders, seed);
}

fn tag(bytes: &mut Vec<u8>, borders: &[usize; 5], seed: &mut Seed) {
    let place = borders[seed.below(4)];
    bytes[place] = seed.pick(&[0, 1, 2, 3, 4, 5, 16, 128, 255]);
}

fn length(bytes: &mut Vec<u8>, borders: &[usize; 5], seed: &mut Seed) {
    let place = borders[seed.below(4)] + 1;
    let written = u16::from_be_bytes([bytes[place], bytes[place + 1]]);
    let wrong = match seed.below(6) {
        0 => 0,
        1 => 65_535,
        2 => written.wrapping_add(1),
        3 => written.wrapping_sub(1),
        4 => written.swap_bytes(),
        _ => seed.next() as u16,
    };
    bytes[place..place + 2].copy_from_slice(&wrong.to_be_bytes());
}

/// A wrong length and a missing body, or a wrong tag and a start of one or two bytes.
fn length_of_a_cut_field(bytes: &mut Vec<u8>, borders: &[usize; 5], seed: &mut Seed) {
    if seed.once_in(2) {
        length(bytes, borders, seed);
    } else {
        tag(bytes, borders, seed);
    }
    bytes.truncate(borders[seed.below(4)] + 1 + seed.below(5));
}

fn bytes_added(bytes: &mut Vec<u8>, _: &[usize; 5], seed: &mut Seed) {
    for _ in 0..1 + seed.below(9) {
        bytes.push(seed.next() as u8);
    }
}

fn more_than_is_read(bytes: &mut Vec<u8>, _: &[usize; 5], seed: &mut Seed) {
    let size = bytes.len().max(seed.pick(&[8191, 8192, 8193, 9000]));
    bytes.resize(size, 0);
}

fn fields_in_another_order(bytes: &mut Vec<u8>, borders: &[usize; 5], seed: &mut Seed) {
    let fields: Vec<Vec<u8>> = borders.windows(2).map(|ends| bytes[ends[0]..ends[1]].to_vec()).collect();
    let order: &[usize] = match seed.below(6) {
        0 => &[0, 2, 1, 3],
        1 => &[0, 1, 3, 2],
        2 => &[1, 0, 2, 3],
        3 => &[0, 1, 2],
        4 => &[0, 0, 1, 2, 3],
        _ => &[0, 1, 2, 3, 3],
    };
    let start: &[u8] = if seed.once_in(4) { &[16, 0, 1, 2] } else { &[] };
    *bytes = start.iter().copied().chain(order.iter().flat_map(|field| fields[*field].clone())).collect();
}

/// The first field alone, mostly with a broken size: the size is told before the missing second field.
fn seven_bytes(bytes: &mut Vec<u8>, _: &[usize; 5], seed: &mut Seed) {
    bytes.truncate(7);
    if !seed.once_in(4) {
        bytes[3 + seed.below(4)] = seed.pick(&[0, 2, 51, 65, 129, 255]);
    }
    if seed.once_in(3) {
        bytes.push(2);
    }
}

fn noise(bytes: &mut Vec<u8>, _: &[usize; 5], seed: &mut Seed) {
    bytes.truncate(seed.below(64));
    for byte in bytes.iter_mut() {
        *byte = seed.pick(&[0, 1, 2, 3, 4, 5, 7, 255]);
    }
}
