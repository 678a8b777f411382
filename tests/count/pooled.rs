//! The pooled spread of several job files, each read and solved by itself, its sums in numbers of 128 bits; and pools, right and wrong, for the calls.

use crate::balanced::{self, Design};
use crate::damage;
use crate::design::{balance, develop};
use crate::job::{self, Draft, Head, Refusal, READING_LIMIT};
use crate::seed::Seed;
use crate::solve::{solve, spread, Fraction};
use crate::stored;
use std::cell::OnceCell;
use std::collections::BTreeMap;
use std::fmt;

/// Files end to end, and how long each is said to be. And a few words on what they are.
#[derive(Clone, Default)]
pub struct Pool {
    pub about: String,
    pub bytes: Vec<u8>,
    pub lengths: Vec<usize>,
    pooled: OnceCell<Result<Pooled, Refusal>>,
}

/// The sum of Q, v beta, the sum of f, and the hundredths of the spread, where there is one.
#[derive(Clone, Copy, PartialEq, Eq, Debug)]
pub struct Pooled {
    pub q: i128,
    pub scale: i128,
    pub freedom: i128,
    pub spread: Option<i128>,
}

/// What one job adds: v and beta, Q and f.
type Part = (usize, i128, i128, i128);

impl Pool {
    pub fn new(about: &str, bytes: Vec<u8>, lengths: Vec<usize>) -> Pool {
        Pool { about: about.to_string(), bytes, lengths, pooled: OnceCell::new() }
    }

    pub fn of(about: &str, files: &[Vec<u8>]) -> Pool {
        Pool::new(about, files.concat(), files.iter().map(|file| file.len()).collect())
    }

    pub fn pooled(&self) -> Result<Pooled, Refusal> {
        *self.pooled.get_or_init(|| self.worked_out())
    }

    /// The files, if the lengths are those of 1 to 64 and add to the bytes.
    fn files(&self) -> Option<Vec<&[u8]>> {
        let sum: i128 = self.lengths.iter().map(|length| *length as i128).sum();
        if !(1..=64).contains(&self.lengths.len()) || sum != self.bytes.len() as i128 {
            return None;
        }
        let mut rest = &self.bytes[..];
        let mut files = Vec::new();
        for length in &self.lengths {
            let (file, after) = rest.split_at(*length);
            files.push(file);
            rest = after;
        }
        Some(files)
    }

    fn worked_out(&self) -> Result<Pooled, Refusal> {
        let files = self.files().ok_or(Refusal { number: 18, index: 0, place: 0 })?;
        let mut known: BTreeMap<&[u8], Part> = BTreeMap::new();
        let mut parts = Vec::new();
        for (index, file) in files.into_iter().enumerate() {
            if !known.contains_key(file) {
                let job = job::read(file).map_err(|refusal| Refusal { index, ..refusal })?;
                let results = solve(&job);
                known.insert(file, (job.head.objects(), job.balance.beta(), results.q, results.freedom));
            }
            parts.push(known[file]);
        }
        let (v, beta, ..) = parts[0];
        if let Some(index) = parts.iter().position(|part| (part.0, part.1) != (v, beta)) {
            return Err(Refusal { number: 17, index, place: 0 });
        }
        let scale = v as i128 * beta;
        let (q, freedom) = parts.iter().fold((0, 0), |(q, freedom), part| (q + part.2, freedom + part.3));
        assert!(parts.iter().all(|part| part.3 > 0 || part.2 == 0), "a job with no degree of freedom has a Q");
        Ok(Pooled { q, scale, freedom, spread: (freedom > 0).then(|| spread(Fraction::new(q, scale), freedom)) })
    }
}

impl fmt::Display for Pool {
    fn fmt(&self, f: &mut fmt::Formatter) -> fmt::Result {
        write!(f, "pool {}: {} bytes, lengths {:?}", self.about, self.bytes.len(), self.lengths)
    }
}

/// Pools to ask for beside a file, whole or damaged: the file alone, the file among others, and others.
pub fn pools(file: &[u8], seed: &mut Seed) -> Vec<Pool> {
    let mut all = vec![Pool::of("one file", &[file.to_vec()])];
    let mut files = family(seed).1;
    files.truncate(8);
    files.insert(seed.below(files.len() + 1), file.to_vec());
    all.push(Pool::of("a file among others", &files));
    all.push(seeded(seed));
    all
}

/// A pool of jobs of one v and beta, whole or harmed.
pub fn seeded(seed: &mut Seed) -> Pool {
    let (about, mut files) = family(seed);
    let mut about = about.to_string();
    if seed.once_in(3) {
        seed.shuffle(&mut files);
        return Pool::of(&about, &files);
    }
    let kind = seed.below(TO_FILES.len() + TO_LENGTHS.len());
    if let Some((name, harm)) = TO_FILES.get(kind) {
        about = format!("{about}, {name}");
        harm(&mut files, seed);
    }
    let mut pool = Pool::of(&about, &files);
    let more = if seed.once_in(5) { Some(seed.below(TO_LENGTHS.len())) } else { kind.checked_sub(TO_FILES.len()) };
    if let Some((name, harm)) = more.map(|kind| TO_LENGTHS[kind]) {
        pool.about = format!("{}, {name}", pool.about);
        harm(&mut pool, seed);
    }
    pool
}

/// Files to pool, whole or harmed, one by one.
pub fn files(seed: &mut Seed) -> Vec<Vec<u8>> {
    let mut files = family(seed).1;
    if seed.once_in(2) {
        let (_, harm) = TO_FILES[seed.below(TO_FILES.len())];
        harm(&mut files, seed);
    }
    seed.shuffle(&mut files);
    files
}

/// Jobs of one v and beta, and their kind.
fn family(seed: &mut Seed) -> (&'static str, Vec<Vec<u8>>) {
    let [below, above] = balanced::around_a_word();
    match seed.below(12) {
        0 => {
            let often = 1 + seed.below(5);
            let around = (0..often).map(|_| if seed.once_in(2) { &below } else { &above });
            ("around a word", around.map(|(design, readings)| draft(design, readings.clone()).file()).collect())
        }
        1 if seed.once_in(8) => {
            let (design, readings) = balanced::largest_q();
            ("the largest Q", vec![draft(&design, readings).file(); 1 + 63 * seed.below(2)])
        }
        // all objects in every block: no degree of freedom
        2 | 3 => {
            let n = seed.pick(&[3, 7, 11, 19]);
            let often = 1 + seed.below(3);
            ("no degree of freedom", (0..often).map(|_| any(&balanced::squares(n), seed)).collect())
        }
        4 => {
            let n = seed.pick(&[3, 7, 11]);
            let [still, free] = [balanced::squares(n), balanced::all_pairs(n, 1, 1)];
            let count = 1 + seed.below(6);
            ("some with no degree of freedom", (0..count).map(|_| if seed.once_in(2) { any(&still, seed) } else { any(&free, seed) }).collect())
        }
        5 | 6 => {
            let (design, count) = (balanced::all_pairs(3, 0, 1), seed.pick(&[63, 64, 64, 65]));
            ("many", (0..count).map(|_| any(&design, seed)).collect())
        }
        _ => {
            let designs = alike(seed);
            let count = 1 + seed.below(5);
            let files = (0..count).map(|_| any(&designs[seed.below(designs.len())], seed)).collect();
            (if designs[0].p == designs[1].p { "alike" } else { "of several p" }, files)
        }
    }
}

/// Two designs of one v and beta, mostly with another number of objects a side: each repeated as often as the other's beta asks.
fn alike(seed: &mut Seed) -> [Design; 2] {
    loop {
        let n = seed.pick(&[5, 7, 11, 13]);
        let flag = seed.below(2) as u8;
        let any = |seed: &mut Seed| balanced::over_prime(n, flag, 1 + seed.below(usize::from((n + flag) / 2)) as u8, seed);
        let (Some(one), Some(other)) = (any(seed), any(seed)) else { continue };
        let betas = [&one, &other].map(|design| beta(design));
        let [one, other] = [(one, betas[1]), (other, betas[0])].map(|(design, often)| Design { objects: design.objects.repeat(often), ..design });
        if [&one, &other].iter().all(|design| design.m() <= 64 && design.m() * usize::from(n) <= 400) {
            return [one, other];
        }
    }
}

fn beta(design: &Design) -> usize {
    let head = Head { n: design.n.into(), flag: design.flag.into(), p: design.p.into(), m: design.m() };
    balance(head.objects(), &develop(&head, &design.objects)).expect("a balanced design").beta() as usize
}

fn draft(design: &Design, readings: Vec<i32>) -> Draft {
    Draft { n: design.n, flag: design.flag, p: design.p, m: design.m() as u8, objects: design.objects.clone(), restraint: 3, sum: 5, readings }
}

/// The file of a design with readings of some size.
fn any(design: &Design, seed: &mut Seed) -> Vec<u8> {
    let far = seed.pick(&[0, 1, 9, 5_000, READING_LIMIT as i64]);
    let readings = (0..design.m() * usize::from(design.n)).map(|_| seed.between(-far, far) as i32).collect();
    draft(design, readings).file()
}

const TO_FILES: [(&str, fn(&mut Vec<Vec<u8>>, &mut Seed)); 7] = [
    ("a damaged one", damaged),
    ("two damaged ones", |files, seed| (0..2).for_each(|_| damaged(files, seed))),
    ("one of another v", |files, seed| insert(files, stored::A.to_vec(), seed)),
    ("one of another beta", another_beta),
    ("one of another v with no degree of freedom", |files, seed| {
        let file = any(&balanced::squares(23), seed);
        insert(files, file, seed);
    }),
    ("one of another v and a damaged one", |files, seed| {
        insert(files, stored::A.to_vec(), seed);
        damaged(files, seed);
    }),
    ("one standard", |files, seed| {
        // the last byte of the set, before the sum and the readings' field; 3 stood there
        let place = seed.below(files.len());
        let last = files[place].len() - 4 * readings_of(&files[place]) - 3 - 8 - 1;
        files[place][last] = 1;
    }),
];

/// How many readings a whole file has.
fn readings_of(file: &[u8]) -> usize {
    usize::from(file[3]) * usize::from(file[6])
}

fn insert(files: &mut Vec<Vec<u8>>, file: Vec<u8>, seed: &mut Seed) {
    files.insert(seed.below(files.len() + 1), file);
}

/// A file of any design, mostly damaged and of another v, or one of these cut.
fn damaged(files: &mut Vec<Vec<u8>>, seed: &mut Seed) {
    let place = seed.below(files.len());
    match seed.below(4) {
        0 => files[place] = vec![],
        1 => {
            let length = seed.below(files[place].len() + 1);
            files[place].truncate(length);
        }
        2 => files[place].push(0),
        _ => files[place] = damage::seeded(seed.next(), 1 + seed.next() % 100).bytes,
    }
}

/// The initial blocks and the readings of one job twice.
fn another_beta(files: &mut Vec<Vec<u8>>, seed: &mut Seed) {
    let file = files[seed.below(files.len())].clone();
    let Some(mut twice) = crate::parts::parts_of(&file) else { return };
    (twice.m, twice.objects, twice.readings) = (2 * twice.m, twice.objects.repeat(2), twice.readings.repeat(2));
    insert(files, twice.file(), seed);
}

const TO_LENGTHS: [(&str, fn(&mut Pool, &mut Seed)); 9] = [
    ("no lengths", |pool, _| pool.lengths.clear()),
    ("nothing at all", |pool, _| (pool.bytes, pool.lengths) = (vec![], vec![])),
    ("a length off by one", |pool, seed| *one(pool, seed) ^= 1),
    ("a length of any size", |pool, seed| *one(pool, seed) = seed.pick(&[0, 1, 1 << 32, 1 << 63, usize::MAX])),
    ("lengths that add up only where they wrap", |pool, seed| {
        let first = seed.below(pool.lengths.len());
        pool.lengths[first] = pool.lengths[first].wrapping_add(1 << 63);
        pool.lengths.push(1 << 63);
    }),
    ("a length below 0 where it wraps", |pool, seed| {
        let by = 1 + seed.below(9);
        let length = one(pool, seed);
        *length = length.wrapping_add(by);
        pool.lengths.push(0usize.wrapping_sub(by));
    }),
    ("a byte moved to the next job", |pool, seed| {
        let place = seed.below(pool.lengths.len());
        pool.lengths[place] -= 1.min(pool.lengths[place]);
        let sum: usize = pool.lengths.iter().sum();
        *pool.lengths.last_mut().expect("lengths") += pool.bytes.len() - sum;
    }),
    ("a length of 0 more", |pool, seed| {
        let place = seed.below(pool.lengths.len() + 1);
        pool.lengths.insert(place, 0);
    }),
    ("a byte more than is told", |pool, _| pool.bytes.push(1)),
];

fn one<'a>(pool: &'a mut Pool, seed: &mut Seed) -> &'a mut usize {
    let place = seed.below(pool.lengths.len());
    &mut pool.lengths[place]
}
