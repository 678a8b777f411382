//! The bench's own methods, written by hand in plain Rust: what the proved code is measured against. Same words, same walk over the blocks, same counts of ones,
//! same counts of differences, same order of tests.

#[derive(Clone, Copy)]
pub struct Head {
    pub n: usize,
    pub flag: usize,
    pub p: usize,
    pub m: usize,
}

#[derive(Clone, Copy, PartialEq, Debug)]
pub struct Parameters {
    pub v: u64,
    pub b: u64,
    pub r: u64,
    pub p: u64,
    pub l1: u64,
    pub l2: u64,
}

pub type Refusal = (u8, usize);
type Table = [[u64; 50]; 50];

impl Head {
    fn objects(self) -> usize {
        self.n + self.flag % 2
    }
}

/// The card of a field of N elements, A = N * N entries: digits added modulo q.
const fn card<const N: usize, const A: usize>(q: usize) -> [u8; A] {
    let mut card = [0; A];
    let mut at = 0;
    while at < A {
        let (mut x, mut s, mut place, mut sum) = (at / N, at % N, 1, 0);
        while place < N {
            sum += (x % q + s % q) % q * place;
            (x, s, place) = (x / q, s / q, place * q);
        }
        card[at] = sum as u8;
        at += 1;
    }
    card
}

const CARD_8: [u8; 64] = card::<8, 64>(2);
const CARD_9: [u8; 81] = card::<9, 81>(3);
const CARD_16: [u8; 256] = card::<16, 256>(2);
const CARD_25: [u8; 625] = card::<25, 625>(5);
const CARD_27: [u8; 729] = card::<27, 729>(3);
const CARD_32: [u8; 1024] = card::<32, 1024>(2);
const CARD_49: [u8; 2401] = card::<49, 2401>(7);

fn plus(h: Head, x: usize, shift: usize) -> usize {
    if h.flag < 2 {
        return (x + shift) % h.n;
    }
    let at = x * h.n + shift;
    match h.n {
        8 => CARD_8[at].into(),
        9 => CARD_9[at].into(),
        16 => CARD_16[at].into(),
        25 => CARD_25[at].into(),
        27 => CARD_27[at].into(),
        32 => CARD_32[at].into(),
        _ => CARD_49[at].into(),
    }
}

fn sized(h: Head) -> bool {
    3 <= h.n && h.n <= 50 && h.flag <= 3 && (h.flag < 2 || [8, 9, 16, 25, 27, 32, 49].contains(&h.n)) && h.objects() <= 50
        && 1 <= h.p && 2 * h.p <= h.objects() && 1 <= h.m && h.m <= 64 && h.m * h.n <= 1300
}

/// The first byte of a block list that is out of range or was already in its block.
fn offender(h: Head, blocks: &[u8]) -> usize {
    for i in 0..blocks.len() {
        let x = blocks[i];
        let fits = if x == 255 { h.flag % 2 == 1 } else { (x as usize) < h.n };
        let start = i - i % (2 * h.p);
        if !fits || blocks[start..i].contains(&x) {
            return i;
        }
    }
    blocks.len()
}

/// Why a block list is refused.
fn clean(h: Head, blocks: &[u8]) -> Result<(), Refusal> {
    if !sized(h) {
        return Err((4, 0));
    }
    if blocks.len() != 2 * h.p * h.m {
        return Err((3, 0));
    }
    let at = offender(h, blocks);
    if at < blocks.len() {
        return Err((5, at));
    }
    Ok(())
}

/// The object that a byte names at a shift.
fn object(h: Head, shift: usize, byte: u8) -> usize {
    if byte == 255 {
        h.n
    } else {
        plus(h, byte.into(), shift)
    }
}

fn side_word(h: Head, shift: usize, side: &[u8]) -> u64 {
    let mut word = 0;
    for &byte in side {
        word += 1 << object(h, shift, byte);
    }
    word
}

/// The words of a clean list: left word, right word, next shift.
fn write_words(h: Head, blocks: &[u8], words: &mut [u64]) {
    for j in 0..h.m {
        let block = &blocks[2 * h.p * j..2 * h.p * (j + 1)];
        for s in 0..h.n {
            words[2 * (j * h.n + s)] = side_word(h, s, &block[..h.p]);
            words[2 * (j * h.n + s) + 1] = side_word(h, s, &block[h.p..]);
        }
    }
}

/// Develops the initial blocks.
pub fn develop(h: Head, blocks: &[u8], words: &mut [u64]) -> Result<(), Refusal> {
    clean(h, blocks)?;
    if words.len() < 2 * h.m * h.n {
        return Err((10, 0));
    }
    write_words(h, blocks, words);
    Ok(())
}

fn together(word: u64, i: usize, j: usize) -> u64 {
    let pair = 1u64 << i | 1u64 << j;
    ((word & pair).count_ones() == pair.count_ones()) as u64
}

fn holds(word: u64, i: usize) -> u64 {
    (word & 1 << i).count_ones() as u64
}

/// The objects of a word, lowest first.
fn objects(mut word: u64) -> impl Iterator<Item = usize> {
    std::iter::from_fn(move || {
        (word != 0).then(|| {
            let i = word.trailing_zeros() as usize;
            word &= word - 1;
            i
        })
    })
}

/// Adds a block to the rows of the objects of one side: their company on it, and their opposition to the other side.
fn add_side(own: u64, other: u64, company: &mut Table, opposition: &mut Table) {
    for i in objects(own) {
        let (together_row, against_row) = (&mut company[i], &mut opposition[i]);
        objects(own).for_each(|j| together_row[j] += together(own, i, j));
        objects(other).for_each(|j| against_row[j] += holds(own, i) * holds(other, j));
    }
}

fn even(company: &Table, opposition: &Table, v: usize) -> bool {
    for i in 0..v {
        for j in 0..i {
            if company[i][j] != company[1][0] || opposition[i][j] != opposition[1][0] {
                return false;
            }
        }
    }
    true
}

/// The parameters where every two objects meet so often.
fn parameters(h: Head, l1: u64, l2: u64) -> Parameters {
    let v = h.objects() as u64;
    Parameters { v, b: (h.m * h.n) as u64, r: (l2 - l1) * (v - 1), p: h.p as u64, l1, l2 }
}

/// The parameters of developed words that are balanced.
fn judge_words(h: Head, words: &[u64]) -> Result<Parameters, Refusal> {
    let (v, b) = (h.objects(), h.m * h.n);
    let (mut company, mut opposition): (Table, Table) = ([[0; 50]; 50], [[0; 50]; 50]);
    for block in words[..2 * b].chunks_exact(2) {
        add_side(block[0], block[1], &mut company, &mut opposition);
        add_side(block[1], block[0], &mut company, &mut opposition);
    }
    if !even(&company, &opposition, v) {
        return Err((6, 0));
    }
    Ok(parameters(h, company[1][0], opposition[1][0]))
}

pub fn judge(h: Head, blocks: &[u8]) -> Result<Parameters, Refusal> {
    let mut words = [0; 2600];
    develop(h, blocks, &mut words)?;
    judge_words(h, &words)
}

/// The shift that takes an element to 0.
fn back(h: Head, x: usize) -> usize {
    if h.flag < 2 {
        return (h.n - x) % h.n;
    }
    (0..h.n).find(|&shift| plus(h, x, shift) == 0).unwrap_or(h.n)
}

/// The parameters of a balanced design, by the differences of its initial blocks: how often each object meets 0 and opposes it.
pub fn judge_by_differences(h: Head, blocks: &[u8]) -> Result<Parameters, Refusal> {
    clean(h, blocks)?;
    let (mut within, mut across) = ([0; 50], [0; 50]);
    for block in blocks.chunks_exact(2 * h.p) {
        let (left, right) = block.split_at(h.p);
        for (own, other) in [(left, right), (right, left)] {
            for &y in own.iter().filter(|&&y| y != 255) {
                let shift = back(h, y.into());
                own.iter().for_each(|&x| within[object(h, shift, x)] += 1);
                other.iter().for_each(|&x| across[object(h, shift, x)] += 1);
            }
        }
    }
    let v = h.objects();
    if within[1..v].iter().any(|&l| l != within[1]) || across[1..v].iter().any(|&l| l != across[1]) {
        return Err((6, 0));
    }
    Ok(parameters(h, within[1], across[1]))
}

/// A job worked out, beside what is laid into the lent rooms.
#[derive(Clone, Copy, PartialEq, Debug)]
pub struct Solved {
    pub parameters: Parameters,
    pub denominator: u64,
    pub q: u128,
    pub vbeta: u64,
    pub freedom: u64,
    pub hundredths: u64,
    pub spread: Option<f64>,
}

/// What stands in a file: its head, where its blocks and its readings start, its restraint.
struct Held {
    head: Head,
    third: usize,
    set: u64,
    sum: i64,
}

fn field(bytes: &[u8], at: usize, tag: u8, length: usize) -> Result<(), Refusal> {
    if bytes.len() < at + 3 {
        return Err((1, at));
    }
    if bytes[at] != tag {
        return Err((2, at));
    }
    if u16::from_be_bytes([bytes[at + 1], bytes[at + 2]]) as usize != length {
        return Err((3, at));
    }
    if bytes.len() < at + 3 + length {
        return Err((1, at));
    }
    Ok(())
}

/// The four fields of a file in their order.
fn fields(bytes: &[u8]) -> Result<Held, Refusal> {
    field(bytes, 0, 1, 4)?;
    let head = Head { n: bytes[3] as usize, flag: bytes[4] as usize, p: bytes[5] as usize, m: bytes[6] as usize };
    if !sized(head) {
        return Err((4, 0));
    }
    let third = 10 + 2 * head.p * head.m;
    let fourth = third + 19;
    let end = fourth + 3 + 4 * head.m * head.n;
    field(bytes, 7, 2, third - 10)?;
    field(bytes, third, 3, 16)?;
    field(bytes, fourth, 4, 4 * head.m * head.n)?;
    if end != bytes.len() {
        return Err((9, end));
    }
    let set = u64::from_be_bytes(bytes[third + 3..third + 11].try_into().unwrap());
    let sum = i64::from_be_bytes(bytes[third + 11..third + 19].try_into().unwrap());
    Ok(Held { head, third, set, sum })
}

/// The totals over the objects of a set, added.
fn over(totals: &[i64], set: u64) -> i64 {
    objects(set).map(|i| totals[i]).sum()
}

/// The largest whole number whose square is at most x, by halving.
fn root(x: u128) -> u64 {
    let (mut low, mut high) = (0, u64::MAX);
    while low < high {
        let middle = high - (high - low) / 2;
        if u128::from(middle) * u128::from(middle) <= x {
            low = middle;
        } else {
            high = middle - 1;
        }
    }
    low
}

/// Works a job file out into lent rooms: its design is judged by pair tables, or by differences.
pub fn solve<const TABLES: bool>(bytes: &[u8], words: &mut [u64], values: &mut [i64], deviations: &mut [i64]) -> Result<Solved, Refusal> {
    let Held { head, third, set, sum } = fields(bytes)?;
    let (v, b) = (head.objects(), head.m * head.n);
    let mut readings = [0i32; 1300];
    for (k, y) in bytes[third + 22..].chunks_exact(4).enumerate() {
        readings[k] = i32::from_be_bytes([y[0], y[1], y[2], y[3]]);
    }
    let readings = &readings[..b];
    let blocks = &bytes[10..third];
    let mut developed = [0; 2600];
    let judged = if TABLES {
        develop(head, blocks, &mut developed).and_then(|()| judge_words(head, &developed))
    } else {
        judge_by_differences(head, blocks)
    };
    let parameters = judged.map_err(|(k, at)| (k, if k == 5 { 10 + at } else { at }))?;
    if set == 0 || set >> v != 0 || sum.unsigned_abs() > 1_000_000_000_000 {
        return Err((7, third));
    }
    if set.count_ones() == 1 {
        return Err((11, third));
    }
    if let Some(k) = readings.iter().position(|y| y.unsigned_abs() > 200_000_000) {
        return Err((8, third + 22 + 4 * k));
    }
    if words.len() < 2 * b || values.len() < v || deviations.len() < b {
        return Err((10, 0));
    }
    if TABLES {
        words[..2 * b].copy_from_slice(&developed[..2 * b]);
    } else {
        write_words(head, blocks, words);
    }
    let mut totals = [0i64; 50];
    for k in 0..b {
        let y = readings[k] as i64;
        objects(words[2 * k]).for_each(|i| totals[i] += y);
        objects(words[2 * k + 1]).for_each(|i| totals[i] -= y);
    }
    let totals = &totals[..v];
    let vbeta = v as u64 * (parameters.l2 - parameters.l1);
    let members = set.count_ones() as u64;
    let over_set = over(totals, set);
    for i in 0..v {
        values[i] = members as i64 * totals[i] - over_set + vbeta as i64 * sum;
    }
    for k in 0..b {
        let fitted = over(totals, words[2 * k]) - over(totals, words[2 * k + 1]);
        deviations[k] = vbeta as i64 * readings[k] as i64 - fitted;
    }
    let square = |x: i64| u128::from(x.unsigned_abs()) * u128::from(x.unsigned_abs());
    let squared_readings: u128 = readings.iter().map(|&y| square(y.into())).sum();
    let squared_totals: u128 = totals.iter().map(|&t| square(t)).sum();
    let q = u128::from(vbeta) * squared_readings - squared_totals;
    let freedom = (b + 1 - v) as u64;
    let hundredths = if freedom == 0 { 0 } else { root(10_000 * q / u128::from(vbeta * freedom)) };
    let spread = if freedom == 0 { None } else { Some(hundredths as f64 / 100.0) };
    Ok(Solved { parameters, denominator: members * vbeta, q, vbeta, freedom, hundredths, spread })
}
