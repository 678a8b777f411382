//! Balanced designs of many kinds and sizes, and unbalanced ones, to make jobs from.
//!
//! Each maker rests on the method of differences: its initial blocks, developed, give every difference equally often. Whether a design
//! is balanced is decided by the count all the same; the selftest demands it of those that should be.

use crate::field::{Field, SIZES};
use crate::job::{INFINITY, READING_LIMIT};
use crate::papers::{self, Printed};
use crate::seed::Seed;

/// The head and the block list of a job, nothing else.
#[derive(Clone)]
pub struct Design {
    pub kind: &'static str,
    pub n: u8,
    pub flag: u8,
    pub p: u8,
    pub objects: Vec<u8>,
}

impl Design {
    /// The elements, and the fixed object with an odd flag.
    pub fn v(&self) -> u8 {
        self.n + self.flag % 2
    }

    /// The field over which it is written, with the flags 2 and 3.
    fn field(&self) -> Option<&'static Field> {
        (self.flag >= 2).then(|| Field::of(self.n.into()).expect("a field of this size"))
    }

    /// The numbers by which its elements can be named anew.
    fn units(&self) -> Vec<u8> {
        (1..self.n).filter(|unit| self.field().is_some() || greatest_common(*unit, self.n) == 1).collect()
    }

    fn product(&self, object: u8, factor: u8) -> u8 {
        match self.field() {
            Some(field) if object != INFINITY => field.product(object.into(), factor.into()) as u8,
            _ => multiplied(self.n, object, factor),
        }
    }

    /// An object shifted by an element, as residues or in the field; the fixed object stays.
    pub fn sum(&self, object: u8, shift: u8) -> u8 {
        match self.field() {
            _ if object == INFINITY => INFINITY,
            Some(field) => field.sum(object.into(), shift.into()) as u8,
            None => (object + shift) % self.n,
        }
    }

    pub fn m(&self) -> usize {
        self.objects.len() / (2 * usize::from(self.p))
    }

    fn fits(&self) -> bool {
        self.m() <= 64 && self.m() * usize::from(self.n) <= 1300
    }
}

const PRIMES: [u8; 14] = [3, 5, 7, 11, 13, 17, 19, 23, 29, 31, 37, 41, 43, 47];

fn greatest_common(a: u8, b: u8) -> u8 {
    if b == 0 {
        a
    } else {
        greatest_common(b, a % b)
    }
}

/// One of each two opposite units.
fn half_units(n: u8) -> Vec<u8> {
    (1..=n / 2).filter(|unit| greatest_common(*unit, n) == 1).collect()
}

fn multiplied(n: u8, object: u8, factor: u8) -> u8 {
    if object == INFINITY {
        INFINITY
    } else {
        (u32::from(object) * u32::from(factor) % u32::from(n)) as u8
    }
}

/// The block list times each factor.
fn times(n: u8, objects: &[u8], factors: &[u8]) -> Vec<u8> {
    factors.iter().flat_map(|factor| objects.iter().map(move |object| multiplied(n, *object, *factor))).collect()
}

/// A number whose powers are all residues of the prime n but 0.
fn primitive(n: u8) -> u8 {
    (2..n).find(|base| (1..n - 1).all(|power| power_of(n, *base, power.into()) != 1)).expect("a primitive element")
}

fn power_of(n: u8, base: u8, power: u32) -> u8 {
    (0..power).fold(1, |product, _| multiplied(n, product, base))
}

/// Every two objects opposed, one a side. With even n the difference n/2 arises in both orders, so all others are taken twice.
pub fn all_pairs(n: u8, flag: u8, copies: usize) -> Design {
    let often = if n % 2 == 0 { 2 } else { 1 };
    let mut objects = Vec::new();
    for _ in 0..copies {
        for difference in 1..=n / 2 {
            for _ in 0..if 2 * difference == n { 1 } else { often } {
                objects.extend([0, difference]);
            }
        }
        if flag == 1 {
            for _ in 0..often {
                objects.extend([INFINITY, 0]);
            }
        }
    }
    Design { kind: "all pairs", n, flag, p: 1, objects }
}

/// Every two elements of a field opposed, one a side; where each is its own opposite, they meet in both orders, and the fixed object meets them twice.
pub fn field_pairs(n: u8, flag: u8) -> Design {
    let field = Field::of(n.into()).expect("a field of this size");
    let mut objects: Vec<u8> = field.half().iter().flat_map(|difference| [0, *difference as u8]).collect();
    if flag == 3 {
        (0..if n % 2 == 0 { 2 } else { 1 }).for_each(|_| objects.extend([INFINITY, 0]));
    }
    Design { kind: "field pairs", n, flag, p: 1, objects }
}

/// Any blocks over a prime, times one of each two opposite units (000, 2.2 a and 2.3 a). With the fixed object, c of the blocks have it,
/// c(n+1)/(2p) in all, so that it too meets the others as often as they meet.
pub fn over_prime(n: u8, flag: u8, p: u8, seed: &mut Seed) -> Option<Design> {
    let objects = bases(n, flag, p, seed)?;
    let design = Design { kind: "over a prime", n, flag, p, objects: times(n, &objects, &half_units(n)) };
    design.fits().then_some(design)
}

/// The same over a field, times one of each two opposite elements.
pub fn over_field(n: u8, flag: u8, p: u8, seed: &mut Seed) -> Option<Design> {
    let mut design = Design { kind: "over a field", n, flag, p, objects: bases(n, flag, p, seed)? };
    let factors = Field::of(n.into()).expect("a field of this size").half();
    design.objects = factors.iter().flat_map(|factor| design.objects.iter().map(|object| design.product(*object, *factor as u8))).collect();
    design.fits().then_some(design)
}

fn bases(n: u8, flag: u8, p: u8, seed: &mut Seed) -> Option<Vec<u8>> {
    let (bases, fixed) = if flag % 2 == 0 {
        (1, 0)
    } else {
        let fixed = (1..=2 * p).find(|fixed| u32::from(*fixed) * (u32::from(n) + 1) % (2 * u32::from(p)) == 0)?;
        ((u32::from(fixed) * (u32::from(n) + 1) / (2 * u32::from(p))) as usize, fixed.into())
    };
    let mut objects = Vec::new();
    for base in 0..bases {
        let mut block: Vec<u8> = (0..n).collect();
        seed.shuffle(&mut block);
        block.truncate(2 * usize::from(p));
        if base < fixed {
            block.resize(2 * usize::from(p) - 1, 0);
            let place = seed.below(2 * usize::from(p));
            block.insert(place, INFINITY);
        }
        objects.extend(block);
    }
    Some(objects)
}

/// Powers of a primitive element, even ones against odd ones, in steps of beta (000, 2.2 b and 2.3 b), where (n-1)/2 = beta p.
pub fn powers(n: u8, p: u8) -> Option<Design> {
    if p == 0 || (n - 1) / 2 % p != 0 {
        return None;
    }
    let beta = u32::from((n - 1) / 2 / p);
    let base = primitive(n);
    let side = |first: u32| (0..u32::from(p)).map(move |i| power_of(n, base, first + 2 * beta * i));
    let block: Vec<u8> = side(0).chain(side(beta)).collect();
    let factors: Vec<u8> = (0..beta).map(|power| power_of(n, base, power)).collect();
    Some(Design { kind: "powers", n, flag: 0, p, objects: times(n, &block, &factors) })
}

/// Squares and the fixed object against 0 and the rest (000, 2.5); for n = 4t + 1 twice, the fixed object once on each side (000, 2.6).
pub fn squares(n: u8) -> Design {
    let base = primitive(n);
    let half = u32::from(n - 1) / 2;
    let even: Vec<u8> = (0..half).map(|i| power_of(n, base, 2 * i)).collect();
    let odd: Vec<u8> = (0..half).map(|i| power_of(n, base, 2 * i + 1)).collect();
    let mut objects: Vec<u8> = [&[INFINITY], &even[..], &[0], &odd[..]].concat();
    if n % 4 == 1 {
        objects.extend([&[0], &even[..], &[INFINITY], &odd[..]].concat());
    }
    Design { kind: "squares", n, flag: 1, p: (n + 1) / 2, objects }
}

/// Two lists of 25 residues and the fixed object, found by search: with 26 copies they give the longest job file, 6,584 bytes.
const TWENTY_FIVE: &str = "oo 14 24 11 2 0 9 5 1 19 3 18 22 | 15 23 7 8 17 21 12 4 10 16 20 13 6; \
                           oo 16 13 17 18 2 9 4 24 11 3 12 6 | 22 23 7 19 1 20 0 10 21 5 8 15 14";

/// Eight a side over 49: of its differences one in eight is a multiple of 7, within sides and across, as among all residues.
const FORTY_NINE: &str = "0 7 1 8 2 9 3 4 | 14 15 16 10 17 5 12 19";

pub fn longest() -> Design {
    let (p, objects) = papers::objects(25, TWENTY_FIVE);
    Design { kind: "longest", n: 25, flag: 1, p, objects: objects.repeat(26) }
}

/// The job with the largest Q: the longest, its readings at both ends of their range so that every total is 0.
pub fn largest_q() -> (Design, Vec<i32>) {
    let design = longest();
    let half = design.m() * usize::from(design.n) / 2;
    let limit = READING_LIMIT as i32;
    (design, [vec![limit; half], vec![-limit; half]].concat())
}

/// Two jobs, with the last Q below 2 to the power 64 that they can have and the first above it.
pub fn around_a_word() -> [(Design, Vec<i32>); 2] {
    let last = i128::from(u64::MAX) / 108;
    [with_q(last), with_q(last + 1)]
}

/// A job whose Q is 108 times a number: three objects opposed twelve times over, one reading for all shifts of an initial block, so that every total is 0.
/// Each reading takes the largest square that is left of the number.
fn with_q(number: i128) -> (Design, Vec<i32>) {
    let design = all_pairs(3, 0, 12);
    let (mut rest, mut readings) = (number, Vec::new());
    for _ in 0..design.m() {
        let mut size = 0;
        for step in (0..28).rev().map(|power| 1i128 << power) {
            if size + step <= READING_LIMIT && (size + step) * (size + step) <= rest {
                size += step;
            }
        }
        rest -= size * size;
        readings.extend([size as i32; 3]);
    }
    assert_eq!(rest, 0, "the squares do not reach the number");
    (design, readings)
}

pub fn forty_nine() -> Design {
    let (p, objects) = papers::objects(49, FORTY_NINE);
    Design { kind: "over 49", n: 49, flag: 0, p, objects: times(49, &objects, &half_units(49)) }
}

/// The differences 1 to n/2 once each: balanced for odd n, and the slip of counting n/2 once for even n.
pub fn differences_once(n: u8) -> Design {
    Design { kind: "differences once", n, flag: 0, p: 1, objects: (1..=n / 2).flat_map(|difference| [0, difference]).collect() }
}

fn printed(seed: &mut Seed) -> Design {
    over_list(&papers::LISTS[seed.below(papers::LISTS.len())])
}

pub fn over_list(list: &Printed) -> Design {
    let (p, objects) = if list.field { papers::field_objects(list.list) } else { papers::objects(list.n, list.list) };
    Design { kind: "printed", n: list.n, flag: u8::from(list.infinity) + if list.field { 2 } else { 0 }, p, objects }
}

/// Any clean blocks at any size: hardly ever balanced.
fn any_blocks(seed: &mut Seed) -> Design {
    let over_field = seed.once_in(4);
    let n = if over_field { seed.pick(&SIZES) } else { seed.between(3, 50) as u8 };
    let fixed = if n < 50 { seed.below(2) as u8 } else { 0 };
    let flag = fixed + if over_field { 2 } else { 0 };
    let v = n + fixed;
    let p = seed.between(1, i64::from(v / 2)) as u8;
    let most = (1300 / usize::from(n)).min(64);
    let m = if seed.once_in(4) { most } else { 1 + seed.below(most) };
    let mut objects = Vec::new();
    for _ in 0..m {
        let mut block: Vec<u8> = (0..v).map(|object| if object == n { INFINITY } else { object }).collect();
        seed.shuffle(&mut block);
        objects.extend(&block[..2 * usize::from(p)]);
    }
    Design { kind: "any blocks", n, flag, p, objects }
}

/// A design of any kind, then written in another way: other order, other names, other shifts, sides exchanged, repeated.
pub fn design(seed: &mut Seed) -> Design {
    let mut design = loop {
        let made = match seed.below(15) {
            0 | 1 => Some(printed(seed)),
            2 | 3 => {
                let n = seed.between(3, 50) as u8;
                let flag = if n < 50 { seed.below(2) as u8 } else { 0 };
                Some(all_pairs(n, flag, 1))
            }
            4 | 5 => {
                let (n, flag) = (seed.pick(&PRIMES), seed.below(2) as u8);
                let p = seed.between(1, i64::from((n + flag) / 2)) as u8;
                over_prime(n, flag, p, seed)
            }
            6 => {
                let n = seed.pick(&PRIMES);
                powers(n, seed.between(1, i64::from((n - 1) / 2)) as u8)
            }
            7 => Some(squares(seed.pick(&PRIMES))),
            8 => Some(if seed.once_in(2) { forty_nine() } else { Design { objects: longest().objects[..52].to_vec(), ..longest() } }),
            9 => Some(differences_once(seed.between(3, 50) as u8)),
            10 => Some(field_pairs(seed.pick(&SIZES), 2 + seed.below(2) as u8)),
            11 | 12 => {
                let (n, fixed) = (seed.pick(&SIZES), seed.below(2) as u8);
                let p = seed.between(1, i64::from((n + fixed) / 2)) as u8;
                over_field(n, 2 + fixed, p, seed)
            }
            _ => Some(any_blocks(seed)),
        };
        match made {
            Some(design) if design.fits() => break design,
            _ => continue,
        }
    };
    if design.kind != "any blocks" && seed.once_in(3) {
        let most = (64 / design.m()).min(1300 / (design.m() * usize::from(design.n)));
        let copies = if seed.once_in(3) { most } else { 1 + seed.below(most) };
        // Copies under different names of the residues: a union of balanced designs is balanced.
        let units: Vec<u8> = (0..copies).map(|_| seed.pick(&design.units())).collect();
        design.objects = units.iter().flat_map(|unit| design.objects.iter().map(|object| design.product(*object, *unit))).collect();
    }
    if seed.once_in(2) {
        rewrite(&mut design, seed);
    }
    design
}

/// The same design up to names and order.
fn rewrite(design: &mut Design, seed: &mut Seed) {
    let n = design.n;
    let unit = seed.pick(&design.units());
    let p = usize::from(design.p);
    let mut blocks: Vec<Vec<u8>> = design.objects.chunks(2 * p).map(|block| block.to_vec()).collect();
    seed.shuffle(&mut blocks);
    for block in &mut blocks {
        let shift = seed.below(n.into()) as u8;
        for object in block.iter_mut() {
            *object = design.sum(design.product(*object, unit), shift);
        }
        let (left, right) = block.split_at_mut(p);
        seed.shuffle(left);
        seed.shuffle(right);
        if seed.once_in(2) {
            left.swap_with_slice(right);
        }
    }
    design.objects = blocks.concat();
}
