//! Another laboratory's sheet: what is claimed of a job, and where it first differs from the job's own figures; and sheets, right and wrong, for the calls.

use crate::seed::Seed;
use crate::solve::{nearest_real, Results};
use std::fmt;

/// Claimed hundredths, one for each object; and a claimed spread with its degrees of freedom, or the claim that there is none: then these two are any.
#[derive(Clone, Debug, Default)]
pub struct Sheet {
    pub about: &'static str,
    pub claims: Vec<i64>,
    pub has_spread: u64,
    pub spread: f64,
    pub freedom: u64,
}

impl Sheet {
    /// The sheet that claims just what the count has worked out.
    pub fn right(results: &Results) -> Sheet {
        let spread = results.spread.map_or(0.0, |k| nearest_real(k, 100));
        let claims = results.hundredths.iter().map(|hundredths| *hundredths as i64).collect();
        Sheet { about: "right", claims, has_spread: results.spread.is_some().into(), spread, freedom: results.freedom as u64 }
    }

    /// The first object whose claim differs, or v where only the spread does. The claims are one for each object.
    pub fn differs(&self, results: &Results) -> Option<usize> {
        let object = self.claims.iter().zip(&results.hundredths).position(|(claimed, found)| i128::from(*claimed) != *found);
        object.or_else(|| (!self.claims_spread_of(results)).then_some(results.hundredths.len()))
    }

    /// Whether the claimed spread is the job's. Numbers are compared by their bits: those of 0 are the only number that is written in two ways, and what is no
    /// number has other bits than any.
    fn claims_spread_of(&self, results: &Results) -> bool {
        match (self.has_spread, results.spread) {
            (0, found) => found.is_none(),
            (_, Some(0)) => self.spread.to_bits() << 1 == 0 && i128::from(self.freedom) == results.freedom,
            (_, Some(k)) => self.spread.to_bits() == nearest_real(k, 100).to_bits() && i128::from(self.freedom) == results.freedom,
            (_, None) => false,
        }
    }
}

impl fmt::Display for Sheet {
    fn fmt(&self, f: &mut fmt::Formatter) -> fmt::Result {
        let Sheet { about, claims, has_spread, spread, freedom } = self;
        write!(f, "sheet {about}: {claims:?}, spread {has_spread} {spread:?} {freedom}")
    }
}

/// Sheets for a job: the right one, one object claimed a hundredth too high and one too low, and some that are wrong in another way. For a job that is refused,
/// or has no figures, sheets of a few lengths.
pub fn sheets(results: Option<&Results>, v: usize, seed: &mut Seed) -> Vec<Sheet> {
    let Some(results) = results else {
        let length = seed.pick(&[v, v + 1, v.saturating_sub(1), 0]).min(60);
        return vec![Sheet { about: "of a refused job", claims: vec![0; length], ..Sheet::default() }];
    };
    let right = Sheet::right(results);
    let mut all = vec![right.clone()];
    for (about, step) in [("a hundredth too high", 1), ("a hundredth too low", -1)] {
        let mut sheet = Sheet { about, ..right.clone() };
        let object = seed.below(v);
        sheet.claims[object] += step;
        all.push(sheet);
    }
    let mut others: Vec<usize> = (0..WRONG.len()).collect();
    seed.shuffle(&mut others);
    for (about, wrong) in others.iter().take(6).map(|kind| WRONG[*kind]) {
        let mut sheet = Sheet { about, ..right.clone() };
        wrong(&mut sheet, seed);
        all.push(sheet);
    }
    all
}

/// Every object claimed a hundredth too high, and too low.
pub fn each_object(results: &Results) -> Vec<Sheet> {
    let right = Sheet::right(results);
    let each = (0..right.claims.len()).flat_map(|object| [1, -1].map(|step| (object, step)));
    each.map(|(object, step)| {
        let mut sheet = Sheet { about: "each object in turn", ..right.clone() };
        sheet.claims[object] += step;
        sheet
    })
    .collect()
}

/// What can be wrong; with some jobs a few of these are right, as a spread of -0.0 where it is 0, or no spread where there is none.
pub const WRONG: [(&str, fn(&mut Sheet, &mut Seed)); 26] = [
    ("the first object", |sheet, seed| sheet.claims[0] += seed.pick(&[1, -1])),
    ("the last object", |sheet, seed| *last(sheet) += seed.pick(&[1, -1])),
    ("two objects", |sheet, seed| {
        let count = sheet.claims.len();
        (0..2).for_each(|_| sheet.claims[seed.below(count)] ^= 4);
    }),
    ("an object and the spread", |sheet, _| {
        *last(sheet) += 1;
        sheet.has_spread ^= 1;
    }),
    ("an object by 2 to the power 32", |sheet, seed| any(sheet, seed, 1 << 32)),
    ("an object by 2 to the power 53", |sheet, seed| any(sheet, seed, 1 << 53)),
    ("an object by 2 to the power 63", |sheet, seed| any(sheet, seed, i64::MIN)),
    ("an object's sign", |sheet, seed| {
        let object = seed.below(sheet.claims.len());
        sheet.claims[object] = -sheet.claims[object];
    }),
    ("two objects exchanged", |sheet, seed| {
        let count = sheet.claims.len();
        sheet.claims.swap(seed.below(count), seed.below(count));
    }),
    ("one claim too few", |sheet, _| sheet.claims.truncate(sheet.claims.len() - 1)),
    ("one claim too many", |sheet, _| sheet.claims.push(0)),
    ("no claims", |sheet, _| sheet.claims.clear()),
    ("one too many and the first wrong", |sheet, _| {
        sheet.claims[0] += 1;
        sheet.claims.push(0);
    }),
    ("the spread a hundredth too high", |sheet, _| sheet.spread = ((sheet.spread * 100.0).round() + 1.0) / 100.0),
    ("the spread a hundredth too low", |sheet, _| sheet.spread = ((sheet.spread * 100.0).round() - 1.0) / 100.0),
    ("the next number", |sheet, _| sheet.spread = f64::from_bits(sheet.spread.to_bits().wrapping_add(1))),
    ("the number before", |sheet, _| sheet.spread = f64::from_bits(sheet.spread.to_bits().wrapping_sub(1))),
    ("the spread below 0", |sheet, _| sheet.spread = -sheet.spread),
    ("the spread no number", |sheet, seed| sheet.spread = f64::from_bits(seed.pick(&[0x7FF8, 0x7FF0, 0xFFF0, 0xFFF8]) << 48 | seed.next() % 2)),
    ("the spread in hundredths", |sheet, _| sheet.spread *= 100.0),
    ("a degree more", |sheet, _| sheet.freedom += 1),
    ("a degree fewer", |sheet, _| sheet.freedom = sheet.freedom.wrapping_sub(1)),
    ("degrees past 32 bits", |sheet, _| sheet.freedom += 1 << 32),
    ("none, or a spread of 0", |sheet, _| sheet.has_spread ^= 1),
    ("none beside any number", |sheet, seed| (sheet.has_spread, sheet.spread, sheet.freedom) = (0, f64::NAN, seed.next())),
    ("a spread by another number than 1", |sheet, seed| sheet.has_spread *= seed.pick(&[2, 256, 1 << 32, u64::MAX])),
];

fn last(sheet: &mut Sheet) -> &mut i64 {
    sheet.claims.last_mut().expect("a job has objects")
}

fn any(sheet: &mut Sheet, seed: &mut Seed, by: i64) {
    let object = seed.below(sheet.claims.len());
    sheet.claims[object] = sheet.claims[object].wrapping_add(by);
}
