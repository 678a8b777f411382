//! Practice readings from true values: the generator in numbers far wider than its own, the sums over sets of objects; and such asks, right and wrong.

use crate::design::Block;
use crate::job::{self, Draft};
use crate::seed::Seed;
use crate::solve::solve;
use std::fmt;

/// The farthest true value and the largest width.
const TRUTH_LIMIT: i64 = 3_000;
const WIDTH_LIMIT: usize = 8;

/// The farthest reading that they can make: 50 objects, each at its farthest, and half of 256.
const FARTHEST: i128 = 50 * TRUTH_LIMIT as i128 + 128;

/// True values, the start number, the width of the noise.
#[derive(Clone, PartialEq, Eq, Debug, Default)]
pub struct Practice {
    pub truths: Vec<i32>,
    pub start: u32,
    pub width: usize,
}

impl Practice {
    pub fn in_range(&self) -> bool {
        self.width <= WIDTH_LIMIT && self.truths.iter().all(|truth| i64::from(*truth).abs() <= TRUTH_LIMIT)
    }

    /// The number of each block: stepped once before it is used.
    pub fn numbers(&self) -> impl Iterator<Item = i128> {
        std::iter::successors(Some(i128::from(self.start)), |x| Some((1_664_525 * x + 1_013_904_223) % (1 << 32))).skip(1)
    }

    /// The top bits of a number, which are the whole part of 2^width times its share of 2^32, less half of their range.
    pub fn noise(&self, number: i128) -> i128 {
        let range = (0..self.width).fold(1i128, |range, _| 2 * range);
        number * range / (1 << 32) - range / 2
    }

    /// A reading for each block.
    pub fn readings(&self, blocks: &[Block]) -> Vec<i128> {
        let sum = |side: &std::collections::BTreeSet<usize>| side.iter().map(|object| i128::from(self.truths[*object])).sum::<i128>();
        let readings: Vec<i128> = blocks.iter().zip(self.numbers()).map(|(block, number)| sum(&block.left) - sum(&block.right) + self.noise(number)).collect();
        assert!(readings.iter().all(|reading| reading.abs() <= FARTHEST), "a practice reading is too far out");
        readings
    }

    /// The file of the practice job over a design: its accepted sum is the true one. Without noise its values are the true ones, and nothing deviates.
    pub fn file(&self, design: Draft, blocks: &[Block]) -> Vec<u8> {
        let sum: i128 = job::members(design.restraint).iter().map(|object| i128::from(self.truths[*object])).sum();
        let readings = self.readings(blocks).iter().map(|reading| *reading as i32).collect();
        let file = Draft { sum: sum as i64, readings, ..design }.file();
        let job = job::read(&file).unwrap_or_else(|refusal| panic!("a practice job is refused: {refusal:?}"));
        if self.width == 0 {
            let results = solve(&job);
            let exact: Vec<i128> = self.truths.iter().map(|truth| i128::from(*truth) * results.denominator).collect();
            assert_eq!((results.numerators, results.q, results.spread.unwrap_or(0)), (exact, 0, 0), "values without noise");
            assert!(results.deviations.iter().all(|deviation| *deviation == 0), "a deviation without noise");
        }
        file
    }
}

impl fmt::Display for Practice {
    fn fmt(&self, f: &mut fmt::Formatter) -> fmt::Result {
        write!(f, "practice from {:?}, start {}, width {}", self.truths, self.start, self.width)
    }
}

/// What is asked for v objects: mostly within the ranges, at both ends of them, and past them in one place or two.
pub fn seeded(v: usize, seed: &mut Seed) -> Practice {
    let length = match seed.below(12) {
        0 => v.min(50) + 1,
        1 => v.min(50).saturating_sub(1),
        2 => 0,
        _ => v.min(60),
    };
    let kind = seed.below(4);
    let truth = |seed: &mut Seed| match kind {
        0 => seed.pick(&[-3_000, 3_000]),
        1 => seed.between(-9, 9),
        _ => seed.between(-3_000, 3_000),
    };
    let mut truths: Vec<i32> = (0..length).map(|_| truth(seed) as i32).collect();
    if length > 0 && seed.once_in(4) {
        let object = if seed.once_in(2) { length - 1 } else { seed.below(length) };
        truths[object] = seed.pick(&[3_001, -3_001, 3_000, -3_000, i32::MIN, i32::MAX, 1 << 16, -(1 << 16)]);
    }
    let width = match seed.below(8) {
        0 => seed.pick(&[9, 10, 16, 31, 32, 33, 64, 256, 257, 1 << 32, 1 << 63, usize::MAX]),
        1 | 2 => 0,
        3 => 8,
        _ => seed.below(9),
    };
    let start = match seed.below(4) {
        0 => seed.pick(&[0, 1, u32::MAX, 1 << 31]),
        _ => seed.next() as u32,
    };
    Practice { truths, start, width }
}
