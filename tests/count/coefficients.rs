//! With what coefficients the readings enter the values, and how far each value varies with them.
//!
//! The coefficients are not taken from a formula: for every block the values are solved of a reading of 1 there and 0 everywhere else, with an accepted sum
//! of 0. What comes out are the block's coefficients. The factors are their squares, added over the blocks; the paper's closed form (000, section 3) is
//! asserted at the end.

use crate::job::Job;
use crate::solve::{least_squares_of, totals_of, Fraction};

/// The numerators of the coefficients, all over the denominator of the values: for each object one for each block.
pub struct Coefficients {
    denominator: i128,
    numerators: Vec<Vec<i128>>,
}

impl Coefficients {
    pub fn of(job: &Job) -> Coefficients {
        let v = job.head.objects();
        let denominator = job.restraint.len() as i128 * v as i128 * job.balance.beta();
        let ones: Vec<(Vec<i128>, i128)> = job.blocks.chunks(1).map(|block| (totals_of(v, block, &[1]), 0)).collect();
        let columns = least_squares_of(job, &ones);
        let numerators = (0..v).map(|object| columns.iter().map(|values| values[object].numerator_over(denominator)).collect()).collect();
        let coefficients = Coefficients { denominator, numerators };
        coefficients.agree_with_closed_form(job);
        coefficients
    }

    /// The products of two objects' coefficients, added over the blocks: a numerator over the denominator of the values. Of an object and itself it is the
    /// numerator of its variance factor.
    pub fn products(&self, i: usize, j: usize) -> i128 {
        let sum: i128 = self.numerators[i].iter().zip(&self.numerators[j]).map(|(a, b)| a * b).sum();
        Fraction::new(sum, self.denominator * self.denominator).numerator_over(self.denominator)
    }

    pub fn factor(&self, object: usize) -> i128 {
        self.products(object, object)
    }

    /// The numerator of an object's value under any readings and accepted sum: each reading times its coefficient, and the sum over t.
    pub fn numerator(&self, object: usize, readings: &[i128], sum: Fraction) -> i128 {
        let weighed: i128 = self.numerators[object].iter().zip(readings).map(|(coefficient, reading)| coefficient * reading).sum();
        weighed + sum.numerator_over(self.denominator)
    }

    /// Over t v beta: t - 1 for a member of the restraint, t + 1 for any other object; for two different ones 1 less how many of the two are members.
    fn agree_with_closed_form(&self, job: &Job) {
        let t = job.restraint.len() as i128;
        let member = |object: usize| i128::from(job.restraint.contains(&object));
        for i in 0..self.numerators.len() {
            assert_eq!(self.factor(i), if member(i) == 1 { t - 1 } else { t + 1 }, "the variance factor of object {i}");
            for j in 0..i {
                assert_eq!(self.products(i, j), 1 - member(i) - member(j), "the products of objects {i} and {j}");
            }
        }
    }
}
