//! Values, deviations and spread, from the normal equations with the restraint, solved in exact fractions.
//!
//! Nothing here starts from the paper's closed forms. They are asserted at the end, so that they and the solved equations bear each other out.

use crate::design::Block;
use crate::job::Job;
use crate::publishing::{is_published_near, published};
use std::cmp::Ordering;

/// A fraction in lowest terms, its bottom above 0. All arithmetic is checked: the count stops rather than be wrong.
#[derive(Clone, Copy, PartialEq, Eq, Debug)]
pub struct Fraction {
    top: i128,
    bottom: i128,
}

const TOO_LARGE: &str = "a fraction of the count outgrew 128 bits";

impl Fraction {
    pub const ZERO: Fraction = Fraction { top: 0, bottom: 1 };

    pub fn new(top: i128, bottom: i128) -> Fraction {
        assert!(bottom != 0, "a fraction over 0");
        let shared = common(top.unsigned_abs(), bottom.unsigned_abs()) as i128 * bottom.signum();
        Fraction { top: top / shared, bottom: bottom / shared }
    }

    pub fn whole(number: i128) -> Fraction {
        Fraction { top: number, bottom: 1 }
    }

    /// This less factor times other, reduced once.
    fn less_product(self, factor: Fraction, other: Fraction) -> Fraction {
        if factor == Fraction::ZERO || other == Fraction::ZERO {
            return self;
        }
        let product = times(factor.top, other.top);
        let bottom = times(factor.bottom, other.bottom);
        let top = times(self.top, bottom).checked_sub(times(product, self.bottom)).expect(TOO_LARGE);
        Fraction::new(top, times(self.bottom, bottom))
    }

    fn over(self, other: Fraction) -> Fraction {
        Fraction::new(times(self.top, other.bottom), times(self.bottom, other.top))
    }

    /// So many times this fraction.
    pub fn multiplied(self, factor: i128) -> Fraction {
        Fraction::new(times(factor, self.top), self.bottom)
    }

    pub fn nearest_even(self) -> i128 {
        nearest_even(self.top, self.bottom)
    }

    pub fn is_whole(self) -> bool {
        self.bottom == 1
    }

    /// The whole number at or below this fraction, below 0 too.
    pub fn floor(self) -> i128 {
        self.top.div_euclid(self.bottom)
    }

    /// What this fraction has above that whole number: at least 0, below 1.
    pub fn part(self) -> Fraction {
        Fraction::new(self.top.rem_euclid(self.bottom), self.bottom)
    }

    /// The numerator over a given denominator, which must take this fraction whole.
    pub fn numerator_over(self, denominator: i128) -> i128 {
        assert_eq!(denominator % self.bottom, 0, "the denominator does not take the fraction");
        times(self.top, denominator / self.bottom)
    }
}

impl Ord for Fraction {
    fn cmp(&self, other: &Fraction) -> Ordering {
        times(self.top, other.bottom).cmp(&times(other.top, self.bottom))
    }
}

impl PartialOrd for Fraction {
    fn partial_cmp(&self, other: &Fraction) -> Option<Ordering> {
        Some(self.cmp(other))
    }
}

fn times(a: i128, b: i128) -> i128 {
    a.checked_mul(b).expect(TOO_LARGE)
}

/// The largest common divisor; in 64 bits where both fit, since that is most of the work.
fn common(mut a: u128, mut b: u128) -> u128 {
    while b != 0 {
        if let (Ok(mut small), Ok(mut smaller)) = (u64::try_from(a), u64::try_from(b)) {
            while smaller != 0 {
                (small, smaller) = (smaller, small % smaller);
            }
            return small.into();
        }
        (a, b) = (b, a % b);
    }
    a
}

/// All that the listing prints of an accepted job.
pub struct Results {
    pub denominator: i128,
    pub numerators: Vec<i128>,
    pub hundredths: Vec<i128>,
    pub deviation_denominator: i128,
    pub deviations: Vec<i128>,
    pub q: i128,
    pub freedom: i128,
    pub spread: Option<i128>,
}

/// The sum of the readings with each object on the left less those with it on the right.
pub fn totals(job: &Job) -> Vec<i128> {
    totals_of(job.head.objects(), &job.blocks, &job.readings)
}

/// The same over any blocks, balanced or not.
pub fn totals_of(v: usize, blocks: &[Block], readings: &[i128]) -> Vec<i128> {
    let mut totals = vec![0; v];
    for (block, reading) in blocks.iter().zip(readings) {
        block.left.iter().for_each(|object| totals[*object] += reading);
        block.right.iter().for_each(|object| totals[*object] -= reading);
    }
    totals
}

pub fn solve(job: &Job) -> Results {
    let v = job.head.objects() as i128;
    let t = job.restraint.len() as i128;
    let deviation_denominator = v * job.balance.beta();
    let denominator = t * deviation_denominator;

    let values = least_squares(job);
    let numerators: Vec<i128> = values.iter().map(|value| value.numerator_over(denominator)).collect();
    let hundredths = published(&values, &job.restraint, job.sum);

    // Each block's own deviation from the solved values: first over t·v·beta, then over v·beta, where it must be whole too.
    let mut deviations = Vec::new();
    for (block, reading) in job.blocks.iter().zip(&job.readings) {
        let left: i128 = block.left.iter().map(|object| numerators[*object]).sum();
        let right: i128 = block.right.iter().map(|object| numerators[*object]).sum();
        deviations.push(Fraction::new(denominator * reading - (left - right), denominator).numerator_over(deviation_denominator));
    }
    let squares: i128 = deviations.iter().map(|deviation| deviation * deviation).sum();
    let sum_of_squares = Fraction::new(squares, deviation_denominator * deviation_denominator);
    let q = sum_of_squares.numerator_over(deviation_denominator);
    let freedom = job.blocks.len() as i128 - v + 1;
    let spread = (freedom > 0).then(|| spread(sum_of_squares, freedom));

    let results = Results { denominator, numerators, hundredths, deviation_denominator, deviations, q, freedom, spread };
    agrees_with_closed_forms(job, &results);
    is_published_near(job, &results);
    results
}

/// The one set of values that keeps the restraint and has the least sum of squared deviations.
fn least_squares(job: &Job) -> Vec<Fraction> {
    least_squares_of(job, &[(totals(job), job.sum)]).remove(0)
}

/// The same for the job's design and restraint under any readings and accepted sums, each given by the totals of the readings and the sum: one set of values
/// for each.
///
/// The equations are those of 000, section 3: for each object the derivative of the sum of squares, with a multiplier for the restraint,
/// and the restraint itself. Their coefficients are added up from the blocks.
pub fn least_squares_of(job: &Job, given: &[(Vec<i128>, i128)]) -> Vec<Vec<Fraction>> {
    let v = job.head.objects();
    let mut coefficients = vec![vec![0i128; v]; v];
    for block in &job.blocks {
        let signed: Vec<(usize, i128)> =
            block.left.iter().map(|object| (*object, 1)).chain(block.right.iter().map(|object| (*object, -1))).collect();
        for (i, sign) in &signed {
            for (j, other) in &signed {
                coefficients[*i][*j] += sign * other;
            }
        }
    }
    let member = |object: usize| Fraction::whole(job.restraint.contains(&object).into());
    let mut equations: Vec<Vec<Fraction>> = Vec::new();
    for i in 0..v {
        let mut equation: Vec<Fraction> = coefficients[i].iter().map(|number| Fraction::whole(*number)).collect();
        equation.push(member(i));
        equation.extend(given.iter().map(|(totals, _)| Fraction::whole(totals[i])));
        equations.push(equation);
    }
    let mut restraint: Vec<Fraction> = (0..v).map(member).collect();
    restraint.push(Fraction::ZERO);
    restraint.extend(given.iter().map(|(_, sum)| Fraction::whole(*sum)));
    equations.push(restraint);

    let mut solutions = eliminated(equations);
    for values in &mut solutions {
        let multiplier = values.pop().expect("the multiplier is the last unknown");
        assert_eq!(multiplier, Fraction::ZERO, "the restraint changes the least sum of squares");
    }
    solutions
}

/// Elimination and substitution backwards. Each equation ends with its right sides, of which each has a solution.
fn eliminated(mut equations: Vec<Vec<Fraction>>) -> Vec<Vec<Fraction>> {
    let unknowns = equations.len();
    let columns = equations[0].len();
    for step in 0..unknowns {
        let pivot = (step..unknowns).find(|row| equations[*row][step] != Fraction::ZERO).expect("the equations have more than one solution");
        equations.swap(step, pivot);
        let (above, below) = equations.split_at_mut(step + 1);
        let chosen = &above[step];
        for equation in below {
            let factor = equation[step].over(chosen[step]);
            if factor == Fraction::ZERO {
                continue;
            }
            for column in step..columns {
                equation[column] = equation[column].less_product(factor, chosen[column]);
            }
        }
    }
    let solved = |right_side: usize| {
        let mut solution = vec![Fraction::ZERO; unknowns];
        for row in (0..unknowns).rev() {
            let mut right = equations[row][right_side];
            for column in row + 1..unknowns {
                right = right.less_product(equations[row][column], solution[column]);
            }
            solution[row] = right.over(equations[row][row]);
        }
        solution
    };
    (unknowns..columns).map(solved).collect()
}

/// The whole number nearest to top/bottom; of two equally near ones, the even one. The bottom is above 0.
pub fn nearest_even(top: i128, bottom: i128) -> i128 {
    let below = top.div_euclid(bottom);
    let above = below + 1;
    match (top - below * bottom).cmp(&(above * bottom - top)) {
        Ordering::Less => below,
        Ordering::Greater => above,
        Ordering::Equal if below % 2 == 0 => below,
        Ordering::Equal => above,
    }
}

/// The f64 nearest to top/bottom, found over whole numbers: 53 bits of the quotient, of two equally near ones the even one.
pub fn nearest_real(top: i128, bottom: i128) -> f64 {
    let (mut over, mut under, mut power) = (top.abs(), bottom, 0);
    while over != 0 && over < under << 52 {
        (over, power) = (over << 1, power - 1);
    }
    while over >= under << 53 {
        (under, power) = (under << 1, power + 1);
    }
    let nearest = nearest_even(over, under) as f64 * 2f64.powi(power);
    if top < 0 {
        -nearest
    } else {
        nearest
    }
}

/// The largest whole k whose square, times the degrees of freedom, is at most 10,000 sums of squares: searched decimal by decimal.
pub fn spread(sum_of_squares: Fraction, freedom: i128) -> i128 {
    let limit = times(10_000, sum_of_squares.top);
    let fits = |k: i128| times(times(k, k), times(freedom, sum_of_squares.bottom)) <= limit;
    let mut k = 0;
    for power in (0..12).rev() {
        let step = 10i128.pow(power);
        while fits(k + step) {
            k += step;
        }
    }
    k
}

/// What 000, section 3, says in closed form about the same job.
fn agrees_with_closed_forms(job: &Job, results: &Results) {
    let totals = totals(job);
    let t = job.restraint.len() as i128;
    let scale = results.deviation_denominator;
    let share: i128 = job.restraint.iter().map(|object| totals[*object]).sum();
    assert_eq!(totals.iter().sum::<i128>(), 0, "the totals do not cancel");
    for (object, total) in totals.iter().enumerate() {
        assert_eq!(results.numerators[object], t * total - share + scale * job.sum, "value {object}");
    }
    let kept: i128 = job.restraint.iter().map(|object| results.numerators[*object]).sum();
    assert_eq!(kept, job.sum * results.denominator, "the restraint is not kept");
    let readings: i128 = job.readings.iter().map(|reading| reading * reading).sum();
    let squared: i128 = totals.iter().map(|total| total * total).sum();
    assert_eq!(results.q, scale * readings - squared, "Q");
    assert!(results.q >= 0, "Q below 0");
}
