//! The published hundredths, and what the request says of them.

use crate::job::Job;
use crate::solve::{Fraction, Results};
use std::cmp::Reverse;
use std::collections::BTreeSet;

/// The hundredths that are published: of an object outside the restraint the nearest ones; of its members those at or below, and what then lacks to 100
/// times the accepted sum is given out one hundredth each. The members stand in line for it: the largest part first, of equal ones the lowest object.
pub fn published(values: &[Fraction], restraint: &BTreeSet<usize>, sum: i128) -> Vec<i128> {
    let scaled: Vec<Fraction> = values.iter().map(|value| value.multiplied(100)).collect();
    let mut hundredths: Vec<i128> = scaled.iter().map(|value| value.nearest_even()).collect();
    restraint.iter().for_each(|object| hundredths[*object] = scaled[*object].floor());
    let given = shortfall(&scaled, restraint, sum);
    in_line(&scaled, restraint).iter().take(given).for_each(|object| hundredths[*object] += 1);
    hundredths
}

/// The members of a restraint in the order in which they are given a hundredth: taken as objects rise and sorted by their parts, which leaves equal ones as
/// they stood.
fn in_line(scaled: &[Fraction], restraint: &BTreeSet<usize>) -> Vec<usize> {
    let mut line: Vec<usize> = restraint.iter().copied().collect();
    line.sort_by_key(|object| Reverse(scaled[*object].part()));
    line
}

/// How many hundredths the members lack after they are cut down: fewer than there are members.
fn shortfall(scaled: &[Fraction], restraint: &BTreeSet<usize>, sum: i128) -> usize {
    let lacking = 100 * sum - restraint.iter().map(|object| scaled[*object].floor()).sum::<i128>();
    assert!((0..restraint.len() as i128).contains(&lacking), "a shortfall of {lacking} over {} members", restraint.len());
    lacking as usize
}

/// What a job asks of the publishing of its members, for the selftest to count over seeded jobs.
#[derive(Clone, Copy, PartialEq, Eq, PartialOrd, Ord, Debug)]
pub enum Feature {
    /// hundredths are given out at all
    Shortfall,
    /// the last member that gains has the same part as the first that does not, so that the order of the objects decides
    TieAtTheCut,
    /// so too, while other members have other parts
    TieAmongOthers,
    /// a member below 0 that is no whole number of hundredths, so that cutting toward 0 would differ
    NegativeMember,
    /// a tie at the cut of values below 0
    NegativeTie,
    /// the restraint has all objects, or two, the fewest
    AllObjects,
    TwoObjects,
    /// the members, each rounded alone, would not add to 100 times the accepted sum
    RoundingFails,
}

impl Feature {
    pub const ALL: [Feature; 8] = [
        Feature::Shortfall,
        Feature::TieAtTheCut,
        Feature::TieAmongOthers,
        Feature::NegativeMember,
        Feature::NegativeTie,
        Feature::AllObjects,
        Feature::TwoObjects,
        Feature::RoundingFails,
    ];
}

pub fn features(job: &Job, results: &Results) -> BTreeSet<Feature> {
    let scaled: Vec<Fraction> = results.numerators.iter().map(|numerator| Fraction::new(100 * numerator, results.denominator)).collect();
    let line = in_line(&scaled, &job.restraint);
    let given = shortfall(&scaled, &job.restraint, job.sum);
    let part = |place: usize| scaled[line[place]].part();
    let tie = given > 0 && part(given - 1) == part(given);
    let rounded: i128 = line.iter().map(|object| scaled[*object].nearest_even()).sum();
    let below = |object: usize| scaled[object] < Fraction::ZERO && !scaled[object].is_whole();
    [
        (Feature::Shortfall, given > 0),
        (Feature::TieAtTheCut, tie),
        (Feature::TieAmongOthers, tie && part(0) != part(line.len() - 1)),
        (Feature::NegativeMember, line.iter().any(|object| below(*object))),
        (Feature::NegativeTie, tie && below(line[given - 1]) && below(line[given])),
        (Feature::AllObjects, line.len() == job.head.objects()),
        (Feature::TwoObjects, line.len() == 2),
        (Feature::RoundingFails, rounded != 100 * job.sum),
    ]
    .into_iter()
    .filter_map(|(feature, has)| has.then_some(feature))
    .collect()
}

/// What the request says of the published hundredths: members add to 100 times the accepted sum, each less than one hundredth from its value; the others are
/// at most half a hundredth away; and the sum of squares of this set is more than the least by at most beta v^2/10,000.
pub fn is_published_near(job: &Job, results: &Results) {
    let column: i128 = job.restraint.iter().map(|object| results.hundredths[*object]).sum();
    assert_eq!(column, 100 * job.sum, "the members' hundredths do not add up");
    for (object, (hundredths, numerator)) in results.hundredths.iter().zip(&results.numerators).enumerate() {
        let away = (hundredths * results.denominator - 100 * numerator).abs();
        let near = if job.restraint.contains(&object) { away < results.denominator } else { 2 * away <= results.denominator };
        assert!(near, "object {object} is published too far from its value");
    }
    let side = |objects: &BTreeSet<usize>| objects.iter().map(|object| results.hundredths[*object]).sum::<i128>();
    let squares: i128 = job.blocks.iter().zip(&job.readings).map(|(block, reading)| (100 * reading - side(&block.left) + side(&block.right)).pow(2)).sum();
    let v = job.head.objects() as i128;
    let excess = squares * results.deviation_denominator - 10_000 * results.q;
    assert!((0..=job.balance.beta() * v * v * results.deviation_denominator).contains(&excess), "the published set exceeds the least sum by too much");
}
