//! The standard uncertainty of a weight, and the certificate of a job, as the bench writes it.

use crate::job::Job;
use crate::solve::Results;

/// The standard uncertainty in hundredths of a count: the least whole number whose square is not below 10,000 times the variance of the value, which is that of
/// a reading, Q over v beta f, times the factor over t v beta. None with no degree of freedom. It is found by halving, from the inequality itself.
pub fn uncertainty(results: &Results, factor: i128) -> Option<i128> {
    let asked = 10_000 * results.q * factor;
    let reaches = |hundredths: i128| asked <= hundredths * hundredths * (results.denominator * results.deviation_denominator * results.freedom);
    if results.freedom == 0 {
        return None;
    }
    let mut most = 1;
    while !reaches(most) {
        most *= 2;
    }
    let (mut low, mut high) = (0, most);
    while low < high {
        let middle = (low + high) / 2;
        if reaches(middle) {
            high = middle;
        } else {
            low = middle + 1;
        }
    }
    Some(high)
}

/// Hundredths as counts, with two decimals.
fn counts(hundredths: i128) -> String {
    let sign = if hundredths < 0 { "-" } else { "" };
    format!("{sign}{}.{:02}", hundredths.abs() / 100, hundredths.abs() % 100)
}

/// A name of eight bytes as it is shown: without the spaces that fill it up, bytes that would break a line or a column in base 16.
pub fn shown(name: &[u8]) -> String {
    let end = name.iter().rposition(|byte| *byte != b' ').map_or(1, |last| last + 1);
    let byte = |byte: &u8| match byte {
        b'#' | b'\\' => format!("\\x{byte:02X}"),
        b'!'..=b'~' => char::from(*byte).to_string(),
        _ => format!("\\x{byte:02X}"),
    };
    name[..end].iter().map(byte).collect()
}

/// The certificate of an accepted job; `names` has eight bytes for each object, or none.
pub fn accepted(job: &Job, results: &Results, names: &[u8]) -> String {
    let (v, balance, t) = (job.head.objects(), &job.balance, job.restraint.len() as i128);
    let mut text = String::from("certificate: values and standard uncertainties in counts of the comparator\n");
    let (b, p) = (job.blocks.len(), job.blocks[0].left.len());
    text += &format!("design: v {v}, b {b}, r {}, p {p}, L1 {}, L2 {}\n", balance.appearances, balance.company, balance.opposition);
    text += &format!("{:<8}{:<33}{:<10}{:>22}{:>22}\n", "weight", "name", "standard", "value", "uncertainty");
    let mut standards = 0;
    for (object, hundredths) in results.hundredths.iter().enumerate() {
        let member = job.restraint.contains(&object);
        let name = names.chunks(8).nth(object).map_or(String::new(), shown);
        let uncertainty = uncertainty(results, if member { t - 1 } else { t + 1 }).map_or("none".to_string(), counts);
        standards += if member { *hundredths } else { 0 };
        text += &format!("{object:<8}{name:<33}{:<10}{:>22}{uncertainty:>22}\n", if member { "yes" } else { "no" }, counts(*hundredths));
    }
    let spread = results.spread.map_or("none".to_string(), counts);
    let figures = [
        ("sum of the standards", counts(standards)),
        ("accepted sum M", counts(100 * job.sum)),
        ("spread", spread),
        ("degrees of freedom", results.freedom.to_string()),
    ];
    for (words, figure) in figures {
        text += &format!("{words:<51}{figure:>22}\n");
    }
    text + "proved: demand-1 demand-2 demand-3 uncertainty-per-object standard-uncertainty certificates\n"
}
