//! The figures that the request prints, each against the count; and that the designs made for trials are what they should be.

use crate::balanced::{self, Design};
use crate::coefficients::Coefficients;
use crate::compare;
use crate::damage;
use crate::design::{develop, pairs};
use crate::editions as made;
use crate::field::{Field, SIZES};
use crate::groups::{self, Counts, Grouping};
use crate::job::{self, Head, Job, READING_LIMIT};
use crate::listing::listing;
use crate::papers::{self, LISTS, TABLE_1, TABLE_2_TOTALS};
use crate::pooled::{self, Pool, Pooled};
use crate::practice::{self, Practice};
use crate::publishing::{features, published, Feature};
use crate::second;
use crate::seed::Seed;
use crate::sheet::{self, Sheet};
use crate::solve::{nearest_even, nearest_real, solve, totals, Fraction};
use crate::stored::{self, A};
use std::collections::BTreeMap;

const LISTING_OF_A: &str = "\
design 5 5 4 2 1 2
value 0 -3 10 -30
value 1 73 10 730
value 2 19 10 190
value 3 5 10 50
value 4 51 10 510
dev 0 5 5
dev 1 5 5
dev 2 5 5
dev 3 5 5
dev 4 5 5
spread 25 5 1 223
";

/// Stops at the first figure that is wrong; otherwise tells how many were looked at.
pub fn selftest() -> usize {
    let mut figures = Figures(0);
    examples(&mut figures);
    worked_example(&mut figures);
    refusals(&mut figures);
    rounding(&mut figures);
    publishing(&mut figures);
    seeds(&mut figures);
    fields(&mut figures);
    variance_factors(&mut figures);
    designs(&mut figures);
    editions(&mut figures);
    names(&mut figures);
    grouped_sets(&mut figures);
    sheets(&mut figures);
    practice(&mut figures);
    pools(&mut figures);
    figures.0
}

struct Figures(usize);

impl Figures {
    fn same<T: PartialEq + std::fmt::Debug>(&mut self, about: &str, found: T, wanted: T) {
        assert_eq!(found, wanted, "{about}");
        self.0 += 1;
    }
}

fn bytes_of(name: &str) -> Vec<u8> {
    stored::trials().into_iter().find(|example| example.name == format!("{name}.job")).expect("a stored job").bytes
}

fn accepted(name: &str) -> Job {
    job::read(&bytes_of(name)).unwrap_or_else(|refusal| panic!("{name}: {refusal:?}"))
}

fn line(text: &str, start: &str) -> String {
    text.lines().find(|line| line.starts_with(start)).unwrap_or("").to_string()
}

fn examples(figures: &mut Figures) {
    figures.same("A", listing(&A), LISTING_OF_A.to_string());
    figures.same("T of A", totals(&accepted("A")), vec![-16, 22, -5, -12, 11]);
    figures.same("B", line(&listing(&bytes_of("B")), "design"), "design 3 3 2 1 0 1".to_string());
    figures.same("C", listing(&bytes_of("C")), "refused 6 0\n".to_string());
    figures.same("D", line(&listing(&bytes_of("D")), "design"), "design 4 12 6 1 0 2".to_string());
    let e = listing(&bytes_of("E"));
    figures.same("E", line(&e, "design"), "design 8 7 7 4 3 4".to_string());
    figures.same("E has no spread", line(&e, "spread").ends_with(" 8 0 none"), true);
    figures.same("F", line(&listing(&bytes_of("F")), "design"), "design 13 39 12 2 1 2".to_string());
    figures.same("G", listing(&bytes_of("G")), "refused 6 0\n".to_string());
    let (p, objects) = papers::objects(11, "oo 1 4 | 5 9 3; 0 8 1 | 2 7 6");
    let blocks = develop(&Head { n: 11, flag: 1, p: p.into(), m: 2 }, &objects);
    let (company, _) = pairs(12, &blocks);
    figures.same("G: 4 arises three times within sides", company[0][4], 3);
    figures.same("G: 2 arises once within sides", company[0][2], 1);
    figures.same("J", line(&listing(&bytes_of("J")), "design"), "design 8 28 21 3 6 9".to_string());
    figures.same("K, 200,000,000", line(&listing(&bytes_of("K-reading-200000000")), "design"), "design 5 5 4 2 1 2".to_string());
    figures.same("K, 200,000,001", listing(&bytes_of("K-reading-200000001")), "refused 8 48\n".to_string());
    figures.same("K, n 50 alone", listing(&[1, 0, 4, 50, 0, 25, 26]), "refused 1 7\n".to_string());
    figures.same("K, n 50", listing(&bytes_of("K-n50-flag0")), "refused 6 0\n".to_string());
    figures.same("K, n 50 and the fixed object", listing(&bytes_of("K-n50-flag1")), "refused 4 0\n".to_string());
    figures.same("K, empty", listing(&bytes_of("K-empty")), "refused 1 0\n".to_string());
    figures.same("nine, over the field", line(&listing(&bytes_of("nine-field")), "design"), "design 9 9 8 4 3 4".to_string());
    figures.same("nine, the same modulo 9", listing(&bytes_of("nine-field-modulo-9")), "refused 6 0\n".to_string());
    figures.same("nine and the fixed object", line(&listing(&bytes_of("nine-field-fixed")), "design"), "design 10 18 18 5 8 10".to_string());
    figures.same("nine and the fixed object, modulo 9", listing(&bytes_of("nine-field-fixed-modulo-9")), "refused 6 0\n".to_string());
    figures.same("nine residues", line(&listing(&bytes_of("nine-residues")), "design"), "design 9 36 8 1 0 1".to_string());
    figures.same("nine residues, over the field", listing(&bytes_of("nine-residues-over-the-field")), "refused 6 0\n".to_string());
    figures.same("K, a byte added", listing(&bytes_of("K-byte-added")), "refused 9 56\n".to_string());
}

/// H, and that the readings of table 1 can be signed in one way only.
fn worked_example(figures: &mut Figures) {
    let h = accepted("H");
    figures.same("H: the totals of table 2", totals(&h), TABLE_2_TOTALS.to_vec());
    let squares: i128 = h.readings.iter().map(|reading| reading * reading).sum();
    figures.same("H: the sum of squared readings", squares, 62_545_461);
    let text = listing(&bytes_of("H"));
    for (object, numerator) in [-10080, 9688, -47652, -13526, -13262, -56788, -32026].into_iter().enumerate() {
        let wanted = format!("value {object} {numerator} 28 {}", nearest_even(100 * numerator, 28));
        figures.same("H: a value", line(&text, &format!("value {object} ")), wanted);
    }
    figures.same("H: Q, v beta, f, k", line(&text, "spread"), "spread 63177554 14 15 54849".to_string());

    let mut ways = 0;
    let mut totals = [0i32; 7];
    let mut signs = [1; 21];
    let add = |totals: &mut [i32; 7], block: usize, reading: i32| {
        h.blocks[block].left.iter().for_each(|object| totals[*object] += reading);
        h.blocks[block].right.iter().for_each(|object| totals[*object] -= reading);
    };
    (0..21).for_each(|block| add(&mut totals, block, TABLE_1[block].abs()));
    // Each step turns the sign of one reading, so that all ways come by.
    for step in 1..=1u32 << 21 {
        ways += usize::from(totals.iter().zip(TABLE_2_TOTALS).all(|(total, wanted)| i128::from(*total) == wanted));
        let block = (step.trailing_zeros() as usize).min(20);
        signs[block] = -signs[block];
        add(&mut totals, block, 2 * signs[block] * TABLE_1[block].abs());
    }
    figures.same("H: ways to sign the readings", ways, 1);
}

fn refusals(figures: &mut Figures) {
    for (name, wanted) in [
        ("refused-1-start", "refused 1 7\n"),
        ("refused-1-body", "refused 1 33\n"),
        ("refused-2", "refused 2 7\n"),
        ("refused-3", "refused 3 14\n"),
        ("refused-4", "refused 4 0\n"),
        ("refused-4-side", "refused 4 0\n"),
        ("refused-5", "refused 5 12\n"),
        ("refused-4-field", "refused 4 0\n"),
        ("refused-4-flag", "refused 4 0\n"),
        ("refused-5-infinity", "refused 5 11\n"),
        ("refused-5-infinity-flag2", "refused 5 11\n"),
        ("refused-6", "refused 6 0\n"),
        ("refused-6-standard", "refused 6 0\n"),
        ("refused-7", "refused 7 14\n"),
        ("refused-7-sum", "refused 7 14\n"),
        ("refused-7-standard", "refused 7 14\n"),
        ("refused-8", "refused 8 44\n"),
        ("refused-9", "refused 9 56\n"),
        ("refused-11", "refused 11 14\n"),
        ("refused-11-reading", "refused 11 14\n"),
    ] {
        figures.same(name, listing(&bytes_of(name)), wanted.to_string());
    }
    // every set of A's objects and one that is none of them: 7 for none or the stranger, 11 for one, else accepted
    for set in 0..64u8 {
        let mut bytes = A.to_vec();
        bytes[24] = set;
        let wanted = match set.count_ones() {
            0 => 7,
            _ if set >= 32 => 7,
            1 => 11,
            _ => 0,
        };
        let found = job::read(&bytes).err().map_or((0, 0), |refusal| (refusal.number, refusal.place));
        figures.same("a set of A", found, (wanted, if wanted == 0 { 0 } else { 14 }));
    }
    for length in 0..A.len() {
        let start = [33, 14, 7, 0].into_iter().find(|start| length >= *start).expect("0 is below all");
        figures.same("A cut", listing(&A[..length]), format!("refused 1 {start}\n"));
    }
}

fn rounding(figures: &mut Figures) {
    figures.same("I: 1/8", nearest_even(100, 8), 12);
    figures.same("I: 3/8", nearest_even(300, 8), 38);
    figures.same("I: -1/8", nearest_even(-100, 8), -12);
    let text = listing(&bytes_of("I"));
    for (object, wanted) in ["value 0 1 8 13", "value 1 -1 8 -13", "value 2 3 8 38", "value 3 -7 8 -88"].into_iter().enumerate() {
        figures.same("I as a job", line(&text, &format!("value {object} ")), wanted.to_string());
    }
    figures.same("a spread of 0", line(&listing(&bytes_of("end-spread-0")), "spread"), "spread 0 5 6 0".to_string());
    let longest = bytes_of("end-longest");
    figures.same("the longest file", longest.len(), 6584);
    let q = |name: &str| -> i128 { line(&listing(&bytes_of(name)), "spread").split(' ').nth(1).expect("Q").parse().expect("a number") };
    figures.same("the largest Q", q("end-largest-q"), 70_304_000_000_000_000_000_000);
    figures.same("the largest Q is v beta b times the square of the widest reading", q("end-largest-q"), 1352 * 1300 * READING_LIMIT * READING_LIMIT);
    let word = i128::from(u64::MAX) + 1;
    figures.same("a Q just below a word more", (word - 108..word).contains(&q("end-q-below-a-word")), true);
    figures.same("a Q just above a word more", (word..word + 108).contains(&q("end-q-above-a-word")), true);
}

/// Columns worked out by hand: the values as fractions, the members, the accepted sum, the hundredths.
type Column = (&'static str, &'static [(i128, i128)], &'static [usize], i128, &'static [i128]);

const COLUMNS: &[Column] = &[
    ("thirds: each 33 and a third, one lacks, the lowest gains", &[(1, 3), (1, 3), (1, 3)], &[0, 1, 2], 1, &[34, 33, 33]),
    ("thirds below 0: each cut down to -34, two lack", &[(-1, 3), (-1, 3), (-1, 3)], &[0, 1, 2], -1, &[-33, -33, -34]),
    ("example A, all whole: none lacks", &[(-3, 10), (73, 10), (19, 10), (5, 10), (51, 10)], &[0, 1], 7, &[-30, 730, 190, 50, 510]),
    ("example I: 12 and -13, parts of a half, one lacks; 37.5 and -87.5 are no members", &[(1, 8), (-1, 8), (3, 8), (-7, 8)], &[0, 1], 0, &[13, -13, 38, -88]),
    ("the same where the one below 0 is the lower object", &[(-1, 8), (1, 8), (3, 8), (1, 8)], &[0, 1], 0, &[-12, 12, 38, 12]),
    ("sixths: parts of 2/3, 2/3 and 2/3 over 16, 16 and 66, two lack", &[(1, 6), (1, 6), (2, 3)], &[0, 1, 2], 1, &[17, 17, 66]),
    ("sevenths: 14 2/7, 28 4/7, 57 1/7: the largest part gains, not the first", &[(1, 7), (2, 7), (4, 7)], &[0, 1, 2], 1, &[14, 29, 57]),
    ("mixed signs: -67 and 1/3, 166 and 2/3, 0: one lacks", &[(-2, 3), (5, 3), (0, 1)], &[0, 1, 2], 1, &[-67, 167, 0]),
    ("members apart from one another, the others rounded", &[(1, 3), (1, 6), (1, 3), (-1, 6), (1, 3)], &[0, 2, 4], 1, &[34, 17, 33, -17, 33]),
    ("parts of 1/3, 2/3, 1/3, 2/3: the two larger gain", &[(1, 3), (2, 3), (1, 3), (2, 3)], &[0, 1, 2, 3], 2, &[33, 67, 33, 67]),
    ("five of 1/40 short by two at 2 1/2, one of 7/8", &[(1, 40), (1, 40), (1, 40), (1, 40), (1, 40), (7, 8)], &[0, 1, 2, 3, 4, 5], 1, &[3, 3, 3, 2, 2, 87]),
    ("two members, of which the one below 0 has the larger part", &[(1, 3), (-22, 3), (2, 3)], &[0, 1], -7, &[33, -733, 67]),
];

fn publishing(figures: &mut Figures) {
    for (about, values, restraint, sum, wanted) in COLUMNS {
        let values: Vec<Fraction> = values.iter().map(|(top, bottom)| Fraction::new(*top, *bottom)).collect();
        let column = published(&values, &restraint.iter().copied().collect(), *sum);
        figures.same(about, &column[..], *wanted);
        figures.same(about, restraint.iter().map(|object| column[*object]).sum::<i128>(), 100 * sum);
    }
    let text = listing(&bytes_of("L"));
    for (object, wanted) in ["value 0 3 9 34", "value 1 3 9 33", "value 2 3 9 33"].into_iter().enumerate() {
        figures.same("L", line(&text, &format!("value {object} ")), wanted.to_string());
    }
}

/// The seeded jobs hold what publishing can go wrong by, each often enough: those of `calls 1 400` that are not harmed once more, by their parts, and those of
/// `compare .. -- 1 1600`.
fn seeds(figures: &mut Figures) {
    let first = stored::trials().len() as u64;
    let fixed = compare::fixed();
    let parts = (first..first + 400).filter(|index| index % 2 == 0).map(|index| damage::parts(1, index).draft.file());
    let files = (0..1600).map(|index| compare::trial(&fixed, 1, index).bytes);
    for (about, bytes, least) in [("seeded jobs by their parts", parts.collect::<Vec<_>>(), 3), ("seeded job files", files.collect(), 10)] {
        let mut often = BTreeMap::new();
        let mut exact = BTreeMap::from(EXACT.map(|kind| (kind, 0)));
        for job in bytes.iter().filter_map(|bytes| job::read(bytes).ok()) {
            let results = solve(&job);
            features(&job, &results).into_iter().for_each(|feature| *often.entry(feature).or_insert(0) += 1);
            if results.q == 0 && results.freedom > 0 && job.readings.iter().any(|reading| *reading != 0) {
                *exact.entry(EXACT[usize::from(job.head.field().is_some())]).or_insert(0) += 1;
            }
        }
        let mut alone = BTreeMap::new();
        bytes.iter().filter_map(|bytes| one_standard(bytes)).for_each(|kind| *alone.entry(kind).or_insert(0) += 1);
        println!("{about}: {often:?}, one standard: {alone:?}, Q 0 of readings not all 0: {exact:?}");
        for (kind, count) in exact {
            figures.same(&format!("{about}: Q 0 of readings not all 0, {kind}, in {count} of them"), count >= least, true);
        }
        for (kind, least) in ALONE {
            let count = alone.get(kind).copied().unwrap_or(0);
            figures.same(&format!("{about}: {kind} in {count} of them"), count >= *least, true);
        }
        for feature in Feature::ALL {
            let count = often.get(&feature).copied().unwrap_or(0);
            figures.same(&format!("{about}: {feature:?} in {count} of them"), count >= least, true);
        }
    }
}

/// How a job whose every deviation is 0, with degrees of freedom and readings that are not all 0, is developed.
const EXACT: [&str; 2] = ["over residues", "over a field"];

/// The fields: their sizes, sums with nothing carried, and that every element but 0 has an inverse.
fn fields(figures: &mut Figures) {
    figures.same("the fields", (0..=100).filter(|n| Field::of(*n).is_some()).collect::<Vec<usize>>(), SIZES.map(usize::from).to_vec());
    let sums = [(9, 5, 7, 0), (9, 4, 4, 8), (9, 3, 6, 0), (8, 3, 5, 6), (16, 9, 3, 10), (25, 7, 18, 20), (27, 13, 14, 24), (32, 21, 11, 30), (49, 45, 10, 6)];
    for (n, x, y, wanted) in sums {
        figures.same("a sum", Field::of(n).expect("a field").sum(x, y), wanted);
    }
    let nine = Field::of(9).expect("a field");
    figures.same("the powers of x", (0..8).map(|power| nine.power(power)).collect::<Vec<usize>>(), vec![1, 3, 7, 8, 2, 6, 5, 4]);
    for n in SIZES {
        let field = Field::of(n.into()).expect("a field");
        let inverse = |x: usize| (1..usize::from(n)).any(|y| field.product(x, y) == 1);
        figures.same("every element but 0 has an inverse", (1..n.into()).all(inverse), true);
        for flag in [2, 3] {
            figures.same("field pairs", is_balanced(&balanced::field_pairs(n, flag)), true);
            let mut seed = Seed::new(4, 4);
            for p in 1..=(n + flag % 2) / 2 {
                if let Some(design) = balanced::over_field(n, flag, p, &mut seed) {
                    figures.same("over a field", is_balanced(&design), true);
                }
            }
        }
    }
}

/// What can be wrong beside one standard, so that the order shows, and how often at least the seeded jobs have it.
const ALONE: &[(&str, usize)] = &[("11 alone", 3), ("11 before 8", 1), ("6 before 11", 3), ("7 before 11", 1)];

/// Which of these a file is. Its fields are whole where 6, 7 or 11 is looked for.
fn one_standard(bytes: &[u8]) -> Option<&'static str> {
    let refusal = job::read(bytes).err().filter(|refusal| [6, 7, 11].contains(&refusal.number))?;
    let third = 10 + 2 * usize::from(bytes[5]) * usize::from(bytes[6]);
    let set = bytes[third + 3..third + 11].iter().fold(0, |word, byte| word << 8 | u64::from(*byte));
    let is_object = set.trailing_zeros() < u32::from(bytes[3]) + u32::from(bytes[4]) % 2;
    let far = job::first_far(&bytes[third + 22..].chunks(4).map(job::signed).collect::<Vec<_>>()).is_some();
    match refusal.number {
        _ if set.count_ones() != 1 || !is_object => None,
        6 => Some("6 before 11"),
        7 => Some("7 before 11"),
        _ if far => Some("11 before 8"),
        _ => Some("11 alone"),
    }
}

fn is_balanced(design: &Design) -> bool {
    let head = Head { n: design.n.into(), flag: design.flag.into(), p: design.p.into(), m: design.m() };
    head.in_size() && crate::design::balance(head.objects(), &develop(&head, &design.objects)).is_some()
}

fn designs(figures: &mut Figures) {
    for n in 3..=49 {
        for flag in 0..2 {
            let design = balanced::all_pairs(n, flag, 1);
            if design.m() <= 64 && design.m() * usize::from(n) <= 1300 {
                figures.same("all pairs", is_balanced(&design), true);
            }
        }
    }
    let mut seed = Seed::new(3, 3);
    for n in [3, 5, 7, 11, 13, 17, 19, 23] {
        figures.same("squares", is_balanced(&balanced::squares(n)), true);
        for p in 1..=(n + 1) / 2 {
            for flag in 0..2 {
                if 2 * p <= n + flag {
                    if let Some(design) = balanced::over_prime(n, flag, p, &mut seed) {
                        figures.same("over a prime", is_balanced(&design), true);
                    }
                }
            }
            if let Some(design) = balanced::powers(n, p) {
                figures.same("powers", is_balanced(&design), true);
            }
        }
    }
    figures.same("over 49", is_balanced(&balanced::forty_nine()), true);
    figures.same("50 residues, each difference once", is_balanced(&balanced::differences_once(50)), false);
    let unsound: Vec<&str> =
        LISTS.iter().filter(|list| listing(&stored::list_job(list).file()).starts_with("refused")).map(|list| list.name).collect();
    figures.same("printed lists that are refused", unsound, vec!["000-2.9.2", "000-appendix-24", "003-5.2", "003-6.2"]);
}

/// Example A in the second edition: 60 bytes, with names of eight bytes for its five objects 103; and each refusal of that edition, at its place.
fn editions(figures: &mut Figures) {
    let second = second::with_names(&A, &[]);
    let names = [b'x'; 40];
    let named = second::with_names(&A, &names);
    figures.same("A in the second edition", (second.len(), &second[..5]), (60, &[0x10, 0, 1, 2, 1][..]));
    figures.same("A with names", (named.len(), &named[60..63]), (103, &[0x80, 0, 40][..]));
    figures.same("the names of A", second::read(&named).ok().and_then(|file| file.names), Some(63));
    figures.same("A and back", second::to_first(&second).ok(), Some(A.to_vec()));
    figures.same("the same job", second::read(&named).ok().map(|file| file.job.readings), job::read(&A).ok().map(|job| job.readings));
    let refused = |bytes: &[u8]| second::read(bytes).err().map(|refusal| (refusal.number, refusal.place));
    let after = |bytes: &[u8]| refused(&[&second[..], bytes].concat());
    let changed = |place: usize, byte: u8| {
        let mut bytes = second.clone();
        bytes[place] = byte;
        refused(&bytes)
    };
    figures.same("an edition 1 reader", job::read(&second).err().map(|refusal| (refusal.number, refusal.place)), Some((2, 0)));
    figures.same("an edition 1 file", refused(&A), Some((2, 0)));
    figures.same("another edition", changed(3, 1), Some((12, 3)));
    figures.same("a size", changed(7, 2), Some((4, 4)));
    figures.same("an object", changed(14, 5), Some((5, 14)));
    figures.same("16,385 bytes of anything", refused(&[0; 16_385]), Some((4, 0)));
    figures.same("16,384 bytes", after(&second::field(0x81, &[0; 16_321])), None);
    figures.same("a byte left over", after(&[0x81]), Some((1, 60)));
    figures.same("a tag below 80", after(&[0x7F, 0, 0]), Some((2, 60)));
    figures.same("80 80", after(&[second::field(0x80, &names), second::field(0x80, &names)].concat()), Some((2, 103)));
    figures.same("81 80", after(&[0x81, 0, 0, 0x80, 0, 40]), Some((2, 63)));
    figures.same("names of 39 bytes", after(&second::field(0x80, &names[1..])), Some((3, 60)));
    figures.same("a body past the end", after(&[0x81, 0, 1]), Some((1, 60)));
    figures.same("back with a field", second::to_first(&named).err().map(|refusal| (refusal.number, refusal.place)), Some((13, 60)));
}

/// Seeded files of the second edition, and names to write beside a job: for each flag some that are accepted, with 8v bytes, and some at both sides of that.
fn names(figures: &mut Figures) {
    let mut often: BTreeMap<(&str, usize), usize> = BTreeMap::new();
    for index in 0..400 {
        let first = damage::seeded(1, index).bytes;
        let mut seed = Seed::new(4, index);
        let (file, names) = (made::made(&first, &mut seed), made::names(&first, &mut seed));
        if let Ok(file) = second::read(&file) {
            *often.entry(("read", file.job.head.flag)).or_insert(0) += usize::from(file.names.is_some());
        }
        if let Ok(job) = job::read(&first) {
            let written = second::read(&second::with_names(&first, &names)).map(|file| file.names.is_some());
            let beside = names.len().abs_diff(8 * job.head.objects()) == 1;
            *often.entry(("written", job.head.flag)).or_insert(0) += usize::from(written == Ok(true));
            *often.entry(("a byte too few or too many", job.head.flag)).or_insert(0) += usize::from(beside && written.is_err());
        }
    }
    println!("names: {often:?}");
    for kind in ["read", "written", "a byte too few or too many"] {
        for flag in 0..4 {
            figures.same(&format!("names, {kind}, flag {flag}"), often.get(&(kind, flag)).is_some_and(|count| *count > 0), true);
        }
    }
}

/// Factors worked out by hand: the job, its factors, the denominator, and the products of objects 0 and 1, 0 and the last, and the last two.
const FACTORS: &[(&str, &[i128], i128, [i128; 3])] = &[
    ("A", &[1, 1, 3, 3, 3], 10, [-1, 0, 1]),
    ("H", &[1, 1, 3, 3, 3, 3, 3], 28, [-1, 0, 1]),
    ("I", &[1, 1, 3, 3], 8, [-1, 0, 1]),
    ("L", &[2, 2, 2], 9, [-1, -1, -1]),
];

/// What 000, section 3, says of the variances; and that on every stored job and many seeded ones the coefficients give the values again, from the job's own
/// readings and accepted sum. That their squares and products add to what the paper says is asserted wherever coefficients are worked out.
fn variance_factors(figures: &mut Figures) {
    for (name, factors, denominator, products) in FACTORS {
        let job = accepted(name);
        let coefficients = Coefficients::of(&job);
        let last = factors.len() - 1;
        figures.same(name, (0..factors.len()).map(|object| coefficients.factor(object)).collect::<Vec<_>>(), factors.to_vec());
        figures.same(name, solve(&job).denominator, *denominator);
        figures.same(name, [(0, 1), (0, last), (last - 1, last)].map(|(i, j)| coefficients.products(i, j)), *products);
    }
    let seeded = (0..600).map(|index| damage::seeded(1, index).bytes);
    let (mut jobs, mut objects) = (0, 0);
    let mut often: BTreeMap<&str, usize> = BTreeMap::new();
    for job in stored::trials().into_iter().map(|trial| trial.bytes).chain(seeded).filter_map(|bytes| job::read(&bytes).ok()) {
        let (v, t) = (job.head.objects(), job.restraint.len());
        let (coefficients, results) = (Coefficients::of(&job), solve(&job));
        let sum = Fraction::new(job.sum, t as i128);
        let found: Vec<i128> = (0..v).map(|object| coefficients.numerator(object, &job.readings, sum)).collect();
        figures.same("values from the coefficients", found, results.numerators);
        for (kind, has) in [("all objects members", t == v), ("two members", t == 2), ("the fixed object", job.head.with_fixed()), ("one object outside", v == t + 1)] {
            *often.entry(kind).or_insert(0) += usize::from(has);
        }
        (jobs, objects) = (jobs + 1, objects + v);
    }
    println!("variance factors of {objects} objects in {jobs} jobs: {often:?}");
    figures.same("kinds of restraints", often.values().all(|count| *count >= 5), true);
}

/// Grouped sets by hand: B by two and A by two and by ten; C, which meets as its groups say and comes from no design; and that seeded ones are of every kind.
fn grouped_sets(figures: &mut Figures) {
    let counts = |within: (i128, i128), between: (i128, i128)| Some(Counts { within, between });
    let of = |name: &str, g: usize| Grouping::of(&accepted(name).blocks, accepted(name).head.objects(), g);
    let b = of("B", 2);
    figures.same("B by two", (b.count, b.v, b.p, b.appearances(5), b.groups.clone()), (3, 6, 2, 2, vec![0, 0, 1, 1, 2, 2]));
    figures.same("B by two: its blocks", b.objects.clone(), vec![0, 1, 2, 3, 2, 3, 4, 5, 4, 5, 0, 1]);
    figures.same("B by two: the last side", b.sides()[5].iter().copied().collect::<Vec<_>>(), vec![0, 1]);
    figures.same("B by two: its counts", b.counts(), counts((2, 0), (0, 1)));
    figures.same("A by two", of("A", 2).counts(), counts((4, 0), (1, 2)));
    figures.same("A by ten, 50 objects", (of("A", 10).v, of("A", 10).p, of("A", 10).counts()), (50, 20, counts((4, 0), (1, 2))));
    let fits = [(1, 5), (2, 25), (2, 26), (10, 5), (11, 5), (1 << 63, 4)].map(|(g, v)| groups::fits(g, v));
    figures.same("g of 1, and 50 objects and more", fits, [false, true, false, true, false, false]);
    let labelled = |grouping: &Grouping, groups: &[u8]| Grouping { groups: groups.to_vec(), ..grouping.clone() };
    figures.same("B by two, the members numbered i + 3c", labelled(&b, &[0, 1, 2, 0, 1, 2]).counts(), None);
    // {0},{1} modulo 4: 0 and 2 never meet, nor do 1 and 3
    let c = Grouping { about: "C", count: 4, v: 4, p: 1, objects: vec![0, 1, 1, 2, 2, 3, 3, 0], groups: vec![7, 200, 7, 200] };
    figures.same("C in opposite pairs", (c.has_even_groups(), c.counts()), (true, counts((0, 0), (0, 1))));
    figures.same("C in other pairs", labelled(&c, &[1, 1, 2, 2]).counts(), None);
    let all = Grouping { objects: [&c.objects[..], &[0, 2, 1, 3]].concat(), ..c.clone() };
    figures.same("C with the blocks of 0 | 2 and 1 | 3", all.counts(), counts((0, 1), (0, 1)));
    for (groups, even) in [(&[1, 1, 1, 1][..], false), (&[1, 1, 1, 2], false), (&[1, 2, 3, 4], false), (&[1, 2, 2, 1], true), (&[0, 255, 255, 0], true)] {
        figures.same("groups of one size of at least 2", labelled(&c, groups).has_even_groups(), even);
    }
    for (byte, stray) in [(4, Some(3)), (255, Some(3)), (1, Some(3)), (2, None), (0, None)] {
        let mut objects = c.objects.clone();
        objects[3] = byte;
        figures.same("an object in C", Grouping { objects, ..c.clone() }.first_stray(), stray);
    }
    let in_size = |(count, v, p): (usize, usize, usize)| Grouping { count, v, p, ..c.clone() }.in_size();
    figures.same("sizes", [(1, 2, 1), (1300, 50, 25), (4, 5, 2)].map(in_size), [true; 3]);
    let broken = [(0, 4, 1), (1301, 4, 1), (4, 51, 1), (4, 4, 0), (4, 4, 3), (4, 5, 3), (4, 4, 1 << 63)];
    figures.same("broken sizes", broken.map(in_size), [false; 7]);
    let mut seed = Seed::new(51, 0);
    let asked: Vec<bool> = (3..=50).flat_map(|v| groups::sizes(v, &mut seed).into_iter().map(move |g| groups::fits(g, v))).collect();
    figures.same("sizes of groups, too small, too large and neither", asked.iter().filter(|fits| **fits).count() * 8 > asked.len(), true);
    let mut often: BTreeMap<&str, usize> = BTreeMap::new();
    for grouping in (0..800).map(|_| groups::seeded(&mut seed)) {
        let whole = grouping.in_size() && grouping.objects.len() == 2 * grouping.p * grouping.count && grouping.groups.len() == grouping.v;
        let kind = match () {
            _ if !whole => "broken",
            _ if !grouping.has_even_groups() => "14",
            _ if grouping.first_stray().is_some() => "5",
            _ => match grouping.counts() {
                None => "6",
                Some(Counts { within: (_, 0), .. }) => "accepted, no opposition within groups",
                Some(Counts { within: (0, _), between: (0, _) }) => "accepted, no company",
                Some(_) => "accepted",
            },
        };
        *often.entry(kind).or_insert(0) += 1;
    }
    println!("grouped sets: {often:?}");
    figures.same("kinds of grouped sets", (often.len(), often.values().all(|count| *count >= 10)), (7, true));
}

/// Sheets of A, of E, which has no spread, and of a job whose spread is 0: right, and wrong in one place.
fn sheets(figures: &mut Figures) {
    let a = solve(&accepted("A"));
    let right = Sheet { about: "A", claims: vec![-30, 730, 190, 50, 510], has_spread: 1, spread: 2.23, freedom: 1 };
    let of_a = |change: &dyn Fn(&mut Sheet)| {
        let mut sheet = right.clone();
        change(&mut sheet);
        sheet.differs(&a)
    };
    figures.same("A agrees", of_a(&|_| {}), None);
    for object in 0..5 {
        figures.same("A, a hundredth too high", of_a(&|sheet| sheet.claims[object] += 1), Some(object));
        figures.same("A, a hundredth too low, and the last too", of_a(&|sheet| [object, 4].iter().for_each(|i| sheet.claims[*i] -= 1)), Some(object));
    }
    figures.same("A, an object below 0 with its sign turned", of_a(&|sheet| sheet.claims[0] = 30), Some(0));
    figures.same("A, by 2 to the power 32", of_a(&|sheet| sheet.claims[3] += 1 << 32), Some(3));
    figures.same("A, an object and the spread", of_a(&|sheet| (sheet.claims[4], sheet.has_spread) = (511, 0)), Some(4));
    for spread in [2.24, 2.22, 2.229_999_999_999_999_7, 2.230_000_000_000_000_4, -2.23, 223.0, 0.0, f64::NAN, f64::INFINITY] {
        figures.same("A, another spread", of_a(&|sheet| sheet.spread = spread), Some(5));
    }
    figures.same("A, degrees", [0, 2, 1 << 32 | 1].map(|freedom| of_a(&|sheet| sheet.freedom = freedom)), [Some(5); 3]);
    figures.same("A, none", of_a(&|sheet| sheet.has_spread = 0), Some(5));
    figures.same("A, a spread by any number but 0", of_a(&|sheet| sheet.has_spread = 7), None);
    let (e, zero) = (solve(&accepted("E")), solve(&accepted("end-spread-0")));
    let none = Sheet::right(&e);
    figures.same("E has none", (none.has_spread, none.differs(&e)), (0, None));
    figures.same("E, none beside any number", Sheet { spread: f64::NAN, freedom: 9, ..none.clone() }.differs(&e), None);
    figures.same("E, a spread of 0", Sheet { has_spread: 1, ..none }.differs(&e), Some(8));
    let still = Sheet::right(&zero);
    figures.same("a spread of 0", (still.has_spread, still.spread.to_bits(), still.differs(&zero)), (1, 0, None));
    figures.same("-0.0 is 0.0", Sheet { spread: -0.0, ..still.clone() }.differs(&zero), None);
    figures.same("the least number above 0", Sheet { spread: f64::from_bits(1), ..still.clone() }.differs(&zero), Some(5));
    figures.same("none for k 0", Sheet { has_spread: 0, ..still }.differs(&zero), Some(5));
    for (k, wanted) in [(223, 2.23), (0, 0.0), (1, 0.01), (20_784_609_690, 207_846_096.9), (54_849, 548.49)] {
        figures.same("a spread as a number", nearest_real(k, 100), wanted);
    }
    let each: Vec<Option<usize>> = sheet::each_object(&a).iter().map(|sheet| sheet.differs(&a)).collect();
    figures.same("each object in turn", each, (0..10).map(|sheet| Some(sheet / 2)).collect());
    // every way to be wrong differs somewhere, on some job that has a spread
    let mut seed = Seed::new(52, 0);
    let results: Vec<_> = ["A", "D", "F", "H", "J", "L"].map(|name| solve(&accepted(name))).into_iter().collect();
    for (about, wrong) in sheet::WRONG {
        let differs = results.iter().any(|results| {
            let mut sheet = Sheet::right(results);
            wrong(&mut sheet, &mut seed);
            sheet.claims.len() != results.hundredths.len() || sheet.differs(results).is_some()
        });
        figures.same(about, differs, about != "a spread by another number than 1");
    }
    let mut sheets = |results| sheet::sheets(results, 5, &mut seed).len();
    figures.same("nine sheets for a job, one for a refused one", [sheets(Some(&a)), sheets(None)], [9, 1]);
}

/// The generator from 0, its noise by hand; practice readings of A from 1, 2, 3, 4 and 5, whose left sums less right sums are 0, -5, 0, 5 and 0; the ranges.
fn practice(figures: &mut Figures) {
    let of = |truths: &[i32], start: u32, width: usize| Practice { truths: truths.to_vec(), start, width };
    let numbers: Vec<i128> = of(&[], 0, 0).numbers().take(6).collect();
    figures.same("from 0", numbers.clone(), vec![0x3C6E_F35F, 0x4750_2932, 0xD1CC_F6E9, 0xAAF9_5334, 0x6252_E503, 0x9F2E_C686]);
    figures.same("from the last number", of(&[], u32::MAX, 0).numbers().next(), Some(1_013_904_223 - 1_664_525));
    figures.same("from the fourth number", of(&[], 2_868_466_484, 0).numbers().next(), Some(1_649_599_747));
    let noise = |width: usize| numbers.iter().map(|number| of(&[], 0, width).noise(*number)).collect::<Vec<_>>();
    figures.same("width 8", noise(8), vec![0x3C - 128, 0x47 - 128, 0xD1 - 128, 0xAA - 128, 0x62 - 128, 0x9F - 128]);
    figures.same("width 4", noise(4), vec![3 - 8, 4 - 8, 13 - 8, 10 - 8, 6 - 8, 9 - 8]);
    figures.same("width 1", noise(1), vec![-1, -1, 0, 0, -1, 0]);
    figures.same("width 0", noise(0), vec![0; 6]);
    let a = accepted("A");
    let truths = [1, 2, 3, 4, 5];
    figures.same("A without noise", of(&truths, 77, 0).readings(&a.blocks), vec![0, -5, 0, 5, 0]);
    figures.same("A from 0, width 8", of(&truths, 0, 8).readings(&a.blocks), vec![-68, -62, 81, 47, -30]);
    let design = job::Draft { n: 5, flag: 0, p: 2, m: 1, objects: vec![1, 4, 2, 3], restraint: 3, sum: 0, readings: vec![] };
    let file = of(&truths, 9, 0).file(design.clone(), &a.blocks);
    figures.same("A without noise as a file", (file.len(), file[32], &file[36..44]), (56, 3, &[0, 0, 0, 0, 255, 255, 255, 251][..]));
    let published: Vec<i128> = solve(&job::read(&file).expect("a job")).hundredths;
    figures.same("A without noise: the true values", published, vec![100, 200, 300, 400, 500]);
    let wide: Vec<i32> = (0..26).map(|object| if object < 13 { 3_000 } else { -3_000 }).collect();
    let farthest = of(&wide, 1, 8).readings(&accepted("end-longest").blocks).iter().map(|reading| reading.abs()).max();
    figures.same("the farthest of 26 objects", farthest.is_some_and(|farthest| farthest <= 26 * 3_000 + 128), true);
    let ranges = [(3_000, 8), (-3_000, 0), (3_001, 0), (-3_001, 8), (0, 9), (i32::MIN, 1), (0, usize::MAX)];
    figures.same("ranges", ranges.map(|(truth, width)| of(&[0, truth], 0, width).in_range()), [true, true, false, false, false, false, false]);
    let mut seed = Seed::new(53, 0);
    let asked: Vec<Practice> = (0..200).map(|_| practice::seeded(5, &mut seed)).collect();
    let whole = |practice: &&Practice| practice.truths.len() == 5 && practice.in_range();
    let accepted = asked.iter().filter(whole).count();
    let often = [accepted, 200 - accepted, asked.iter().filter(whole).filter(|practice| practice.width == 0).count()];
    println!("practice: {often:?} right, wrong, right without noise");
    figures.same("kinds of practice", often.iter().all(|count| *count >= 20), true);
}

/// Pools by hand: one job and that job again, H twice, jobs with no degree of freedom, sums past a word; each refusal with its index; and the order of jobs.
fn pools(figures: &mut Figures) {
    let of = |files: &[Vec<u8>]| Pool::of("by hand", files).pooled();
    let refused = |pool: Pool| pool.pooled().err().map(|refusal| (refusal.number, refusal.index, refusal.place));
    let [a, b, e, h] = ["A", "B", "E", "H"].map(bytes_of);
    let wanted = |q: i128, scale: i128, freedom: i128, k: i128| Ok(Pooled { q, scale, freedom, spread: Some(k) });
    figures.same("A alone", of(&[a.clone()]), wanted(25, 5, 1, 223));
    figures.same("A twice", of(&[a.clone(), a.clone()]), wanted(50, 5, 2, 223));
    figures.same("A 64 times", of(&vec![a.clone(); 64]), wanted(1600, 5, 64, 223));
    let mut still = a.clone();
    still[36..].fill(0);
    figures.same("A and A with readings of 0", of(&[a.clone(), still.clone()]), wanted(25, 5, 2, 158));
    figures.same("the same in another order", of(&[still.clone(), a.clone()]), wanted(25, 5, 2, 158));
    figures.same("readings of 0", of(&[still]), wanted(0, 5, 1, 0));
    figures.same("H twice", of(&[h.clone(), h]), wanted(126_355_108, 14, 30, 54_849));
    figures.same("E twice", of(&[e.clone(), e.clone()]), Ok(Pooled { q: 0, scale: 8, freedom: 0, spread: None }));
    let pairs = |n, flag, copies| {
        let design = balanced::all_pairs(n, flag, copies);
        let readings = vec![1; design.m() * usize::from(n)];
        job::Draft { n, flag, p: 1, m: design.m() as u8, objects: design.objects, restraint: 3, sum: 0, readings }.file()
    };
    // every two of eight objects opposed: v and beta are those of E, four a side; 28 blocks
    figures.same("E and 28 pairs: another p, another f", of(&[e.clone(), pairs(7, 1, 1)]).map(|pooled| (pooled.scale, pooled.freedom)), Ok((8, 21)));
    figures.same("A, E", refused(Pool::of("", &[a.clone(), e.clone()])), Some((17, 1, 0)));
    figures.same("pairs of five objects once and twice", refused(Pool::of("", &[pairs(5, 0, 1), pairs(5, 0, 1), pairs(5, 0, 2)])), Some((17, 2, 0)));
    figures.same("A, E cut: E's own first", refused(Pool::of("", &[a.clone(), b.clone(), e[..9].to_vec()])), Some((1, 2, 7)));
    figures.same("A, nothing", refused(Pool::of("", &[a.clone(), vec![]])), Some((1, 1, 0)));
    figures.same("nothing, A", refused(Pool::of("", &[vec![], a.clone()])), Some((1, 0, 0)));
    figures.same("A, A and a byte", refused(Pool::of("", &[a.clone(), [&a[..], &[7]].concat()])), Some((9, 1, 56)));
    for (about, lengths) in [
        ("no jobs", vec![]),
        ("a byte too few", vec![56, 55]),
        ("a byte too many", vec![56, 57]),
        ("one length", vec![56]),
        ("lengths that wrap", vec![56 + (1 << 63), 56 + (1 << 63)]),
        ("lengths that wrap at 32 bits", vec![56 + (1 << 32), 56]),
        ("one below 0", vec![113, usize::MAX]),
        ("65 jobs", vec![1; 65]),
    ] {
        figures.same(about, refused(Pool::new("", a.repeat(2), lengths)), Some((18, 0, 0)));
    }
    figures.same("65 times A", refused(Pool::of("", &vec![a.clone(); 65])), Some((18, 0, 0)));
    figures.same("nothing at all", refused(Pool::new("", vec![], vec![])), Some((18, 0, 0)));
    figures.same("64 of nothing", refused(Pool::new("", vec![], vec![0; 64])), Some((1, 0, 0)));
    let [below, above] = ["end-q-below-a-word", "end-q-above-a-word"].map(|name| solve(&accepted(name)).q);
    let sum = of(&["end-q-below-a-word", "end-q-below-a-word", "end-q-above-a-word"].map(bytes_of)).map(|pooled| pooled.q);
    figures.same("sums past a word", sum, Ok(2 * below + above));
    let largest = Pool::of("", &vec![bytes_of("end-largest-q"); 64]).pooled().map(|pooled| (pooled.q, pooled.freedom));
    figures.same("64 times the largest Q", largest, Ok((64 * 70_304_000_000_000_000_000_000, 64 * 1275)));
    // the order of accepted jobs makes no difference; and seeded pools are of every kind
    let mut seed = Seed::new(54, 0);
    figures.same("pools beside a file", pooled::pools(&a, &mut seed)[0].pooled(), wanted(25, 5, 1, 223));
    let mut often: BTreeMap<&str, usize> = BTreeMap::new();
    for pool in (0..400).map(|_| pooled::seeded(&mut seed)) {
        let kind = match pool.pooled() {
            Ok(Pooled { spread: None, .. }) => "none",
            Ok(_) if pool.lengths.len() == 64 => "64 jobs",
            Ok(_) => "accepted",
            Err(refusal) => match refusal.number {
                17 => "17",
                18 => "18",
                _ if refusal.index > 0 => "a later job's own",
                _ => "the first job's own",
            },
        };
        *often.entry(kind).or_insert(0) += 1;
        if let (Ok(found), true) = (pool.pooled(), pool.lengths.len() < 9) {
            let mut rest = &pool.bytes[..];
            let mut files: Vec<Vec<u8>> = Vec::new();
            for length in &pool.lengths {
                let (file, after) = rest.split_at(*length);
                files.push(file.to_vec());
                rest = after;
            }
            files.rotate_left(1);
            figures.same("another order", of(&files), Ok(found));
        }
    }
    println!("pools: {often:?}");
    figures.same("kinds of pools", (often.len(), often.values().all(|count| *count >= 5)), (7, true));
}
