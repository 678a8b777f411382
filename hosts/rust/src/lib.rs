//! The mass bench for Rust: safe calls of the proved static library. The proved functions take every input, so no call here can fail but by a [`Refusal`].
//! What each answers is proved for the archive that tools/host-archive builds, for x86-64. What this crate adds is not proved: the lines of [`calls`], with the
//! one `unsafe` of the crate, lend slices to the archive; the functions here hand back what it lays into them.
//!
//! Example A of the request: five objects in five blocks, objects 0 and 1 restrained to 7 counts together.
//!
//! ```
//! use mass_bench::{analyse, Head};
//! let head = Head { n: 5, flag: 0, p: 2, m: 1 };
//! let job = analyse(head, &[1, 4, 2, 3], &[11, -3, 4, 1, -8], 0b11, 7)?;
//! assert_eq!((job.values[1], job.solved.denominator), (73, 10));
//! assert_eq!(job.solved.spreading.spread.unwrap().hundredths, 223);
//! # Ok::<(), mass_bench::Refusal>(())
//! ```
//!
//! Calls may be made from several threads. Of the stack a call takes at most 122 KB, [`grouped`] the most, so a thread that makes calls needs about
//! 127 KB (hosts/bench.h has the figure of each, tests/stack measures them); that is measured, not proved. What the functions here add is little, but for [`company`] and
//! [`opposition`], which hand back a table of 20 KB. A thread of the standard library has 2 MB unless it is told otherwise.

// `unsafe` stands in one module: `forbid` could not be lifted for it.
#![deny(unsafe_code)]
#![warn(missing_docs)]

#[allow(unsafe_code)]
pub mod calls;

use std::fmt;

// Room that is enough for every job, as in hosts/bench.h.
/// The words of the most blocks, two of each.
pub const WORDS: usize = 2600;
/// The values of the most objects.
pub const VALUES: usize = 50;
/// The deviations of the most blocks.
pub const DEVIATIONS: usize = 1300;
/// The bytes of the longest job file.
pub const FILE: usize = 6584;
/// The bytes of the longest job file of the second edition.
pub const FILE_SECOND: usize = 16384;
/// Bytes enough for the text of every job.
pub const TEXT: usize = 65536;
/// Room that is enough for every certificate.
pub const CERTIFICATE: usize = 8192;

// The one table of the reasons: what is named, by which number of the request's table, and in which words (README.md).
macro_rules! reasons {
    ($($name:ident = $number:literal $words:literal,)*) => {
        /// Why a call refuses, by the number of the request's table.
        #[derive(Debug, Clone, Copy, PartialEq, Eq)]
        #[non_exhaustive]
        pub enum Reason {
            $(#[doc = concat!($number, ": ", $words, ".")] $name,)*
            /// A number that this crate has no name for: the archive is of another version.
            Number(u8),
        }

        impl Reason {
            /// The number of the request's table.
            pub fn number(self) -> u8 {
                match self {
                    $(Reason::$name => $number,)*
                    Reason::Number(number) => number,
                }
            }

            /// That number in words.
            ///
            /// ```
            /// assert_eq!(mass_bench::solve(&[]).unwrap_err().reason.words(), "a field's three-byte start or its body runs past the end");
            /// ```
            pub fn words(self) -> &'static str {
                match self {
                    $(Reason::$name => $words,)*
                    Reason::Number(_) => "a number of another version of the library",
                }
            }

            fn of(number: u8) -> Reason {
                match number {
                    $($number => Reason::$name,)*
                    _ => Reason::Number(number),
                }
            }
        }
    };
}

reasons! {
    PastTheEnd = 1 "a field's three-byte start or its body runs past the end",
    WrongTag = 2 "another tag stands there",
    WrongLength = 3 "the length is not the one required",
    BrokenSize = 4 "a size is broken",
    BadObject = 5 "an object is out of range, is ∞ with flag 0 or 2, or was already in its block",
    Unbalanced = 6 "the developed design is unbalanced",
    BadRestraint = 7 "the restraint set is empty or has a bit at v or above, or the sum is out of range",
    BadReading = 8 "a reading is out of range",
    BytesFollow = 9 "bytes follow the fourth field",
    NoRoom = 10 "a lent buffer is too short",
    OneStandard = 11 "the restraint has one object: a bad standard would shift the whole set and show nowhere",
    WrongEdition = 12 "the edition is not 2",
    OptionalFields = 13 "a file of the second edition that is moved to the first has an optional field",
    BadGroups = 14 "groups: g is below 2 or g·v above 50; there are fewer than two groups, or they are not of one size of at least 2",
    WrongClaims = 15 "the claims of a sheet are not one for each object",
    BadPractice = 16 "a true value or the width of practice readings is out of range",
    UnlikeJobs = 17 "a job that is pooled has another v or beta than job 0",
    BadLengths = 18 "no jobs to pool, more than 64, or lengths that do not add to the bytes lent",
}

/// A refusal: its reason, and its place in the file, or, in a call that takes no file, the index in its slice or the number that was asked for, modulo 2^48.
#[derive(Debug, Clone, Copy, PartialEq, Eq)]
pub struct Refusal {
    /// Why.
    pub reason: Reason,
    /// The job that [`pool`] refuses, counted from 0; none where the pool itself is refused, by 18, and in every other call.
    pub job: Option<u8>,
    /// Where.
    pub place: u64,
}

impl fmt::Display for Refusal {
    /// The line that the bench prints, and of a pool which job is refused.
    ///
    /// ```
    /// # use mass_bench::{pool, solve};
    /// assert_eq!(solve(&[1]).unwrap_err().to_string(), "refused 1 0");
    /// assert_eq!(pool(&[&[1]]).unwrap_err().to_string(), "refused 1 0 in job 0");
    /// assert_eq!(pool(&[]).unwrap_err().to_string(), "refused 18 0");
    /// ```
    fn fmt(&self, f: &mut fmt::Formatter) -> fmt::Result {
        write!(f, "refused {} {}", self.reason.number(), self.place)?;
        match self.job {
            Some(job) => write!(f, " in job {job}"),
            None => Ok(()),
        }
    }
}

impl std::error::Error for Refusal {}

/// The refusal in what one of the [`calls`] returned, if there is one. The index 0 is there that of job 0 of a pool, and of no job: it is taken for none.
pub fn refusal_in(returned: u64) -> Result<(), Refusal> {
    let job = Some((returned >> 8) as u8).filter(|index| *index > 0);
    match returned {
        0 => Ok(()),
        _ => Err(Refusal { reason: Reason::of(returned as u8), job, place: returned >> 16 }),
    }
}

/// The sizes of a design: elements, flag, objects a side, initial blocks. With the flags 1 and 3 the fixed object takes part; with 2 and 3 blocks are
/// developed by the addition of the field of n elements, n one of 8, 9, 16, 25, 27, 32, 49: an element is its base-q digits packed into a number, the
/// lowest first, and each two digits are added modulo q.
/// ```
/// # use mass_bench::*;
/// let nine = Head { n: 9, flag: 2, p: 4, m: 1 };
/// let design = judge(nine, &[1, 7, 2, 5, 3, 8, 6, 4])?;
/// assert_eq!((design.l1, design.l2), (3, 4));
/// assert_eq!(judge(Head { flag: 0, ..nine }, &[1, 7, 2, 5, 3, 8, 6, 4]).unwrap_err().reason, Reason::Unbalanced);
/// # Ok::<(), Refusal>(())
/// ```
#[derive(Debug, Clone, Copy, PartialEq, Eq)]
pub struct Head {
    /// Elements.
    pub n: usize,
    /// How shifts are added, and whether the fixed object takes part.
    pub flag: usize,
    /// Objects a side.
    pub p: usize,
    /// Initial blocks.
    pub m: usize,
}

impl Head {
    // The objects and the blocks of an accepted head.
    fn objects(self) -> usize {
        self.n + self.flag % 2
    }

    fn blocks(self) -> usize {
        self.m * self.n
    }
}

/// A pair table: row i, column j.
pub type Table = [[u64; 50]; 50];

/// The parameters of a balanced design; `l1` and `l2` are the paper's two lambdas.
#[derive(Debug, Clone, Copy, PartialEq, Eq)]
pub struct Parameters {
    /// Objects.
    pub v: u64,
    /// Blocks.
    pub b: u64,
    /// Blocks in which each object stands.
    pub r: u64,
    /// Objects a side.
    pub p: u64,
    /// Blocks in which two objects share a side.
    pub l1: u64,
    /// Blocks in which two objects oppose.
    pub l2: u64,
}

/// The value of one object: a fraction that is not reduced, its published hundredths of a count, as [`published`] has them, and its f64; and its variance factor.
#[derive(Debug, Clone, Copy, PartialEq)]
pub struct Value {
    /// Of the value.
    pub numerator: i64,
    /// Of the value and of the factor.
    pub denominator: u64,
    /// Published, in hundredths of a count.
    pub hundredths: i64,
    /// The value as an f64.
    pub value: f64,
    /// The numerator of the variance factor, over the same denominator: t - 1 for a member of the restraint, t + 1 for any other object. The factor is the sum of
    /// the squares of the coefficients with which the readings enter the value.
    pub factor: u64,
    /// The factor as an f64.
    pub factor_value: f64,
}

impl Value {
    /// The standard deviation of this value, in counts: the spread of the readings times the root of the variance factor. None where there is no spread.
    ///
    /// This is computed here in floating point, and not proved. What is proved is what it is made from: the spread, cut to hundredths of a count, and the factor;
    /// and [`uncertainty_of`], in whole hundredths of a count.
    ///
    /// ```
    /// # use mass_bench::{spread, value_of, Head};
    /// let (head, blocks, readings) = (Head { n: 5, flag: 0, p: 2, m: 1 }, [1, 4, 2, 3], [11, -3, 4, 1, -8]);
    /// let spread = spread(head, &blocks, &readings)?.spread;
    /// let standard_deviation = |object| value_of(head, &blocks, &readings, 0b11, 7, object).map(|value| value.standard_deviation(spread).unwrap());
    /// assert_eq!(format!("{:.4} {:.4}", standard_deviation(1)?, standard_deviation(2)?), "0.7052 1.2214");
    /// # Ok::<(), mass_bench::Refusal>(())
    /// ```
    pub fn standard_deviation(&self, spread: Option<Spread>) -> Option<f64> {
        spread.map(|spread| spread.value * self.factor_value.sqrt())
    }
}

/// The standard uncertainty of a value, in whole hundredths of a count and as an f64.
#[derive(Debug, Clone, Copy, PartialEq)]
pub struct Uncertainty {
    /// Hundredths of a count.
    pub hundredths: u64,
    /// In counts.
    pub value: f64,
}

/// The deviation of one block: a fraction that is not reduced.
#[derive(Debug, Clone, Copy, PartialEq, Eq)]
pub struct Deviation {
    /// Of the deviation.
    pub numerator: i64,
    /// Of the deviation: v·beta.
    pub denominator: u64,
}

/// The spread, in whole hundredths of a count and as an f64.
#[derive(Debug, Clone, Copy, PartialEq)]
pub struct Spread {
    /// In whole hundredths of a count.
    pub hundredths: u64,
    /// In counts.
    pub value: f64,
}

/// The spread with what it is made from.
#[derive(Debug, Clone, Copy, PartialEq)]
pub struct Spreading {
    /// v·beta times the sum of squared deviations.
    pub q: u128,
    /// The denominator of every deviation.
    pub vbeta: u64,
    /// Degrees of freedom.
    pub freedom: u64,
    /// None where there is no degree of freedom.
    pub spread: Option<Spread>,
}

/// What a job comes to, beside its words, values and deviations.
#[derive(Debug, Clone, Copy, PartialEq)]
pub struct Solved {
    /// Of the design.
    pub parameters: Parameters,
    /// The denominator of every value.
    pub denominator: u64,
    /// The spread with what it is made from.
    pub spreading: Spreading,
}

/// A job worked out.
#[derive(Debug, Clone, PartialEq)]
pub struct Job {
    /// What the job comes to.
    pub solved: Solved,
    /// Left word, right word, block after block: one bit an object.
    pub words: Vec<u64>,
    /// The numerator of each object's value.
    pub values: Vec<i64>,
    /// The numerator of each block's deviation.
    pub deviations: Vec<i64>,
}

/// A field of a file: where its body starts, and the byte after it.
#[derive(Debug, Clone, Copy, PartialEq, Eq)]
pub struct Field {
    /// Where the body starts.
    pub body: usize,
    /// The byte after it.
    pub next: usize,
}

/// What a job file holds: its head, the bytes at which its initial blocks and its readings start, its restraint set with the accepted sum.
#[derive(Debug, Clone, Copy, PartialEq, Eq)]
pub struct JobRead {
    /// The sizes.
    pub head: Head,
    /// The byte at which the initial blocks start.
    pub blocks_at: usize,
    /// The byte at which the readings start.
    pub readings_at: usize,
    /// The restraint set: bit i is object i.
    pub set: u64,
    /// Its accepted sum.
    pub sum: i64,
}

/// What a file of the second edition holds: its job, places in this file, and the names of its objects, none or one for each.
#[derive(Debug, Clone, PartialEq, Eq)]
pub struct SecondRead {
    /// The job.
    pub job: JobRead,
    /// None, or one for each object.
    pub names: Vec<Name>,
}

/// The name of a weight, as it stands in a file: eight bytes, filled with spaces.
#[derive(Debug, Clone, Copy, PartialEq, Eq)]
pub struct Name(pub [u8; 8]);

impl fmt::Display for Name {
    /// For people: what is no text is replaced, and spaces at the end are cut.
    ///
    /// ```
    /// use mass_bench::Name;
    /// assert_eq!(Name(*b"1 kg a  ").to_string(), "1 kg a");
    /// assert_eq!(Name(*b"\xFFkg     ").to_string(), "\u{FFFD}kg");
    /// ```
    fn fmt(&self, f: &mut fmt::Formatter) -> fmt::Result {
        f.write_str(String::from_utf8_lossy(&self.0).trim_end_matches(' '))
    }
}

// ---- designs

/// Whether a block list can be developed. `blocks` has the initial blocks, each `p` left objects, then `p` right ones; 255 is the fixed object.
///
/// ```
/// use mass_bench::{pairs_refusal, Head, Reason};
/// let four = Head { n: 4, flag: 0, p: 1, m: 1 };
/// assert!(pairs_refusal(four, &[0, 1]).is_ok());
/// assert_eq!(pairs_refusal(four, &[0, 4]).unwrap_err().reason, Reason::BadObject);
/// ```
pub fn pairs_refusal(head: Head, blocks: &[u8]) -> Result<(), Refusal> {
    let Head { n, flag, p, m } = head;
    refusal_in(calls::pairs_refusal(n, flag, p, m, blocks))
}

/// The words of every block: left word, right word, next shift, one bit an object. The fixed object is bit `n`.
///
/// ```
/// # use mass_bench::{develop, Head};
/// let words = develop(Head { n: 5, flag: 0, p: 2, m: 1 }, &[1, 4, 2, 3])?;
/// assert_eq!((words.len(), words[0], words[1]), (10, 0b10010, 0b01100));
/// # Ok::<(), mass_bench::Refusal>(())
/// ```
pub fn develop(head: Head, blocks: &[u8]) -> Result<Vec<u64>, Refusal> {
    let Head { n, flag, p, m } = head;
    let mut words = vec![0; WORDS];
    refusal_in(calls::develop(n, flag, p, m, blocks, &mut words))?;
    words.truncate(2 * head.blocks());
    Ok(words)
}

/// The words of the blocks that initial block `j` is developed into.
///
/// ```
/// # use mass_bench::{develop_initial, Head, Reason};
/// let head = Head { n: 4, flag: 0, p: 1, m: 2 };
/// assert_eq!(develop_initial(head, &[0, 1, 0, 2], 1)?[..2], [0b0001, 0b0100]);
/// assert_eq!(develop_initial(head, &[0, 1, 0, 2], 2).unwrap_err().place, 2);
/// # Ok::<(), mass_bench::Refusal>(())
/// ```
pub fn develop_initial(head: Head, blocks: &[u8], j: usize) -> Result<Vec<u64>, Refusal> {
    let Head { n, flag, p, m } = head;
    let mut words = vec![0; WORDS];
    refusal_in(calls::develop_initial(n, flag, p, m, blocks, j, &mut words))?;
    Ok(words[2 * n * j..2 * n * (j + 1)].to_vec())
}

/// In how many blocks two objects share a side; on the diagonal, in how many an object stands. Balance is not asked.
///
/// ```
/// # use mass_bench::{company, Head};
/// let table = company(Head { n: 5, flag: 0, p: 2, m: 1 }, &[1, 4, 2, 3])?;
/// assert_eq!((table[0][0], table[0][1]), (4, 1));
/// # Ok::<(), mass_bench::Refusal>(())
/// ```
pub fn company(head: Head, blocks: &[u8]) -> Result<Table, Refusal> {
    table(head, blocks, calls::company)
}

/// In how many blocks two objects stand on opposite sides. Balance is not asked.
///
/// ```
/// # use mass_bench::{opposition, Head};
/// let table = opposition(Head { n: 5, flag: 0, p: 2, m: 1 }, &[1, 4, 2, 3])?;
/// assert_eq!((table[0][0], table[0][1]), (0, 2));
/// # Ok::<(), mass_bench::Refusal>(())
/// ```
pub fn opposition(head: Head, blocks: &[u8]) -> Result<Table, Refusal> {
    table(head, blocks, calls::opposition)
}

fn table(head: Head, blocks: &[u8], call: fn(usize, usize, usize, usize, &[u8], &mut [u64]) -> u64) -> Result<Table, Refusal> {
    let Head { n, flag, p, m } = head;
    let mut table = [[0; 50]; 50];
    refusal_in(call(n, flag, p, m, blocks, table.as_flattened_mut()))?;
    Ok(table)
}

/// Judges whether a design is balanced.
///
/// ```
/// # use mass_bench::{judge, Head, Reason};
/// let a = judge(Head { n: 5, flag: 0, p: 2, m: 1 }, &[1, 4, 2, 3])?;
/// assert_eq!((a.v, a.b, a.r, a.p, a.l1, a.l2), (5, 5, 4, 2, 1, 2));
/// let c = judge(Head { n: 4, flag: 0, p: 1, m: 1 }, &[0, 1]);
/// assert_eq!(c.unwrap_err().reason, Reason::Unbalanced);
/// # Ok::<(), mass_bench::Refusal>(())
/// ```
pub fn judge(head: Head, blocks: &[u8]) -> Result<Parameters, Refusal> {
    let Head { n, flag, p, m } = head;
    let mut answer = [0; 6];
    refusal_in(calls::judge(n, flag, p, m, blocks, &mut answer))?;
    Ok(parameters(answer))
}

/// The same judgement by the differences of the initial blocks, with no block developed. A whole job is judged so.
///
/// ```
/// # use mass_bench::{judge, judge_by_differences, Head};
/// let (head, blocks) = (Head { n: 7, flag: 1, p: 4, m: 1 }, [255, 1, 2, 4, 0, 3, 5, 6]);
/// assert_eq!(judge_by_differences(head, &blocks), judge(head, &blocks));
/// ```
pub fn judge_by_differences(head: Head, blocks: &[u8]) -> Result<Parameters, Refusal> {
    let Head { n, flag, p, m } = head;
    let mut answer = [0; 6];
    refusal_in(calls::judge_by_differences(n, flag, p, m, blocks, &mut answer))?;
    Ok(parameters(answer))
}

// ---- jobs: a design with its readings in development order, a restraint set (bit i is object i, two objects at least) and its accepted sum

/// The total of one object: the readings with it on the left less those with it on the right. Balance is not asked.
///
/// ```
/// # use mass_bench::{total, Head};
/// assert_eq!(total(Head { n: 5, flag: 0, p: 2, m: 1 }, &[1, 4, 2, 3], &[11, -3, 4, 1, -8], 0), Ok(-16));
/// ```
pub fn total(head: Head, blocks: &[u8], readings: &[i32], object: usize) -> Result<i64, Refusal> {
    let Head { n, flag, p, m } = head;
    let mut total = [0];
    refusal_in(calls::total(n, flag, p, m, blocks, readings, object, &mut total))?;
    Ok(total[0])
}

/// The sum of the squared readings.
///
/// ```
/// # use mass_bench::{sum_of_squares, Head};
/// assert_eq!(sum_of_squares(Head { n: 5, flag: 0, p: 2, m: 1 }, &[11, -3, 4, 1, -8]), Ok(211));
/// ```
pub fn sum_of_squares(head: Head, readings: &[i32]) -> Result<u128, Refusal> {
    let Head { n, flag, p, m } = head;
    let mut answer = [0; 2];
    refusal_in(calls::sum_of_squares(n, flag, p, m, readings, &mut answer))?;
    Ok(wide(answer))
}

/// The sum of the squared totals. Balance is not asked.
///
/// ```
/// # use mass_bench::{sum_of_squared_totals, Head};
/// assert_eq!(sum_of_squared_totals(Head { n: 5, flag: 0, p: 2, m: 1 }, &[1, 4, 2, 3], &[11, -3, 4, 1, -8]), Ok(1030));
/// ```
pub fn sum_of_squared_totals(head: Head, blocks: &[u8], readings: &[i32]) -> Result<u128, Refusal> {
    let Head { n, flag, p, m } = head;
    let mut answer = [0; 2];
    refusal_in(calls::sum_of_squared_totals(n, flag, p, m, blocks, readings, &mut answer))?;
    Ok(wide(answer))
}

/// Whether a whole job is accepted.
///
/// ```
/// # use mass_bench::{refusal, Head, Reason};
/// let a = Head { n: 5, flag: 0, p: 2, m: 1 };
/// assert!(refusal(a, &[1, 4, 2, 3], &[11, -3, 4, 1, -8], 0b11, 7).is_ok());
/// assert_eq!(refusal(a, &[1, 4, 2, 3], &[11, -3, 4, 1, -8], 0, 7).unwrap_err().reason, Reason::BadRestraint);
/// assert_eq!(refusal(a, &[1, 4, 2, 3], &[11, -3, 4, 1, -8], 0b1, 7).unwrap_err().reason, Reason::OneStandard);
/// ```
pub fn refusal(head: Head, blocks: &[u8], readings: &[i32], set: u64, sum: i64) -> Result<(), Refusal> {
    let Head { n, flag, p, m } = head;
    refusal_in(calls::refusal(n, flag, p, m, blocks, readings, set, sum))
}

/// The numerators of the values of all objects.
///
/// ```
/// # use mass_bench::{values, Head};
/// let values = values(Head { n: 5, flag: 0, p: 2, m: 1 }, &[1, 4, 2, 3], &[11, -3, 4, 1, -8], 0b11, 7)?;
/// assert_eq!(values, [-3, 73, 19, 5, 51]);
/// # Ok::<(), mass_bench::Refusal>(())
/// ```
pub fn values(head: Head, blocks: &[u8], readings: &[i32], set: u64, sum: i64) -> Result<Vec<i64>, Refusal> {
    let Head { n, flag, p, m } = head;
    let mut values = vec![0; VALUES];
    refusal_in(calls::values(n, flag, p, m, blocks, readings, set, sum, &mut values))?;
    values.truncate(head.objects());
    Ok(values)
}

/// The value of one object, with its variance factor.
///
/// ```
/// # use mass_bench::{value_of, Head};
/// let value = value_of(Head { n: 5, flag: 0, p: 2, m: 1 }, &[1, 4, 2, 3], &[11, -3, 4, 1, -8], 0b11, 7, 1)?;
/// assert_eq!((value.numerator, value.denominator, value.hundredths, value.value), (73, 10, 730, 7.3));
/// assert_eq!((value.factor, value.factor_value), (1, 0.1));
/// # Ok::<(), mass_bench::Refusal>(())
/// ```
pub fn value_of(head: Head, blocks: &[u8], readings: &[i32], set: u64, sum: i64, object: usize) -> Result<Value, Refusal> {
    let Head { n, flag, p, m } = head;
    let (mut signed, mut answer, mut real) = ([0; 2], [0; 2], [0.0; 2]);
    refusal_in(calls::value_of(n, flag, p, m, blocks, readings, set, sum, object, &mut signed, &mut answer, &mut real))?;
    let ([numerator, hundredths], [denominator, factor], [value, factor_value]) = (signed, answer, real);
    Ok(Value { numerator, denominator, hundredths, value, factor, factor_value })
}

/// The standard uncertainty of one object, which a certificate states: the least whole number of hundredths of a count that is not below 100 times the exact
/// standard deviation of a reading times the root of the variance factor, so that it is never understated. None where there is no degree of freedom.
///
/// ```
/// # use mass_bench::{uncertainty_of, Head, Uncertainty};
/// let of = |object| uncertainty_of(Head { n: 5, flag: 0, p: 2, m: 1 }, &[1, 4, 2, 3], &[11, -3, 4, 1, -8], 0b11, 7, object);
/// assert_eq!(of(1)?, Some(Uncertainty { hundredths: 71, value: 0.71 }));
/// assert_eq!(of(2)?, Some(Uncertainty { hundredths: 123, value: 1.23 }));
/// # Ok::<(), mass_bench::Refusal>(())
/// ```
pub fn uncertainty_of(head: Head, blocks: &[u8], readings: &[i32], set: u64, sum: i64, object: usize) -> Result<Option<Uncertainty>, Refusal> {
    let Head { n, flag, p, m } = head;
    let (mut answer, mut real) = ([0; 2], [0.0]);
    refusal_in(calls::uncertainty_of(n, flag, p, m, blocks, readings, set, sum, object, &mut answer, &mut real))?;
    let ([hundredths, stated], [value]) = (answer, real);
    Ok((stated == 1).then_some(Uncertainty { hundredths, value }))
}

/// The published hundredths of a count of all objects. Members of the restraint have the whole number at or below 100 times their value, and what then lacks
/// to 100 times the accepted sum is given out one hundredth each, to the largest fractional parts first, the lowest object first among equals: so their column
/// adds up. The other objects have the nearest whole number, an exact half the even one.
///
/// ```
/// # use mass_bench::{published, Head};
/// let thirds = published(Head { n: 3, flag: 0, p: 1, m: 1 }, &[0, 1], &[0, 0, 0], 0b111, 1)?;
/// assert_eq!(thirds, [34, 33, 33]);
/// # Ok::<(), mass_bench::Refusal>(())
/// ```
pub fn published(head: Head, blocks: &[u8], readings: &[i32], set: u64, sum: i64) -> Result<Vec<i64>, Refusal> {
    let Head { n, flag, p, m } = head;
    let mut hundredths = vec![0; VALUES];
    refusal_in(calls::published(n, flag, p, m, blocks, readings, set, sum, &mut hundredths))?;
    hundredths.truncate(head.objects());
    Ok(hundredths)
}

/// The numerators of the deviations of all blocks.
///
/// ```
/// # use mass_bench::{deviations, Head};
/// let deviations = deviations(Head { n: 5, flag: 0, p: 2, m: 1 }, &[1, 4, 2, 3], &[11, -3, 4, 1, -8])?;
/// assert_eq!(deviations, [5, 5, 5, 5, 5]);
/// # Ok::<(), mass_bench::Refusal>(())
/// ```
pub fn deviations(head: Head, blocks: &[u8], readings: &[i32]) -> Result<Vec<i64>, Refusal> {
    let Head { n, flag, p, m } = head;
    let mut deviations = vec![0; DEVIATIONS];
    refusal_in(calls::deviations(n, flag, p, m, blocks, readings, &mut deviations))?;
    deviations.truncate(head.blocks());
    Ok(deviations)
}

/// The deviation of one block.
///
/// ```
/// # use mass_bench::{deviation_of, Deviation, Head};
/// let deviation = deviation_of(Head { n: 5, flag: 0, p: 2, m: 1 }, &[1, 4, 2, 3], &[11, -3, 4, 1, -8], 4);
/// assert_eq!(deviation, Ok(Deviation { numerator: 5, denominator: 5 }));
/// ```
pub fn deviation_of(head: Head, blocks: &[u8], readings: &[i32], block: usize) -> Result<Deviation, Refusal> {
    let Head { n, flag, p, m } = head;
    let (mut signed, mut answer) = ([0], [0]);
    refusal_in(calls::deviation_of(n, flag, p, m, blocks, readings, block, &mut signed, &mut answer))?;
    Ok(Deviation { numerator: signed[0], denominator: answer[0] })
}

/// Q: v·beta times the sum of squared deviations.
///
/// ```
/// # use mass_bench::{q, Head};
/// assert_eq!(q(Head { n: 5, flag: 0, p: 2, m: 1 }, &[1, 4, 2, 3], &[11, -3, 4, 1, -8]), Ok(25));
/// ```
pub fn q(head: Head, blocks: &[u8], readings: &[i32]) -> Result<u128, Refusal> {
    let Head { n, flag, p, m } = head;
    let mut answer = [0; 2];
    refusal_in(calls::q(n, flag, p, m, blocks, readings, &mut answer))?;
    Ok(wide(answer))
}

/// The spread, with what it is made from.
///
/// ```
/// # use mass_bench::{spread, Head, Spread};
/// let spreading = spread(Head { n: 5, flag: 0, p: 2, m: 1 }, &[1, 4, 2, 3], &[11, -3, 4, 1, -8])?;
/// assert_eq!((spreading.q, spreading.vbeta, spreading.freedom), (25, 5, 1));
/// assert_eq!(spreading.spread, Some(Spread { hundredths: 223, value: 2.23 }));
/// # Ok::<(), mass_bench::Refusal>(())
/// ```
pub fn spread(head: Head, blocks: &[u8], readings: &[i32]) -> Result<Spreading, Refusal> {
    let Head { n, flag, p, m } = head;
    let (mut answer, mut real) = ([0; 6], [0.0]);
    refusal_in(calls::spread(n, flag, p, m, blocks, readings, &mut answer, &mut real))?;
    Ok(spreading(answer, real))
}

/// Everything at once: words, values, deviations and spread, the design judged once. For an example see the crate's first page.
pub fn analyse(head: Head, blocks: &[u8], readings: &[i32], set: u64, sum: i64) -> Result<Job, Refusal> {
    let Head { n, flag, p, m } = head;
    worked_out(|words, values, deviations, answer, real| calls::analyse(n, flag, p, m, blocks, readings, set, sum, words, values, deviations, answer, real))
}

// ---- files

/// The field at a place of some bytes, by its tag and the length that its body must have.
///
/// ```
/// # use mass_bench::{field_at, Field, Reason};
/// let file = [1, 0, 4, 5, 0, 2, 1];
/// assert_eq!(field_at(&file, 0, 1, 4), Ok(Field { body: 3, next: 7 }));
/// assert_eq!(field_at(&file, 7, 2, 4).unwrap_err().reason, Reason::PastTheEnd);
/// ```
pub fn field_at(bytes: &[u8], place: usize, tag: u8, length: usize) -> Result<Field, Refusal> {
    let mut answer = [0; 2];
    refusal_in(calls::field_at(bytes, place, tag, length, &mut answer))?;
    Ok(Field { body: answer[0] as usize, next: answer[1] as usize })
}

/// Reads a job file.
///
/// ```
/// # use mass_bench::{read, write, Head};
/// let head = Head { n: 5, flag: 0, p: 2, m: 1 };
/// let job = read(&write(head, &[1, 4, 2, 3], 0b11, 7, &[11, -3, 4, 1, -8])?)?;
/// assert_eq!((job.head, job.blocks_at, job.readings_at, job.set, job.sum), (head, 10, 36, 3, 7));
/// # Ok::<(), mass_bench::Refusal>(())
/// ```
pub fn read(bytes: &[u8]) -> Result<JobRead, Refusal> {
    let (mut signed, mut answer) = ([0], [0; 7]);
    refusal_in(calls::read(bytes, &mut signed, &mut answer))?;
    let [n, flag, p, m, blocks_at, readings_at] = [0, 1, 2, 3, 4, 5].map(|slot| answer[slot] as usize);
    Ok(JobRead { head: Head { n, flag, p, m }, blocks_at, readings_at, set: answer[6], sum: signed[0] })
}

/// Works a job file out.
///
/// ```
/// # use mass_bench::{solve, write, Head};
/// let job = solve(&write(Head { n: 5, flag: 0, p: 2, m: 1 }, &[1, 4, 2, 3], 0b11, 7, &[11, -3, 4, 1, -8])?)?;
/// assert_eq!((job.values, job.solved.denominator), (vec![-3, 73, 19, 5, 51], 10));
/// # Ok::<(), mass_bench::Refusal>(())
/// ```
pub fn solve(bytes: &[u8]) -> Result<Job, Refusal> {
    worked_out(|words, values, deviations, answer, real| calls::solve(bytes, words, values, deviations, answer, real))
}

/// Writes the file of a job. A job has one file: what is read from it is the job again, and no other bytes read as the same job.
///
/// ```
/// # use mass_bench::{write, Head};
/// let file = write(Head { n: 5, flag: 0, p: 2, m: 1 }, &[1, 4, 2, 3], 0b11, 7, &[11, -3, 4, 1, -8])?;
/// assert_eq!((file.len(), &file[..7]), (56, &[1, 0, 4, 5, 0, 2, 1][..]));
/// # Ok::<(), mass_bench::Refusal>(())
/// ```
pub fn write(head: Head, blocks: &[u8], set: u64, sum: i64, readings: &[i32]) -> Result<Vec<u8>, Refusal> {
    let Head { n, flag, p, m } = head;
    let (mut file, mut answer) = (vec![0; FILE], [0]);
    refusal_in(calls::write(n, flag, p, m, blocks, set, sum, readings, &mut file, &mut answer))?;
    file.truncate(answer[0] as usize);
    Ok(file)
}

/// The text that the bench prints for a job file: its listing, or the line of its refusal. With [`TEXT`] bytes of room it is never refused.
///
/// ```
/// assert_eq!(mass_bench::listing(&[]), Ok("refused 1 0\n".to_string()));
/// ```
pub fn listing(bytes: &[u8]) -> Result<String, Refusal> {
    let (mut out, mut answer) = (vec![0; TEXT], [0]);
    refusal_in(calls::listing(bytes, &mut out, &mut answer))?;
    out.truncate(answer[0] as usize);
    Ok(String::from_utf8(out).expect("a listing is ASCII"))
}

/// The certificate of a job file, a text of fixed width: the design, for each weight whether it is a standard, its value and its standard uncertainty in
/// counts, the sum over the standards beside M, and the spread; or the line of its refusal. With [`CERTIFICATE`] bytes of room it is never refused.
///
/// ```
/// # use mass_bench::{certificate, write, Head};
/// let file = write(Head { n: 5, flag: 0, p: 2, m: 1 }, &[1, 4, 2, 3], 0b11, 7, &[11, -3, 4, 1, -8])?;
/// let weights = certificate(&file)?.lines().skip(3).take(5).map(|line| line[51..].split_whitespace().collect::<Vec<_>>().join(" ")).collect::<Vec<_>>();
/// assert_eq!(weights, ["-0.30 0.71", "7.30 0.71", "1.90 1.23", "0.50 1.23", "5.10 1.23"]);
/// # Ok::<(), mass_bench::Refusal>(())
/// ```
pub fn certificate(bytes: &[u8]) -> Result<String, Refusal> {
    let out = put(CERTIFICATE, |out, answer| calls::certificate(bytes, out, answer))?;
    Ok(String::from_utf8(out).expect("a certificate is ASCII"))
}

/// The card of a job file: the text from which the same job is read, a line for each thing; or the line of its refusal. With [`TEXT`] bytes of room it is
/// never refused.
///
/// ```
/// # use mass_bench::{card, write, Head};
/// let file = write(Head { n: 5, flag: 0, p: 2, m: 1 }, &[1, 4, 2, 3], 0b11, 7, &[11, -3, 4, 1, -8])?;
/// assert_eq!(card(&file)?, "residues 5\nfixed no\ninitial 1 4 | 2 3\nrestraint 0 1 = 7\nreadings\n 11 -3 4 1 -8\n");
/// # Ok::<(), mass_bench::Refusal>(())
/// ```
pub fn card(bytes: &[u8]) -> Result<String, Refusal> {
    let out = put(TEXT, |out, answer| calls::card(bytes, out, answer))?;
    Ok(String::from_utf8(out).expect("a card is ASCII"))
}

// ---- files of the second edition

/// Reads a file of the second edition.
///
/// ```
/// # use mass_bench::{read_second, write_second, Head, Name};
/// let head = Head { n: 5, flag: 0, p: 2, m: 1 };
/// let names = [*b"a       ", *b"b       ", *b"c       ", *b"d       ", *b"e       "].map(Name);
/// let file = read_second(&write_second(head, &[1, 4, 2, 3], 0b11, 7, &[11, -3, 4, 1, -8], &names)?)?;
/// assert_eq!((file.job.head, file.job.blocks_at, file.job.readings_at), (head, 14, 40));
/// assert_eq!((file.names[1], file.names[1].to_string()), (names[1], "b".to_string()));
/// # Ok::<(), mass_bench::Refusal>(())
/// ```
pub fn read_second(bytes: &[u8]) -> Result<SecondRead, Refusal> {
    let (mut signed, mut answer) = ([0], [0; 8]);
    refusal_in(calls::read_second(bytes, &mut signed, &mut answer))?;
    let [n, flag, p, m, blocks_at, readings_at] = [0, 1, 2, 3, 4, 5].map(|slot| answer[slot] as usize);
    let head = Head { n, flag, p, m };
    let names = match answer[7] as usize {
        0 => vec![],
        at => bytes[at..at + 8 * head.objects()].chunks(8).map(|name| Name(name.try_into().expect("eight bytes"))).collect(),
    };
    Ok(SecondRead { job: JobRead { head, blocks_at, readings_at, set: answer[6], sum: signed[0] }, names })
}

/// Works a file of the second edition out.
pub fn solve_second(bytes: &[u8]) -> Result<Job, Refusal> {
    worked_out(|words, values, deviations, answer, real| calls::solve_second(bytes, words, values, deviations, answer, real))
}

/// Writes the file of a job in the second edition, with a name for each object, or with none.
///
/// ```
/// # use mass_bench::{write_second, Head, Name, Reason};
/// let head = Head { n: 5, flag: 0, p: 2, m: 1 };
/// let file = write_second(head, &[1, 4, 2, 3], 0b11, 7, &[11, -3, 4, 1, -8], &[])?;
/// assert_eq!((file.len(), &file[..4]), (60, &[0x10, 0, 1, 2][..]));
/// let one = [Name(*b"a       ")];
/// assert_eq!(write_second(head, &[1, 4, 2, 3], 0b11, 7, &[11, -3, 4, 1, -8], &one).unwrap_err().reason, Reason::WrongLength);
/// # Ok::<(), mass_bench::Refusal>(())
/// ```
pub fn write_second(head: Head, blocks: &[u8], set: u64, sum: i64, readings: &[i32], names: &[Name]) -> Result<Vec<u8>, Refusal> {
    let Head { n, flag, p, m } = head;
    let names: Vec<u8> = names.iter().flat_map(|name| name.0).collect();
    put(FILE_SECOND, |out, answer| calls::write_second(n, flag, p, m, blocks, set, sum, readings, &names, out, answer))
}

/// Moves a file of the first edition to the second.
///
/// ```
/// # use mass_bench::{to_first, to_second, write, Head};
/// let file = write(Head { n: 5, flag: 0, p: 2, m: 1 }, &[1, 4, 2, 3], 0b11, 7, &[11, -3, 4, 1, -8])?;
/// assert_eq!(to_first(&to_second(&file)?)?, file);
/// # Ok::<(), mass_bench::Refusal>(())
/// ```
pub fn to_second(bytes: &[u8]) -> Result<Vec<u8>, Refusal> {
    put(FILE_SECOND, |out, answer| calls::to_second(bytes, out, answer))
}

/// Moves a file of the second edition to the first: only where it has no optional field, so that nothing is dropped.
pub fn to_first(bytes: &[u8]) -> Result<Vec<u8>, Refusal> {
    put(FILE, |out, answer| calls::to_first(bytes, out, answer))
}

/// The text for a file of the second edition: the listing of its job, without the names, or the line of its refusal.
///
/// ```
/// assert_eq!(mass_bench::listing_second(&[0x10, 0, 1, 3]), Ok("refused 12 3\n".to_string()));
/// ```
pub fn listing_second(bytes: &[u8]) -> Result<String, Refusal> {
    let out = put(TEXT, |out, answer| calls::listing_second(bytes, out, answer))?;
    Ok(String::from_utf8(out).expect("a listing is ASCII"))
}

/// The certificate of a file of the second edition, with its names, or the line of its refusal.
///
/// ```
/// assert_eq!(mass_bench::certificate_second(&[0x10, 0, 1, 3]), Ok("refused 12 3\n".to_string()));
/// ```
pub fn certificate_second(bytes: &[u8]) -> Result<String, Refusal> {
    let out = put(CERTIFICATE, |out, answer| calls::certificate_second(bytes, out, answer))?;
    Ok(String::from_utf8(out).expect("a certificate is ASCII"))
}

/// The card of a file of the second edition, with its names and its other optional fields, or the line of its refusal.
///
/// ```
/// # use mass_bench::{card_second, write_second, Head, Name};
/// let names = [Name(*b"1 kg a  "), Name(*b"1 kg b  "), Name(*b"1 kg c  ")];
/// let file = write_second(Head { n: 3, flag: 0, p: 1, m: 1 }, &[0, 1], 0b11, 7, &[1, 2, 3], &names)?;
/// assert_eq!(card_second(&file)?.lines().last(), Some(r"names 1\x20kg\x20a 1\x20kg\x20b 1\x20kg\x20c"));
/// # Ok::<(), mass_bench::Refusal>(())
/// ```
pub fn card_second(bytes: &[u8]) -> Result<String, Refusal> {
    let out = put(TEXT, |out, answer| calls::card_second(bytes, out, answer))?;
    Ok(String::from_utf8(out).expect("a card is ASCII"))
}

// What a call put into room of `room` bytes, as many as it says.
fn put(room: usize, call: impl FnOnce(&mut [u8], &mut [u64]) -> u64) -> Result<Vec<u8>, Refusal> {
    let (mut out, mut answer) = (vec![0; room], [0]);
    refusal_in(call(&mut out, &mut answer))?;
    out.truncate(answer[0] as usize);
    Ok(out)
}

// ---- sets of blocks with groups

/// How often two objects share a side, and how often they oppose, in blocks that are partially balanced with respect to groups; named as the paper names them.
#[derive(Debug, Clone, Copy, PartialEq, Eq)]
pub struct GroupCounts {
    /// In how many blocks two objects of one group share a side.
    pub l11: u64,
    /// In how many they oppose.
    pub l21: u64,
    /// In how many blocks two objects of different groups share a side.
    pub l12: u64,
    /// In how many they oppose.
    pub l22: u64,
}

/// The grouped set of a design: its parameters, and its blocks as words and as [`grouped`] takes them.
#[derive(Debug, Clone, PartialEq, Eq)]
pub struct GroupedSet {
    /// Objects.
    pub v: usize,
    /// Blocks.
    pub b: usize,
    /// In how many blocks each object stands.
    pub r: u64,
    /// Objects a side.
    pub p: usize,
    /// How often two objects meet.
    pub counts: GroupCounts,
    /// Left word, right word, block after block: one bit an object.
    pub words: Vec<u64>,
    /// The same blocks as lists: `p` left objects, which rise, then `p` right ones.
    pub blocks: Vec<u8>,
    /// For each object the number of its group: the object of the design that it comes from.
    pub groups: Vec<u8>,
}

/// Judges any blocks over `v` objects with respect to groups: `blocks` has, for each, `p` left objects, then `p` right ones; `groups` has a label for each
/// object. They are accepted exactly if each of the four counts is one number over all its pairs.
///
/// ```
/// # use mass_bench::{grouped, GroupCounts, Reason};
/// let four = [0, 1, 1, 2, 2, 3, 3, 0];
/// let counts = grouped(4, 4, 1, &four, &[7, 9, 7, 9])?;
/// assert_eq!(counts, GroupCounts { l11: 0, l21: 0, l12: 0, l22: 1 });
/// assert_eq!(grouped(4, 4, 1, &four, &[7, 7, 9, 9]).unwrap_err().reason, Reason::Unbalanced);
/// assert_eq!(grouped(4, 4, 1, &four, &[7, 7, 7, 9]).unwrap_err().reason, Reason::BadGroups);
/// # Ok::<(), mass_bench::Refusal>(())
/// ```
pub fn grouped(count: usize, v: usize, p: usize, blocks: &[u8], groups: &[u8]) -> Result<GroupCounts, Refusal> {
    let mut answer = [0; 4];
    refusal_in(calls::grouped(count, v, p, blocks, groups, &mut answer))?;
    Ok(group_counts(answer))
}

/// The grouped set of a balanced design: every object i replaced by its `g` members, gi to gi + g-1.
///
/// ```
/// # use mass_bench::{group_base, grouped, Head};
/// let set = group_base(Head { n: 3, flag: 0, p: 1, m: 1 }, &[0, 1], 2)?;
/// assert_eq!((set.v, set.b, set.r, set.p), (6, 3, 2, 2));
/// assert_eq!((set.words[0], set.words[1], &set.blocks[..4]), (0b000011, 0b001100, &[0, 1, 2, 3][..]));
/// assert_eq!(grouped(set.b, set.v, set.p, &set.blocks, &set.groups)?, set.counts);
/// # Ok::<(), mass_bench::Refusal>(())
/// ```
pub fn group_base(head: Head, blocks: &[u8], g: usize) -> Result<GroupedSet, Refusal> {
    let Head { n, flag, p, m } = head;
    let (mut words, mut answer) = (vec![0; WORDS], [0; 8]);
    refusal_in(calls::group_base(n, flag, p, m, blocks, g, &mut words, &mut answer))?;
    words.truncate(2 * head.blocks());
    let [v, b, r, p, l11, l21, l12, l22] = answer;
    let lists = words.iter().flat_map(|word| (0..64).filter(move |object| word >> object & 1 == 1)).collect();
    let groups = (0..v as usize).map(|object| (object / g) as u8).collect();
    Ok(GroupedSet { v: v as usize, b: b as usize, r, p: p as usize, counts: group_counts([l11, l21, l12, l22]), words, blocks: lists, groups })
}

fn group_counts([l11, l21, l12, l22]: [u64; 4]) -> GroupCounts {
    GroupCounts { l11, l21, l12, l22 }
}

// ---- another laboratory's sheet

/// What another laboratory claims of a job: for each object its published hundredths of a count; and the spread, or that there is none.
#[derive(Debug, Clone, PartialEq)]
pub struct Sheet {
    /// What is claimed for each object.
    pub hundredths: Vec<i64>,
    /// None is right only where the job has no degree of freedom.
    pub spread: Option<ClaimedSpread>,
}

/// A claimed spread in counts, with its degrees of freedom. It is right where it equals the job's own f64 as a number: no NaN does, -0.0 equals 0.0.
#[derive(Debug, Clone, Copy, PartialEq)]
pub struct ClaimedSpread {
    /// In counts.
    pub value: f64,
    /// Degrees of freedom.
    pub freedom: u64,
}

/// What becomes of a sheet. That it differs is an answer and no refusal.
#[derive(Debug, Clone, Copy, PartialEq, Eq)]
pub enum Checked {
    /// Every claim is right.
    Agrees,
    /// The first object whose claim differs, whatever else does.
    Object(usize),
    /// Every object's claim is right, the claimed spread is not.
    Spread,
}

impl Sheet {
    // The claims as the calls take them.
    fn claimed(&self) -> (&[i64], u64, f64, u64) {
        let (has_spread, value, freedom) = self.spread.map_or((0, 0.0, 0), |spread| (1, spread.value, spread.freedom));
        (&self.hundredths, has_spread, value, freedom)
    }

    // What a call that is given these answers.
    fn checked(&self, call: impl FnOnce(&[i64], u64, f64, u64, &mut [u64]) -> u64) -> Result<Checked, Refusal> {
        let (claims, has_spread, value, freedom) = self.claimed();
        let mut answer = [0; 2];
        refusal_in(call(claims, has_spread, value, freedom, &mut answer))?;
        Ok(match answer {
            [1, _] => Checked::Agrees,
            // the claims are one for each object, else they were refused
            [_, object] if (object as usize) < claims.len() => Checked::Object(object as usize),
            _ => Checked::Spread,
        })
    }
}

/// Checks a sheet against the published hundredths and the spread of its job.
///
/// ```
/// # use mass_bench::{check, Checked, ClaimedSpread, Head, Sheet};
/// let (head, blocks, readings) = (Head { n: 5, flag: 0, p: 2, m: 1 }, [1, 4, 2, 3], [11, -3, 4, 1, -8]);
/// let mut sheet = Sheet { hundredths: vec![-30, 730, 190, 50, 510], spread: Some(ClaimedSpread { value: 2.23, freedom: 1 }) };
/// assert_eq!(check(head, &blocks, &readings, 0b11, 7, &sheet)?, Checked::Agrees);
/// sheet.spread = None;
/// assert_eq!(check(head, &blocks, &readings, 0b11, 7, &sheet)?, Checked::Spread);
/// sheet.hundredths[3] = 51;
/// assert_eq!(check(head, &blocks, &readings, 0b11, 7, &sheet)?, Checked::Object(3));
/// # Ok::<(), mass_bench::Refusal>(())
/// ```
pub fn check(head: Head, blocks: &[u8], readings: &[i32], set: u64, sum: i64, sheet: &Sheet) -> Result<Checked, Refusal> {
    let Head { n, flag, p, m } = head;
    sheet.checked(|claims, has_spread, value, freedom, answer| {
        calls::check_parts(n, flag, p, m, blocks, readings, set, sum, claims, has_spread, value, freedom, answer)
    })
}

/// Checks a sheet against a job file.
pub fn check_file(bytes: &[u8], sheet: &Sheet) -> Result<Checked, Refusal> {
    sheet.checked(|claims, has_spread, value, freedom, answer| calls::check_file(bytes, claims, has_spread, value, freedom, answer))
}

/// Checks a sheet against a file of the second edition.
pub fn check_second(bytes: &[u8], sheet: &Sheet) -> Result<Checked, Refusal> {
    sheet.checked(|claims, has_spread, value, freedom, answer| calls::check_second(bytes, claims, has_spread, value, freedom, answer))
}

// ---- practice: readings from weights whose values are known

/// What practice readings are made from: the true value of each object, within 3,000 counts of 0; any start number for the noise; and its width, 0 to 8 bits.
#[derive(Debug, Clone, PartialEq, Eq)]
pub struct Practice {
    /// The true value of each object.
    pub truths: Vec<i32>,
    /// The start number of the noise.
    pub start: u32,
    /// With 0 there is no noise: the exact values of the practice job are the true ones.
    pub width: usize,
}

/// The practice readings of a design, one for each block: the left sum of the true values less the right sum, plus noise.
///
/// ```
/// # use mass_bench::{practice, Head, Practice};
/// let (head, blocks) = (Head { n: 5, flag: 0, p: 2, m: 1 }, [1, 4, 2, 3]);
/// let truths = vec![1, 2, 3, 4, 5];
/// assert_eq!(practice(head, &blocks, &Practice { truths: truths.clone(), start: 9, width: 0 })?, [0, -5, 0, 5, 0]);
/// assert_eq!(practice(head, &blocks, &Practice { truths, start: 0, width: 8 })?, [-68, -62, 81, 47, -30]);
/// # Ok::<(), mass_bench::Refusal>(())
/// ```
pub fn practice(head: Head, blocks: &[u8], from: &Practice) -> Result<Vec<i32>, Refusal> {
    let Head { n, flag, p, m } = head;
    let mut readings = vec![0; DEVIATIONS];
    refusal_in(calls::practice(n, flag, p, m, blocks, &from.truths, from.start, from.width, &mut readings))?;
    readings.truncate(head.blocks());
    Ok(readings)
}

/// The file of a practice job: those readings, restrained by a set to its true sum.
///
/// ```
/// # use mass_bench::{practice_file, solve, Head, Practice};
/// let file = practice_file(Head { n: 5, flag: 0, p: 2, m: 1 }, &[1, 4, 2, 3], &Practice { truths: vec![1, 2, 3, 4, 5], start: 9, width: 0 }, 0b11)?;
/// let job = solve(&file)?;
/// assert_eq!((job.values, job.solved.denominator, job.deviations), (vec![10, 20, 30, 40, 50], 10, vec![0; 5]));
/// # Ok::<(), mass_bench::Refusal>(())
/// ```
pub fn practice_file(head: Head, blocks: &[u8], from: &Practice, set: u64) -> Result<Vec<u8>, Refusal> {
    let Head { n, flag, p, m } = head;
    put(FILE, |out, answer| calls::practice_file(n, flag, p, m, blocks, &from.truths, from.start, from.width, set, out, answer))
}

// ---- several jobs

/// The pooled spread of up to 64 job files of one v and beta; the objects a side may differ. Their order makes no difference, and one job gives what [`spread`]
/// gives of it.
///
/// ```
/// # use mass_bench::{pool, write, Head, Reason};
/// let head = Head { n: 5, flag: 0, p: 2, m: 1 };
/// let [one, other] = [[11, -3, 4, 1, -8], [0; 5]].map(|readings| write(head, &[1, 4, 2, 3], 0b11, 7, &readings).unwrap());
/// let pooled = pool(&[&one, &other])?;
/// assert_eq!((pooled.q, pooled.vbeta, pooled.freedom, pooled.spread.unwrap().hundredths), (25, 5, 2, 158));
/// let refusal = pool(&[&one, &other[..55]]).unwrap_err();
/// assert_eq!((refusal.reason, refusal.job, refusal.place), (Reason::PastTheEnd, Some(1), 33));
/// # Ok::<(), mass_bench::Refusal>(())
/// ```
pub fn pool(files: &[&[u8]]) -> Result<Spreading, Refusal> {
    let lengths: Vec<usize> = files.iter().map(|file| file.len()).collect();
    let (mut answer, mut real) = ([0; 6], [0.0]);
    // every refusal of a pool is that of one of its jobs, but for 18
    refusal_in(calls::pool(&files.concat(), &lengths, &mut answer, &mut real)).map_err(|refusal| match refusal.reason {
        Reason::BadLengths => refusal,
        _ => Refusal { job: refusal.job.or(Some(0)), ..refusal },
    })?;
    Ok(spreading(answer, real))
}

// ---- slots

fn parameters([v, b, r, p, l1, l2]: [u64; 6]) -> Parameters {
    Parameters { v, b, r, p, l1, l2 }
}

// A number of two words.
fn wide([high, low]: [u64; 2]) -> u128 {
    u128::from(high) << 64 | u128::from(low)
}

fn spreading([high, low, vbeta, freedom, hundredths, has_spread]: [u64; 6], [value]: [f64; 1]) -> Spreading {
    Spreading { q: wide([high, low]), vbeta, freedom, spread: (has_spread == 1).then_some(Spread { hundredths, value }) }
}

// A job worked out by a call that lays it into rooms and slots.
fn worked_out(call: impl FnOnce(&mut [u64], &mut [i64], &mut [i64], &mut [u64], &mut [f64]) -> u64) -> Result<Job, Refusal> {
    let (mut words, mut values, mut deviations) = (vec![0; WORDS], vec![0; VALUES], vec![0; DEVIATIONS]);
    let (mut answer, mut real) = ([0; 13], [0.0]);
    refusal_in(call(&mut words, &mut values, &mut deviations, &mut answer, &mut real))?;
    let [v, b, r, p, l1, l2, denominator, high, low, vbeta, freedom, hundredths, has_spread] = answer;
    words.truncate(2 * b as usize);
    values.truncate(v as usize);
    deviations.truncate(b as usize);
    let spreading = spreading([high, low, vbeta, freedom, hundredths, has_spread], real);
    let solved = Solved { parameters: parameters([v, b, r, p, l1, l2]), denominator, spreading };
    Ok(Job { solved, words, values, deviations })
}
