//! Every call that the bench exports against the count: what it returns, and every entry of every room and slot that it is lent.
//!
//! The calls are made as a program in C makes them. Built by `hosts/test`, which links the bench's archive:
//!
//!     calls SEED COUNT            every call of hosts/bench.h on a job at every bound, every stored one and COUNT seeded ones, by their parts and as files
//!     calls SEED COUNT spoiled    the same, but one bit of what the count expects is turned in each comparison, and each must see it
//!     calls SEED COUNT over COMMAND ..    the same, asked of a program in another language (host.rs), which lends rooms of its own
//!
//! A call that the count accepts is lent rooms of just the length that it asks for, longer ones, and each room in turn too short, which is refused by 10. One
//! that it refuses is lent long rooms and none. Around each room lie entries that are not lent; what a call does not write must stay as it was.
//! A call fails that differs anywhere, and one that was never accepted or, by some test that it makes, never refused: a comparison of nothing would pass too.
//! Names must have been accepted with each flag, in a file that is read and in one that is written: how many there are goes by the flag.
//! A new call is a row of `CALLS`, a new refusal a row of `ORDER` in asked.rs.

// The count's own program uses what this one does not.
#![allow(dead_code)]

mod asked;
mod balanced;
mod card;
mod certificate;
mod coefficients;
mod compare;
mod damage;
mod design;
mod editions;
mod field;
mod groups;
mod host;
mod job;
mod listing;
mod papers;
mod parts;
mod pooled;
mod practice;
mod publishing;
mod second;
mod seed;
mod sheet;
mod solve;
mod stored;

use asked::{at_bounds, harm, look_for_field, numbers, places, Asked, Solved, Test, ORDER};
use design::{pairs, Balance, Block};
use groups::{Counts, Grouping};
use host::Host;
use job::{Head, Refusal};
use parts::parts_of;
use pooled::Pooled;
use seed::Seed;
use solve::{nearest_real, totals_of, Results};
use std::collections::{BTreeMap, BTreeSet};
use std::ffi::c_void;
use std::process::ExitCode;

/// A call: its name, what it takes, the rooms and slots that it is lent, how it is made, the tests that it makes, and what it leaves where it accepts.
struct Call {
    name: &'static str,
    taken: &'static [&'static str],
    rooms: &'static [&'static str],
    made: fn(&Asked, &mut Lent) -> u64,
    tests: &'static [&'static [Test]],
    answer: fn(&Asked) -> Vec<Left>,
}

/// What an accepted call leaves in a room: how many entries it asks for, and what it writes, from which entry on.
struct Left {
    asked: usize,
    from: usize,
    entries: Vec<u64>,
}

/// A row of the table below: a call of hosts/bench.h by what it takes, and by the rooms and slots that it is lent.
macro_rules! call {
    ($name:ident($($taken:ident)*; $($room:ident)*), [$($tests:expr),*], $answer:expr) => {
        Call {
            name: stringify!($name),
            taken: &[$(stringify!($taken)),*],
            rooms: &[$(stringify!($room)),*],
            made: |asked, lent| passed!($name asked lent [] [] [$($room)*] $($taken)*),
            tests: &[$($tests),*],
            answer: $answer,
        }
    };
}

// The arguments are taken one by one, into their types in C and what is passed.
macro_rules! passed {
    ($name:ident $asked:ident $lent:ident [$($type:ty,)*] [$($value:expr,)*] $rooms:tt head $($rest:ident)*) => {
        passed!($name $asked $lent [$($type,)* usize, usize, usize, usize,]
            [$($value,)* $asked.head.n, $asked.head.flag, $asked.head.p, $asked.head.m,] $rooms $($rest)*)
    };
    ($name:ident $asked:ident $lent:ident [$($type:ty,)*] [$($value:expr,)*] $rooms:tt blocks $($rest:ident)*) => {
        passed!($name $asked $lent [$($type,)* *const u8, usize,] [$($value,)* $asked.objects.as_ptr(), $asked.objects.len(),] $rooms $($rest)*)
    };
    ($name:ident $asked:ident $lent:ident [$($type:ty,)*] [$($value:expr,)*] $rooms:tt readings $($rest:ident)*) => {
        passed!($name $asked $lent [$($type,)* *const i32, usize,] [$($value,)* $asked.readings.as_ptr(), $asked.readings.len(),] $rooms $($rest)*)
    };
    ($name:ident $asked:ident $lent:ident [$($type:ty,)*] [$($value:expr,)*] $rooms:tt restraint $($rest:ident)*) => {
        passed!($name $asked $lent [$($type,)* u64, i64,] [$($value,)* $asked.set, $asked.sum,] $rooms $($rest)*)
    };
    ($name:ident $asked:ident $lent:ident [$($type:ty,)*] [$($value:expr,)*] $rooms:tt number $($rest:ident)*) => {
        passed!($name $asked $lent [$($type,)* usize,] [$($value,)* $asked.number,] $rooms $($rest)*)
    };
    ($name:ident $asked:ident $lent:ident [$($type:ty,)*] [$($value:expr,)*] $rooms:tt bytes $($rest:ident)*) => {
        passed!($name $asked $lent [$($type,)* *const u8, usize,] [$($value,)* $asked.bytes.as_ptr(), $asked.bytes.len(),] $rooms $($rest)*)
    };
    ($name:ident $asked:ident $lent:ident [$($type:ty,)*] [$($value:expr,)*] $rooms:tt second $($rest:ident)*) => {
        passed!($name $asked $lent [$($type,)* *const u8, usize,] [$($value,)* $asked.second.as_ptr(), $asked.second.len(),] $rooms $($rest)*)
    };
    ($name:ident $asked:ident $lent:ident [$($type:ty,)*] [$($value:expr,)*] $rooms:tt names $($rest:ident)*) => {
        passed!($name $asked $lent [$($type,)* *const u8, usize,] [$($value,)* $asked.names.as_ptr(), $asked.names.len(),] $rooms $($rest)*)
    };
    ($name:ident $asked:ident $lent:ident [$($type:ty,)*] [$($value:expr,)*] $rooms:tt field $($rest:ident)*) => {
        passed!($name $asked $lent [$($type,)* usize, u8, usize,] [$($value,)* $asked.place, $asked.tag, $asked.length,] $rooms $($rest)*)
    };
    ($name:ident $asked:ident $lent:ident [$($type:ty,)*] [$($value:expr,)*] $rooms:tt size $($rest:ident)*) => {
        passed!($name $asked $lent [$($type,)* usize,] [$($value,)* $asked.size,] $rooms $($rest)*)
    };
    ($name:ident $asked:ident $lent:ident [$($type:ty,)*] [$($value:expr,)*] $rooms:tt grouping $($rest:ident)*) => {
        passed!($name $asked $lent [$($type,)* usize, usize, usize, *const u8, usize, *const u8, usize,]
            [$($value,)* $asked.grouping.count, $asked.grouping.v, $asked.grouping.p, $asked.grouping.objects.as_ptr(), $asked.grouping.objects.len(),
                $asked.grouping.groups.as_ptr(), $asked.grouping.groups.len(),] $rooms $($rest)*)
    };
    ($name:ident $asked:ident $lent:ident [$($type:ty,)*] [$($value:expr,)*] $rooms:tt sheet $($rest:ident)*) => {
        passed!($name $asked $lent [$($type,)* *const i64, usize, u64, f64, u64,]
            [$($value,)* $asked.sheet.claims.as_ptr(), $asked.sheet.claims.len(), $asked.sheet.has_spread, $asked.sheet.spread, $asked.sheet.freedom,]
            $rooms $($rest)*)
    };
    ($name:ident $asked:ident $lent:ident [$($type:ty,)*] [$($value:expr,)*] $rooms:tt practice $($rest:ident)*) => {
        passed!($name $asked $lent [$($type,)* *const i32, usize, u32, usize,]
            [$($value,)* $asked.practice.truths.as_ptr(), $asked.practice.truths.len(), $asked.practice.start, $asked.practice.width,] $rooms $($rest)*)
    };
    ($name:ident $asked:ident $lent:ident [$($type:ty,)*] [$($value:expr,)*] $rooms:tt set $($rest:ident)*) => {
        passed!($name $asked $lent [$($type,)* u64,] [$($value,)* $asked.set,] $rooms $($rest)*)
    };
    ($name:ident $asked:ident $lent:ident [$($type:ty,)*] [$($value:expr,)*] $rooms:tt pool $($rest:ident)*) => {
        passed!($name $asked $lent [$($type,)* *const u8, usize, *const usize, usize,]
            [$($value,)* $asked.pool.bytes.as_ptr(), $asked.pool.bytes.len(), $asked.pool.lengths.as_ptr(), $asked.pool.lengths.len(),] $rooms $($rest)*)
    };
    ($name:ident $asked:ident $lent:ident [$($type:ty,)*] [$($value:expr,)*] [$($room:ident)*]) => {{
        extern "C" {
            fn $name($(_: $type,)* $($room: *mut c_void, _: usize,)*) -> u64;
        }
        let _ = &$lent;
        // Sound: the call has these arguments (hosts/bench.h); every pointer is lent with its length, and each room is a vector of its own.
        unsafe { $name($($value,)* $($lent.start(stringify!($room)), $lent.length(stringify!($room)),)*) }
    }};
}

/// The tests of what calls take: sizes and blocks, readings, a restraint; and of what they need.
const DESIGN: &[Test] = &[Test::Sizes, Test::BlocksLength, Test::Objects];
const READINGS: &[Test] = &[Test::ReadingsLength, Test::Readings];
const RESTRAINT: &[Test] = &[Test::Restraint, Test::Standards];
const BALANCE: &[Test] = &[Test::Balance];
const PRACTICE: &[Test] = &[Test::TruthsLength, Test::Truths];
const GROUPING: &[Test] = &[Test::ListSizes, Test::ListLength, Test::GroupsLength, Test::Groups, Test::ListObjects, Test::Counts];

/// Every call, in the order of hosts/bench.h.
const CALLS: &[Call] = &[
    call!(bench_pairs_refusal(head blocks;), [DESIGN], |_| vec![]),
    call!(bench_develop(head blocks; words), [DESIGN], |asked| vec![front(words(asked.blocks()))]),
    call!(bench_develop_initial(head blocks number; words), [DESIGN, &[Test::InitialBlock]], |asked| {
        let (n, all) = (asked.head.n, words(asked.blocks()));
        let from = 2 * n * asked.number;
        vec![Left { asked: all.len(), from, entries: all[from..from + 2 * n].to_vec() }]
    }),
    call!(bench_company(head blocks; table), [DESIGN], |asked| vec![table(pairs(asked.head.objects(), asked.blocks()).0)]),
    call!(bench_opposition(head blocks; table), [DESIGN], |asked| vec![table(pairs(asked.head.objects(), asked.blocks()).1)]),
    call!(bench_judge(head blocks; answer), [DESIGN, BALANCE], judgement),
    call!(bench_judge_by_differences(head blocks; answer), [DESIGN, BALANCE], judgement),
    call!(bench_total(head blocks readings number; signed_slots), [DESIGN, READINGS, &[Test::Object]], |asked| vec![whole(&[totals(asked)[asked.number]])]),
    call!(bench_sum_of_squares(head readings; answer), [&[Test::Sizes], READINGS], |asked| vec![squares(&asked.wide_readings())]),
    call!(bench_sum_of_squared_totals(head blocks readings; answer), [DESIGN, READINGS], |asked| vec![squares(&totals(asked))]),
    call!(bench_refusal(head blocks readings restraint;), [DESIGN, READINGS, BALANCE, RESTRAINT], |_| vec![]),
    call!(bench_values(head blocks readings restraint; values), [DESIGN, READINGS, BALANCE, RESTRAINT], |asked| {
        vec![whole(&asked.solved().results.numerators)]
    }),
    call!(
        bench_value_of(head blocks readings restraint number; signed_slots answer real),
        [DESIGN, READINGS, BALANCE, RESTRAINT, &[Test::Object]],
        |asked| {
            let results = &asked.solved().results;
            let (numerator, denominator) = (results.numerators[asked.number], results.denominator);
            let factor = asked.coefficients().factor(asked.number);
            let (wholes, fractions) = ([denominator, factor], [(numerator, denominator), (factor, denominator)]);
            vec![whole(&[numerator, results.hundredths[asked.number]]), whole(&wholes), reals(&fractions)]
        }
    ),
    call!(
        bench_uncertainty_of(head blocks readings restraint number; answer real),
        [DESIGN, READINGS, BALANCE, RESTRAINT, &[Test::Object]],
        |asked| {
            let hundredths = certificate::uncertainty(&asked.solved().results, asked.coefficients().factor(asked.number));
            vec![whole(&[hundredths.unwrap_or(0), hundredths.is_some().into()]), real(hundredths.unwrap_or(0), 100)]
        }
    ),
    call!(bench_published(head blocks readings restraint; hundredths), [DESIGN, READINGS, BALANCE, RESTRAINT], |asked| {
        vec![whole(&asked.solved().results.hundredths)]
    }),
    call!(bench_deviations(head blocks readings; deviations), [DESIGN, READINGS, BALANCE], |asked| vec![whole(&asked.solved().results.deviations)]),
    call!(bench_deviation_of(head blocks readings number; signed_slots answer), [DESIGN, READINGS, BALANCE, &[Test::Block]], |asked| {
        let results = &asked.solved().results;
        vec![whole(&[results.deviations[asked.number]]), whole(&[results.deviation_denominator])]
    }),
    call!(bench_q(head blocks readings; answer), [DESIGN, READINGS, BALANCE], |asked| vec![front(wide(asked.solved().results.q))]),
    call!(bench_spread(head blocks readings; answer real), [DESIGN, READINGS, BALANCE], |asked| {
        let results = &asked.solved().results;
        vec![front(spread(results)), real(results.spread.unwrap_or(0), 100)]
    }),
    call!(
        bench_analyse(head blocks readings restraint; words values deviations answer real),
        [DESIGN, READINGS, BALANCE, RESTRAINT],
        |asked| everything(asked.solved())
    ),
    call!(bench_field_at(bytes field; answer), [&[Test::Field]], |asked| {
        let body = asked.place + 3;
        vec![whole(&[body as i128, (body + asked.length) as i128])]
    }),
    call!(bench_read(bytes; signed_slots answer), [&[Test::File]], |asked| {
        let job = &accepted_file(asked).job;
        let sizes = [job.head.n, job.head.flag, job.head.p, job.head.m, 10, asked.bytes.len() - 4 * job.readings.len()];
        vec![whole(&[job.sum]), front(sizes.iter().map(|size| *size as u64).chain([word(&job.restraint)]).collect())]
    }),
    call!(bench_solve(bytes; words values deviations answer real), [&[Test::File]], |asked| everything(accepted_file(asked))),
    call!(bench_write(head blocks restraint readings; out answer), [DESIGN, READINGS, BALANCE, RESTRAINT], |asked| text(asked.written())),
    call!(bench_listing(bytes; out answer), [], |asked| {
        text(asked.file().map_or_else(listing::refused, |solved| listing::accepted(&solved.job, &solved.results)).into_bytes())
    }),
    call!(bench_certificate(bytes; out answer), [], |asked| {
        text(asked.file().map_or_else(listing::refused, |solved| certificate::accepted(&solved.job, &solved.results, &[])).into_bytes())
    }),
    call!(bench_card(bytes; out answer), [], |asked| {
        text(asked.file().map_or_else(listing::refused, |_| card::of(&asked.bytes).expect("a job")).into_bytes())
    }),
    call!(bench_read_second(second; signed_slots answer), [&[Test::Second]], |asked| {
        let (file, _) = accepted_second(asked);
        let job = &file.job;
        let sizes = [job.head.n, job.head.flag, job.head.p, job.head.m, 14, file.optional - 4 * job.readings.len()];
        let sizes = sizes.iter().map(|size| *size as u64);
        vec![whole(&[job.sum]), front(sizes.chain([word(&job.restraint), file.names.unwrap_or(0) as u64]).collect())]
    }),
    call!(bench_solve_second(second; words values deviations answer real), [&[Test::Second]], |asked| {
        let (file, results) = accepted_second(asked);
        everything_of(&file.job, results)
    }),
    call!(
        bench_write_second(head blocks restraint readings names; out answer),
        [DESIGN, READINGS, BALANCE, RESTRAINT, &[Test::NamesLength]],
        |asked| text(second::with_names(&asked.written(), &asked.names))
    ),
    call!(bench_to_second(bytes; out answer), [&[Test::File]], |asked| text(second::with_names(&asked.bytes, &[]))),
    call!(bench_to_first(second; out answer), [&[Test::Second, Test::Optional]], |asked| text(second::to_first(&asked.second).expect("no optional field"))),
    call!(bench_listing_second(second; out answer), [], |asked| {
        text(asked.second_file().map_or_else(listing::refused, |(file, results)| listing::accepted(&file.job, results)).into_bytes())
    }),
    call!(bench_certificate_second(second; out answer), [], |asked| {
        let names = |file: &second::Second| file.names.map_or(&[][..], |at| &asked.second[at..at + 8 * file.job.head.objects()]);
        text(asked.second_file().map_or_else(listing::refused, |(file, results)| certificate::accepted(&file.job, results, names(file))).into_bytes())
    }),
    call!(bench_card_second(second; out answer), [], |asked| {
        text(asked.second_file().map_or_else(listing::refused, |_| card::of(&asked.second).expect("a job")).into_bytes())
    }),
    call!(bench_grouped(grouping; answer), [GROUPING], |asked| vec![whole(&four(asked.grouping.counts().expect("constant counts")))]),
    call!(bench_group_base(head blocks size; words answer), [DESIGN, BALANCE, &[Test::GroupSize]], |asked| {
        let grouping = Grouping::of(asked.blocks(), asked.head.objects(), asked.size);
        let sizes = [grouping.v as i128, grouping.count as i128, grouping.appearances(0), grouping.p as i128];
        let counts = theorem(&grouping, &asked.balance().expect("a balanced design"));
        vec![front(grouping.sides().iter().map(word).collect()), whole(&[&sizes[..], &four(counts)].concat())]
    }),
    call!(
        bench_check_parts(head blocks readings restraint sheet; answer),
        [DESIGN, READINGS, BALANCE, RESTRAINT, &[Test::PartsClaims]],
        |asked| checked(asked, &asked.solved().results)
    ),
    call!(bench_check_file(bytes sheet; answer), [&[Test::File, Test::FileClaims]], |asked| checked(asked, &accepted_file(asked).results)),
    call!(bench_check_second(second sheet; answer), [&[Test::Second, Test::SecondClaims]], |asked| checked(asked, &accepted_second(asked).1)),
    call!(bench_practice(head blocks practice; readings), [DESIGN, BALANCE, PRACTICE], |asked| vec![whole(&asked.practice.readings(asked.blocks()))]),
    call!(
        bench_practice_file(head blocks practice set; out answer),
        [DESIGN, BALANCE, PRACTICE, &[Test::Set, Test::Standards]],
        |asked| text(asked.practice.file(asked.draft(), asked.blocks()))
    ),
    call!(bench_pool(pool; answer real), [&[Test::Pool]], |asked| {
        let Pooled { q, scale, freedom, spread } = asked.pool.pooled().expect("accepted jobs");
        let rest = [scale, freedom, spread.unwrap_or(0), spread.is_some().into()];
        vec![front([wide(q), whole(&rest).entries].concat()), real(spread.unwrap_or(0), 100)]
    }),
];

/// Whether the sheet agrees, and where it first differs.
fn checked(asked: &Asked, results: &Results) -> Vec<Left> {
    let differs = asked.sheet.differs(results);
    vec![whole(&[differs.is_none().into(), differs.unwrap_or(0) as i128])]
}

/// The figures of what a call that checks a sheet takes, where nothing refuses it.
fn figures_of<'a>(call: &Call, asked: &'a Asked) -> Option<&'a Results> {
    let refused = call.refusal(asked).is_some_and(|(test, _)| ![Test::PartsClaims, Test::FileClaims, Test::SecondClaims].contains(&test));
    match () {
        _ if refused => None,
        _ if call.makes(Test::PartsClaims) => Some(&asked.solved().results),
        _ if call.makes(Test::FileClaims) => Some(&accepted_file(asked).results),
        _ => Some(&accepted_second(asked).1),
    }
}

/// The counts as they are handed back.
fn four(Counts { within, between }: Counts) -> [i128; 4] {
    [within.0, within.1, between.0, between.1]
}

/// The counts of the grouped set of a balanced design, which must be those of 004, theorem 5.1.
fn theorem(grouping: &Grouping, balance: &Balance) -> Counts {
    let counts = grouping.counts().expect("a grouped set that is partially balanced");
    assert_eq!(counts, Counts { within: (balance.appearances, 0), between: (balance.company, balance.opposition) }, "theorem 5.1");
    counts
}

fn accepted_second(asked: &Asked) -> &(second::Second, Results) {
    asked.second_file().expect("an accepted file")
}

fn accepted_file(asked: &Asked) -> &Solved {
    asked.file().expect("an accepted file")
}

fn front(entries: Vec<u64>) -> Left {
    Left { asked: entries.len(), from: 0, entries }
}

/// Whole numbers, signed or not, each in 64 bits.
fn whole(numbers: &[i128]) -> Left {
    assert!(numbers.iter().all(|number| (-(1 << 63)..1 << 64).contains(number)), "a figure of the count outgrew 64 bits");
    front(numbers.iter().map(|number| *number as u64).collect())
}

fn real(top: i128, bottom: i128) -> Left {
    reals(&[(top, bottom)])
}

/// The f64s nearest to fractions.
fn reals(fractions: &[(i128, i128)]) -> Left {
    front(fractions.iter().map(|(top, bottom)| nearest_real(*top, *bottom).to_bits()).collect())
}

fn word(objects: &BTreeSet<usize>) -> u64 {
    objects.iter().map(|object| 1 << object).sum()
}

fn words(blocks: &[Block]) -> Vec<u64> {
    blocks.iter().flat_map(|block| [word(&block.left), word(&block.right)]).collect()
}

/// A pair table as it is handed back: 50 by 50.
fn table(pairs: Vec<Vec<i128>>) -> Left {
    let count = |i: usize, j: usize| pairs.get(i).and_then(|row| row.get(j)).copied().unwrap_or(0);
    whole(&(0..2500).map(|entry| count(entry / 50, entry % 50)).collect::<Vec<_>>())
}

fn totals(asked: &Asked) -> Vec<i128> {
    totals_of(asked.head.objects(), asked.blocks(), &asked.wide_readings())
}

fn squares(numbers: &[i128]) -> Left {
    front(wide(numbers.iter().map(|number| number * number).sum()))
}

/// A number in two words, the high one first.
fn wide(number: i128) -> Vec<u64> {
    let word = 1i128 << 64;
    assert!(number >= 0, "a sum of squares below 0");
    vec![(number / word) as u64, (number % word) as u64]
}

fn parameters(head: &Head, blocks: &[Block], balance: &Balance) -> [i128; 6] {
    let sizes = [head.objects(), blocks.len(), blocks[0].left.len()].map(|size| size as i128);
    [sizes[0], sizes[1], balance.appearances, sizes[2], balance.company, balance.opposition]
}

/// The judgement of a balanced design, by whichever call.
fn judgement(asked: &Asked) -> Vec<Left> {
    vec![whole(&parameters(&asked.head, asked.blocks(), &asked.balance().expect("a balanced design")))]
}

fn spread(results: &Results) -> Vec<u64> {
    let rest = [results.deviation_denominator, results.freedom, results.spread.unwrap_or(0), results.spread.is_some().into()];
    [wide(results.q), whole(&rest).entries].concat()
}

fn everything(Solved { job, results }: &Solved) -> Vec<Left> {
    everything_of(job, results)
}

fn everything_of(job: &job::Job, results: &Results) -> Vec<Left> {
    let answer = [whole(&parameters(&job.head, &job.blocks, &job.balance)).entries, whole(&[results.denominator]).entries, spread(results)].concat();
    vec![front(words(&job.blocks)), whole(&results.numerators), whole(&results.deviations), front(answer), real(results.spread.unwrap_or(0), 100)]
}

fn text(bytes: Vec<u8>) -> Vec<Left> {
    let length = bytes.len() as u64;
    vec![front(bytes.into_iter().map(u64::from).collect()), front(vec![length])]
}

/// Rooms and slots by their names in hosts/bench.h.
struct Lent(Vec<Room>);

/// A room: `length` entries of `width` bytes, with words before and behind it that are not lent.
struct Room {
    name: &'static str,
    width: usize,
    length: usize,
    memory: Vec<u64>,
}

const MARGIN: usize = 4;

impl Room {
    /// A room in which no two entries are alike, and hardly one like an answer.
    fn untouched(name: &'static str, length: usize) -> Room {
        let width = match name {
            "out" => 1,
            "readings" => 4,
            _ => 8,
        };
        let words = 2 * MARGIN + (length * width).div_ceil(8);
        Room { name, width, length, memory: (1..=words as u64).map(|place| place.wrapping_mul(0x9E37_79B9_7F4A_7C15)).collect() }
    }

    /// The room with what a call is to leave in it.
    fn holding(&self, left: &Left) -> Vec<u64> {
        let mut memory = self.memory.clone();
        for (place, entry) in (left.from..).zip(&left.entries) {
            let place = MARGIN * 8 + place * self.width;
            let mut bytes = memory[place / 8].to_ne_bytes();
            bytes[place % 8..place % 8 + self.width].copy_from_slice(&entry.to_le_bytes()[..self.width]);
            memory[place / 8] = u64::from_ne_bytes(bytes);
        }
        memory
    }
}

impl Lent {
    fn room(&mut self, name: &str) -> &mut Room {
        self.0.iter_mut().find(|room| room.name == name).expect("a room that the call is lent")
    }

    fn start(&mut self, name: &str) -> *mut c_void {
        self.room(name).memory.as_mut_ptr().wrapping_add(MARGIN).cast()
    }

    fn length(&mut self, name: &str) -> usize {
        self.room(name).length
    }
}

/// How often a call was compared: accepted, by number 0, and refused, by number and the test that refuses. And how often it differed.
#[derive(Default)]
struct Tally {
    alike: BTreeMap<(u8, Option<Test>), u64>,
    differing: u64,
    /// asked of a host that cannot say it
    beyond: u64,
}

/// How calls are made: as a program in C makes them, what is expected spoiled or not; or over a host, to which the requests on one job go together.
enum How {
    Directly { spoiled: bool },
    Over { host: Host, waiting: Vec<Waiting> },
}

/// A request that waits for its answer: whose it is, what it asks, what is expected, and how often that was.
struct Waiting {
    call: &'static str,
    about: String,
    request: String,
    expected: String,
    kind: (u8, Option<Test>),
}

impl How {
    fn over(&self) -> bool {
        matches!(self, How::Over { .. })
    }

    /// Hears what a host answers to all that waits.
    fn settle(&mut self, tallies: &mut [Tally]) {
        let How::Over { host, waiting } = self else { return };
        let answers = host.answers(&waiting.iter().map(|asked| asked.request.as_str()).collect::<Vec<_>>());
        for (asked, answer) in waiting.drain(..).zip(answers.into_iter().map(Some).chain(std::iter::repeat(None))) {
            let tally = &mut tallies[CALLS.iter().position(|call| call.name == asked.call).expect("a call of the table")];
            match answer.as_deref() {
                Some("beyond") => tally.beyond += 1,
                Some(answer) if answer == asked.expected => *tally.alike.entry(asked.kind).or_insert(0) += 1,
                _ => {
                    tally.differing += 1;
                    if tally.differing <= 3 {
                        let cut = |text: &str| text.chars().take(300).collect::<String>();
                        let found = answer.map_or("nothing".to_string(), |answer| cut(&answer));
                        println!("{}, {}: it answers {found}, the count {}; asked: {}", asked.call, asked.about, cut(&asked.expected), cut(&asked.request));
                    }
                }
            }
        }
    }
}

impl Call {
    fn makes(&self, test: Test) -> bool {
        self.tests.concat().contains(&test)
    }

    /// The first test, in their order, that refuses.
    fn refusal(&self, asked: &Asked) -> Option<(Test, Refusal)> {
        ORDER.iter().filter(|(test, ..)| self.makes(*test)).find_map(|(test, _, look)| Some((*test, look(asked)?)))
    }

    /// Makes the call with rooms of several lengths: of all kinds, or where it is tried often, of two. A host is asked once: the rooms are its own.
    fn compare(&self, asked: &Asked, often: bool, seed: &mut Seed, how: &mut How, tally: &mut Tally) {
        let refusal = self.refusal(asked);
        let left = if refusal.is_none() { (self.answer)(asked) } else { vec![] };
        let spoiled = match how {
            How::Directly { spoiled } => *spoiled,
            How::Over { waiting, .. } => {
                let (kind, expected) = match refusal {
                    Some((test, Refusal { number, index, place })) => ((number, Some(test)), format!("refused {number} {index} {}", place as u64 & ((1 << 48) - 1))),
                    None => ((0, None), left.iter().fold("accepted".to_string(), |said, left| said + " " + &host::commas(&left.entries))),
                };
                let about = format!("{}, {}", asked.about, asked.aside);
                waiting.push(Waiting { call: self.name, about, request: host::request(self.name, self.taken, asked), expected, kind });
                return;
            }
        };
        let mut kinds = self.lengths(&left, seed);
        if often && kinds.len() > 2 {
            let other = 1 + seed.below(kinds.len() - 1);
            kinds = vec![kinds[0].clone(), kinds[other].clone()];
        }
        for lengths in kinds {
            let short = left.iter().zip(&lengths).any(|(room, length)| *length < room.asked);
            let (test, Refusal { number, index, place }) = match refusal {
                Some((test, refusal)) => (Some(test), refusal),
                None => (None, Refusal { number: if short { 10 } else { 0 }, index: 0, place: 0 }),
            };
            let returned = u64::from(number) + ((index as u64) << 8) + ((place as u64) << 16);
            let found = self.difference(asked, &lengths, returned, if number == 0 { &left } else { &[] }, if spoiled { Some(seed) } else { None });
            if found.is_some() == spoiled {
                *tally.alike.entry((number, test)).or_insert(0) += 1;
                continue;
            }
            tally.differing += 1;
            if tally.differing <= 3 {
                let found = found.unwrap_or("a bit turned in what is expected is not seen".to_string());
                let (number, place, aside) = (asked.number, asked.place, &asked.aside);
                println!("{}, {}, number {number}, place {place}, {aside}, rooms of {lengths:?}: {found}", self.name, asked.about);
            }
        }
    }

    /// The lengths of the rooms that are tried, those that are asked for first.
    fn lengths(&self, left: &[Left], seed: &mut Seed) -> Vec<Vec<usize>> {
        if self.rooms.is_empty() {
            return vec![vec![]];
        }
        if left.is_empty() {
            return vec![vec![2600; self.rooms.len()], vec![0; self.rooms.len()]];
        }
        let asked: Vec<usize> = left.iter().map(|room| room.asked).collect();
        let mut all = vec![asked.clone(), asked.iter().map(|length| length + 1 + seed.below(9)).collect()];
        for short in 0..asked.len() {
            let mut lengths = asked.clone();
            lengths[short] = if seed.once_in(3) { seed.below(asked[short]) } else { asked[short] - 1 };
            all.push(lengths);
        }
        all
    }

    /// Makes the call, and tells where what it returns and leaves is not what is expected; one bit of that is turned first, where a seed is given for it.
    fn difference(&self, asked: &Asked, lengths: &[usize], returned: u64, left: &[Left], spoil: Option<&mut Seed>) -> Option<String> {
        let mut lent = Lent(self.rooms.iter().zip(lengths).map(|(name, length)| Room::untouched(name, *length)).collect());
        let mut expected = vec![vec![returned]];
        expected.extend(lent.0.iter().enumerate().map(|(index, room)| left.get(index).map_or(room.memory.clone(), |left| room.holding(left))));
        if let Some(seed) = spoil {
            let room = seed.below(expected.len());
            let place = seed.below(expected[room].len());
            expected[room][place] ^= 1 << seed.below(64);
        }
        let found = (self.made)(asked, &mut lent);
        if found != expected[0][0] {
            let shown = |returned: u64| format!("{} at {} (index {})", returned & 255, returned >> 16, returned >> 8 & 255);
            return Some(format!("it returns {}, the count {}", shown(found), shown(expected[0][0])));
        }
        lent.0.iter().zip(&expected[1..]).find_map(|(room, wanted)| {
            let place = room.memory.iter().zip(wanted).position(|(found, wanted)| found != wanted)?;
            let entry = (place as i64 - MARGIN as i64) * 8 / room.width as i64;
            Some(format!("{}, from entry {entry} on: {:x}, the count's {:x}", room.name, room.memory[place], wanted[place]))
        })
    }

    /// What must have been compared: an acceptance, and a refusal by each number of each test and, where there are rooms of ours, by 10.
    fn never_compared(&self, tally: &Tally, how: &How) -> Vec<(u8, Option<Test>)> {
        let tests = ORDER.iter().filter(|(test, ..)| self.makes(*test));
        let refusals = tests.flat_map(|(test, numbers, _)| numbers.iter().map(move |number| (*number, Some(*test))));
        let rooms = if self.rooms.is_empty() || how.over() { None } else { Some((10, None)) };
        refusals.chain([(0, None)]).chain(rooms).filter(|kind| !tally.alike.contains_key(kind)).collect()
    }

    /// The line of a call, and whether it passed.
    fn told(&self, tally: &Tally, how: &How) -> bool {
        let mut numbers = BTreeMap::new();
        tally.alike.iter().for_each(|((number, _), count)| *numbers.entry(*number).or_insert(0) += count);
        let accepted = numbers.remove(&0).unwrap_or(0);
        let refused: Vec<String> = numbers.iter().map(|(number, count)| format!("{count} by {number}")).collect();
        println!("{}: {accepted} accepted, {} refused ({})", self.name, numbers.values().sum::<u64>(), refused.join(", "));
        if tally.beyond > 0 {
            println!("{}: {} that the host cannot say", self.name, tally.beyond);
        }
        let never = self.never_compared(tally, how);
        if !never.is_empty() {
            println!("{}: never compared, as (number, test): {never:?}", self.name);
        }
        if tally.differing > 0 {
            println!("{}: {} differ", self.name, tally.differing);
        }
        tally.differing == 0 && never.is_empty()
    }
}

/// How often names are accepted, in a file that is read and in one that is written, by the flag of the job.
#[derive(Default)]
struct Named([[u64; 4]; 2]);

impl Named {
    fn count(&mut self, asked: &Asked) {
        if let Some((file, _)) = asked.second_file().ok().filter(|(file, _)| file.names.is_some()) {
            self.0[0][file.job.head.flag] += 1;
        }
        let write = CALLS.iter().find(|call| call.makes(Test::NamesLength)).expect("a call that writes names");
        if !asked.names.is_empty() && write.refusal(asked).is_none() {
            self.0[1][asked.head.flag] += 1;
        }
    }

    /// The line of the names, and whether there were some of each kind.
    fn told(&self) -> bool {
        let [read, written] = self.0;
        println!("files with names, by the flags 0 to 3: {read:?} read, {written:?} written");
        self.0.concat().iter().all(|count| *count > 0)
    }
}

/// The calls that hosts/bench.h declares: each must have its row.
fn declared() -> BTreeSet<&'static str> {
    include_str!("../../hosts/bench.h").lines().filter_map(|line| line.strip_prefix("uint64_t ")?.split('(').next()).collect()
}

/// The jobs: example D at every bound; the stored ones, by their parts where they are accepted; seeded ones. Every second of these two is harmed once more.
fn jobs(seed: u64, count: u64) -> impl Iterator<Item = Asked> {
    let stored = stored::trials();
    let file = stored.iter().find(|example| example.name == "D.job").expect("example D").bytes.clone();
    let whole = || Asked::new("D".to_string(), parts_of(&file).expect("D is accepted"), file.clone());
    let bounds = at_bounds(whole);
    let others = stored.into_iter().map(Some).chain((0..count).map(|_| None)).zip(0..).map(move |(example, index)| {
        let parts = damage::parts(seed, index);
        let about = format!("job {seed} {index} ({})", parts.about);
        let mut asked = match example {
            Some(example) => Asked::new(format!("{about}, {}", example.name), parts_of(&example.bytes).unwrap_or(parts.draft), example.bytes),
            None => Asked::new(about, parts.draft, damage::seeded(seed, index).bytes),
        };
        if index % 2 == 1 {
            harm(&mut asked, &mut Seed::new(seed + 1, index));
        }
        asked
    });
    bounds.into_iter().chain(others)
}

/// All calls on one job.
fn compare_all(asked: &mut Asked, seed: &mut Seed, how: &mut How, tallies: &mut [Tally]) {
    for (call, tally) in CALLS.iter().zip(tallies) {
        asked.aside.clear();
        if call.makes(Test::Field) {
            // A host is sent the whole file for each place.
            for place in places(asked).step_by(if how.over() { 40 } else { 1 }) {
                look_for_field(asked, place, seed);
                call.compare(asked, true, seed, how, tally);
            }
        } else if [Test::InitialBlock, Test::Object, Test::Block].iter().any(|test| call.makes(*test)) {
            for number in numbers(asked, seed) {
                asked.number = number;
                call.compare(asked, true, seed, how, tally);
            }
        } else if call.makes(Test::Groups) {
            for _ in 0..3 {
                asked.grouping = groups::seeded(seed);
                asked.aside = asked.grouping.to_string();
                let lent = asked.grouping.clone();
                call.compare(asked, true, seed, how, tally);
                tally.differing += u64::from(lent != asked.grouping);
            }
        } else if call.makes(Test::GroupSize) {
            for size in groups::sizes(asked.head.n.wrapping_add(asked.head.flag % 2), seed) {
                asked.size = size;
                asked.aside = format!("groups of {size}");
                call.compare(asked, true, seed, how, tally);
            }
        } else if call.makes(Test::Truths) {
            for _ in 0..3 {
                asked.practice = practice::seeded(asked.head.n.wrapping_add(asked.head.flag % 2), seed);
                asked.aside = asked.practice.to_string();
                let lent = asked.practice.clone();
                call.compare(asked, true, seed, how, tally);
                tally.differing += u64::from(lent != asked.practice);
            }
        } else if call.makes(Test::Pool) {
            for pool in pooled::pools(&asked.bytes, seed) {
                asked.aside = pool.to_string();
                asked.pool = pool;
                let lent = (asked.pool.bytes.clone(), asked.pool.lengths.clone());
                call.compare(asked, true, seed, how, tally);
                tally.differing += u64::from(lent.0 != asked.pool.bytes || lent.1 != asked.pool.lengths);
            }
        } else if [Test::PartsClaims, Test::FileClaims, Test::SecondClaims].iter().any(|test| call.makes(*test)) {
            let figures = figures_of(call, asked);
            let v = figures.map_or(asked.head.n, |results| results.hundredths.len());
            let mut sheets = sheet::sheets(figures, v, seed);
            sheets.extend(figures.filter(|_| v <= 8).iter().flat_map(|results| sheet::each_object(results)));
            for sheet in sheets {
                asked.aside = sheet.to_string();
                asked.sheet = sheet;
                let lent = asked.sheet.claims.clone();
                call.compare(asked, true, seed, how, tally);
                tally.differing += u64::from(lent != asked.sheet.claims);
            }
        } else {
            call.compare(asked, false, seed, how, tally);
        }
    }
}

fn main() -> ExitCode {
    let words: Vec<String> = std::env::args().skip(1).collect();
    let (words, command) = match words.iter().position(|word| word == "over") {
        Some(at) if at + 1 < words.len() => (&words[..at], Some(&words[at + 1..])),
        _ => (&words[..], None),
    };
    let (numbers, spoiled) = match words.split_last() {
        Some((last, numbers)) if last == "spoiled" && command.is_none() => (numbers, true),
        _ => (words, false),
    };
    let [Some(seed), Some(count)] = numbers.iter().map(|word| word.parse().ok()).collect::<Vec<Option<u64>>>()[..] else {
        eprintln!("usage: calls SEED COUNT [spoiled | over COMMAND ..], two whole numbers");
        return ExitCode::from(2);
    };
    if spoiled {
        println!("a bit of what is expected is turned in each comparison; what is told is what was seen:");
    }
    let mut how = command.map_or(How::Directly { spoiled }, |command| How::Over { host: Host::start(command), waiting: vec![] });
    let mut tallies: Vec<Tally> = CALLS.iter().map(|_| Tally::default()).collect();
    let (mut named, mut changed) = (Named::default(), 0);
    for (mut asked, index) in jobs(seed, count).zip(0..) {
        let mut edition = Seed::new(seed + 3, index);
        asked.second = editions::made(&asked.bytes, &mut edition);
        asked.names = editions::names(&asked.bytes, &mut edition);
        let lent = (asked.objects.clone(), asked.readings.clone(), asked.bytes.clone(), asked.second.clone(), asked.names.clone());
        compare_all(&mut asked, &mut Seed::new(seed + 2, index), &mut how, &mut tallies);
        how.settle(&mut tallies);
        named.count(&asked);
        changed += u64::from(lent != (asked.objects, asked.readings, asked.bytes, asked.second, asked.names));
    }
    let passed = CALLS.iter().zip(&tallies).filter(|(call, tally)| call.told(tally, &how)).count();
    let mut failed = CALLS.len() - passed;
    if !named.told() && !how.over() {
        failed += 1;
        println!("names were never compared as accepted with some flag");
    }
    let rows: BTreeSet<&str> = CALLS.iter().map(|call| call.name).collect();
    if declared() != rows {
        failed += 1;
        println!("hosts/bench.h declares {:?}", declared());
    }
    if changed > 0 {
        failed += 1;
        println!("on {changed} jobs a call changed what it was lent to read");
    }
    if let How::Over { host, .. } = how {
        failed += usize::from(!host.ended());
    }
    println!("{passed} passed, {failed} failed");
    if failed == 0 {
        ExitCode::SUCCESS
    } else {
        ExitCode::FAILURE
    }
}
