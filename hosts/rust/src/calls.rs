//! The calls of hosts/bench.h over slices, one for one: each hands back the number that the library returns, 0 exactly where it accepts, and nothing is
//! allocated. What each call takes, what it writes and when, is said in hosts/bench.h; a refused call writes nowhere.
//!
//! [`refusal_in`](super::refusal_in) takes a returned number apart. The functions of the crate's root are these calls with ordinary types.

// One call: its name here, its name in the library, and its arguments. A slice is passed as its pointer and its length. The arguments are taken one by one,
// into what the function takes, what the library's function takes, and what is passed.
macro_rules! calls {
    (@one [$($doc:tt)*] $name:ident $foreign:ident [$($takes:tt)*] [$($raw:tt)*] [$($passed:tt)*] $slice:ident: &mut [$entry:ty], $($rest:tt)*) => {
        calls!(@one [$($doc)*] $name $foreign [$($takes)* $slice: &mut [$entry],] [$($raw)* _: *mut $entry, _: usize,]
            [$($passed)* $slice.as_mut_ptr(), $slice.len(),] $($rest)*);
    };
    (@one [$($doc:tt)*] $name:ident $foreign:ident [$($takes:tt)*] [$($raw:tt)*] [$($passed:tt)*] $slice:ident: &[$entry:ty], $($rest:tt)*) => {
        calls!(@one [$($doc)*] $name $foreign [$($takes)* $slice: &[$entry],] [$($raw)* _: *const $entry, _: usize,]
            [$($passed)* $slice.as_ptr(), $slice.len(),] $($rest)*);
    };
    (@one [$($doc:tt)*] $name:ident $foreign:ident [$($takes:tt)*] [$($raw:tt)*] [$($passed:tt)*] $number:ident: $type:ty, $($rest:tt)*) => {
        calls!(@one [$($doc)*] $name $foreign [$($takes)* $number: $type,] [$($raw)* _: $type,] [$($passed)* $number,] $($rest)*);
    };
    (@one [$($doc:tt)*] $name:ident $foreign:ident [$($takes:tt)*] [$($raw:tt)*] [$($passed:tt)*]) => {
        $($doc)*
        pub fn $name($($takes)*) -> u64 {
            extern "C" {
                fn $foreign($($raw)*) -> u64;
            }
            // Sound: the library's function has these arguments (hosts/bench.h). It is proved to end without a fault on every input, to read and write each
            // buffer within its length alone, and to keep no pointer. Each slice is lent as its pointer, which is never null, and its length; one that is
            // written is borrowed by this call alone, so that it overlaps no other.
            unsafe { $foreign($($passed)*) }
        }
    };
    ($($(#[$doc:meta])* $name:ident = $foreign:ident($($arguments:tt)*);)*) => {
        $(calls!(@one [$(#[$doc])*] $name $foreign [] [] [] $($arguments)*);)*
    };
}

calls! {
    /// Why a block list is refused.
    pairs_refusal = bench_pairs_refusal(n: usize, flag: usize, p: usize, m: usize, blocks: &[u8],);
    /// Develops every initial block into 2b words.
    develop = bench_develop(n: usize, flag: usize, p: usize, m: usize, blocks: &[u8], words: &mut [u64],);
    /// Develops initial block j into its own 2n of the 2b words.
    develop_initial = bench_develop_initial(n: usize, flag: usize, p: usize, m: usize, blocks: &[u8], j: usize, words: &mut [u64],);
    /// In how many blocks two objects share a side: 2,500 words, row after row.
    company = bench_company(n: usize, flag: usize, p: usize, m: usize, blocks: &[u8], table: &mut [u64],);
    /// In how many blocks two objects oppose: 2,500 words, row after row.
    opposition = bench_opposition(n: usize, flag: usize, p: usize, m: usize, blocks: &[u8], table: &mut [u64],);
    /// Judges a design: v, b, r, p, L1, L2.
    judge = bench_judge(n: usize, flag: usize, p: usize, m: usize, blocks: &[u8], answer: &mut [u64],);
    /// The same by the differences of the initial blocks.
    judge_by_differences = bench_judge_by_differences(n: usize, flag: usize, p: usize, m: usize, blocks: &[u8], answer: &mut [u64],);
    /// The total of one object.
    total = bench_total(n: usize, flag: usize, p: usize, m: usize, blocks: &[u8], readings: &[i32], object: usize, signed_slots: &mut [i64],);
    /// The sum of the squared readings, in two slots: 2^64 times the first, the high word, and the second.
    sum_of_squares = bench_sum_of_squares(n: usize, flag: usize, p: usize, m: usize, readings: &[i32], answer: &mut [u64],);
    /// The sum of the squared totals, in two slots, the high word first.
    sum_of_squared_totals = bench_sum_of_squared_totals(n: usize, flag: usize, p: usize, m: usize, blocks: &[u8], readings: &[i32], answer: &mut [u64],);
    /// Why a whole job is refused.
    refusal = bench_refusal(n: usize, flag: usize, p: usize, m: usize, blocks: &[u8], readings: &[i32], set: u64, sum: i64,);
    /// The v numerators of the values.
    values = bench_values(n: usize, flag: usize, p: usize, m: usize, blocks: &[u8], readings: &[i32], set: u64, sum: i64, values: &mut [i64],);
    /// The value of one object: numerator, hundredths; denominator, variance factor; the f64s of the value and of the factor.
    value_of = bench_value_of(n: usize, flag: usize, p: usize, m: usize, blocks: &[u8], readings: &[i32], set: u64, sum: i64, object: usize,
        signed_slots: &mut [i64], answer: &mut [u64], real: &mut [f64],);
    /// The standard uncertainty of one object: hundredths, 1 where it is stated; its f64.
    uncertainty_of = bench_uncertainty_of(n: usize, flag: usize, p: usize, m: usize, blocks: &[u8], readings: &[i32], set: u64, sum: i64, object: usize,
        answer: &mut [u64], real: &mut [f64],);
    /// The v published hundredths.
    published = bench_published(n: usize, flag: usize, p: usize, m: usize, blocks: &[u8], readings: &[i32], set: u64, sum: i64, hundredths: &mut [i64],);
    /// The b numerators of the deviations.
    deviations = bench_deviations(n: usize, flag: usize, p: usize, m: usize, blocks: &[u8], readings: &[i32], deviations: &mut [i64],);
    /// The deviation of one block: numerator; denominator.
    deviation_of = bench_deviation_of(n: usize, flag: usize, p: usize, m: usize, blocks: &[u8], readings: &[i32], block: usize,
        signed_slots: &mut [i64], answer: &mut [u64],);
    /// Q, in two slots, the high word first.
    q = bench_q(n: usize, flag: usize, p: usize, m: usize, blocks: &[u8], readings: &[i32], answer: &mut [u64],);
    /// The spread, in six slots: Q in two, the high word first, v·beta, f, hundredths, whether there is a spread; the spread, 0.0 for none.
    spread = bench_spread(n: usize, flag: usize, p: usize, m: usize, blocks: &[u8], readings: &[i32], answer: &mut [u64], real: &mut [f64],);
    /// Everything at once, in thirteen slots: v, b, r, p, L1, L2, denominator, Q in two, the high word first, v·beta, f, hundredths, whether there is a spread;
    /// the spread, 0.0 for none.
    analyse = bench_analyse(n: usize, flag: usize, p: usize, m: usize, blocks: &[u8], readings: &[i32], set: u64, sum: i64,
        words: &mut [u64], values: &mut [i64], deviations: &mut [i64], answer: &mut [u64], real: &mut [f64],);
    /// The field at a place: where its body starts, and the byte after it.
    field_at = bench_field_at(bytes: &[u8], place: usize, tag: u8, length: usize, answer: &mut [u64],);
    /// Reads a job file: M; n, flag, p, m, where the blocks and the readings start, the restraint set.
    read = bench_read(bytes: &[u8], signed_slots: &mut [i64], answer: &mut [u64],);
    /// Works a job file out: as [`analyse`].
    solve = bench_solve(bytes: &[u8], words: &mut [u64], values: &mut [i64], deviations: &mut [i64], answer: &mut [u64], real: &mut [f64],);
    /// Writes the file of a job: how many bytes.
    write = bench_write(n: usize, flag: usize, p: usize, m: usize, blocks: &[u8], set: u64, sum: i64, readings: &[i32], out: &mut [u8], answer: &mut [u64],);
    /// Writes the text for a job file: how many bytes.
    listing = bench_listing(bytes: &[u8], out: &mut [u8], answer: &mut [u64],);
    /// Writes the certificate of a job file; how many bytes.
    certificate = bench_certificate(bytes: &[u8], out: &mut [u8], answer: &mut [u64],);
    /// Writes the card of a job file: how many bytes.
    card = bench_card(bytes: &[u8], out: &mut [u8], answer: &mut [u64],);
    /// Reads a file of the second edition: as [`read`], and where the names start, 0 for none.
    read_second = bench_read_second(bytes: &[u8], signed_slots: &mut [i64], answer: &mut [u64],);
    /// Works a file of the second edition out: as [`analyse`].
    solve_second = bench_solve_second(bytes: &[u8], words: &mut [u64], values: &mut [i64], deviations: &mut [i64], answer: &mut [u64], real: &mut [f64],);
    /// Writes the file of a job in the second edition, names of eight bytes an object or none: how many bytes.
    write_second = bench_write_second(n: usize, flag: usize, p: usize, m: usize, blocks: &[u8], set: u64, sum: i64, readings: &[i32], names: &[u8],
        out: &mut [u8], answer: &mut [u64],);
    /// Moves a file of the first edition to the second: how many bytes.
    to_second = bench_to_second(bytes: &[u8], out: &mut [u8], answer: &mut [u64],);
    /// Moves a file of the second edition to the first: how many bytes.
    to_first = bench_to_first(bytes: &[u8], out: &mut [u8], answer: &mut [u64],);
    /// Writes the text for a file of the second edition: how many bytes.
    listing_second = bench_listing_second(bytes: &[u8], out: &mut [u8], answer: &mut [u64],);
    /// Writes the certificate of a file of the second edition, with its names; how many bytes.
    certificate_second = bench_certificate_second(bytes: &[u8], out: &mut [u8], answer: &mut [u64],);
    /// Writes the card of a file of the second edition, with its names and its other fields: how many bytes.
    card_second = bench_card_second(bytes: &[u8], out: &mut [u8], answer: &mut [u64],);
    /// Judges any blocks with respect to groups: l11, l21, l12, l22.
    grouped = bench_grouped(count: usize, v: usize, p: usize, blocks: &[u8], groups: &[u8], answer: &mut [u64],);
    /// The grouped set of a design, in 2b words: v, b, r, p, l11, l21, l12, l22.
    group_base = bench_group_base(n: usize, flag: usize, p: usize, m: usize, blocks: &[u8], g: usize, words: &mut [u64], answer: &mut [u64],);
    /// Checks a sheet against the job's parts: whether it agrees, and where it first differs. With `has_spread` 0 it claims that there is no spread.
    check_parts = bench_check_parts(n: usize, flag: usize, p: usize, m: usize, blocks: &[u8], readings: &[i32], set: u64, sum: i64, claims: &[i64],
        has_spread: u64, spread: f64, freedom: u64, answer: &mut [u64],);
    /// Checks a sheet against a job file: as [`check_parts`].
    check_file = bench_check_file(bytes: &[u8], claims: &[i64], has_spread: u64, spread: f64, freedom: u64, answer: &mut [u64],);
    /// Checks a sheet against a file of the second edition: as [`check_parts`].
    check_second = bench_check_second(bytes: &[u8], claims: &[i64], has_spread: u64, spread: f64, freedom: u64, answer: &mut [u64],);
    /// The b practice readings.
    practice = bench_practice(n: usize, flag: usize, p: usize, m: usize, blocks: &[u8], truths: &[i32], start: u32, width: usize, readings: &mut [i32],);
    /// Writes the file of a practice job: how many bytes.
    practice_file = bench_practice_file(n: usize, flag: usize, p: usize, m: usize, blocks: &[u8], truths: &[i32], start: u32, width: usize, set: u64,
        out: &mut [u8], answer: &mut [u64],);
    /// The pooled spread of files laid end to end: as [`spread`], the sum of Q in two slots.
    pool = bench_pool(bytes: &[u8], lengths: &[usize], answer: &mut [u64], real: &mut [f64],);
}
