//! Each call on example A and on an input that is refused; then the same through `calls`, with rooms and slots that are exact, longer and too short.
use mass_bench::*;

const HERE: &str = match option_env!("CARGO_MANIFEST_DIR") {
    Some(folder) => folder,
    None => "hosts/rust",
};

fn example(name: &str) -> Vec<u8> {
    std::fs::read(format!("{}/../../examples/{name}", HERE)).unwrap()
}

const A: Head = Head { n: 5, flag: 0, p: 2, m: 1 };
const BLOCKS: [u8; 4] = [1, 4, 2, 3];
const READINGS: [i32; 5] = [11, -3, 4, 1, -8];
const SET: u64 = 0b11;
const SUM: i64 = 7;

/// Example C, which is not balanced.
const C: Head = Head { n: 4, flag: 0, p: 1, m: 1 };

fn refused<T>(reason: Reason, place: u64) -> Result<T, Refusal> {
    Err(Refusal { reason, job: None, place })
}

// ---- designs

#[test]
fn block_lists_are_refused_or_not() {
    assert_eq!(pairs_refusal(A, &BLOCKS), Ok(()));
    assert_eq!(pairs_refusal(C, &[0, 1]), Ok(()));
    assert_eq!(pairs_refusal(A, &[1, 4, 2, 4]), refused(Reason::BadObject, 3));
    assert_eq!(pairs_refusal(A, &[1, 4, 2]), refused(Reason::WrongLength, 0));
    assert_eq!(pairs_refusal(Head { flag: 2, ..A }, &[]), refused(Reason::BrokenSize, 0));
}

#[test]
fn designs_are_developed() {
    assert_eq!(develop(A, &BLOCKS).unwrap(), [0b10010, 0b01100, 0b00101, 0b11000, 0b01010, 0b10001, 0b10100, 0b00011, 0b01001, 0b00110]);
    assert_eq!(develop(A, &[1, 4, 2, 5]), refused(Reason::BadObject, 3));
    let d = Head { n: 4, flag: 0, p: 1, m: 3 };
    let blocks = [0, 1, 0, 1, 0, 2];
    let words = develop(d, &blocks).unwrap();
    for j in 0..3 {
        assert_eq!(develop_initial(d, &blocks, j).unwrap(), words[8 * j..8 * j + 8]);
    }
    assert_eq!(develop_initial(d, &blocks, 3), refused(Reason::BadObject, 3));
}

#[test]
fn pairs_are_counted() {
    let (company, opposition) = (company(A, &BLOCKS).unwrap(), opposition(A, &BLOCKS).unwrap());
    for i in 0..50 {
        for j in 0..50 {
            let (shared, opposed) = if i.max(j) >= 5 { (0, 0) } else if i == j { (4, 0) } else { (1, 2) };
            assert_eq!((company[i][j], opposition[i][j]), (shared, opposed), "{i} {j}");
        }
    }
    assert_eq!(mass_bench::company(C, &[0]), refused(Reason::WrongLength, 0));
    assert_eq!(mass_bench::opposition(C, &[0, 0]), refused(Reason::BadObject, 1));
}

#[test]
fn designs_are_judged() {
    for judge in [judge, judge_by_differences] {
        assert_eq!(judge(A, &BLOCKS), Ok(Parameters { v: 5, b: 5, r: 4, p: 2, l1: 1, l2: 2 }));
        let e = judge(Head { n: 7, flag: 1, p: 4, m: 1 }, &[255, 1, 2, 4, 0, 3, 5, 6]);
        assert_eq!(e, Ok(Parameters { v: 8, b: 7, r: 7, p: 4, l1: 3, l2: 4 }));
        assert_eq!(judge(C, &[0, 1]), refused(Reason::Unbalanced, 0));
        assert_eq!(judge(C, &[0, 4]), refused(Reason::BadObject, 1));
        assert_eq!(judge(Head { n: 51, ..C }, &[]), refused(Reason::BrokenSize, 0));
    }
}

// ---- jobs

#[test]
fn totals_and_squares_are_summed() {
    let totals: Vec<i64> = (0..5).map(|i| total(A, &BLOCKS, &READINGS, i).unwrap()).collect();
    assert_eq!(totals, [-16, 22, -5, -12, 11]);
    assert_eq!(total(A, &BLOCKS, &READINGS, 5), refused(Reason::BadObject, 5));
    assert_eq!(sum_of_squares(A, &READINGS), Ok(211));
    assert_eq!(sum_of_squares(A, &[0, 0, 200_000_001, 0, 0]), refused(Reason::BadReading, 2));
    assert_eq!(sum_of_squared_totals(A, &BLOCKS, &READINGS), Ok(1030));
    assert_eq!(sum_of_squared_totals(A, &BLOCKS, &[]), refused(Reason::WrongLength, 0));
    assert!(sum_of_squared_totals(C, &[0, 1], &[0; 4]).is_ok());
}

#[test]
fn sums_and_q_pass_a_word() {
    // three objects opposed nine times over: all readings alike, so that every total is 0; and readings whose totals differ
    let (nine, blocks) = (Head { n: 3, flag: 0, p: 1, m: 9 }, [0, 1].repeat(9));
    let alike = [200_000_000; 27];
    assert_eq!(sum_of_squares(nine, &alike), Ok(1_080_000_000_000_000_000));
    assert_eq!(q(nine, &blocks, &alike), Ok(29_160_000_000_000_000_000));
    let turns = [200_000_000, -200_000_000, 0].repeat(9);
    assert_eq!(sum_of_squared_totals(nine, &blocks, &turns), Ok(19_440_000_000_000_000_000));
    let measured = spread(nine, &blocks, &alike).unwrap();
    assert_eq!((measured.q, measured.spread.unwrap().hundredths), (29_160_000_000_000_000_000, 20_784_609_690));
    let mut answer = [WORD; 3];
    assert_eq!(calls::q(3, 0, 1, 9, &blocks, &alike, &mut answer), 0);
    assert_eq!(answer, [1, 10_713_255_926_290_448_384, WORD]);
}

#[test]
fn jobs_are_refused_or_not() {
    assert_eq!(refusal(A, &BLOCKS, &READINGS, SET, SUM), Ok(()));
    assert_eq!(refusal(A, &BLOCKS, &READINGS, 32, SUM), refused(Reason::BadRestraint, 0));
    assert_eq!(refusal(A, &BLOCKS, &READINGS, SET, 1_000_000_000_001), refused(Reason::BadRestraint, 0));
    assert_eq!(refusal(C, &[0, 1], &[0; 4], 0, SUM), refused(Reason::Unbalanced, 0));
}

#[test]
fn one_standard_is_too_few() {
    let (far, unbalanced) = ([0, 0, 0, 200_000_001, 0], [1, 4, 2, 0]);
    for (set, number) in [(0, 7), (1, 11), (2, 11), (16, 11), (17, 0), (31, 0), (32, 7), (33, 7)] {
        let wanted = refusal_in(number);
        assert_eq!(refusal(A, &BLOCKS, &READINGS, set, SUM), wanted, "set {set}");
        assert_eq!(values(A, &BLOCKS, &READINGS, set, SUM).map(|_| ()), wanted, "set {set}");
        assert_eq!(value_of(A, &BLOCKS, &READINGS, set, SUM, 0).map(|_| ()), wanted, "set {set}");
        assert_eq!(published(A, &BLOCKS, &READINGS, set, SUM).map(|_| ()), wanted, "set {set}");
        assert_eq!(analyse(A, &BLOCKS, &READINGS, set, SUM).map(|_| ()), wanted, "set {set}");
        assert_eq!(write(A, &BLOCKS, set, SUM, &READINGS).map(|_| ()), wanted, "set {set}");
        // in a file at the third field's start
        let mut file = example("A.job");
        file[24] = set as u8;
        let in_file = refusal_in(if number == 0 { 0 } else { number + (14 << 16) });
        assert_eq!(read(&file).map(|_| ()), in_file, "set {set}");
        assert_eq!(solve(&file).map(|_| ()), in_file, "set {set}");
        assert_eq!(listing(&file).unwrap().starts_with(&format!("refused {number} 14\n")), number != 0, "set {set}");
    }
    // after 6 and 7, before 8
    assert_eq!(refusal(A, &unbalanced, &READINGS, 1, SUM), refused(Reason::Unbalanced, 0));
    assert_eq!(refusal(A, &BLOCKS, &READINGS, 1, 1_000_000_000_001), refused(Reason::BadRestraint, 0));
    assert_eq!(refusal(A, &BLOCKS, &far, 1, SUM), refused(Reason::OneStandard, 0));
    assert_eq!(write(A, &BLOCKS, 1, -1_000_000_000_001, &far), refused(Reason::BadRestraint, 0));
    assert_eq!(write(A, &BLOCKS, 1, SUM, &far), refused(Reason::OneStandard, 0));
    assert_eq!(value_of(A, &BLOCKS, &far, 1, SUM, 5), refused(Reason::BadObject, 5));
    assert_eq!(value_of(A, &BLOCKS, &far, 1, SUM, 4), refused(Reason::OneStandard, 0));
}

#[test]
fn values_are_worked_out() {
    assert_eq!(values(A, &BLOCKS, &READINGS, SET, SUM).unwrap(), [-3, 73, 19, 5, 51]);
    assert_eq!(values(A, &BLOCKS, &READINGS, 0, SUM), refused(Reason::BadRestraint, 0));
    let first = Value { numerator: -3, denominator: 10, hundredths: -30, value: -0.3, factor: 1, factor_value: 0.1 };
    assert_eq!(value_of(A, &BLOCKS, &READINGS, SET, SUM, 0), Ok(first));
    let third = Value { numerator: 19, denominator: 10, hundredths: 190, value: 1.9, factor: 3, factor_value: 0.3 };
    assert_eq!(value_of(A, &BLOCKS, &READINGS, SET, SUM, 2), Ok(third));
    assert_eq!(value_of(A, &BLOCKS, &READINGS, SET, SUM, 5), refused(Reason::BadObject, 5));
    // a place of the caller's own is told modulo 2^48
    assert_eq!(value_of(A, &BLOCKS, &READINGS, SET, SUM, usize::MAX), refused(Reason::BadObject, (1 << 48) - 1));
}

#[test]
fn variance_factors_are_handed_out() {
    // t - 1 for members of the restraint, t + 1 for the others, over t times v beta, which is 5 here; all five are members of the last set
    for set in [0b11, 0b10001, 0b10110, 0b11110, 0b11111u64] {
        let t = u64::from(set.count_ones());
        for object in 0..5 {
            let value = value_of(A, &BLOCKS, &READINGS, set, SUM, object).unwrap();
            let factor = if set >> object & 1 == 1 { t - 1 } else { t + 1 };
            assert_eq!((value.factor, value.denominator), (factor, 5 * t), "set {set}, object {object}");
            assert_eq!(value.factor_value, factor as f64 / (5 * t) as f64, "set {set}, object {object}");
            let spread = spread(A, &BLOCKS, &READINGS).unwrap().spread;
            assert_eq!(value.standard_deviation(spread), Some(2.23 * value.factor_value.sqrt()), "set {set}, object {object}");
            assert_eq!(value.standard_deviation(None), None);
        }
    }
}

#[test]
fn published_columns_add_up() {
    assert_eq!(published(A, &BLOCKS, &READINGS, SET, SUM).unwrap(), [-30, 730, 190, 50, 510]);
    assert_eq!(published(A, &BLOCKS, &READINGS, 0, SUM), refused(Reason::BadRestraint, 0));
    // thirds, above and below zero: of equal parts the lowest objects gain
    let three = Head { n: 3, flag: 0, p: 1, m: 1 };
    assert_eq!(published(three, &[0, 1], &[0; 3], 0b111, 1).unwrap(), [34, 33, 33]);
    assert_eq!(published(three, &[0, 1], &[0; 3], 0b111, -1).unwrap(), [-33, -33, -34]);
    // one object at a time gives the same, and each set of members adds to 100 times its accepted sum
    for (set, sum) in (1..32u64).filter(|set| set.count_ones() > 1).flat_map(|set| [7, 1, 0, -4].map(|sum| (set, sum))) {
        let column = published(A, &BLOCKS, &READINGS, set, sum).unwrap();
        let alone: Vec<i64> = (0..5).map(|object| value_of(A, &BLOCKS, &READINGS, set, sum, object).unwrap().hundredths).collect();
        assert_eq!(column, alone, "set {set}, sum {sum}");
        let members: i64 = (0..5).filter(|object| set >> object & 1 == 1).map(|object| column[object]).sum();
        assert_eq!(members, 100 * sum, "set {set}, sum {sum}");
    }
}

#[test]
fn deviations_and_spread_are_worked_out() {
    assert_eq!(deviations(A, &BLOCKS, &READINGS).unwrap(), [5; 5]);
    assert_eq!(deviations(C, &[0, 1], &[0; 4]), refused(Reason::Unbalanced, 0));
    assert_eq!(deviation_of(A, &BLOCKS, &READINGS, 4), Ok(Deviation { numerator: 5, denominator: 5 }));
    assert_eq!(deviation_of(A, &BLOCKS, &READINGS, 5), refused(Reason::BadObject, 5));
    assert_eq!(q(A, &BLOCKS, &READINGS), Ok(25));
    assert_eq!(q(A, &BLOCKS, &[0, -200_000_001, 0, 0, 0]), refused(Reason::BadReading, 1));
    let a = Spreading { q: 25, vbeta: 5, freedom: 1, spread: Some(Spread { hundredths: 223, value: 2.23 }) };
    assert_eq!(spread(A, &BLOCKS, &READINGS), Ok(a));
    assert_eq!(spread(C, &[0, 1], &[0; 4]), refused(Reason::Unbalanced, 0));
    let e = spread(Head { n: 7, flag: 1, p: 4, m: 1 }, &[255, 1, 2, 4, 0, 3, 5, 6], &[0; 7]).unwrap();
    assert_eq!((e.freedom, e.spread), (0, None));
}

#[test]
fn jobs_are_analysed() {
    let a = analyse(A, &BLOCKS, &READINGS, SET, SUM).unwrap();
    assert_eq!(a, solve(&example("A.job")).unwrap());
    assert_eq!((a.values, a.solved.denominator), (vec![-3, 73, 19, 5, 51], 10));
    assert_eq!((a.deviations, a.solved.spreading.vbeta), (vec![5; 5], 5));
    assert_eq!((a.words.len(), a.words[0], a.words[1]), (10, 0b10010, 0b01100));
    assert_eq!(a.solved.parameters, judge(A, &BLOCKS).unwrap());
    assert_eq!(analyse(A, &BLOCKS, &[0, 0, 0, 0, 200_000_001], SET, SUM), refused(Reason::BadReading, 4));
}

// ---- files

#[test]
fn fields_are_found() {
    let a = example("A.job");
    assert_eq!(field_at(&a, 0, 1, 4), Ok(Field { body: 3, next: 7 }));
    assert_eq!(field_at(&a, 7, 2, 4), Ok(Field { body: 10, next: 14 }));
    assert_eq!(field_at(&a, 7, 3, 4), refused(Reason::WrongTag, 7));
    assert_eq!(field_at(&a, 7, 2, 5), refused(Reason::WrongLength, 7));
    assert_eq!(field_at(&a[..13], 7, 2, 4), refused(Reason::PastTheEnd, 7));
    assert_eq!(field_at(&a, usize::MAX, 1, 4), refused(Reason::PastTheEnd, (1 << 48) - 1));
}

#[test]
fn files_are_read_and_solved() {
    let a = JobRead { head: A, blocks_at: 10, readings_at: 36, set: SET, sum: SUM };
    assert_eq!(read(&example("A.job")), Ok(a));
    assert_eq!(read(&[]), refused(Reason::PastTheEnd, 0));
    let refusal = solve(&example("K-byte-added.job")).unwrap_err();
    assert_eq!(refusal, Refusal { reason: Reason::BytesFollow, job: None, place: 56 });
    assert_eq!(refusal.to_string(), "refused 9 56");
    let e = solve(&example("E.job")).unwrap().solved.spreading;
    assert_eq!((e.freedom, e.spread), (0, None));
}

#[test]
fn files_are_written() {
    assert_eq!(write(A, &BLOCKS, SET, SUM, &READINGS), Ok(example("A.job")));
    let readings = [200_000_000, -200_000_000, 0, 1, -1];
    let file = write(A, &BLOCKS, 0b10001, -1_000_000_000_000, &readings).unwrap();
    let mut expected = vec![1, 0, 4, 5, 0, 2, 1, 2, 0, 4, 1, 4, 2, 3, 3, 0, 16];
    expected.extend(0b10001u64.to_be_bytes());
    expected.extend((-1_000_000_000_000i64).to_be_bytes());
    expected.extend([4, 0, 20]);
    expected.extend(readings.iter().flat_map(|reading: &i32| reading.to_be_bytes()));
    assert_eq!(file, expected);
    assert_eq!(read(&file), Ok(JobRead { head: A, blocks_at: 10, readings_at: 36, set: 0b10001, sum: -1_000_000_000_000 }));
    // the restrained objects 0 and 4 add to M
    let job = solve(&file).unwrap();
    assert_eq!(job.solved.denominator, 10);
    assert_eq!(job.values[0] + job.values[4], -1_000_000_000_000 * 10);
}

#[test]
fn jobs_that_are_read_as_bad_are_not_written() {
    assert_eq!(write(Head { p: 3, ..A }, &BLOCKS, 0, 7, &[]), refused(Reason::BrokenSize, 0));
    assert_eq!(write(Head { flag: 2, ..A }, &BLOCKS, 3, 7, &READINGS), refused(Reason::BrokenSize, 0));
    assert_eq!(write(A, &[1, 4, 2, 9], 3, 7, &[]), refused(Reason::WrongLength, 0));
    assert_eq!(write(A, &[1, 4, 2, 4], 0, 7, &READINGS), refused(Reason::BadObject, 3));
    assert_eq!(write(A, &[1, 4, 2, 0], 0, 7, &READINGS), refused(Reason::Unbalanced, 0));
    assert_eq!(write(A, &BLOCKS, 32, 7, &[200_000_001; 5]), refused(Reason::BadRestraint, 0));
    assert_eq!(write(A, &BLOCKS, 3, 7, &[0, 0, -200_000_001, 0, 200_000_001]), refused(Reason::BadReading, 2));
}

#[test]
fn every_example_is_listed() {
    let folder = format!("{}/../../examples", HERE);
    let mut jobs = 0;
    for entry in std::fs::read_dir(folder).unwrap() {
        let name = entry.unwrap().file_name().into_string().unwrap();
        if let Some(stem) = name.strip_suffix(".job") {
            assert_eq!(listing(&example(&name)).unwrap(), String::from_utf8(example(&format!("{stem}.listing"))).unwrap(), "{name}");
            jobs += 1;
        }
    }
    assert!(jobs >= 17);
}

// ---- what is lent, through `calls`

/// 10 at 0, as it is returned.
const NO_ROOM: u64 = 10;

/// What every lent buffer holds before a call, by its kind.
const WORD: u64 = 0xA5A5;
const SIGNED: i64 = -12345;
const REAL: f64 = -1.5;
const BYTE: u8 = 0xA5;

/// Lends a buffer that is exact, one that is longer by three entries, and one that is one entry short: on acceptance its first entries are `wanted` and the
/// others stay; of the short one the call is refused by 10, and all stays.
fn lent<T: Copy + PartialEq + std::fmt::Debug>(about: &str, filled: T, wanted: &[T], call: impl Fn(&mut [T]) -> u64) {
    for length in [wanted.len(), wanted.len() + 3] {
        let mut buffer = vec![filled; length];
        assert_eq!(call(&mut buffer), 0, "{about}: {length} lent");
        assert_eq!((&buffer[..wanted.len()], &buffer[wanted.len()..]), (wanted, &vec![filled; length - wanted.len()][..]), "{about}: {length} lent");
    }
    let mut buffer = vec![filled; wanted.len() - 1];
    assert_eq!(call(&mut buffer), NO_ROOM, "{about}: too few lent");
    assert_eq!(buffer, vec![filled; wanted.len() - 1], "{about}: too few lent");
}

/// A refused call hands back its number and place, and leaves the buffer, which is long enough, as it was.
fn stays<T: Copy + PartialEq + std::fmt::Debug>(about: &str, filled: T, number: u64, place: u64, call: impl Fn(&mut [T]) -> u64) {
    for length in [0, 7000] {
        let mut buffer = vec![filled; length];
        assert_eq!(call(&mut buffer), number + (place << 16), "{about}: {length} lent");
        assert_eq!(buffer, vec![filled; length], "{about}: {length} lent");
    }
}

/// The words of a table, row after row.
fn flat(table: Table) -> Vec<u64> {
    table.concat()
}

#[test]
fn rooms_and_slots_of_designs() {
    let Head { n, flag, p, m } = A;
    lent("develop", WORD, &develop(A, &BLOCKS).unwrap(), |words| calls::develop(n, flag, p, m, &BLOCKS, words));
    lent("develop_initial", WORD, &develop(A, &BLOCKS).unwrap(), |words| calls::develop_initial(n, flag, p, m, &BLOCKS, 0, words));
    lent("company", WORD, &flat(company(A, &BLOCKS).unwrap()), |table| calls::company(n, flag, p, m, &BLOCKS, table));
    lent("opposition", WORD, &flat(opposition(A, &BLOCKS).unwrap()), |table| calls::opposition(n, flag, p, m, &BLOCKS, table));
    lent("judge", WORD, &[5, 5, 4, 2, 1, 2], |answer| calls::judge(n, flag, p, m, &BLOCKS, answer));
    lent("judge_by_differences", WORD, &[5, 5, 4, 2, 1, 2], |answer| calls::judge_by_differences(n, flag, p, m, &BLOCKS, answer));
    let bad = [1, 4, 2, 4];
    stays("develop", WORD, 5, 3, |words| calls::develop(n, flag, p, m, &bad, words));
    stays("develop_initial", WORD, 5, 9, |words| calls::develop_initial(n, flag, p, m, &BLOCKS, 9, words));
    stays("company", WORD, 5, 3, |table| calls::company(n, flag, p, m, &bad, table));
    stays("opposition", WORD, 5, 3, |table| calls::opposition(n, flag, p, m, &bad, table));
    stays("judge", WORD, 6, 0, |answer| calls::judge(4, 0, 1, 1, &[0, 1], answer));
    stays("judge_by_differences", WORD, 6, 0, |answer| calls::judge_by_differences(4, 0, 1, 1, &[0, 1], answer));
}

#[test]
fn a_call_for_one_initial_block_writes_its_own_words_alone() {
    let blocks = [0, 1, 0, 1, 0, 2];
    let words = develop(Head { n: 4, flag: 0, p: 1, m: 3 }, &blocks).unwrap();
    let mut room = [WORD; 24];
    assert_eq!(calls::develop_initial(4, 0, 1, 3, &blocks, 1, &mut room), 0);
    assert_eq!((&room[..8], &room[8..16], &room[16..]), (&[WORD; 8][..], &words[8..16], &[WORD; 8][..]));
    let mut short = [WORD; 23];
    assert_eq!((calls::develop_initial(4, 0, 1, 3, &blocks, 1, &mut short), short), (NO_ROOM, [WORD; 23]));
}

#[test]
fn rooms_and_slots_of_jobs() {
    let Head { n, flag, p, m } = A;
    let (b, y) = (&BLOCKS[..], &READINGS[..]);
    lent("total", SIGNED, &[22], |signed| calls::total(n, flag, p, m, b, y, 1, signed));
    lent("sum_of_squares", WORD, &[0, 211], |answer| calls::sum_of_squares(n, flag, p, m, y, answer));
    lent("sum_of_squared_totals", WORD, &[0, 1030], |answer| calls::sum_of_squared_totals(n, flag, p, m, b, y, answer));
    lent("values", SIGNED, &[-3, 73, 19, 5, 51], |values| calls::values(n, flag, p, m, b, y, SET, SUM, values));
    lent("published", SIGNED, &[-30, 730, 190, 50, 510], |hundredths| calls::published(n, flag, p, m, b, y, SET, SUM, hundredths));
    lent("deviations", SIGNED, &[5; 5], |deviations| calls::deviations(n, flag, p, m, b, y, deviations));
    lent("q", WORD, &[0, 25], |answer| calls::q(n, flag, p, m, b, y, answer));
    let far = [0, 0, 0, 200_000_001, 0];
    stays("total", SIGNED, 5, 5, |signed| calls::total(n, flag, p, m, b, &far, 5, signed));
    stays("sum_of_squares", WORD, 8, 3, |answer| calls::sum_of_squares(n, flag, p, m, &far, answer));
    stays("sum_of_squared_totals", WORD, 8, 3, |answer| calls::sum_of_squared_totals(n, flag, p, m, b, &far, answer));
    stays("values", SIGNED, 7, 0, |values| calls::values(n, flag, p, m, b, &far, 0, SUM, values));
    stays("published", SIGNED, 7, 0, |hundredths| calls::published(n, flag, p, m, b, &far, 0, SUM, hundredths));
    stays("values", SIGNED, 11, 0, |values| calls::values(n, flag, p, m, b, &far, 1, SUM, values));
    stays("published", SIGNED, 11, 0, |hundredths| calls::published(n, flag, p, m, b, &far, 1, SUM, hundredths));
    stays("published", SIGNED, 8, 3, |hundredths| calls::published(n, flag, p, m, b, &far, SET, SUM, hundredths));
    stays("deviations", SIGNED, 8, 3, |deviations| calls::deviations(n, flag, p, m, b, &far, deviations));
    stays("q", WORD, 8, 3, |answer| calls::q(n, flag, p, m, b, &far, answer));
    assert_eq!(calls::refusal(n, flag, p, m, b, &far, SET, SUM), 8 + (3 << 16));
    assert_eq!(calls::pairs_refusal(n, flag, p, m, &[1, 4, 2, 4]), 5 + (3 << 16));
}

/// The slots of a call that has several kinds: what they hold after it.
type Slots = (Vec<i64>, Vec<u64>, Vec<f64>);

/// Lends slots of three kinds, exact and longer; then each kind one short; then lets the call refuse. Kinds that the call has not are lent empty.
fn slots(
    about: &str,
    wanted: Slots,
    call: impl Fn(&mut [i64], &mut [u64], &mut [f64]) -> u64,
    refusal: u64,
    refused: impl Fn(&mut [i64], &mut [u64], &mut [f64]) -> u64,
) {
    let of = |signed, words, reals| (vec![SIGNED; signed], vec![WORD; words], vec![REAL; reals]);
    let counts = (wanted.0.len(), wanted.1.len(), wanted.2.len());
    let lend = |lengths: (usize, usize, usize), call: &dyn Fn(&mut [i64], &mut [u64], &mut [f64]) -> u64| {
        let mut lent = of(lengths.0, lengths.1, lengths.2);
        let returned = call(&mut lent.0, &mut lent.1, &mut lent.2);
        (returned, lent)
    };
    for more in [0, 3] {
        let (returned, lent) = lend((counts.0 + more, counts.1 + more, counts.2 + more), &call);
        assert_eq!(returned, 0, "{about}: {more} more");
        assert_eq!((&lent.0[..counts.0], &lent.1[..counts.1], &lent.2[..counts.2]), (&wanted.0[..], &wanted.1[..], &wanted.2[..]), "{about}: {more} more");
        let later = of(lent.0.len() - counts.0, lent.1.len() - counts.1, lent.2.len() - counts.2);
        assert_eq!((&lent.0[counts.0..], &lent.1[counts.1..], &lent.2[counts.2..]), (&later.0[..], &later.1[..], &later.2[..]), "{about}: later slots");
    }
    for kind in 0..3 {
        let mut lengths = [counts.0, counts.1, counts.2];
        if lengths[kind] == 0 {
            continue;
        }
        lengths[kind] -= 1;
        let lengths = (lengths[0], lengths[1], lengths[2]);
        assert_eq!(lend(lengths, &call), (NO_ROOM, of(lengths.0, lengths.1, lengths.2)), "{about}: kind {kind} one short");
        assert_eq!(lend(lengths, &refused), (refusal, of(lengths.0, lengths.1, lengths.2)), "{about}: refused, kind {kind} one short");
    }
    assert_eq!(lend(counts, &refused), (refusal, of(counts.0, counts.1, counts.2)), "{about}: refused");
}

#[test]
fn slots_of_several_kinds() {
    let Head { n, flag, p, m } = A;
    let (b, y) = (&BLOCKS[..], &READINGS[..]);
    slots(
        "value_of",
        (vec![73, 730], vec![10, 1], vec![7.3, 0.1]),
        |signed, answer, real| calls::value_of(n, flag, p, m, b, y, SET, SUM, 1, signed, answer, real),
        5 + (6 << 16),
        |signed, answer, real| calls::value_of(n, flag, p, m, b, y, SET, SUM, 6, signed, answer, real),
    );
    slots(
        "uncertainty_of",
        (vec![], vec![71, 1], vec![0.71]),
        |_, answer, real| calls::uncertainty_of(n, flag, p, m, b, y, SET, SUM, 1, answer, real),
        5 + (6 << 16),
        |_, answer, real| calls::uncertainty_of(n, flag, p, m, b, y, SET, SUM, 6, answer, real),
    );
    slots(
        "deviation_of",
        (vec![5], vec![5], vec![]),
        |signed, answer, _| calls::deviation_of(n, flag, p, m, b, y, 1, signed, answer),
        5 + (6 << 16),
        |signed, answer, _| calls::deviation_of(n, flag, p, m, b, y, 6, signed, answer),
    );
    slots(
        "spread",
        (vec![], vec![0, 25, 5, 1, 223, 1], vec![2.23]),
        |_, answer, real| calls::spread(n, flag, p, m, b, y, answer, real),
        6,
        |_, answer, real| calls::spread(4, 0, 1, 1, &[0, 1], &[0; 4], answer, real),
    );
    slots(
        "field_at",
        (vec![], vec![10, 14], vec![]),
        |_, answer, _| calls::field_at(&example("A.job"), 7, 2, 4, answer),
        2 + (7 << 16),
        |_, answer, _| calls::field_at(&example("A.job"), 7, 3, 4, answer),
    );
    slots(
        "read",
        (vec![7], vec![5, 0, 2, 1, 10, 36, 3], vec![]),
        |signed, answer, _| calls::read(&example("A.job"), signed, answer),
        9 + (56 << 16),
        |signed, answer, _| calls::read(&example("K-byte-added.job"), signed, answer),
    );
}

/// Rooms of a job worked out, and its slots.
struct Lent {
    words: Vec<u64>,
    values: Vec<i64>,
    deviations: Vec<i64>,
    answer: Vec<u64>,
    real: Vec<f64>,
}

impl Lent {
    fn new(lengths: [usize; 5]) -> Lent {
        let [words, values, deviations, answer, real] = lengths;
        let [values, deviations] = [values, deviations].map(|length| vec![SIGNED; length]);
        Lent { words: vec![WORD; words], values, deviations, answer: vec![WORD; answer], real: vec![REAL; real] }
    }

    fn untouched(&self) -> bool {
        self.words.iter().chain(&self.answer).all(|word| *word == WORD)
            && self.values.iter().chain(&self.deviations).all(|number| *number == SIGNED)
            && self.real.iter().all(|real| *real == REAL)
    }
}

/// A call that works a job out.
type Working<'a> = &'a dyn Fn(&mut [u64], &mut [i64], &mut [i64], &mut [u64], &mut [f64]) -> u64;

#[test]
fn rooms_and_slots_of_a_job_worked_out() {
    let Head { n, flag, p, m } = A;
    let a = example("A.job");
    let far = [0, 0, 0, 0, 200_000_001];
    let analyse: Working = &|w, v, d, answer, real| calls::analyse(n, flag, p, m, &BLOCKS, &READINGS, SET, SUM, w, v, d, answer, real);
    let solve: Working = &|w, v, d, answer, real| calls::solve(&a, w, v, d, answer, real);
    let analyse_far: Working = &|w, v, d, answer, real| calls::analyse(n, flag, p, m, &BLOCKS, &far, SET, SUM, w, v, d, answer, real);
    let solve_cut: Working = &|w, v, d, answer, real| calls::solve(&a[..55], w, v, d, answer, real);
    const EXACT: [usize; 5] = [10, 5, 5, 13, 1];
    let lend = |lengths: [usize; 5], call: Working| {
        let mut lent = Lent::new(lengths);
        let returned = call(&mut lent.words, &mut lent.values, &mut lent.deviations, &mut lent.answer, &mut lent.real);
        (returned, lent)
    };
    for (about, call) in [("analyse", analyse), ("solve", solve)] {
        for more in [0, 3] {
            let (returned, lent) = lend(EXACT.map(|length| length + more), call);
            assert_eq!(returned, 0, "{about}");
            assert_eq!(lent.words[..10], develop(A, &BLOCKS).unwrap(), "{about}");
            assert_eq!((&lent.values[..5], &lent.deviations[..5]), (&[-3, 73, 19, 5, 51][..], &[5; 5][..]), "{about}");
            assert_eq!((&lent.answer[..13], &lent.real[..1]), (&[5, 5, 4, 2, 1, 2, 10, 0, 25, 5, 1, 223, 1][..], &[2.23][..]), "{about}");
            assert_eq!((&lent.words[10..], &lent.answer[13..]), (&vec![WORD; more][..], &vec![WORD; more][..]), "{about}");
            assert_eq!((&lent.values[5..], &lent.deviations[5..]), (&vec![SIGNED; more][..], &vec![SIGNED; more][..]), "{about}");
            assert_eq!(&lent.real[1..], &vec![REAL; more][..], "{about}");
        }
    }
    let (far, cut) = (8 + (4 << 16), 1 + (33 << 16));
    for (about, call, refusal) in [("analyse", analyse, 0), ("solve", solve, 0), ("analyse", analyse_far, far), ("solve", solve_cut, cut)] {
        // each buffer one short, then all of them: 10, or what comes before it; and nothing is written
        for short in 0..6 {
            let mut lengths = EXACT;
            lengths.iter_mut().enumerate().filter(|(k, _)| short == 5 || *k == short).for_each(|(_, length)| *length -= 1);
            let (returned, lent) = lend(lengths, call);
            assert_eq!(returned, if refusal == 0 { NO_ROOM } else { refusal }, "{about}: {lengths:?}");
            assert!(lent.untouched(), "{about}: {lengths:?}");
        }
        if refusal != 0 {
            let (returned, lent) = lend([3000; 5], call);
            assert!(returned == refusal && lent.untouched(), "{about}");
        }
    }
}

#[test]
fn rooms_and_slots_of_files_that_are_written() {
    let Head { n, flag, p, m } = A;
    let (a, text) = (example("A.job"), example("A.listing"));
    let write = |out: &mut [u8], answer: &mut [u64]| calls::write(n, flag, p, m, &BLOCKS, SET, SUM, &READINGS, out, answer);
    let list = |out: &mut [u8], answer: &mut [u64]| calls::listing(&a, out, answer);
    lent("write", BYTE, &a, |out| write(out, &mut [0; 2]));
    lent("write", WORD, &[56], |answer| write(&mut [0; 60], answer));
    lent("listing", BYTE, &text, |out| list(out, &mut [0; 2]));
    lent("listing", WORD, &[text.len() as u64], |answer| list(&mut [0; 1000], answer));
    // without a slot nothing is written; and the job's own refusal comes first
    let mut out = [BYTE; 1000];
    assert_eq!((write(&mut out, &mut []), out), (NO_ROOM, [BYTE; 1000]));
    assert_eq!((list(&mut out, &mut []), out), (NO_ROOM, [BYTE; 1000]));
    let mut answer = [WORD];
    let unbalanced = |out: &mut [u8], answer: &mut [u64]| calls::write(4, 0, 1, 1, &[0, 1], SET, SUM, &[0; 4], out, answer);
    assert_eq!((unbalanced(&mut out, &mut answer), out, answer), (6, [BYTE; 1000], [WORD]));
    assert_eq!((unbalanced(&mut out, &mut []), out), (6, [BYTE; 1000]));
    assert_eq!(unbalanced(&mut [], &mut []), 6);
}

// ---- files of the second edition

#[test]
fn files_of_the_second_edition() {
    let a = example("A.job");
    let second = to_second(&a).unwrap();
    assert_eq!((second.len(), &second[..4], &second[4..]), (60, &[0x10, 0, 1, 2][..], &a[..]));
    assert_eq!(to_first(&second), Ok(a.clone()));
    assert_eq!(write_second(A, &BLOCKS, SET, SUM, &READINGS, &[]), Ok(second.clone()));
    assert_eq!(listing_second(&second), listing(&a));
    assert_eq!(solve_second(&second), solve(&a));
    assert_eq!((read(&second), read_second(&a)), (refused(Reason::WrongTag, 0), refused(Reason::WrongTag, 0)));
    assert_eq!(read_second(&[0; 16_385]), refused(Reason::BrokenSize, 0));
    assert_eq!(read_second(&[0x10, 0, 1, 1]), refused(Reason::WrongEdition, 3));
    assert_eq!(read_second(&[&second[..], &[0x7F, 0, 0]].concat()), refused(Reason::WrongTag, 60));
}

#[test]
fn names_over_fields() {
    // nine elements opposed in pairs, of two opposite differences one: with flag 3 the fixed object is a tenth, and has a name, with flag 2 it is none
    let pairs = [0, 1, 0, 3, 0, 4, 0, 5, 255, 0];
    for (flag, m, v) in [(2, 4, 9), (3, 5, 10)] {
        let (head, blocks, readings) = (Head { n: 9, flag, p: 1, m }, &pairs[..2 * m], vec![7; 9 * m]);
        let names: Vec<Name> = (0..12).map(|object| Name([b'a' + object; 8])).collect();
        let file = write_second(head, blocks, SET, SUM, &readings, &names[..v]).unwrap();
        let found = read_second(&file).unwrap();
        assert_eq!((found.names, found.job.head), (names[..v].to_vec(), head), "flag {flag}");
        assert_eq!(listing_second(&file), listing(&write(head, blocks, SET, SUM, &readings).unwrap()), "flag {flag}");
        // as many names as n, n + 1 and n + flag, where that is not v
        for wrong in [9, 10, 9 + flag].into_iter().filter(|count| *count != v) {
            assert_eq!(write_second(head, blocks, SET, SUM, &readings, &names[..wrong]), refused(Reason::WrongLength, 0), "flag {flag}, {wrong} names");
            let four = file.len() - 3 - 8 * v;
            let other = [&file[..four], &[0x80, 0, 8 * wrong as u8], &[b' '; 96][..8 * wrong]].concat();
            assert_eq!(read_second(&other), refused(Reason::WrongLength, four as u64), "flag {flag}, {wrong} names");
        }
    }
}

#[test]
fn names_of_the_second_edition() {
    let names = [*b"a       ", *b"b  b    ", *b"\xFF       ", *b"        ", *b"12345678"].map(Name);
    let file = write_second(A, &BLOCKS, SET, SUM, &READINGS, &names).unwrap();
    let found = read_second(&file).unwrap();
    assert_eq!((found.names.clone(), found.job.head, found.job.blocks_at, found.job.readings_at), (names.to_vec(), A, 14, 40));
    assert_eq!(found.names.iter().map(Name::to_string).collect::<Vec<_>>(), ["a", "b  b", "\u{FFFD}", "", "12345678"]);
    assert_eq!(to_first(&file), refused(Reason::OptionalFields, 60));
    assert_eq!(listing_second(&file), listing(&example("A.job")));
    assert_eq!(write_second(A, &BLOCKS, SET, SUM, &READINGS, &names[1..]), refused(Reason::WrongLength, 0));
}

// ---- sets of blocks with groups

#[test]
fn blocks_are_judged_with_respect_to_groups() {
    let four = [0, 1, 1, 2, 2, 3, 3, 0];
    let counts = |l11, l21, l12, l22| Ok(GroupCounts { l11, l21, l12, l22 });
    // a label is any byte, and only equality counts
    for groups in [[0, 1, 0, 1], [1, 0, 1, 0], [255, 0, 255, 0], [9, 200, 9, 200]] {
        assert_eq!(grouped(4, 4, 1, &four, &groups), counts(0, 0, 0, 1), "{groups:?}");
    }
    let all = [&four[..], &[0, 2, 1, 3, 2, 0, 3, 1]].concat();
    assert_eq!(grouped(8, 4, 1, &all, &[0, 1, 0, 1]), counts(0, 2, 0, 1));
    assert_eq!(grouped(8, 4, 1, &all, &[0, 0, 1, 1]), refused(Reason::Unbalanced, 0));
    // 4, 3, 14, 5, 6
    assert_eq!(grouped(0, 4, 1, &[], &[]), refused(Reason::BrokenSize, 0));
    assert_eq!(grouped(1301, 4, 1, &[], &[]), refused(Reason::BrokenSize, 0));
    assert_eq!(grouped(4, 51, 1, &four, &[]), refused(Reason::BrokenSize, 0));
    assert_eq!(grouped(4, 4, 3, &four, &[]), refused(Reason::BrokenSize, 0));
    assert_eq!(grouped(4, 4, usize::MAX / 2 + 1, &[], &[0; 4]), refused(Reason::BrokenSize, 0));
    assert_eq!(grouped(4, 4, 1, &four[1..], &[0; 4]), refused(Reason::WrongLength, 0));
    assert_eq!(grouped(4, 4, 1, &four, &[0; 5]), refused(Reason::WrongLength, 0));
    let stray = [0, 255, 1, 2, 2, 3, 3, 0];
    for groups in [[0, 0, 0, 0], [0, 0, 0, 1], [0, 1, 2, 3], [0, 0, 1, 2]] {
        assert_eq!(grouped(4, 4, 1, &stray, &groups), refused(Reason::BadGroups, 0), "{groups:?}");
    }
    assert_eq!(grouped(4, 4, 1, &stray, &[0, 0, 1, 1]), refused(Reason::BadObject, 1));
    assert_eq!(grouped(4, 4, 1, &[0, 1, 1, 2, 2, 2, 3, 0], &[0, 0, 1, 1]), refused(Reason::BadObject, 5));
}

#[test]
fn grouped_sets_compose() {
    for (head, blocks, g) in [
        (A, &BLOCKS[..], 2),
        (A, &BLOCKS, 10),
        (Head { n: 7, flag: 1, p: 4, m: 1 }, &[255, 1, 2, 4, 0, 3, 5, 6], 6),
        (Head { n: 9, flag: 2, p: 4, m: 1 }, &[1, 7, 2, 5, 3, 8, 6, 4], 5),
        (Head { n: 9, flag: 3, p: 5, m: 2 }, &[255, 1, 7, 2, 5, 0, 3, 8, 6, 4, 0, 1, 7, 2, 5, 255, 3, 8, 6, 4], 5),
    ] {
        let (base, set) = (judge(head, blocks).unwrap(), group_base(head, blocks, g).unwrap());
        assert_eq!((set.v, set.b, set.r, set.p), (g * base.v as usize, base.b as usize, base.r, g * base.p as usize), "{head:?} by {g}");
        assert_eq!(set.counts, GroupCounts { l11: base.r, l21: 0, l12: base.l1, l22: base.l2 }, "{head:?} by {g}");
        assert_eq!(grouped(set.b, set.v, set.p, &set.blocks, &set.groups), Ok(set.counts), "{head:?} by {g}");
        // each bit of a base word is g bits
        for (word, grown) in develop(head, blocks).unwrap().into_iter().zip(&set.words) {
            let wanted: u64 = (0..50).filter(|object| word >> object & 1 == 1).map(|object| ((1 << g) - 1) << (g * object)).sum();
            assert_eq!(*grown, wanted, "{head:?} by {g}");
        }
    }
    for g in [0, 1, 11, 1 << 63, usize::MAX] {
        assert_eq!(group_base(A, &[1, 4, 2, 4], g), refused(Reason::BadGroups, 0), "by {g}");
        assert_eq!(group_base(A, &[1, 4, 2], g), refused(Reason::WrongLength, 0), "by {g}");
    }
    assert_eq!(group_base(A, &[1, 4, 2, 4], 2), refused(Reason::BadObject, 3));
    assert_eq!(group_base(C, &[0, 1], 2), refused(Reason::Unbalanced, 0));
    assert_eq!(group_base(Head { n: 51, ..C }, &[0, 1], 2), refused(Reason::BrokenSize, 0));
}

#[test]
fn rooms_and_slots_of_grouped_sets() {
    let Head { n, flag, p, m } = A;
    let four = [0, 1, 1, 2, 2, 3, 3, 0];
    lent("grouped", WORD, &[0, 0, 0, 1], |answer| calls::grouped(4, 4, 1, &four, &[0, 1, 0, 1], answer));
    stays("grouped", WORD, 6, 0, |answer| calls::grouped(4, 4, 1, &four, &[0, 0, 1, 1], answer));
    let set = group_base(A, &BLOCKS, 2).unwrap();
    lent("group_base", WORD, &set.words, |words| calls::group_base(n, flag, p, m, &BLOCKS, 2, words, &mut [0; 8]));
    lent("group_base", WORD, &[10, 5, 4, 4, 4, 0, 1, 2], |answer| calls::group_base(n, flag, p, m, &BLOCKS, 2, &mut [0; 10], answer));
    stays("group_base", WORD, 14, 0, |words| calls::group_base(n, flag, p, m, &BLOCKS, 1, words, &mut [0; 8]));
}

// ---- another laboratory's sheet

/// The sheet of example A.
fn sheet_of_a() -> Sheet {
    Sheet { hundredths: vec![-30, 730, 190, 50, 510], spread: Some(ClaimedSpread { value: 2.23, freedom: 1 }) }
}

/// The same of its parts, of its file, and of its file of the second edition.
fn checked(sheet: &Sheet) -> Result<Checked, Refusal> {
    let a = example("A.job");
    let answer = check(A, &BLOCKS, &READINGS, SET, SUM, sheet);
    assert_eq!((check_file(&a, sheet), check_second(&to_second(&a).unwrap(), sheet)), (answer, answer), "{sheet:?}");
    answer
}

#[test]
fn sheets_are_checked() {
    assert_eq!(checked(&sheet_of_a()), Ok(Checked::Agrees));
    for object in 0..5 {
        for by in [1, -1, 1 << 32, 1 << 53, i64::MIN] {
            let mut sheet = sheet_of_a();
            sheet.hundredths[object] = sheet.hundredths[object].wrapping_add(by);
            assert_eq!(checked(&sheet), Ok(Checked::Object(object)), "object {object} by {by}");
            // the first that differs is named, and the objects come before the spread
            sheet.hundredths[4] -= 7;
            sheet.spread = None;
            assert_eq!(checked(&sheet), Ok(Checked::Object(object)), "object {object} by {by}");
        }
    }
    let spread = |value, freedom| checked(&Sheet { spread: Some(ClaimedSpread { value, freedom }), ..sheet_of_a() });
    for value in [2.22, 2.24, 2.23f64.next_up(), 2.23f64.next_down(), -2.23, 223.0, 0.0, f64::NAN, f64::INFINITY] {
        assert_eq!(spread(value, 1), Ok(Checked::Spread), "{value}");
    }
    for freedom in [0, 2, 1 << 32 | 1, u64::MAX] {
        assert_eq!(spread(2.23, freedom), Ok(Checked::Spread), "{freedom}");
    }
    assert_eq!(checked(&Sheet { spread: None, ..sheet_of_a() }), Ok(Checked::Spread));
}

#[test]
fn none_is_claimed_only_with_no_degree_of_freedom() {
    // every reading 0: a spread of 0, which is not none
    let (pairs, zeros) = (Head { n: 5, flag: 0, p: 1, m: 2 }, Sheet { hundredths: vec![0; 5], spread: None });
    let of = |spread| check(pairs, &[0, 1, 0, 2], &[0; 10], SET, 0, &Sheet { spread, ..zeros.clone() });
    assert_eq!(of(None), Ok(Checked::Spread));
    for (value, answer) in [(0.0, Checked::Agrees), (-0.0, Checked::Agrees), (f64::from_bits(1), Checked::Spread), (0.01, Checked::Spread)] {
        assert_eq!(of(Some(ClaimedSpread { value, freedom: 6 })), Ok(answer), "{value:?}");
    }
    // example E has no degree of freedom
    let e = Head { n: 7, flag: 1, p: 4, m: 1 };
    let of = |spread| check(e, &[255, 1, 2, 4, 0, 3, 5, 6], &[0; 7], SET, 0, &Sheet { hundredths: vec![0; 8], spread });
    assert_eq!(of(None), Ok(Checked::Agrees));
    assert_eq!(of(Some(ClaimedSpread { value: 0.0, freedom: 0 })), Ok(Checked::Spread));
}

#[test]
fn sheets_are_refused() {
    for hundredths in [vec![], vec![-30, 730, 190, 50], vec![-30, 730, 190, 50, 510, 0]] {
        assert_eq!(checked(&Sheet { hundredths, ..sheet_of_a() }), refused(Reason::WrongClaims, 0));
    }
    // the job's own come first
    let none = Sheet { hundredths: vec![], spread: None };
    assert_eq!(check(A, &BLOCKS, &[0, 0, 0, 0, 200_000_001], SET, SUM, &none), refused(Reason::BadReading, 4));
    assert_eq!(check(C, &[0, 1], &[0; 4], SET, SUM, &none), refused(Reason::Unbalanced, 0));
    assert_eq!(check_file(&example("K-byte-added.job"), &none), refused(Reason::BytesFollow, 56));
    assert_eq!(check_second(&example("A.job"), &none), refused(Reason::WrongTag, 0));
}

#[test]
fn slots_of_sheets() {
    let (Head { n, flag, p, m }, a) = (A, example("A.job"));
    let (b, y, claims) = (&BLOCKS[..], &READINGS[..], sheet_of_a().hundredths);
    lent("check_parts", WORD, &[1, 0], |answer| calls::check_parts(n, flag, p, m, b, y, SET, SUM, &claims, 1, 2.23, 1, answer));
    lent("check_file", WORD, &[0, 5], |answer| calls::check_file(&a, &claims, 0, 2.23, 1, answer));
    lent("check_second", WORD, &[1, 0], |answer| calls::check_second(&to_second(&a).unwrap(), &claims, u64::MAX, 2.23, 1, answer));
    stays("check_parts", WORD, 15, 0, |answer| calls::check_parts(n, flag, p, m, b, y, SET, SUM, &claims[1..], 1, 2.23, 1, answer));
    stays("check_file", WORD, 15, 0, |answer| calls::check_file(&a, &claims[1..], 1, 2.23, 1, answer));
    stays("check_second", WORD, 2, 0, |answer| calls::check_second(&a, &claims[1..], 1, 2.23, 1, answer));
}

// ---- practice

const TRUTHS: [i32; 5] = [1, 2, 3, 4, 5];

fn from(truths: &[i32], start: u32, width: usize) -> Practice {
    Practice { truths: truths.to_vec(), start, width }
}

#[test]
fn practice_readings_come_from_true_values() {
    // the generator from 0: 3C6EF35F, 47502932, D1CCF6E9, AAF95334, 6252E503; its top bits less half of their range
    for (width, noise) in [(0, [0; 5]), (1, [-1, -1, 0, 0, -1]), (4, [-5, -4, 5, 2, -2]), (8, [-68, -57, 81, 42, -30])] {
        let wanted: Vec<i32> = [0, -5, 0, 5, 0].iter().zip(noise).map(|(exact, noise)| exact + noise).collect();
        assert_eq!(practice(A, &BLOCKS, &from(&TRUTHS, 0, width)), Ok(wanted), "width {width}");
    }
    // without noise any start number gives the same
    for start in [0, 1, u32::MAX] {
        assert_eq!(practice(A, &BLOCKS, &from(&TRUTHS, start, 0)).unwrap(), [0, -5, 0, 5, 0], "start {start}");
    }
    // stepped once before it is used: from the first number on, the second block's noise comes first
    assert_eq!(practice(A, &BLOCKS, &from(&[0; 5], 0x3C6E_F35F, 8)).unwrap()[..4], [-57, 81, 42, -30]);
    assert!(practice(A, &BLOCKS, &from(&[3_000, -3_000, 3_000, -3_000, 3_000], 1, 8)).unwrap().iter().all(|reading| reading.abs() <= 12_128));
}

#[test]
fn practice_is_refused() {
    let bad = from(&[0, 0, 3_001, 0, 0], 0, 9);
    assert_eq!(practice(Head { p: 3, ..A }, &BLOCKS, &bad), refused(Reason::BrokenSize, 0));
    assert_eq!(practice(A, &BLOCKS[1..], &bad), refused(Reason::WrongLength, 0));
    assert_eq!(practice(A, &[1, 4, 2, 4], &from(&bad.truths[1..], 0, 0)), refused(Reason::WrongLength, 0));
    assert_eq!(practice(A, &[1, 4, 2, 4], &bad), refused(Reason::BadObject, 3));
    assert_eq!(practice(A, &[1, 4, 2, 0], &bad), refused(Reason::Unbalanced, 0));
    let (high, low, far) = ([0, 0, 0, 0, 3_001], [-3_001, 0, 0, 0, 0], [i32::MIN; 5]);
    for bad in [from(&high, 0, 0), from(&low, 0, 0), from(&far, 0, 0), from(&TRUTHS, 0, 9), from(&TRUTHS, 0, 1 << 32)] {
        assert_eq!(practice(A, &BLOCKS, &bad), refused(Reason::BadPractice, 0), "{bad:?}");
        // after 6, before 7 and 11
        assert_eq!(practice_file(A, &BLOCKS, &bad, 0), refused(Reason::BadPractice, 0), "{bad:?}");
        assert_eq!(practice_file(A, &[1, 4, 2, 0], &bad, 0), refused(Reason::Unbalanced, 0), "{bad:?}");
    }
    assert!(practice(A, &BLOCKS, &from(&[3_000, -3_000, 0, 0, 0], 0, 8)).is_ok());
    for (set, reason) in [(0, Reason::BadRestraint), (32, Reason::BadRestraint), (33, Reason::BadRestraint), (16, Reason::OneStandard)] {
        assert_eq!(practice_file(A, &BLOCKS, &from(&TRUTHS, 0, 0), set), refused(reason, 0), "set {set}");
    }
}

#[test]
fn practice_jobs_are_written() {
    for (set, sum, width) in [(0b11, 3, 0), (0b10001, 6, 0), (0b11111, 15, 0), (0b10110, 10, 8)] {
        let file = practice_file(A, &BLOCKS, &from(&TRUTHS, 7, width), set).unwrap();
        assert_eq!(file, write(A, &BLOCKS, set, sum, &practice(A, &BLOCKS, &from(&TRUTHS, 7, width)).unwrap()).unwrap(), "set {set}");
        if width == 0 {
            let job = solve(&file).unwrap();
            let (found, denominator) = (job.values, job.solved.denominator as i64);
            assert_eq!(found, TRUTHS.map(|truth| i64::from(truth) * denominator), "set {set}");
            assert_eq!((job.deviations, job.solved.spreading.q), (vec![0; 5], 0), "set {set}");
        }
    }
}

#[test]
fn rooms_of_practice() {
    let Head { n, flag, p, m } = A;
    lent("practice", -77, &[0, -5, 0, 5, 0], |readings| calls::practice(n, flag, p, m, &BLOCKS, &TRUTHS, 9, 0, readings));
    stays("practice", -77, 16, 0, |readings| calls::practice(n, flag, p, m, &BLOCKS, &TRUTHS, 9, 9, readings));
    let file = practice_file(A, &BLOCKS, &from(&TRUTHS, 9, 8), SET).unwrap();
    lent("practice_file", BYTE, &file, |out| calls::practice_file(n, flag, p, m, &BLOCKS, &TRUTHS, 9, 8, SET, out, &mut [0; 2]));
    lent("practice_file", WORD, &[56], |answer| calls::practice_file(n, flag, p, m, &BLOCKS, &TRUTHS, 9, 8, SET, &mut [0; 60], answer));
    stays("practice_file", BYTE, 11, 0, |out| calls::practice_file(n, flag, p, m, &BLOCKS, &TRUTHS, 9, 8, 1, out, &mut [0; 2]));
}

// ---- several jobs

#[test]
fn jobs_are_pooled() {
    let (a, b, e, h) = (example("A.job"), example("B.job"), example("E.job"), example("H.job"));
    assert_eq!(pool(&[&a]), spread(A, &BLOCKS, &READINGS));
    assert_eq!(pool(&[&h]).unwrap(), solve(&h).unwrap().solved.spreading);
    let still = write(A, &BLOCKS, SET, SUM, &[0; 5]).unwrap();
    let pooled = Spreading { q: 25, vbeta: 5, freedom: 2, spread: Some(Spread { hundredths: 158, value: 1.58 }) };
    assert_eq!((pool(&[&a, &still]), pool(&[&still, &a])), (Ok(pooled), Ok(pooled)));
    let many = pool(&[&a[..]; 64]).unwrap();
    assert_eq!((many.q, many.freedom, many.spread.unwrap().hundredths), (1600, 64, 223));
    // no degree of freedom counts and adds nothing
    assert_eq!(pool(&[&e, &e]), Ok(Spreading { q: 0, vbeta: 8, freedom: 0, spread: None }));
    // one a side, with the v and beta of E, which has four a side
    let objects = [0, 1, 0, 2, 0, 3, 255, 0];
    let pairs = write(Head { n: 7, flag: 1, p: 1, m: 4 }, &objects, SET, 0, &[1; 28]).unwrap();
    assert_eq!(pool(&[&e, &pairs, &e]), pool(&[&pairs]));
    // the low words carry: three objects opposed nine times over
    let nine = write(Head { n: 3, flag: 0, p: 1, m: 9 }, &[0, 1].repeat(9), SET, 0, &[200_000_000; 27]).unwrap();
    let wide = pool(&[&nine[..]; 64]).unwrap();
    assert_eq!((wide.q, wide.freedom, wide.spread.unwrap().hundredths), (64 * 29_160_000_000_000_000_000, 1600, 20_784_609_690));
    for (files, number, job, place, told) in [
        (vec![], 18, None, 0, "refused 18 0"),
        (vec![&a[..]; 65], 18, None, 0, "refused 18 0"),
        (vec![&a[..55], &a], 1, Some(0), 33, "refused 1 33 in job 0"),
        (vec![&a, &[]], 1, Some(1), 0, "refused 1 0 in job 1"),
        (vec![&a, &a, &a[..55]], 1, Some(2), 33, "refused 1 33 in job 2"),
        (vec![&a, &b, &a[..55]], 1, Some(2), 33, "refused 1 33 in job 2"),
        (vec![&a, &a, &b, &e], 17, Some(2), 0, "refused 17 0 in job 2"),
        (vec![&e, &a], 17, Some(1), 0, "refused 17 0 in job 1"),
    ] {
        let refusal = pool(&files).unwrap_err();
        assert_eq!((refusal.reason.number(), refusal.job, refusal.place), (number, job, place), "{} files", files.len());
        assert_eq!(refusal.to_string(), told);
    }
    // another beta: the same pairs twice
    let twice = write(Head { n: 7, flag: 1, p: 1, m: 8 }, &objects.repeat(2), SET, 0, &[1; 56]).unwrap();
    assert_eq!(pool(&[&pairs, &twice]), Err(Refusal { reason: Reason::UnlikeJobs, job: Some(1), place: 0 }));
}

#[test]
fn lengths_must_add_up() {
    let two = example("A.job").repeat(2);
    let pooled = |lengths: &[usize]| calls::pool(&two, lengths, &mut [0; 6], &mut [0.0]);
    assert_eq!(pooled(&[56, 56]), 0);
    for lengths in [&[][..], &[56], &[112, 1], &[56, 55], &[56, 57], &[56 + (1 << 63), 56 + (1 << 63)], &[113, usize::MAX], &[56 + (1 << 32), 56]] {
        assert_eq!(pooled(lengths), 18, "{lengths:?}");
    }
    // they add up, and cut the files wrongly: the job's own refusal, at its own place
    assert_eq!(pooled(&[112]), 9 + (56 << 16));
    assert_eq!(pooled(&[55, 57]), 1 + (33 << 16));
    assert_eq!(pooled(&[56, 0, 56]), 1 + (1 << 8));
    assert_eq!(pooled(&[56, 56, 0]), 1 + (2 << 8));
}

#[test]
fn slots_of_pools() {
    let a = example("A.job");
    slots(
        "pool",
        (vec![], vec![0, 25, 5, 1, 223, 1], vec![2.23]),
        |_, answer, real| calls::pool(&a, &[56], answer, real),
        17 + (1 << 8),
        |_, answer, real| calls::pool(&[&a[..], &example("E.job")].concat(), &[56, example("E.job").len()], answer, real),
    );
}
