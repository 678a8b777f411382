//! Proved code against plain Rust of the same method, in one run on one machine: `tests/speed/run`. The table goes to standard output.
#[path = "../../hosts/rust/src/lib.rs"]
#[allow(dead_code)]
mod mass_bench;
mod plain;

use plain::Head;
use std::hint::black_box;

/// A job: its head, its initial blocks, and the file that holds them with seeded readings.
struct Job {
    head: Head,
    blocks: Vec<u8>,
    file: Vec<u8>,
}

impl Job {
    fn new(n: usize, flag: usize, p: usize, blocks: Vec<u8>) -> Job {
        let head = Head { n, flag, p, m: blocks.len() / (2 * p) };
        let mut file = vec![1, 0, 4, n as u8, flag as u8, p as u8, head.m as u8, 2];
        file.extend((blocks.len() as u16).to_be_bytes());
        file.extend(&blocks);
        file.extend([3, 0, 16]);
        file.extend(3u64.to_be_bytes());
        file.extend(7i64.to_be_bytes());
        file.push(4);
        file.extend((4 * head.m as u16 * n as u16).to_be_bytes());
        let mut seed = 1u32;
        for _ in 0..head.m * n {
            seed = seed.wrapping_mul(1664525).wrapping_add(1013904223);
            // of both signs, over their whole range
            file.extend(((seed >> 2) as i32 % 400_000_001 - 200_000_000).to_be_bytes());
        }
        Job { head, blocks, file }
    }

    fn objects(&self) -> usize {
        self.head.n + self.head.flag % 2
    }
}

/// One object a side: every difference of an odd n, `times` over; with the fixed object too.
fn pairs(n: usize, flag: usize, times: usize) -> Job {
    let mut blocks = vec![];
    for _ in 0..times {
        (1..=n as u8 / 2).for_each(|d| blocks.extend([0, d]));
        if flag == 1 {
            blocks.extend([255, 0]);
        }
    }
    Job::new(n, flag, 1, blocks)
}

/// One object a side over the field of q² elements, q odd: of each two opposite differences one; with the fixed object too.
fn field_pairs(q: usize, flag: usize) -> Job {
    let opposite = |d: usize| (q - d % q) % q + (q - d / q) % q * q;
    let mut blocks: Vec<u8> = (1..q * q).filter(|d| *d < opposite(*d)).flat_map(|d| [0, d as u8]).collect();
    if flag == 3 {
        blocks.extend([255, 0]);
    }
    Job::new(q * q, flag, 1, blocks)
}

/// Squares against the other residues of a prime n = 3 modulo 4; with the fixed object and 0 too.
fn squares(n: usize, flag: usize) -> Job {
    let is_square = |x: &u8| (1..n).any(|y| y * y % n == *x as usize);
    let (mut left, mut right): (Vec<u8>, Vec<u8>) = (1..n as u8).partition(is_square);
    if flag == 1 {
        left.push(255);
        right.push(0);
    }
    let p = left.len();
    left.extend(right);
    Job::new(n, flag, p, left)
}

/// Squares against the other elements of the field of 49, with 1 + x² = 0: half of the objects a side.
fn field_squares() -> Job {
    let square = |at: u8| {
        let (a, b) = (at % 7, at / 7);
        (a * a + 6 * b * b) % 7 + 2 * a * b % 7 * 7
    };
    let squares: Vec<u8> = (1..49).map(square).collect();
    let (mut left, right): (Vec<u8>, Vec<u8>) = (1..49).partition(|x| squares.contains(x));
    left.extend(right);
    Job::new(49, 2, 24, left)
}

/// The processor time of this thread in seconds: what other programs take is not in it.
fn clock() -> f64 {
    extern "C" {
        fn clock_gettime(clock: i32, time: *mut [i64; 2]) -> i32;
    }
    const THREAD: i32 = 3;
    let mut time = [0; 2];
    // Sound: the call writes one timespec, which on 64-bit Linux is two i64, and `time` is ours alone.
    assert_eq!(unsafe { clock_gettime(THREAD, &mut time) }, 0);
    time[0] as f64 + time[1] as f64 * 1e-9
}

/// The least time of one call of each in microseconds, over many samples in turn, so that a busy machine harms neither.
fn times<T, const K: usize>(calls: [&dyn Fn() -> T; K]) -> [f64; K] {
    let mut least = [f64::MAX; K];
    let rounds = calls.map(|call| {
        let start = clock();
        black_box(call());
        (0.002 / (clock() - start)).ceil() as usize
    });
    let begin = clock();
    let mut samples = 0;
    while samples < 20 || clock() - begin < 1.0 {
        for k in 0..K {
            let start = clock();
            (0..rounds[k]).for_each(|_| drop(black_box(calls[k]())));
            least[k] = least[k].min((clock() - start) * 1e6 / rounds[k] as f64);
        }
        samples += 1;
    }
    least
}

/// A judgement as the proved code makes it, and as plain Rust does.
type Proved = fn(mass_bench::Head, &[u8]) -> Result<mass_bench::Parameters, mass_bench::Refusal>;
type Plain = fn(Head, &[u8]) -> Result<plain::Parameters, plain::Refusal>;

fn judge_proved(job: &Job, judge: Proved) -> Option<[u64; 6]> {
    let Head { n, flag, p, m } = job.head;
    judge(mass_bench::Head { n, flag, p, m }, black_box(&job.blocks)).ok().map(|a| [a.v, a.b, a.r, a.p, a.l1, a.l2])
}

fn judge_plain(job: &Job, judge: Plain) -> Option<[u64; 6]> {
    judge(job.head, black_box(&job.blocks)).ok().map(|a| [a.v, a.b, a.r, a.p, a.l1, a.l2])
}

/// Both take rooms that are lent once, so that no allocation is measured.
struct Rooms {
    words: Vec<u64>,
    values: Vec<i64>,
    deviations: Vec<i64>,
}

fn rooms() -> Rooms {
    Rooms { words: vec![0; mass_bench::WORDS], values: vec![0; mass_bench::VALUES], deviations: vec![0; mass_bench::DEVIATIONS] }
}

fn solve_proved(job: &Job, rooms: &mut Rooms) -> Option<(u128, u64)> {
    let Rooms { words, values, deviations } = rooms;
    let (mut answer, mut real) = ([0; 13], [0.0]);
    let returned = mass_bench::calls::solve(black_box(&job.file), words, values, deviations, &mut answer, &mut real);
    // Q and the hundredths of the spread, as in hosts/bench.h
    (returned == 0).then_some((u128::from(answer[7]) << 64 | u128::from(answer[8]), answer[11]))
}

fn solve_plain<const TABLES: bool>(job: &Job, rooms: &mut Rooms) -> Option<(u128, u64)> {
    let Rooms { words, values, deviations } = rooms;
    plain::solve::<TABLES>(black_box(&job.file), words, values, deviations).ok().map(|s| (s.q, s.hundredths))
}

/// What was measured of a job, in microseconds: by pair tables and by differences, proved and plain; a whole job, proved, plain by differences and plain by pair tables.
struct Measured {
    tables: [f64; 2],
    differences: [f64; 2],
    solve: [f64; 3],
}

fn measured(job: &Job) -> Measured {
    let lent = [(); 3].map(|()| std::cell::RefCell::new(rooms()));
    let proved = || solve_proved(job, &mut lent[0].borrow_mut());
    let plain = || solve_plain::<false>(job, &mut lent[1].borrow_mut());
    let plain_tables = || solve_plain::<true>(job, &mut lent[2].borrow_mut());
    let judged = judge_proved(job, mass_bench::judge);
    assert!(judged.is_some() && judged == judge_plain(job, plain::judge));
    assert!(judged == judge_proved(job, mass_bench::judge_by_differences) && judged == judge_plain(job, plain::judge_by_differences));
    assert!(proved().is_some() && proved() == plain() && proved() == plain_tables());
    for other in &lent[1..] {
        let (a, b) = (lent[0].borrow(), other.borrow());
        assert!(a.words == b.words && a.values == b.values && a.deviations == b.deviations);
    }
    Measured {
        tables: times([&|| judge_proved(job, mass_bench::judge), &|| judge_plain(job, plain::judge)]),
        differences: times([&|| judge_proved(job, mass_bench::judge_by_differences), &|| judge_plain(job, plain::judge_by_differences)]),
        solve: times([&proved, &plain, &plain_tables]),
    }
}

fn sizes(job: &Job) -> String {
    format!("| {} | {} | {}", job.objects(), job.head.m * job.head.n, job.head.p)
}

fn row(job: &Job) {
    let Measured { tables: [tp, tr], differences: [dp, dr], solve: [sp, sr, _] } = measured(job);
    let ratios = [tp / tr, dp / dr, sp / sr];
    println!("{} | {tp:.1} | {tr:.1} | {:.2} | {dp:.2} | {dr:.2} | {:.2} | {sp:.1} | {sr:.1} | {:.2} |", sizes(job), ratios[0], ratios[1], ratios[2]);
}

fn table(title: &str, jobs: Vec<Job>) {
    println!("\n{title}\n\n| v | b | p | judge: proved | plain | ratio | by differences: proved | plain | ratio | solve: proved | plain | ratio |");
    println!("|---|---|---|---|---|---|---|---|---|---|---|---|");
    jobs.iter().for_each(row);
}

/// One check against the other, and a whole job against plain Rust that goes by pair tables.
fn checks(title: &str, jobs: Vec<Job>) {
    println!("\n{title}\n\n| v | b | p | judge | by differences | times faster | plain by differences | solve | plain by differences | plain by tables | times faster than that |");
    println!("|---|---|---|---|---|---|---|---|---|---|---|");
    for job in &jobs {
        let Measured { tables: [tp, _], differences: [dp, dr], solve: [sp, sr, st] } = measured(job);
        println!("{} | {tp:.1} | {dp:.2} | {:.1} | {dr:.2} | {sp:.1} | {sr:.1} | {st:.1} | {:.1} |", sizes(job), tp / dp, st / sp);
    }
}

fn main() {
    println!("Microseconds a call, the least of many. Plain: the same method by hand in Rust.");
    let a = Job::new(5, 0, 2, vec![1, 4, 2, 3]);
    let f = Job::new(13, 0, 2, vec![1, 12, 8, 5, 4, 9, 6, 7, 3, 10, 11, 2]);
    checks("Two checks of 47, 48 and 49 objects, half of them a side", vec![squares(47, 0), squares(47, 1), field_squares()]);
    table("Proved against plain", vec![a, f, squares(47, 0), squares(47, 1), pairs(49, 0, 1), pairs(49, 1, 1)]);
    table("More blocks of 13 objects", [1, 2, 4, 8, 10].map(|times| pairs(13, 0, times)).into());
    table("More objects, one a side, each pair once", [5, 9, 17, 25, 33, 41, 49].map(|n| pairs(n, 0, 1)).into());
    table("More objects, about half of them a side, one initial block", [3, 7, 11, 19, 23, 31, 43, 47].map(|n| squares(n, 0)).into());
    let nine = Job::new(9, 2, 4, vec![1, 7, 2, 5, 3, 8, 6, 4]);
    let ten = Job::new(9, 3, 5, vec![255, 1, 7, 2, 5, 0, 3, 8, 6, 4, 0, 1, 7, 2, 5, 255, 3, 8, 6, 4]);
    table("Over the fields of 9, 25 and 49 elements", vec![nine, ten, field_pairs(5, 2), field_pairs(7, 2), field_pairs(7, 3)]);
}
