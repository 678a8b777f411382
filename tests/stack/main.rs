//! What each call of hosts/bench.h takes of the stack: `tests/stack/run`.
//!
//! The stack below a call is painted, the call is made, and the lowest word that it changed is looked for. Each call is made on every stored job that is accepted, the largest of
//! each kind among them, once with all the room that it asks for and once with none; the most of all counts. Then the least stack is looked for with which a thread can make
//! every call on the largest jobs: this program is started again with one thread of so many pages, and the system ends it where they are too few.
//!
//! The figures are held to the table of hosts/bench.h: a call fails that takes more than is said there, or far less, or has no figure there; and so does a thread that needs more.

#[path = "../../hosts/rust/src/lib.rs"]
#[allow(dead_code)]
mod mass_bench;

use mass_bench::{calls, Head};
use std::collections::BTreeMap;
use std::process::{Command, ExitCode, Stdio};

/// What the calls take, all made from one job.
struct Job {
    head: Head,
    blocks: Vec<u8>,
    readings: Vec<i32>,
    set: u64,
    sum: i64,
    last_block: usize,
    last_object: usize,
    file: Vec<u8>,
    names: Vec<u8>,
    second: Vec<u8>,
    /// The file in the second edition without names, which can be moved back.
    second_plain: Vec<u8>,
    /// The members of each object, as many as make no more than 50 objects; two where there are none so few.
    g: usize,
    /// The developed blocks as lists, and a group for each two objects.
    list: Vec<u8>,
    groups: Vec<u8>,
    /// The job's own figures.
    claims: Vec<i64>,
    has_spread: u64,
    spread: f64,
    freedom: u64,
    truths: Vec<i32>,
    /// The file 64 times.
    pool: Vec<u8>,
    lengths: Vec<usize>,
}

impl Job {
    /// The job in a file, if it is accepted.
    fn of(file: Vec<u8>) -> Option<Job> {
        let mass_bench::JobRead { head, blocks_at, readings_at, set, sum } = mass_bench::read(&file).ok()?;
        let blocks = file[blocks_at..blocks_at + 2 * head.p * head.m].to_vec();
        let readings: Vec<i32> = file[readings_at..].chunks(4).map(|bytes| i32::from_be_bytes(bytes.try_into().expect("four bytes"))).collect();
        let claims = mass_bench::published(head, &blocks, &readings, set, sum).ok()?;
        let spreading = mass_bench::spread(head, &blocks, &readings).ok()?;
        let v = claims.len();
        let names = vec![b' '; 8 * v];
        let second = mass_bench::write_second(head, &blocks, set, sum, &readings, &vec![mass_bench::Name([b' '; 8]); v]).ok()?;
        let words = mass_bench::develop(head, &blocks).ok()?;
        let list = words.iter().flat_map(|word| (0..64).filter(move |object| word >> object & 1 == 1)).collect();
        Some(Job {
            head,
            last_block: readings.len() - 1,
            last_object: v - 1,
            names,
            second,
            second_plain: mass_bench::to_second(&file).ok()?,
            g: (50 / v).max(2),
            list,
            groups: (0..v as u8).map(|object| object / 2).collect(),
            claims,
            has_spread: spreading.spread.is_some().into(),
            spread: spreading.spread.map_or(0.0, |spread| spread.value),
            freedom: spreading.freedom,
            truths: (0..v as i32).map(|object| 100 * object - 2_500).collect(),
            pool: file.repeat(64),
            lengths: vec![file.len(); 64],
            file,
            blocks,
            readings,
            set,
            sum,
        })
    }
}

/// Rooms and slots, enough for every call, or none.
struct Rooms {
    words: Vec<u64>,
    table: Vec<u64>,
    values: Vec<i64>,
    deviations: Vec<i64>,
    practised: Vec<i32>,
    out: Vec<u8>,
    signed: Vec<i64>,
    answer: Vec<u64>,
    real: Vec<f64>,
}

impl Rooms {
    fn enough() -> Rooms {
        Rooms {
            words: vec![0; 2600],
            table: vec![0; 2500],
            values: vec![0; 50],
            deviations: vec![0; 1300],
            practised: vec![0; 1300],
            out: vec![0; 65536],
            signed: vec![0; 2],
            answer: vec![0; 13],
            real: vec![0.0; 2],
        }
    }

    fn none() -> Rooms {
        Rooms { words: vec![], table: vec![], values: vec![], deviations: vec![], practised: vec![], out: vec![], signed: vec![], answer: vec![], real: vec![] }
    }
}

/// A call: its name, and how it is made.
type Call = (&'static str, fn(&Job, &mut Rooms) -> u64);

// A row for each call: its name in hosts/rust, and what it takes after the head, where it takes one.
macro_rules! rows {
    ($job:ident $rooms:ident: $($name:ident($($taken:tt)*);)*) => {
        &[$((concat!("bench_", stringify!($name)), |$job: &Job, $rooms: &mut Rooms| {
            let _ = &$rooms;
            rows!(@made $name $job $($taken)*)
        }),)*]
    };
    (@made $name:ident $job:ident head, $($taken:expr),*) => {
        calls::$name($job.head.n, $job.head.flag, $job.head.p, $job.head.m, $($taken),*)
    };
    (@made $name:ident $job:ident $($taken:expr),*) => {
        calls::$name($($taken),*)
    };
}

/// Every call, in the order of hosts/bench.h.
const CALLS: &[Call] = rows! { job rooms:
    pairs_refusal(head, &job.blocks);
    develop(head, &job.blocks, &mut rooms.words);
    develop_initial(head, &job.blocks, job.head.m - 1, &mut rooms.words);
    company(head, &job.blocks, &mut rooms.table);
    opposition(head, &job.blocks, &mut rooms.table);
    judge(head, &job.blocks, &mut rooms.answer);
    judge_by_differences(head, &job.blocks, &mut rooms.answer);
    grouped(job.readings.len(), job.claims.len(), job.head.p, &job.list, &job.groups, &mut rooms.answer);
    group_base(head, &job.blocks, job.g, &mut rooms.words, &mut rooms.answer);
    total(head, &job.blocks, &job.readings, job.last_object, &mut rooms.signed);
    sum_of_squares(head, &job.readings, &mut rooms.answer);
    sum_of_squared_totals(head, &job.blocks, &job.readings, &mut rooms.answer);
    refusal(head, &job.blocks, &job.readings, job.set, job.sum);
    values(head, &job.blocks, &job.readings, job.set, job.sum, &mut rooms.values);
    value_of(head, &job.blocks, &job.readings, job.set, job.sum, job.last_object, &mut rooms.signed, &mut rooms.answer, &mut rooms.real);
    uncertainty_of(head, &job.blocks, &job.readings, job.set, job.sum, job.last_object, &mut rooms.answer, &mut rooms.real);
    published(head, &job.blocks, &job.readings, job.set, job.sum, &mut rooms.values);
    deviations(head, &job.blocks, &job.readings, &mut rooms.deviations);
    deviation_of(head, &job.blocks, &job.readings, job.last_block, &mut rooms.signed, &mut rooms.answer);
    q(head, &job.blocks, &job.readings, &mut rooms.answer);
    spread(head, &job.blocks, &job.readings, &mut rooms.answer, &mut rooms.real);
    analyse(head, &job.blocks, &job.readings, job.set, job.sum, &mut rooms.words, &mut rooms.values, &mut rooms.deviations, &mut rooms.answer, &mut rooms.real);
    field_at(&job.file, 0, 1, 4, &mut rooms.answer);
    read(&job.file, &mut rooms.signed, &mut rooms.answer);
    solve(&job.file, &mut rooms.words, &mut rooms.values, &mut rooms.deviations, &mut rooms.answer, &mut rooms.real);
    write(head, &job.blocks, job.set, job.sum, &job.readings, &mut rooms.out, &mut rooms.answer);
    listing(&job.file, &mut rooms.out, &mut rooms.answer);
    certificate(&job.file, &mut rooms.out, &mut rooms.answer);
    card(&job.file, &mut rooms.out, &mut rooms.answer);
    read_second(&job.second, &mut rooms.signed, &mut rooms.answer);
    solve_second(&job.second, &mut rooms.words, &mut rooms.values, &mut rooms.deviations, &mut rooms.answer, &mut rooms.real);
    write_second(head, &job.blocks, job.set, job.sum, &job.readings, &job.names, &mut rooms.out, &mut rooms.answer);
    to_second(&job.file, &mut rooms.out, &mut rooms.answer);
    to_first(&job.second_plain, &mut rooms.out, &mut rooms.answer);
    listing_second(&job.second, &mut rooms.out, &mut rooms.answer);
    certificate_second(&job.second, &mut rooms.out, &mut rooms.answer);
    card_second(&job.second, &mut rooms.out, &mut rooms.answer);
    check_parts(head, &job.blocks, &job.readings, job.set, job.sum, &job.claims, job.has_spread, job.spread, job.freedom, &mut rooms.answer);
    check_file(&job.file, &job.claims, job.has_spread, job.spread, job.freedom, &mut rooms.answer);
    check_second(&job.second, &job.claims, job.has_spread, job.spread, job.freedom, &mut rooms.answer);
    practice(head, &job.blocks, &job.truths, 1, 8, &mut rooms.practised);
    practice_file(head, &job.blocks, &job.truths, 1, 8, job.set, &mut rooms.out, &mut rooms.answer);
    pool(&job.pool, &job.lengths, &mut rooms.answer, &mut rooms.real);
};

/// How much of the stack is painted, and how much right below the caller is not: it may hold what the caller still needs.
const PAINTED: usize = 1 << 19;
const OWN: usize = 128;

fn paint(place: usize) -> u64 {
    (place as u64).wrapping_mul(0x9E37_79B9_7F4A_7C15) | 1
}

/// The bytes of the stack that a call takes, what is passed to it included, and whether it accepts.
#[inline(never)]
fn taken(call: &Call, job: &Job, rooms: &mut Rooms) -> (usize, bool) {
    let top: usize;
    // Sound: it reads the stack pointer and nothing else.
    unsafe { std::arch::asm!("mov {}, rsp", out(reg) top, options(nomem, nostack, preserves_flags)) };
    let places = (top - PAINTED..top - OWN).step_by(8);
    // Sound: the thread's stack is larger by far, and nothing that is in use lies below what this function has for its own.
    places.clone().for_each(|place| unsafe { (place as *mut u64).write_volatile(paint(place)) });
    let returned = std::hint::black_box((call.1)(job, rooms));
    let lowest = places.clone().find(|place| unsafe { (*place as *const u64).read_volatile() } != paint(*place)).unwrap_or(top - OWN);
    assert!(lowest > top - PAINTED, "{} takes more than is painted", call.0);
    (top - lowest, returned == 0)
}

/// The calls that hosts/bench.h declares: each must have its row.
fn declared() -> Vec<&'static str> {
    let mut names: Vec<&str> = HEADER.lines().filter_map(|line| line.strip_prefix("uint64_t ")?.split('(').next()).collect();
    names.sort();
    names
}

const HEADER: &str = include_str!("../../hosts/bench.h");

/// The figures of hosts/bench.h in KB, 1,000 bytes each: lines ` *   99 KB | bench_listing, ..`; a line without a figure goes on with the one before.
fn said() -> BTreeMap<&'static str, usize> {
    let (mut figures, mut kilobytes) = (BTreeMap::new(), None);
    for line in HEADER.lines() {
        let Some((before, names)) = line.strip_prefix(" *").and_then(|line| line.split_once(" | ")).filter(|(_, names)| names.starts_with("bench_")) else {
            kilobytes = None;
            continue;
        };
        kilobytes = before.trim().strip_suffix(" KB").map_or(kilobytes, |number| number.trim().parse().ok());
        if let Some(kilobytes) = kilobytes {
            figures.extend(names.split(", ").map(|name| (name.trim().trim_end_matches(','), kilobytes)));
        }
    }
    figures
}

/// The stored jobs that are accepted.
fn jobs() -> Vec<Job> {
    let files = std::fs::read_dir(STORED).expect("the stored jobs").map(|entry| std::fs::read(entry.expect("a stored job").path()).expect("its bytes"));
    files.filter_map(Job::of).collect()
}

const STORED: &str = "crates/trials/data";

/// The jobs on which a thread makes all calls: the longest, and the largest over a field.
const LARGEST: [&str; 2] = ["end-longest", "field-49-objects-50"];

/// Makes every call on the largest jobs in a thread with a stack of so many bytes. Where that is too little, the system ends the program.
fn made_in_a_thread(bytes: usize) {
    let jobs = LARGEST.map(|name| Job::of(std::fs::read(format!("{STORED}/{name}.job")).expect("a stored job")).expect("an accepted one"));
    let mut rooms = [Rooms::enough(), Rooms::none()];
    let all = || {
        for job in &jobs {
            for rooms in &mut rooms {
                CALLS.iter().for_each(|(_, made)| {
                    std::hint::black_box(made(job, rooms));
                });
            }
        }
    };
    std::thread::scope(|scope| std::thread::Builder::new().stack_size(bytes).spawn_scoped(scope, all).expect("a thread").join().expect("no panic"));
}

/// The least stack of a thread that makes every call, in bytes of whole pages.
fn least() -> usize {
    let program = std::env::current_exe().expect("this program");
    let lives = |pages: usize| {
        let status = Command::new(&program).args(["thread", &(PAGE * pages).to_string()]).stderr(Stdio::null()).status();
        status.expect("this program starts").success()
    };
    let (mut few, mut enough) = (0, PAINTED / PAGE);
    assert!(lives(enough), "a thread with half a megabyte cannot make the calls");
    while enough - few > 1 {
        let pages = (few + enough) / 2;
        if lives(pages) {
            enough = pages;
        } else {
            few = pages;
        }
    }
    PAGE * enough
}

const PAGE: usize = 4096;

/// The most that each call takes on any of the jobs, with all the room that it asks for, where it must accept some of them, and with none; and the least where it accepts.
fn measured() -> Vec<(usize, usize, &'static str)> {
    let (jobs, mut enough, mut none) = (jobs(), Rooms::enough(), Rooms::none());
    let mut found = Vec::new();
    for call in CALLS {
        let accepted: Vec<usize> = jobs.iter().map(|job| taken(call, job, &mut enough)).filter_map(|(bytes, accepts)| accepts.then_some(bytes)).collect();
        let none_lent = jobs.iter().map(|job| taken(call, job, &mut none).0);
        let least = *accepted.iter().min().unwrap_or_else(|| panic!("{} accepts no job", call.0));
        found.push((none_lent.chain(accepted).max().expect("jobs"), least, call.0));
    }
    found.sort_by(|a, b| b.cmp(a));
    found
}

fn main() -> ExitCode {
    let words: Vec<String> = std::env::args().skip(1).collect();
    if let [word, bytes] = &words[..] {
        if let ("thread", Ok(bytes)) = (word.as_str(), bytes.parse()) {
            made_in_a_thread(bytes);
            return ExitCode::SUCCESS;
        }
    }
    if !words.is_empty() {
        eprintln!("usage: stack, at the top of the repository");
        return ExitCode::from(2);
    }
    let mut rows: Vec<&str> = CALLS.iter().map(|call| call.0).collect();
    rows.sort();
    if rows != declared() {
        println!("hosts/bench.h declares {:?}", declared());
        return ExitCode::FAILURE;
    }
    let (said, mut wrong) = (said(), 0);
    // A thread of its own, with room for what is painted.
    let found = std::thread::Builder::new().stack_size(16 * PAINTED).spawn(measured).expect("a thread").join().expect("no panic");
    println!("| call | most bytes | least | KB, rounded up | in hosts/bench.h |\n|---|---|---|---|---|");
    for (most, least, name) in &found {
        let kilobytes = most.div_ceil(1000);
        let told = match said.get(name) {
            None => "no figure".to_string(),
            Some(figure) if *figure < kilobytes => format!("{figure} KB: too few"),
            Some(figure) if *figure > kilobytes + SPARE => format!("{figure} KB: too many"),
            Some(figure) => format!("{figure} KB"),
        };
        wrong += usize::from(!told.ends_with(" KB"));
        println!("| {name} | {most} | {least} | {kilobytes} | {told} |");
    }
    let (thread, figure) = (least().div_ceil(1000), said_of_a_thread().expect("a figure of a thread in hosts/bench.h"));
    let fits = figure.abs_diff(thread) <= 2 * SPARE;
    println!("a thread that makes every call needs {thread} KB; in hosts/bench.h {figure} KB{}", if fits { "" } else { ": too far from it" });
    wrong += usize::from(!fits);
    println!("{} passed, {wrong} failed", found.len() + 1 - wrong);
    if wrong == 0 {
        ExitCode::SUCCESS
    } else {
        ExitCode::FAILURE
    }
}

/// By how many KB a figure of hosts/bench.h may be too large: several calls stand on one line there. What a thread itself takes goes by the machine, in whole pages.
const SPARE: usize = 5;

/// The figure of a thread in hosts/bench.h.
fn said_of_a_thread() -> Option<usize> {
    HEADER.split("needs about ").nth(1)?.split(" KB").next()?.parse().ok()
}
