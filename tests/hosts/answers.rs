//! The bench through its Rust crate, asked in words: tests/count/host.rs has the protocol. A new call is a row of `rooms`, a new kind of argument a function of `Asked`.
#![forbid(unsafe_code)]

use mass_bench::*;
use std::collections::HashMap;
use std::fmt::Debug;
use std::io::Write;
use std::str::FromStr;
use std::thread;

/// What the crate hands back, as the rooms and slots of hosts/bench.h.
type Rooms = Vec<Vec<u64>>;

enum No {
    Refused(Refusal),
    /// what is asked cannot be said in the crate's types
    Beyond,
}

impl From<Refusal> for No {
    fn from(refusal: Refusal) -> No {
        No::Refused(refusal)
    }
}

/// What a request takes, by its names.
struct Asked<'a>(HashMap<&'a str, &'a str>);

impl<'a> Asked<'a> {
    fn of(words: impl Iterator<Item = &'a str>) -> Asked<'a> {
        Asked(words.map(|word| word.split_once(['=', ':']).expect("a name and what it is")).collect())
    }

    fn number<T: FromStr<Err: Debug>>(&self, name: &str) -> T {
        self.0[name].parse().expect("a number")
    }

    fn list<T: FromStr<Err: Debug>>(&self, name: &str) -> Vec<T> {
        self.0[name].split(',').filter(|entry| !entry.is_empty()).map(|entry| entry.parse().expect("a number")).collect()
    }

    fn head(&self) -> Head {
        Head { n: self.number("n"), flag: self.number("flag"), p: self.number("p"), m: self.number("m") }
    }

    fn blocks(&self) -> Vec<u8> {
        self.list("blocks")
    }

    fn readings(&self) -> Vec<i32> {
        self.list("readings")
    }

    fn file(&self) -> Vec<u8> {
        self.list("bytes")
    }

    fn restraint(&self) -> (u64, i64) {
        (self.number("set"), self.number("sum"))
    }

    fn sheet(&self) -> Sheet {
        let claimed = ClaimedSpread { value: f64::from_bits(self.number("spread")), freedom: self.number("freedom") };
        Sheet { hundredths: self.list("claims"), spread: (self.number::<u64>("has_spread") != 0).then_some(claimed) }
    }

    fn practice(&self) -> Practice {
        Practice { truths: self.list("truths"), start: self.number("start"), width: self.number("width") }
    }

    fn names(&self) -> Result<Vec<Name>, No> {
        self.list("names").chunks(8).map(|name| name.try_into().map(Name).map_err(|_| No::Beyond)).collect()
    }
}

fn signed(numbers: &[i64]) -> Vec<u64> {
    numbers.iter().map(|number| *number as u64).collect()
}

fn wide(number: u128) -> Vec<u64> {
    vec![(number >> 64) as u64, number as u64]
}

fn parameters(Parameters { v, b, r, p, l1, l2 }: Parameters) -> Vec<u64> {
    vec![v, b, r, p, l1, l2]
}

fn counts(GroupCounts { l11, l21, l12, l22 }: GroupCounts) -> Vec<u64> {
    vec![l11, l21, l12, l22]
}

fn spreading(Spreading { q, vbeta, freedom, spread }: Spreading) -> Rooms {
    let (hundredths, value) = spread.map_or((0, 0.0), |spread| (spread.hundredths, spread.value));
    vec![[wide(q), vec![vbeta, freedom, hundredths, spread.is_some().into()]].concat(), vec![value.to_bits()]]
}

fn everything(job: Job) -> Rooms {
    let spread = spreading(job.solved.spreading);
    let answer = [parameters(job.solved.parameters), vec![job.solved.denominator], spread[0].clone()].concat();
    vec![job.words, signed(&job.values), signed(&job.deviations), answer, spread[1].clone()]
}

fn read_slots(job: JobRead) -> Rooms {
    let sizes = [job.head.n, job.head.flag, job.head.p, job.head.m, job.blocks_at, job.readings_at];
    vec![signed(&[job.sum]), sizes.iter().map(|size| *size as u64).chain([job.set]).collect()]
}

/// The names are the first optional field, right behind the readings.
fn second_slots(SecondRead { job, names }: SecondRead, file: &[u8]) -> Rooms {
    let at = if names.is_empty() { 0 } else { job.readings_at + 4 * job.head.m * job.head.n + 3 };
    let held: Vec<u8> = names.iter().flat_map(|name| name.0).collect();
    assert_eq!(held, file[at..at + held.len()]);
    let mut rooms = read_slots(job);
    rooms[1].push(at as u64);
    rooms
}

fn text(bytes: impl AsRef<[u8]>) -> Rooms {
    let bytes = bytes.as_ref();
    vec![bytes.iter().map(|byte| u64::from(*byte)).collect(), vec![bytes.len() as u64]]
}

fn checked(found: Checked, sheet: &Sheet) -> Rooms {
    vec![match found {
        Checked::Agrees => vec![1, 0],
        Checked::Object(object) => vec![0, object as u64],
        Checked::Spread => vec![0, sheet.hundredths.len() as u64],
    }]
}

/// Files end to end, cut by their lengths.
fn files<'a>(bytes: &'a [u8], lengths: &[usize]) -> Result<Vec<&'a [u8]>, No> {
    let mut rest = bytes;
    let files = lengths.iter().map(|length| {
        let (file, behind) = rest.split_at_checked(*length).ok_or(No::Beyond)?;
        rest = behind;
        Ok(file)
    });
    let files = files.collect::<Result<Vec<_>, No>>()?;
    if rest.is_empty() || files.is_empty() {
        Ok(files)
    } else {
        Err(No::Beyond)
    }
}

fn rooms(call: &str, a: &Asked) -> Result<Rooms, No> {
    Ok(match call {
        "bench_pairs_refusal" => pairs_refusal(a.head(), &a.blocks()).map(|()| vec![])?,
        "bench_develop" => vec![develop(a.head(), &a.blocks())?],
        "bench_develop_initial" => vec![develop_initial(a.head(), &a.blocks(), a.number("number"))?],
        "bench_company" => vec![company(a.head(), &a.blocks())?.concat()],
        "bench_opposition" => vec![opposition(a.head(), &a.blocks())?.concat()],
        "bench_judge" => vec![parameters(judge(a.head(), &a.blocks())?)],
        "bench_judge_by_differences" => vec![parameters(judge_by_differences(a.head(), &a.blocks())?)],
        "bench_grouped" => vec![counts(grouped(a.number("count"), a.number("v"), a.number("p"), &a.blocks(), &a.list("groups"))?)],
        "bench_group_base" => {
            let set = group_base(a.head(), &a.blocks(), a.number("g"))?;
            vec![set.words, [vec![set.v as u64, set.b as u64, set.r, set.p as u64], counts(set.counts)].concat()]
        }
        "bench_total" => vec![signed(&[total(a.head(), &a.blocks(), &a.readings(), a.number("number"))?])],
        "bench_sum_of_squares" => vec![wide(sum_of_squares(a.head(), &a.readings())?)],
        "bench_sum_of_squared_totals" => vec![wide(sum_of_squared_totals(a.head(), &a.blocks(), &a.readings())?)],
        "bench_refusal" => refusal(a.head(), &a.blocks(), &a.readings(), a.restraint().0, a.restraint().1).map(|()| vec![])?,
        "bench_values" => vec![signed(&values(a.head(), &a.blocks(), &a.readings(), a.restraint().0, a.restraint().1)?)],
        "bench_value_of" => {
            let value = value_of(a.head(), &a.blocks(), &a.readings(), a.restraint().0, a.restraint().1, a.number("number"))?;
            let reals = vec![value.value.to_bits(), value.factor_value.to_bits()];
            vec![signed(&[value.numerator, value.hundredths]), vec![value.denominator, value.factor], reals]
        }
        "bench_uncertainty_of" => {
            let found = uncertainty_of(a.head(), &a.blocks(), &a.readings(), a.restraint().0, a.restraint().1, a.number("number"))?;
            let (hundredths, value) = found.map_or((0, 0.0), |found| (found.hundredths, found.value));
            vec![vec![hundredths, found.is_some().into()], vec![value.to_bits()]]
        }
        "bench_published" => vec![signed(&published(a.head(), &a.blocks(), &a.readings(), a.restraint().0, a.restraint().1)?)],
        "bench_deviations" => vec![signed(&deviations(a.head(), &a.blocks(), &a.readings())?)],
        "bench_deviation_of" => {
            let deviation = deviation_of(a.head(), &a.blocks(), &a.readings(), a.number("number"))?;
            vec![signed(&[deviation.numerator]), vec![deviation.denominator]]
        }
        "bench_q" => vec![wide(q(a.head(), &a.blocks(), &a.readings())?)],
        "bench_spread" => spreading(spread(a.head(), &a.blocks(), &a.readings())?),
        "bench_analyse" => everything(analyse(a.head(), &a.blocks(), &a.readings(), a.restraint().0, a.restraint().1)?),
        "bench_field_at" => {
            let field = field_at(&a.file(), a.number("place"), a.number("tag"), a.number("length"))?;
            vec![vec![field.body as u64, field.next as u64]]
        }
        "bench_read" => read_slots(read(&a.file())?),
        "bench_solve" => everything(solve(&a.file())?),
        "bench_write" => text(write(a.head(), &a.blocks(), a.restraint().0, a.restraint().1, &a.readings())?),
        "bench_listing" => text(listing(&a.file())?),
        "bench_certificate" => text(certificate(&a.file())?),
        "bench_card" => text(card(&a.file())?),
        "bench_read_second" => second_slots(read_second(&a.file())?, &a.file()),
        "bench_solve_second" => everything(solve_second(&a.file())?),
        "bench_write_second" => text(write_second(a.head(), &a.blocks(), a.restraint().0, a.restraint().1, &a.readings(), &a.names()?)?),
        "bench_to_second" => text(to_second(&a.file())?),
        "bench_to_first" => text(to_first(&a.file())?),
        "bench_listing_second" => text(listing_second(&a.file())?),
        "bench_certificate_second" => text(certificate_second(&a.file())?),
        "bench_card_second" => text(card_second(&a.file())?),
        "bench_check_parts" => checked(check(a.head(), &a.blocks(), &a.readings(), a.restraint().0, a.restraint().1, &a.sheet())?, &a.sheet()),
        "bench_check_file" => checked(check_file(&a.file(), &a.sheet())?, &a.sheet()),
        "bench_check_second" => checked(check_second(&a.file(), &a.sheet())?, &a.sheet()),
        "bench_practice" => vec![practice(a.head(), &a.blocks(), &a.practice())?.iter().map(|reading| i64::from(*reading) as u64).collect()],
        "bench_practice_file" => text(practice_file(a.head(), &a.blocks(), &a.practice(), a.number("set"))?),
        "bench_pool" => spreading(pool(&files(&a.file(), &a.list("lengths"))?)?),
        _ => panic!("there is no row for {call}"),
    })
}

fn answer(request: &str) -> String {
    let mut words = request.split_whitespace();
    let call = words.next().expect("a call");
    match rooms(call, &Asked::of(words)) {
        Ok(rooms) => rooms.iter().fold("accepted".to_string(), |said, room| said + " " + &room.iter().map(u64::to_string).collect::<Vec<_>>().join(",")),
        Err(No::Refused(refusal)) => format!("refused {} {} {}", refusal.reason.number(), refusal.job.unwrap_or(0), refusal.place),
        Err(No::Beyond) => "beyond".to_string(),
    }
}

fn main() {
    let mut lines = std::io::stdin().lines().map(|line| line.expect("a request"));
    loop {
        let waiting: Vec<String> = lines.by_ref().take_while(|line| !line.is_empty()).collect();
        if waiting.is_empty() {
            return;
        }
        // Four threads, each of which has a quarter of the requests.
        let answers: Vec<String> = thread::scope(|scope| {
            let several: Vec<_> = waiting.chunks(waiting.len().div_ceil(4)).map(|some| scope.spawn(|| some.iter().map(|one| answer(one)).collect::<Vec<_>>())).collect();
            several.into_iter().flat_map(|one| one.join().expect("answers")).collect()
        });
        let mut out = std::io::stdout().lock();
        writeln!(out, "{}", answers.join("\n")).and_then(|()| out.flush()).expect("somebody who listens");
    }
}
