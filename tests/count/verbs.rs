//! The program's verbs on many files, against the count: what it prints, and how what it says on standard error begins.
//!
//! `list FILE`: jobs of both editions, half of them damaged, and for an unbalanced design the two pairs that are named.
//! `certificate FILE`: such jobs, with names of any bytes.
//! `card FILE`: the same.
//! `job CARD`: cards of jobs right and wrong, with comments and spacing of all kinds, some with a word that is changed, put in or left out, some cut short.
//! `check JOB SHEET`: jobs of both editions, some refused, with sheets as text: a listing's own lines, in other order and among others, and wrong in one place.
//! `practice JOB START WIDTH VALUE..`: jobs of both editions, some refused, with numbers in their ranges, out of them, written in more digits than they need, and words that are none.
//! `pool FILE..`: files of one v and beta, some damaged or of another kind, one to more than 64, with names of any bytes, of which those that are not UTF-8 cannot be opened; and with names of any
//! characters.

use crate::card;
use crate::certificate;
use crate::damage;
use crate::design;
use crate::job::{self, Head, Job, Refusal};
use crate::listing;
use crate::parts;
use crate::pooled::{self, Pool};
use crate::practice;
use crate::second;
use crate::seed::Seed;
use crate::solve::{solve, Results};
use std::collections::BTreeMap;
use std::ffi::OsStr;
use std::fs;
use std::os::unix::ffi::OsStrExt;
use std::path::PathBuf;
use std::process::{Command, Stdio};

/// What a verb prints, the word with which standard error begins, none where nothing is said there, words that it must hold too, and how it ends.
struct Expected {
    printed: Vec<u8>,
    begins: &'static str,
    holds: String,
    ends: &'static str,
}

fn printed(text: String) -> Expected {
    let begins = ["refused", "differs"].into_iter().find(|word| text.starts_with(word)).unwrap_or("");
    Expected { printed: text.into_bytes(), begins, holds: String::new(), ends: "" }
}

fn cannot(word: String) -> Expected {
    Expected { printed: vec![], begins: "bench:", holds: word, ends: "" }
}

/// What a verb is tried on: files, each with its name, the words after them, and what comes of it. And a few words on what they are.
struct Trial {
    about: &'static str,
    files: Vec<(Vec<u8>, Vec<u8>)>,
    words: Vec<String>,
    expected: Expected,
}

const VERBS: [(&str, fn(u64, u64, &mut Seed) -> Trial); 8] = [
    ("list", list),
    ("certificate", certificate),
    ("job", make_job),
    ("card", card),
    ("check", check),
    ("practice", practise),
    ("pool", pool),
    ("pool", pool_by_characters),
];

/// A file by a plain name.
fn plain(name: &str, bytes: Vec<u8>) -> (Vec<u8>, Vec<u8>) {
    (name.as_bytes().to_vec(), bytes)
}

/// On how many trials the program is right, and on how many it fails, of so many for each verb.
pub fn compare(program: &[String], seed: u64, count: u64) -> (u64, u64) {
    let room = std::env::temp_dir().join(format!("count-verbs-{}", std::process::id()));
    fs::create_dir_all(&room).expect("room for files");
    let (mut passed, mut failed) = (0, 0);
    for (verb, trial) in VERBS {
        let mut alike: BTreeMap<&str, u64> = BTreeMap::new();
        for index in 0..count {
            let trial = trial(seed, index, &mut Seed::new(seed, index));
            match run(program, &room, verb, &trial) {
                Ok(()) => *alike.entry(trial.about).or_insert(0) += 1,
                Err(failure) => {
                    failed += 1;
                    println!("{verb} {seed} {index} ({}): {failure}", trial.about);
                }
            }
        }
        passed += alike.values().sum::<u64>();
        println!("{verb}: {alike:?}");
    }
    fs::remove_dir_all(&room).expect("the files are taken away");
    (passed, failed)
}

fn run(program: &[String], room: &PathBuf, verb: &str, trial: &Trial) -> Result<(), String> {
    let expected = &trial.expected;
    // the program runs where the files are, so that a name is all that it is told
    let started = fs::canonicalize(&program[0]).unwrap_or_else(|_| PathBuf::from(&program[0]));
    let mut command = Command::new(started);
    command.args(&program[1..]).arg(verb).stdin(Stdio::null()).current_dir(room);
    for (name, bytes) in &trial.files {
        let name = OsStr::from_bytes(name);
        fs::write(room.join(name), bytes).map_err(|error| error.to_string())?;
        command.arg(name);
    }
    command.args(&trial.words);
    let output = command.output().map_err(|error| format!("{} does not start: {error}", program[0]))?;
    let said = String::from_utf8_lossy(&output.stderr);
    if output.stdout != expected.printed {
        let [found, wanted] = [&output.stdout, &expected.printed].map(|bytes| String::from_utf8_lossy(bytes).into_owned());
        return Err(format!("it prints `{found}` and says `{said}`, the count `{wanted}`"));
    }
    let begins = if expected.begins.is_empty() { said.is_empty() } else { said.starts_with(expected.begins) };
    if !begins || !said.contains(&expected.holds) || !said.ends_with(expected.ends) || !output.status.success() {
        return Err(format!("it says `{said}`, which is to begin with `{}`, to hold `{}` and to end with `{}`; {}", expected.begins, expected.holds, expected.ends, output.status));
    }
    Ok(())
}

/// A sheet as its lines: the values, each as its words, and the words of the spread.
struct Lines {
    values: Vec<Vec<String>>,
    spread: Vec<String>,
}

impl Lines {
    fn of(job: &Job, results: &Results) -> Lines {
        let listed = listing::accepted(job, results);
        let words = |line: &str| line.split(' ').map(str::to_string).collect::<Vec<_>>();
        let of = |first: &str| listed.lines().filter(|line| line.starts_with(first)).map(words).collect::<Vec<_>>();
        Lines { values: of("value "), spread: of("spread ").remove(0) }
    }

    /// The lines as text; where `among` is true, others stand between them, and the spread comes first.
    fn text(&self, among: bool) -> String {
        let mut lines: Vec<String> = self.values.iter().chain([&self.spread]).map(|words| words.join(" ")).collect();
        if among {
            lines.rotate_right(1);
            lines.insert(0, "design 1 2 3".to_string());
            lines.insert(2, String::new());
            lines.push("values 0 1 2 3".to_string());
            lines.push(" value 0 1 2 3".to_string());
            lines.push("spreads".to_string());
        }
        lines.join("\n") + "\n"
    }
}

/// A job's file in either edition, whole or damaged, and its job where it has one. In the second edition it may have names and other optional fields.
fn job_file(seed: u64, index: u64, source: &mut Seed) -> (Vec<u8>, Result<Job, Refusal>) {
    let bytes = if index % 6 == 5 { damage::seeded(seed, index).bytes } else { whole(source) };
    let edition = source.once_in(3);
    let file = if edition { with_fields(&bytes, source) } else { bytes };
    let seen = if edition { &file[..file.len().min(second::LIMIT + 1)] } else { &file[..file.len().min(listing::READ_LIMIT)] };
    let read = if file.first() == Some(&second::EDITION[0]) { second::read(seen).map(|read| read.job) } else { job::read(seen) };
    (file, read)
}

/// A file of the second edition, mostly with names, some of them of bytes that break a line or a column, and with other fields.
fn with_fields(first: &[u8], source: &mut Seed) -> Vec<u8> {
    let mut names = vec![];
    if let Ok(job) = job::read(first) {
        let kind = source.below(4);
        let (any, odd) = (kind == 1, [b' ', b'#', b'\\', b'\n', b'!', b'~', 0x7f, 0x80, 0]);
        for object in 0..if kind == 0 { 0 } else { job.head.objects() } {
            match source.below(4) {
                0 => names.extend(b"        "),
                1 => names.extend((0..8).map(|_| source.pick(&odd))),
                _ if any => names.extend(source.next().to_be_bytes()),
                _ => names.extend(format!("{:<8}", format!("brass-{object}")).into_bytes()),
            }
        }
    }
    let mut file = second::with_names(first, &names);
    let mut tag = second::NAMES;
    while tag < 250 && source.once_in(3) {
        tag += 1 + source.below(4) as u8;
        let body: Vec<u8> = (0..source.pick(&[0, 1, 7, 300])).map(|_| source.next() as u8).collect();
        file.extend(second::field(tag, &body));
    }
    file
}

/// A refused job: its line, and the sentence with its number and place and, where it is unbalanced, the pairs.
fn refused_job(file: &[u8], refusal: Refusal) -> Expected {
    let line = listing::refused(refusal);
    let mut holds = format!("{}: ", line.trim_end());
    if refusal.number == 6 {
        holds += &format!("the developed design is unbalanced: {}\n", pairs(file));
    }
    Expected { holds, ..printed(line) }
}

/// The first pair, row by row, that does not meet as the objects 0 and 1 do, and how often both do.
fn pairs(file: &[u8]) -> String {
    let first = if file[0] == second::EDITION[0] { &file[second::EDITION.len()..] } else { file };
    let head = Head { n: first[3].into(), flag: first[4].into(), p: first[5].into(), m: first[6].into() };
    let v = head.objects();
    let (company, opposition) = design::pairs(v, &design::develop(&head, &first[10..10 + 2 * head.p * head.m]));
    let times = |count: i128| if count == 1 { "1 time".to_string() } else { format!("{count} times") };
    for (i, j) in (0..v).flat_map(|i| (i + 1..v).map(move |j| (i, j))) {
        for (meet, table) in [("share a side", &company), ("oppose", &opposition)] {
            if table[i][j] != table[0][1] {
                return format!("objects {i} and {j} {meet} {}, objects 0 and 1 {}", times(table[i][j]), times(table[0][1]));
            }
        }
    }
    panic!("an unbalanced design whose pairs all meet alike");
}

/// A job.
fn list(seed: u64, index: u64, source: &mut Seed) -> Trial {
    let (file, read) = job_file(seed, 3 * index + 2, source);
    let (about, expected) = match read {
        Ok(job) => ("a listing", printed(listing::accepted(&job, &solve(&job)))),
        Err(refusal) if refusal.number == 6 => ("an unbalanced job", refused_job(&file, refusal)),
        Err(refusal) => ("a job that is refused", refused_job(&file, refusal)),
    };
    Trial { about, files: vec![plain("job", file)], words: vec![], expected }
}

/// A job, with its names.
fn certificate(seed: u64, index: u64, source: &mut Seed) -> Trial {
    let (file, read) = job_file(seed, 3 * index + 2, source);
    let (about, expected) = match read {
        Ok(job) => {
            let names = if file[0] == second::EDITION[0] { second::read(&file).expect("a job").names } else { None };
            let names = names.map_or(&[][..], |at| &file[at..at + 8 * job.head.objects()]);
            let about = if names.is_empty() { "a certificate" } else { "a certificate with names" };
            (about, printed(certificate::accepted(&job, &solve(&job), names)))
        }
        Err(refusal) => ("a job that is refused", refused_job(&file, refusal)),
    };
    Trial { about, files: vec![plain("job", file)], words: vec![], expected }
}

/// A job, with all its fields.
fn card(seed: u64, index: u64, source: &mut Seed) -> Trial {
    let (file, read) = job_file(seed, 3 * index + 2, source);
    let (about, expected) = match read {
        Ok(_) => ("a card", printed(card::of(&file).expect("a job"))),
        Err(refusal) => ("a job that is refused", refused_job(&file, refusal)),
    };
    Trial { about, files: vec![plain("job", file)], words: vec![], expected }
}

/// The words of a card of a job, right or wrong, of either edition.
fn card_words(seed: u64, index: u64, source: &mut Seed) -> Vec<String> {
    if index % 2 == 1 {
        return card::words_of(&damage::parts(seed, index).draft);
    }
    let (file, read) = job_file(seed, 6 * index, source);
    read.expect("a whole job");
    card::of(&file).expect("its card").split_whitespace().map(str::to_string).collect()
}

/// A card, its words changed or not, with spacing and comments between them.
fn make_job(seed: u64, index: u64, source: &mut Seed) -> Trial {
    let mut words = card_words(seed, index, source);
    let wrong = [
        "inf", "-", "|", "=", "x", "-1", "+1", "0", "00", "63", "64", "254", "255", "256", "1.5", "2147483647", "2147483648", "-2147483648", "-2147483649", "9223372036854775808", "names", "other", "initial",
        "readings", "restraint", "fixed", "yes", "field", "80", "81", "7F", "ff", "0g", "abc", "abcd", "\\x4", "\\x41", "\\y41", "brass-100", "brass-1", "Residues", "99999999999999999999999999999999999999999",
    ];
    if source.once_in(2) {
        // the first words and the last ones more often: there are many readings
        let at = match source.below(3) {
            0 => source.below(words.len().min(12)),
            1 => words.len() - 1 - source.below(words.len().min(12)),
            _ => source.below(words.len()),
        };
        match source.below(5) {
            0 => words[at] = source.pick(&wrong).to_string(),
            1 => words.insert(at, source.pick(&wrong).to_string()),
            2 => drop(words.remove(at)),
            3 => words.truncate(at),
            _ => words.push(source.pick(&wrong).to_string()),
        }
    }
    let mut text = String::new();
    for word in &words {
        text += source.pick(&[" ", "\n", "  ", "\t", " \r\n", " # a comment: 7 inf | =\n", "#\n", "\n\n"]);
        text += word;
    }
    text += source.pick(&["", "\n", " ", "#", " # the end"]);
    let text = text.into_bytes();
    let told = |place| card::line_and_column(&text, place);
    let (about, expected) = match card::file(&text) {
        _ if text.len() > card::CARD_LIMIT => ("a card that is too long", cannot("more than 65,536 bytes".to_string())),
        Ok(file) => ("a job", Expected { printed: file, begins: "", holds: String::new(), ends: "" }),
        Err(card::Unmade::Unread(place, wants)) => {
            let (line, column) = told(place);
            let ends = place == text.len();
            let wanted = format!("card: line {line}, column {column}: expected {}", card::WANTED[wants - 1]);
            if ends {
                ("a card that ends too early", Expected { ends: ", but the card ends here\n", ..cannot(wanted) })
            } else {
                ("a card that cannot be read", cannot(wanted))
            }
        }
        Err(card::Unmade::Refused(number, place)) => {
            let (line, column) = told(place);
            let holds = format!("refused {number} at line {line}, column {column} of card: ");
            ("a job that is refused", Expected { printed: vec![], begins: "refused", holds, ends: "\n" })
        }
    };
    Trial { about, files: vec![plain("card", text)], words: vec![], expected }
}

/// A job and its sheet.
fn check(seed: u64, index: u64, source: &mut Seed) -> Trial {
    let (file, read) = job_file(seed, index, source);
    let (about, text, expected) = match read {
        Ok(job) => sheet(&job, &solve(&job), source),
        Err(refusal) => {
            let a = job::read(&crate::stored::A).expect("example A");
            let sheet = Lines::of(&a, &solve(&a)).text(source.once_in(2));
            ("a job that is refused", sheet, refused_job(&file, refusal))
        }
    };
    Trial { about, files: vec![plain("job", file), plain("sheet", text.into_bytes())], words: vec![], expected }
}

/// A job, a start number, a width and true values; the words are the numbers, mostly in the ranges.
fn practise(seed: u64, index: u64, source: &mut Seed) -> Trial {
    let (file, read) = job_file(seed, index, source);
    let v = read.as_ref().map_or(5, |job| job.head.objects());
    let mut asked = practice::seeded(v, source);
    if !source.once_in(3) {
        asked.truths.resize(v, 7);
    }
    let mut words = vec![asked.start.to_string(), asked.width.to_string()];
    words.extend(asked.truths.iter().map(|truth| truth.to_string()));
    // one of the words in more digits than it needs
    let place = source.below(words.len());
    if source.once_in(4) {
        let minus = words[place].starts_with('-');
        words[place] = format!("{}000{}", if minus { "-" } else { "" }, words[place].trim_start_matches('-'));
    }
    // one of the words out of every range, or no number
    let far = source.once_in(6);
    if far {
        let past = ["-18446744073709551616", "-1", "4294967296", "9223372036854775808", "18446744073709551616", "99999999999999999999999999999999"];
        words[place] = past[if place < 2 { source.below(past.len()) } else { source.pick(&[0, 2, 3, 4, 5]) }].to_string();
    }
    if source.once_in(8) {
        let wrong = source.pick(&["x", "1.5", "+1", "--1", "-", "0x1", "1e3", " 1", "1 ", "\u{2212}1", ""]).to_string();
        words[place] = wrong.clone();
        return Trial { about: "what is no number", files: vec![plain("job", file)], words, expected: cannot(format!("{wrong}: this is not a number\n")) };
    }
    let refused = |number| printed(format!("refused {number} 0\n"));
    let (about, expected) = match read {
        Err(refusal) => ("a job that is refused", refused_job(&file, refusal)),
        Ok(_) if asked.truths.len() != v => ("too few or too many true values", refused(3)),
        Ok(_) if far => ("a number out of every range", refused(16)),
        Ok(_) if !asked.in_range() => ("a true value or a width out of its range", refused(16)),
        Ok(job) => {
            let first = if file[0] == second::EDITION[0] { &file[second::EDITION.len()..second::read(&file).expect("a job").optional] } else { &file };
            let design = parts::parts_of(first).expect("the parts of a job");
            ("a practice job", Expected { printed: asked.file(design, &job.blocks), begins: "", holds: String::new(), ends: "" })
        }
    };
    Trial { about, files: vec![plain("job", file)], words, expected }
}

/// Files with names of any bytes that a name may have. Where one is not UTF-8, the first such file cannot be opened, and nothing is pooled.
fn pool(_: u64, _: u64, source: &mut Seed) -> Trial {
    let mut trial = pooled_files(source, |name| name);
    let strange = trial.files.iter().find(|(name, _)| std::str::from_utf8(name).is_err());
    if let (Some((name, _)), true) = (strange, trial.about != "too many") {
        trial.expected = cannot(format!("bench: {}: the name is not UTF-8\n", String::from_utf8_lossy(name)));
        trial.about = "a name that is not UTF-8";
    }
    trial
}

/// The same files with the names as characters: each byte stands for the character of its number.
fn pool_by_characters(_: u64, _: u64, source: &mut Seed) -> Trial {
    pooled_files(source, |name| name.into_iter().map(char::from).collect::<String>().into_bytes())
}

fn pooled_files(source: &mut Seed, named: fn(Vec<u8>) -> Vec<u8>) -> Trial {
    let mut files: Vec<(Vec<u8>, Vec<u8>)> = pooled::files(source).into_iter().map(|bytes| (vec![], bytes)).collect();
    for (number, (name, bytes)) in files.iter_mut().enumerate() {
        // the number keeps names apart, and a name from being - alone
        *name = number.to_string().into_bytes();
        let odd = [b' ', b'#', b'\\', b'\n', b'\r', b'\t', 0x7f, 0x80, 0xff, b'!', b'~', b'-', b'x', 1];
        (0..source.below(4)).for_each(|_| name.push(source.pick(&odd)));
        *name = named(std::mem::take(name));
        if source.once_in(40) {
            *bytes = second::with_names(bytes, &[]);
        }
    }
    let seen: Vec<Vec<u8>> = files.iter().map(|(_, bytes)| bytes[..bytes.len().min(listing::READ_LIMIT)].to_vec()).collect();
    let shown: Vec<String> = files.iter().map(|(name, _)| name.iter().map(|byte| shown(*byte)).collect()).collect();
    let last = |spread: Option<i128>| spread.map_or("none".to_string(), |k| k.to_string());
    let (about, text) = match Pool::of("", &seen).pooled() {
        Ok(pooled) => {
            let mut text = String::new();
            for (name, bytes) in shown.iter().zip(&seen) {
                let job = job::read(bytes).expect("a job that is pooled");
                let results = solve(&job);
                text += &format!("job {name} {} {} {} {} {}\n", job.head.objects(), job.balance.beta(), results.q, results.freedom, last(results.spread));
            }
            (if pooled.spread.is_some() { "pooled" } else { "pooled, no degree of freedom" }, text + &format!("pooled {} {} {}\n", pooled.q, pooled.freedom, last(pooled.spread)))
        }
        Err(refusal) if refusal.number == 18 => ("too many", listing::refused(refusal)),
        Err(refusal) => {
            let line = format!("refused {} {} {}\n", refusal.number, refusal.place, shown[refusal.index]);
            (if refusal.number == 17 { "of two kinds" } else { "a job that is refused" }, line)
        }
    };
    Trial { about, files, words: vec![], expected: printed(text) }
}

/// A byte of a name, as a line shows it.
fn shown(byte: u8) -> String {
    match byte {
        b'#' | b'\\' => format!("\\x{byte:02X}"),
        b'!'..=b'~' => char::from(byte).to_string(),
        _ => format!("\\x{byte:02X}"),
    }
}

/// The file of a job that nothing refuses.
fn whole(source: &mut Seed) -> Vec<u8> {
    loop {
        let bytes = damage::seeded(source.next() % 1000, 3 * (source.next() % 1000)).bytes;
        if job::read(&bytes).is_ok() {
            return bytes;
        }
    }
}

/// A sheet's text, and what is said of it.
fn sheet(job: &Job, results: &Results, source: &mut Seed) -> (&'static str, String, Expected) {
    let v = results.hundredths.len();
    let mut lines = Lines::of(job, results);
    let object = source.below(v);
    let agrees = || printed("agrees\n".to_string());
    let short = || printed("refused 15 0\n".to_string());
    let unread = |line: usize| cannot(format!("line {line}\n"));
    let differs = |object: usize, claimed: i128| printed(format!("differs {object} claimed {claimed} is {}\n", results.hundredths[object]));
    let spread = |words: &[String]| words[3..].join(" ");
    let of_spread = |claimed: &[String]| printed(format!("differs spread claimed {} is {}\n", spread(claimed), spread(&lines_of(job, results))));
    let among = source.once_in(3);
    match source.below(18) {
        0 => ("right", listing::accepted(job, results), agrees()),
        1 => ("right, other lines between", lines.text(true), agrees()),
        2 => ("right, the last line not ended", lines.text(false).trim_end().to_string(), agrees()),
        3 => {
            // the fraction, Q and v beta claim nothing
            lines.values[object][2] = "7".to_string();
            lines.spread[1] = "1".to_string();
            ("another fraction", lines.text(among), agrees())
        }
        4..=6 => {
            let claimed = results.hundredths[object] + source.pick(&[1, -1, 1 << 32, -(1 << 32)]);
            lines.values[object][4] = claimed.to_string();
            if source.once_in(2) {
                lines.spread[4] = "none".to_string();
            }
            ("an object", lines.text(among), differs(object, claimed))
        }
        7 => {
            let claimed = results.hundredths[0] - 5;
            lines.values[0][4] = claimed.to_string();
            lines.values[v - 1][4] = "9".to_string();
            ("the first object and the last", lines.text(among), differs(0, claimed))
        }
        8 => match results.spread {
            Some(k) => {
                lines.spread[4] = (k + 1).to_string();
                let expected = of_spread(&lines.spread);
                ("the spread", lines.text(among), expected)
            }
            None => {
                lines.spread[4] = "0".to_string();
                let expected = of_spread(&lines.spread);
                ("a spread where there is none", lines.text(among), expected)
            }
        },
        9 => {
            lines.spread[3] = (results.freedom + 1).to_string();
            let expected = of_spread(&lines.spread);
            ("the degrees of freedom", lines.text(among), expected)
        }
        10 => {
            let right = results.spread.is_none();
            lines.spread[4] = "none".to_string();
            let expected = if right { agrees() } else { of_spread(&lines.spread) };
            ("none", lines.text(among), expected)
        }
        11 => {
            lines.values.pop();
            ("a value too few", lines.text(among), short())
        }
        12 => {
            let more = source.pick(&[1, 2, 60]);
            (v..v + more).for_each(|object| lines.values.push(["value", &object.to_string(), "1", "1", "100"].map(str::to_string).to_vec()));
            ("values too many", lines.text(among), short())
        }
        13 => {
            let object = object.min(v - 2);
            lines.values.swap(object, object + 1);
            ("two lines exchanged", lines.text(false), unread(object + 1))
        }
        14 => {
            lines.values.remove(object.min(v - 2));
            ("a line left out", lines.text(false), unread(object.min(v - 2) + 1))
        }
        15 => {
            let wrong = source.pick(&["", "x", "1.5", "+1", "--1", "-", "0x1", "9223372036854775808", "-9223372036854775809"]);
            lines.values[object][4] = wrong.to_string();
            ("what is no number", lines.text(false), unread(object + 1))
        }
        16 => {
            if source.once_in(2) {
                lines.values[object].pop();
            } else {
                lines.values[object].push("0".to_string());
            }
            ("a word too few or too many", lines.text(false), unread(object + 1))
        }
        _ => {
            let text = lines.text(false);
            let twice = lines.spread.join(" ");
            ("two spreads", format!("{text}{twice}\n"), unread(v + 2))
        }
    }
}

fn lines_of(job: &Job, results: &Results) -> Vec<String> {
    Lines::of(job, results).spread
}
