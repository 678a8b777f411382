//! The files that the repository stores: the examples of the request, the trials, and what the bench must print for each.

use crate::balanced::{self, Design};
use crate::field::SIZES;
use crate::job::{Draft, READING_LIMIT, SUM_LIMIT};
use crate::listing::listing;
use crate::papers::{self, Printed, LISTS};
use crate::seed::Seed;
use std::collections::BTreeMap;
use std::fmt::Write;
use std::fs;
use std::path::Path;

/// The widest reading and the widest accepted sum as a file has them.
const LIMIT: i32 = READING_LIMIT as i32;
const SUM: i64 = SUM_LIMIT as i64;

/// An example: its file's name, what it shows, its bytes.
pub struct Example {
    pub name: String,
    pub shows: String,
    pub bytes: Vec<u8>,
}

fn example(name: &str, shows: &str, bytes: Vec<u8>) -> Example {
    Example { name: format!("{name}.job"), shows: shows.to_string(), bytes }
}

/// The 56 bytes of the request.
pub const A: [u8; 56] = [
    0x01, 0x00, 0x04, 0x05, 0x00, 0x02, 0x01, 0x02, 0x00, 0x04, 0x01, 0x04, 0x02, 0x03, 0x03, 0x00, 0x10, 0x00, 0x00, 0x00, 0x00, 0x00, 0x00, 0x00,
    0x03, 0x00, 0x00, 0x00, 0x00, 0x00, 0x00, 0x00, 0x07, 0x04, 0x00, 0x14, 0x00, 0x00, 0x00, 0x0B, 0xFF, 0xFF, 0xFF, 0xFD, 0x00, 0x00, 0x00, 0x04,
    0x00, 0x00, 0x00, 0x01, 0xFF, 0xFF, 0xFF, 0xF8,
];

/// A job over a list in the papers' notation.
fn job(n: u8, flag: u8, list: &str, restraint: u64, sum: i64, readings: Vec<i32>) -> Draft {
    let (p, objects) = papers::objects(n, list);
    let m = (objects.len() / (2 * usize::from(p))) as u8;
    assert_eq!(readings.len(), usize::from(m) * usize::from(n), "a reading for each block");
    Draft { n, flag, p, m, objects, restraint, sum, readings }
}

/// Small readings of a seeded job, restrained by its first two objects.
fn seeded(n: u8, flag: u8, list: &str, number: u64) -> Draft {
    let (p, objects) = papers::objects(n, list);
    let mut seed = Seed::new(1967, number);
    let count = objects.len() / (2 * usize::from(p)) * usize::from(n);
    let readings = (0..count).map(|_| seed.between(-999, 999) as i32).collect();
    job(n, flag, list, 3, seed.between(-99, 99), readings)
}

pub fn examples() -> Vec<Example> {
    let mut all = vec![
        example("A", "the job of the request, five objects two a side", A.to_vec()),
        example("B", "three objects, one a side: balanced", seeded(3, 0, "0 | 1", 2).file()),
        example("C", "four objects, residue 2 never arises: every object appears equally often, and yet unbalanced", seeded(4, 0, "0 | 1", 3).file()),
        example("D", "four objects, residue 2 from both orders: balanced", seeded(4, 0, "0 | 1; 0 | 1; 0 | 2", 4).file()),
        example("E", "with the fixed object, all eight in every block: no degree of freedom, no spread", seeded(7, 1, "oo 1 2 4 | 0 3 5 6", 5).file()),
        example("F", "thirteen objects two a side (003): balanced", seeded(13, 0, "1 12 | 8 5; 4 9 | 6 7; 3 10 | 11 2", 6).file()),
        example("G", "(2.9.2) of 000 as our copy prints it: unbalanced", seeded(11, 1, "oo 1 4 | 5 9 3; 0 8 1 | 2 7 6", 7).file()),
        example(
            "H",
            "tables 1 and 2 of 000 in ten-thousandths",
            job(7, 0, "0 1 | 2 3; 2 5 | 1 4; 1 3 | 5 0", 3, -14, papers::TABLE_1.to_vec()).file(),
        ),
        example(
            "I",
            "values of 1/8, -1/8, 3/8 and -7/8, exact halves of a hundredth: of the members 0 and 1 the lower is given the one that lacks, \
             the others go to the even one",
            job(3, 1, "0 | 1; oo | 0", 3, 0, vec![1, 0, 0, 0, -1, -2]).file(),
        ),
        example("J", "with the fixed object, three a side (000): balanced", seeded(7, 1, LISTS[8].list, 10).file()),
    ];
    let with_reading = |reading: i32| {
        let mut draft = seeded(5, 0, "1 4 | 2 3", 11);
        draft.readings[3] = reading;
        draft.file()
    };
    all.push(example("K-reading-200000000", "the largest reading is taken", with_reading(200_000_000)));
    all.push(example("K-reading-200000001", "a larger one is refused at its first byte", with_reading(200_000_001)));
    all.push(example("K-n50-flag0", "n 50 without the fixed object keeps the sizes: this file is refused for its balance only", differences_once_50().file()));
    all.push(example("K-n50-flag1", "n 50 with the fixed object breaks them", Draft { flag: 1, ..differences_once_50() }.file()));
    all.push(example("K-empty", "no bytes at all", Vec::new()));
    all.push(example("K-byte-added", "A and one byte more", [&A[..], &[0]].concat()));
    all.push(example(
        "L",
        "three objects of 1/3 each, restrained to 1 count: rounded alone they would add to 99 hundredths",
        job(3, 0, "0 | 1", 7, 1, vec![0, 0, 0]).file(),
    ));
    // Ours, over nine elements: the same blocks by the addition of the field and modulo 9.
    let nine = |flag: u8, list: &str, number: u64| Draft { flag, ..seeded(9, flag, list, number) }.file();
    let (field, fixed, residues) = (NINE_FIELD, NINE_FIELD_FIXED, NINE_RESIDUES);
    all.push(example("nine-field", "the field of nine elements, four a side (000, 2.3.2): balanced", nine(2, field, 13)));
    all.push(example("nine-field-modulo-9", "the same blocks modulo 9: unbalanced", nine(0, field, 13)));
    all.push(example("nine-field-fixed", "the field of nine elements and the fixed object, five a side (000, 2.6.2): balanced", nine(3, fixed, 14)));
    all.push(example("nine-field-fixed-modulo-9", "the same blocks modulo 9: unbalanced", nine(1, fixed, 14)));
    all.push(example("nine-residues", "nine residues, one a side, every difference once: balanced", nine(0, residues, 15)));
    all.push(example("nine-residues-over-the-field", "the same blocks over the field, where 1 and 2 are opposite: unbalanced", nine(2, residues, 15)));
    all
}

/// The even powers of x against the odd ones, x² + x + 2 being 0, in numbers; the same with 0 and the fixed object; and the differences modulo 9.
pub const NINE_FIELD: &str = "1 7 2 5 | 3 8 6 4";
pub const NINE_FIELD_FIXED: &str = "oo 1 7 2 5 | 0 3 8 6 4; 0 1 7 2 5 | oo 3 8 6 4";
const NINE_RESIDUES: &str = "0 | 1; 0 | 2; 0 | 3; 0 | 4";

/// The differences 1 to 25 of 50 residues: a job of 1,250 blocks.
fn differences_once_50() -> Draft {
    over(&balanced::differences_once(50), 3, 100, small(12))
}

/// The readings of a trial, given their count.
type Readings = Box<dyn Fn(usize) -> Vec<i32>>;

fn small(number: u64) -> Readings {
    Box::new(move |count| {
        let mut seed = Seed::new(1965, number);
        (0..count).map(|_| seed.between(-9_999, 9_999) as i32).collect()
    })
}

fn extreme(number: u64) -> Readings {
    Box::new(move |count| {
        let mut seed = Seed::new(1965, number);
        (0..count).map(|_| seed.pick(&[LIMIT, -LIMIT])).collect()
    })
}

fn over(design: &Design, restraint: u64, sum: i64, readings: Readings) -> Draft {
    let count = design.m() * usize::from(design.n);
    Draft {
        n: design.n,
        flag: design.flag,
        p: design.p,
        m: design.m() as u8,
        objects: design.objects.clone(),
        restraint,
        sum,
        readings: readings(count),
    }
}

/// A printed list as a job: restrained by some of its objects, other readings for each list.
pub fn list_job(list: &Printed) -> Draft {
    let number = LISTS.iter().position(|other| other.name == list.name).expect("a list of the papers") as u64;
    let design = balanced::over_list(list);
    let mut seed = Seed::new(2000, number);
    let v = u32::from(design.v());
    let restraint = 3 | seed.next() & (u64::MAX >> (64 - v)) & if number % 2 == 0 { 0 } else { u64::MAX };
    over(&design, restraint, seed.between(-2_000, 2_000), small(number))
}

/// Jobs at the ends of the sizes and ranges, and one for each refusal, so that the trials hold every line of the table.
fn at_the_ends() -> Vec<Example> {
    let longest = balanced::longest();
    let all_pairs = |n, flag, copies| balanced::all_pairs(n, flag, copies);
    let mut prime = Seed::new(47, 0);
    let largest_prime = balanced::over_prime(47, 1, 24, &mut prime).expect("a design of 47 residues");
    let fixed = Design { objects: balanced::squares(19).objects.repeat(64), ..balanced::squares(19) };
    let mut all = vec![
        example("end-longest", "6,584 bytes, 1,300 blocks, readings at their limits", over(&longest, (1 << 26) - 1, SUM, extreme(1)).file()),
        example("end-objects-50", "50 objects, 1,225 blocks", over(&all_pairs(49, 1, 1), 1 << 49 | 1, -SUM, extreme(2)).file()),
        example("end-objects-49", "49 objects, eight a side, 1,029 blocks", over(&balanced::forty_nine(), 7, 12_345, small(3)).file()),
        example("end-objects-48", "48 objects, 24 a side", over(&largest_prime, 1 << 47 | 2, 77, small(4)).file()),
        example("end-blocks-64", "64 initial blocks, ten a side", over(&fixed, 1 << 19 | 1 << 5, -3, extreme(5)).file()),
        example("end-smallest", "three objects, three blocks", over(&all_pairs(3, 0, 1), 7, 0, small(6)).file()),
        example("end-even", "36 objects, the half difference once", over(&all_pairs(36, 0, 1), 1 << 35 | 1, 1, small(7)).file()),
        example("end-no-spread", "four objects, no degree of freedom", over(&balanced::squares(3), 9, 5, small(8)).file()),
        example("end-spread-0", "readings all 0: a spread of 0 is not none", over(&all_pairs(5, 0, 1), 3, 1, Box::new(|count| vec![0; count])).file()),
        example("end-lowest", "all readings at the lowest", over(&all_pairs(9, 1, 3), 1 << 9 | 1, -SUM, Box::new(|count| vec![-LIMIT; count])).file()),
    ];
    for (name, shows, (design, readings)) in [
        ("end-largest-q", "the largest Q: every total is 0", balanced::largest_q()),
        ("end-q-below-a-word", "a Q just below 2 to the power 64", balanced::around_a_word()[0].clone()),
        ("end-q-above-a-word", "a Q just above 2 to the power 64", balanced::around_a_word()[1].clone()),
    ] {
        all.push(example(name, shows, over(&design, 5, SUM, Box::new(move |_| readings.clone())).file()));
    }
    let changed = |places: &[(usize, u8)]| {
        let mut bytes = A.to_vec();
        places.iter().for_each(|(place, byte)| bytes[*place] = *byte);
        bytes
    };
    // Each field with the fixed object and without it, some objects a side.
    for (number, n) in SIZES.into_iter().enumerate() {
        for flag in [2, 3] {
            let mut seed = Seed::new(9, n.into());
            let made = (2..=4).rev().find_map(|p| balanced::over_field(n, flag, p, &mut seed));
            let design = made.unwrap_or_else(|| balanced::field_pairs(n, flag));
            let about = format!("the field of {n} elements{}", if flag == 3 { " and the fixed object" } else { "" });
            all.push(example(&format!("field-{n}-flag{flag}"), &about, over(&design, 5, 17, small(20 + number as u64)).file()));
        }
    }
    let fifty = over(&balanced::field_pairs(49, 3), 1 << 49 | 1, 9, extreme(9));
    all.push(example("field-49-objects-50", "49 elements and the fixed object, 1,225 blocks", fifty.file()));
    let in_nine = |flag: u8, objects: Vec<u8>| Draft { flag, objects, ..seeded(9, 2, "0 | 1", 22) }.file();
    let fixed_twice = Draft { objects: vec![255, 255], ..seeded(3, 1, "oo | 0", 20) };
    all.extend([
        example("refused-1-start", "two bytes of a field's start, its tag wrong", A[..7].iter().copied().chain([9, 9]).collect()),
        example("refused-1-body", "the last reading lacks a byte", A[..55].to_vec()),
        example("refused-2", "another tag, and another length", changed(&[(7, 3), (9, 9)])),
        example("refused-3", "another length of a body that is not there", changed(&[(16, 17)])[..20].to_vec()),
        example("refused-4", "a broken size in a file of seven bytes", changed(&[(5, 3)])[..7].to_vec()),
        example("refused-4-side", "129 objects a side", changed(&[(5, 129)])),
        example("refused-5", "an object twice, and one out of range after it", changed(&[(12, 4), (13, 5)])),
        example("refused-4-field", "ten elements with the flag 2: no such field", changed(&[(3, 10), (4, 2)])),
        example("refused-4-flag", "the flag 4 with nine elements", in_nine(4, vec![0, 1])),
        example("refused-5-infinity", "the fixed object twice", fixed_twice.file()),
        example("refused-5-infinity-flag2", "the fixed object with the flag 2", in_nine(2, vec![0, 255])),
        example("refused-6", "unbalanced, and a restraint with no object", Draft { restraint: 0, ..seeded(4, 0, "0 | 1", 21) }.file()),
        example("refused-6-standard", "unbalanced, and one standard", Draft { restraint: 1, ..seeded(4, 0, "0 | 1", 22) }.file()),
        example("refused-7", "a restraint with an object too many, and a reading out of range", changed(&[(24, 32), (36, 127)])),
        example("refused-7-sum", "a sum out of its range", changed(&[(25, 128)])),
        example("refused-7-standard", "one standard, and a sum out of its range", changed(&[(24, 1), (25, 128)])),
        example("refused-8", "two readings out of range", changed(&[(44, 16), (48, 16)])),
        example("refused-9", "more bytes than are read, and an object twice", [&changed(&[(12, 4)])[..], &[0; 9000]].concat()),
        example("refused-11", "one standard", changed(&[(24, 16)])),
        example("refused-11-reading", "one standard, and a reading out of range", changed(&[(24, 1), (36, 127)])),
    ]);
    all
}

/// All trials in the order in which they are run: the examples, the lists of the papers, the ends and the refusals.
pub fn trials() -> Vec<Example> {
    let mut all = examples();
    all.extend(LISTS.iter().map(|list| example(list.name, list.place, list_job(list).file())));
    all.extend(at_the_ends());
    all
}

/// A table row for each printed list: what it is, what the count says, what our copy prints beside it.
pub fn list_rows() -> Vec<String> {
    let mut rows = Vec::new();
    for list in LISTS {
        let text = listing(&list_job(list).file());
        let first = text.lines().next().expect("a listing has a line");
        let printed: Vec<String> = list.parameters.iter().map(|number| number.to_string()).collect();
        let printed = printed.join(" ");
        let counted = first.strip_prefix("design ").unwrap_or(first);
        let verdict = if counted == printed { "the same" } else { printed.as_str() };
        let kind = if list.field { "the field of " } else { "" };
        let residues = format!("{kind}{}{}", list.n, if list.infinity { " and ∞" } else { "" });
        rows.push(format!("| {} | {} | {} | {} | {} |", list.name, list.place, residues, counted, verdict));
    }
    rows
}

fn readme() -> String {
    let mut text = String::from(
        "# The examples\n\n\
         Each `.job` is a job file; the `.listing` beside it is what `bench` prints for it, byte for byte.\n\
         Both come from the independent count in `tests/count`, which shares nothing with the proved code.\n\
         B to G, J and those over nine elements have small seeded readings, and objects 0 and 1 as restraint. Two members add up even\n\
         where each is rounded alone; L has three.\n\n\
         | File | Shows | First line |\n|---|---|---|\n",
    );
    for example in examples() {
        let printed = listing(&example.bytes);
        let first = printed.lines().next().expect("a listing has a line");
        writeln!(text, "| {} | {} | `{first}` |", example.name, example.shows).expect("text in memory");
    }
    text.push_str(
        "\nH is the worked example of 000: its readings are those of table 1. Our copy has lost signs there; just one way to sign the\n\
         readings gives the totals of table 2, and the listing then has the request's numerators, Q, f and k.\n",
    );
    text
}

/// Every stored file by its path below the repository.
pub fn files() -> BTreeMap<String, Vec<u8>> {
    let mut files = BTreeMap::new();
    for example in examples() {
        let listed = example.name.replace(".job", ".listing");
        files.insert(format!("examples/{listed}"), listing(&example.bytes).into_bytes());
        files.insert(format!("examples/{}", example.name), example.bytes);
    }
    files.insert("examples/README.md".to_string(), readme().into_bytes());
    let (mut arguments, mut output) = (String::new(), String::new());
    for trial in trials() {
        writeln!(arguments, "{}", trial.name).expect("text in memory");
        write!(output, "== {}\n{}", trial.name, listing(&trial.bytes)).expect("text in memory");
        files.insert(format!("crates/trials/data/{}", trial.name), trial.bytes);
    }
    files.insert("crates/trials/args".to_string(), arguments.into_bytes());
    files.insert("crates/trials/stdout".to_string(), output.into_bytes());
    files
}

pub fn make(folder: &Path) -> Result<(), String> {
    for (path, bytes) in files() {
        let path = folder.join(path);
        let parent = path.parent().expect("a file stands in a folder");
        fs::create_dir_all(parent).map_err(|error| format!("{}: {error}", parent.display()))?;
        fs::write(&path, bytes).map_err(|error| format!("{}: {error}", path.display()))?;
    }
    Ok(())
}

/// Names the first stored file that is not what `make` makes, that is missing, or that nothing makes.
pub fn verify(folder: &Path) -> Result<usize, String> {
    let files = files();
    for (path, bytes) in &files {
        let stored = fs::read(folder.join(path)).map_err(|error| format!("{path}: {error}"))?;
        if stored != *bytes {
            return Err(format!("{path}: not what the count makes"));
        }
    }
    for part in ["examples", "crates/trials/data"] {
        let entries = fs::read_dir(folder.join(part)).map_err(|error| format!("{part}: {error}"))?;
        for entry in entries {
            let name = entry.map_err(|error| format!("{part}: {error}"))?.file_name();
            let path = format!("{part}/{}", name.to_string_lossy());
            if !files.contains_key(&path) {
                return Err(format!("{path}: the count makes no such file"));
            }
        }
    }
    let lists = fs::read_to_string(folder.join("docs/LISTS.md")).map_err(|error| format!("docs/LISTS.md: {error}"))?;
    if let Some(row) = list_rows().iter().find(|row| !lists.lines().any(|line| line == row.as_str())) {
        return Err(format!("docs/LISTS.md: lacks the row {row}"));
    }
    Ok(files.len() + 1)
}
