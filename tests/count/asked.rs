//! What a call of the bench is asked, whole or damaged; the tests that it makes, in their order; and what the count works out for its answer.

use crate::coefficients::Coefficients;
use crate::compare::HEADS;
use crate::design::{balance, develop, Balance, Block};
use crate::groups::{self, Grouping};
use crate::job::{self, first_far, first_unclean, is_one_standard, is_restraint, members, Cursor, Draft, Head, Job, Refusal, READING_LIMIT, SUM_LIMIT};
use crate::pooled::Pool;
use crate::practice::Practice;
use crate::second::{self, Second};
use crate::seed::Seed;
use crate::sheet::Sheet;
use crate::solve::{solve, Results};
use std::cell::OnceCell;

/// A job that nothing refuses, with its figures.
pub struct Solved {
    pub job: Job,
    pub results: Results,
}

impl Solved {
    fn of(job: Job) -> Solved {
        let results = solve(&job);
        Solved { job, results }
    }
}

/// The parts of a job, a number, and a file with a field that is looked for in it: a call takes some of them. And a few words on what job it is.
pub struct Asked {
    pub about: String,
    pub head: Head,
    pub objects: Vec<u8>,
    pub readings: Vec<i32>,
    pub set: u64,
    pub sum: i64,
    /// the object, initial block or block that is asked for
    pub number: usize,
    pub bytes: Vec<u8>,
    pub place: usize,
    pub tag: u8,
    pub length: usize,
    /// a file of the second edition, and names
    pub second: Vec<u8>,
    pub names: Vec<u8>,
    /// any blocks with groups, and how many members each object of the job is replaced by
    pub grouping: Grouping,
    pub size: usize,
    /// what another laboratory claims
    pub sheet: Sheet,
    /// what practice readings are made from
    pub practice: Practice,
    /// several job files
    pub pool: Pool,
    /// a few words on the last of what is asked beside the job
    pub aside: String,
    worked_out: WorkedOut,
}

/// What the answers need, each worked out once, when the first call comes to it.
#[derive(Default)]
struct WorkedOut {
    blocks: OnceCell<Vec<Block>>,
    balance: OnceCell<Option<Balance>>,
    solved: OnceCell<Solved>,
    coefficients: OnceCell<Coefficients>,
    file: OnceCell<Result<Solved, Refusal>>,
    second: OnceCell<Result<(Second, Results), Refusal>>,
}

impl Asked {
    pub fn new(about: String, draft: Draft, bytes: Vec<u8>) -> Asked {
        let head = Head { n: draft.n.into(), flag: draft.flag.into(), p: draft.p.into(), m: draft.m.into() };
        let Draft { objects, readings, restraint: set, sum, .. } = draft;
        let (number, place, tag, length, second, names) = (0, 0, 0, 0, vec![], vec![]);
        Asked {
            about,
            head,
            objects,
            readings,
            set,
            sum,
            number,
            bytes,
            place,
            tag,
            length,
            second,
            names,
            grouping: Grouping::default(),
            size: 0,
            sheet: Sheet::default(),
            practice: Practice::default(),
            pool: Pool::default(),
            aside: String::new(),
            worked_out: WorkedOut::default(),
        }
    }

    /// The developed blocks, of clean objects.
    pub fn blocks(&self) -> &[Block] {
        self.worked_out.blocks.get_or_init(|| develop(&self.head, &self.objects))
    }

    pub fn balance(&self) -> Option<Balance> {
        *self.worked_out.balance.get_or_init(|| balance(self.head.objects(), self.blocks()))
    }

    pub fn wide_readings(&self) -> Vec<i128> {
        self.readings.iter().map(|reading| i128::from(*reading)).collect()
    }

    fn has_restraint(&self) -> bool {
        is_restraint(&self.head, &members(self.set), self.sum.into())
    }

    fn has_standards(&self) -> bool {
        !is_one_standard(&members(self.set))
    }

    /// The figures of a balanced design with its readings. Calls that take no restraint answer with figures that are the same under any: where there is
    /// none, or one object alone, the first two objects make one.
    pub fn solved(&self) -> &Solved {
        self.worked_out.solved.get_or_init(|| {
            let (set, sum) = if self.has_restraint() && self.has_standards() { (self.set, self.sum) } else { (3, 0) };
            Solved::of(Job {
                head: self.head,
                blocks: self.blocks().to_vec(),
                balance: self.balance().expect("a balanced design"),
                restraint: members(set),
                sum: sum.into(),
                readings: self.wide_readings(),
            })
        })
    }

    /// With what coefficients the readings enter the values of a job that nothing refuses.
    pub fn coefficients(&self) -> &Coefficients {
        self.worked_out.coefficients.get_or_init(|| Coefficients::of(&self.solved().job))
    }

    pub fn file(&self) -> Result<&Solved, Refusal> {
        self.worked_out.file.get_or_init(|| job::read(&self.bytes).map(Solved::of)).as_ref().map_err(|refusal| *refusal)
    }

    pub fn second_file(&self) -> Result<&(Second, Results), Refusal> {
        let worked_out = || second::read(&self.second).map(|file| { let results = solve(&file.job); (file, results) });
        self.worked_out.second.get_or_init(worked_out).as_ref().map_err(|refusal| *refusal)
    }

    /// The file of the parts, which are those of a job that nothing refuses.
    pub fn written(&self) -> Vec<u8> {
        self.draft().file()
    }

    pub fn draft(&self) -> Draft {
        let [n, flag, p, m] = [self.head.n, self.head.flag, self.head.p, self.head.m].map(|size| size as u8);
        Draft { n, flag, p, m, objects: self.objects.clone(), restraint: self.set, sum: self.sum, readings: self.readings.clone() }
    }
}

/// A test that a call makes, named by what it looks at.
#[derive(Clone, Copy, PartialEq, Eq, PartialOrd, Ord, Debug)]
pub enum Test {
    Sizes,
    BlocksLength,
    ReadingsLength,
    NamesLength,
    TruthsLength,
    GroupSize,
    Objects,
    InitialBlock,
    Object,
    Block,
    Balance,
    Truths,
    Set,
    Restraint,
    Standards,
    Readings,
    Field,
    File,
    Second,
    Optional,
    ListSizes,
    ListLength,
    GroupsLength,
    Groups,
    ListObjects,
    Counts,
    PartsClaims,
    FileClaims,
    SecondClaims,
    Pool,
}

/// What looks at an ask, and the refusal that it finds.
type Look = fn(&Asked) -> Option<Refusal>;

/// All tests in the order of the request, with the numbers that each refuses by; a call makes those of what it takes. 10, for short rooms, comes after all.
pub const ORDER: &[(Test, &[u8], Look)] = &[
    (Test::Sizes, &[4], |asked| unless(asked.head.in_size(), 4, 0)),
    (Test::BlocksLength, &[3], |asked| unless(asked.objects.len() == 2 * asked.head.p * asked.head.m, 3, 0)),
    (Test::ReadingsLength, &[3], |asked| unless(asked.readings.len() == asked.head.blocks(), 3, 0)),
    (Test::NamesLength, &[3], |asked| unless(asked.names.is_empty() || asked.names.len() == 8 * asked.head.objects(), 3, 0)),
    (Test::TruthsLength, &[3], |asked| unless(asked.practice.truths.len() == asked.head.objects(), 3, 0)),
    (Test::GroupSize, &[14], |asked| unless(groups::fits(asked.size, asked.head.objects()), 14, 0)),
    (Test::Objects, &[5], |asked| at(5, first_unclean(&asked.head, &asked.objects))),
    (Test::InitialBlock, &[5], |asked| unless(asked.number < asked.head.m, 5, asked.number)),
    (Test::Object, &[5], |asked| unless(asked.number < asked.head.objects(), 5, asked.number)),
    (Test::Block, &[5], |asked| unless(asked.number < asked.head.blocks(), 5, asked.number)),
    (Test::Balance, &[6], |asked| unless(asked.balance().is_some(), 6, 0)),
    (Test::Truths, &[16], |asked| unless(asked.practice.in_range(), 16, 0)),
    (Test::Set, &[7], |asked| unless(is_restraint(&asked.head, &members(asked.set), 0), 7, 0)),
    (Test::Restraint, &[7], |asked| unless(asked.has_restraint(), 7, 0)),
    (Test::Standards, &[11], |asked| unless(asked.has_standards(), 11, 0)),
    (Test::Readings, &[8], |asked| at(8, first_far(&asked.wide_readings()))),
    (Test::Field, &[1, 2, 3], |asked| Cursor::at(&asked.bytes, asked.place).field(asked.tag, asked.length).err()),
    (Test::File, &[1, 2, 3, 4, 5, 6, 7, 8, 9, 11], |asked| asked.file().err()),
    (Test::Second, &[1, 2, 3, 4, 5, 6, 7, 8, 11, 12], |asked| asked.second_file().err()),
    (Test::Optional, &[13], |asked| second::to_first(&asked.second).err()),
    (Test::ListSizes, &[4], |asked| unless(asked.grouping.in_size(), 4, 0)),
    (Test::ListLength, &[3], |Asked { grouping, .. }| unless(grouping.objects.len() == 2 * grouping.p * grouping.count, 3, 0)),
    (Test::GroupsLength, &[3], |Asked { grouping, .. }| unless(grouping.groups.len() == grouping.v, 3, 0)),
    (Test::Groups, &[14], |asked| unless(asked.grouping.has_even_groups(), 14, 0)),
    (Test::ListObjects, &[5], |asked| at(5, asked.grouping.first_stray())),
    (Test::Counts, &[6], |asked| unless(asked.grouping.counts().is_some(), 6, 0)),
    (Test::PartsClaims, &[15], |asked| claims(asked, asked.head.objects())),
    (Test::FileClaims, &[15], |asked| claims(asked, asked.file().ok()?.job.head.objects())),
    (Test::SecondClaims, &[15], |asked| claims(asked, asked.second_file().ok()?.0.job.head.objects())),
    (Test::Pool, &[1, 2, 3, 4, 5, 6, 7, 8, 9, 11, 17, 18], |asked| asked.pool.pooled().err()),
];

/// One claim for each object of the job.
fn claims(asked: &Asked, objects: usize) -> Option<Refusal> {
    unless(asked.sheet.claims.len() == objects, 15, 0)
}

fn unless(good: bool, number: u8, place: usize) -> Option<Refusal> {
    at(number, (!good).then_some(place))
}

fn at(number: u8, place: Option<usize>) -> Option<Refusal> {
    place.map(|place| Refusal { number, index: 0, place })
}

/// What is added to a size: it leaves the byte then, and its double, or its sum or product with another, wraps.
const FAR: [usize; 7] = [1 << 8, 1 << 16, 1 << 32, 1 << 58, 1 << 62, 1 << 63, usize::MAX];

/// A whole job with one thing at or past its bound: heads at both sides of every bound, its own sizes far past a byte, sets, sums, readings.
pub fn at_bounds(whole: impl Fn() -> Asked) -> Vec<Asked> {
    let Asked { head: Head { n, flag, p, m }, .. } = whole();
    let mut heads: Vec<[usize; 4]> = HEADS.iter().map(|sizes| sizes.map(usize::from)).collect();
    for (size, far) in (0..4).flat_map(|size| FAR.map(|far| (size, far))) {
        let mut sizes = [n, flag, p, m];
        sizes[size] = sizes[size].wrapping_add(far);
        heads.push(sizes);
    }
    let mut all: Vec<Asked> = Vec::new();
    let mut add = |change: &dyn Fn(&mut Asked)| {
        let mut asked = whole();
        change(&mut asked);
        asked.about = format!("{} with {:?}, set {:x}, sum {}, last reading {:?}", asked.about, asked.head, asked.set, asked.sum, asked.readings.last());
        asked.bytes = asked.written();
        all.push(asked);
    };
    heads.iter().for_each(|[n, flag, p, m]| add(&|asked| asked.head = Head { n: *n, flag: *flag, p: *p, m: *m }));
    let last = 1 << (n + flag % 2 - 1);
    [0, 1, last, last | 1, last << 1, last << 1 | 1, 1 << 63, u64::MAX].iter().for_each(|set| add(&|asked| asked.set = *set));
    let (sum, reading) = (SUM_LIMIT as i64, READING_LIMIT as i32);
    [sum, -sum, sum + 1, -sum - 1, i64::MIN, i64::MAX].iter().for_each(|sum| add(&|asked| asked.sum = *sum));
    let far = [reading, -reading, reading + 1, -reading - 1, i32::MIN, i32::MAX];
    far.iter().for_each(|reading| add(&|asked| asked.readings.iter_mut().last().into_iter().for_each(|last| *last = *reading)));
    // One standard beside what is looked for right before it, 6 and 7, and right after it, 8; and beside both.
    for (wrong_sum, far_reading, unbalanced) in [(true, false, false), (false, true, false), (true, true, false), (false, false, true)] {
        add(&|asked| {
            asked.set = last;
            asked.sum = if wrong_sum { sum + 1 } else { asked.sum };
            asked.readings.iter_mut().filter(|_| far_reading).for_each(|one| *one = reading + 1);
            // the first initial block again and again
            let first = asked.objects[..2 * p].to_vec();
            asked.objects = if unbalanced { first.repeat(m) } else { asked.objects.clone() };
        });
    }
    all
}

/// Harm that no file can show: lists of another length than the head says; and behind it more that is wrong, so that the order shows.
pub fn harm(asked: &mut Asked, seed: &mut Seed) {
    match seed.below(12) {
        0 => asked.objects.push(0),
        1 => asked.objects.truncate(asked.objects.len().saturating_sub(1)),
        2 => asked.objects.clear(),
        3 => asked.readings.push(0),
        4 => asked.readings.truncate(asked.readings.len().saturating_sub(1)),
        5 => asked.readings.clear(),
        _ => {}
    }
    if seed.once_in(4) {
        asked.objects.iter_mut().last().into_iter().for_each(|object| *object = 254);
    }
    if seed.once_in(3) {
        asked.set = seed.pick(&[0, 1, 2]);
    }
    if seed.once_in(3) {
        asked.readings.iter_mut().last().into_iter().for_each(|reading| *reading = i32::MIN);
    }
}

/// Numbers to ask for: at both sides of every count of this head, and far past all; a few of them at a time.
pub fn numbers(asked: &Asked, seed: &mut Seed) -> Vec<usize> {
    let Head { n, flag, m, .. } = asked.head;
    let mut all = vec![0, 1, 2, 255, 256, 1 << 16, 1 << 32, 1 << 48, (1 << 48) + 3, 1 << 63, usize::MAX, seed.below(10), seed.below(50), seed.below(1300)];
    all.extend([n, m, n.wrapping_add(flag % 2), m.wrapping_mul(n)].iter().flat_map(|count| [*count, count.wrapping_sub(1)]));
    seed.shuffle(&mut all);
    all.truncate(8);
    all
}

/// Every place of the file, and some past its end.
pub fn places(asked: &Asked) -> impl Iterator<Item = usize> {
    (0..asked.bytes.len() + 4).chain([1 << 16, 1 << 32, (1 << 48) + 3, 1 << 63, usize::MAX - 2, usize::MAX - 1, usize::MAX])
}

/// Looks for a field at a place: mostly for what stands there.
pub fn look_for_field(asked: &mut Asked, place: usize, seed: &mut Seed) {
    let byte = |at: usize| asked.bytes.get(place.saturating_add(at)).copied().unwrap_or(4);
    let (tag, length) = (byte(0), usize::from(byte(1)) * 256 + usize::from(byte(2)));
    let other_tag = seed.pick(&[1, 2, 3, 4, tag.wrapping_add(1)]);
    let other_length = seed.pick(&[0, 4, 16, length + 1, length.wrapping_sub(1), length + (1 << 16), length + (1 << 32), usize::MAX]);
    asked.place = place;
    asked.tag = if seed.once_in(6) { other_tag } else { tag };
    asked.length = if seed.once_in(6) { other_length } else { length };
}
