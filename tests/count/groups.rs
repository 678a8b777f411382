//! Sets of blocks with groups (004, section 5): the four counts of any blocks, the grouped set of a design; and such sets, right and wrong, for the calls.

use crate::balanced;
use crate::design::{develop, Block};
use crate::job::{first_unclean, Head};
use crate::seed::Seed;
use std::collections::{BTreeMap, BTreeSet};
use std::fmt;

/// Any blocks as a call takes them: how many, over how many objects, how many a side; the list, for each block the left ones, then the right ones; and a
/// label for each object. And a few words on what they are.
#[derive(Clone, PartialEq, Eq, Debug, Default)]
pub struct Grouping {
    pub about: &'static str,
    pub count: usize,
    pub v: usize,
    pub p: usize,
    pub objects: Vec<u8>,
    pub groups: Vec<u8>,
}

/// How often two objects share a side, and how often they oppose: within a group, and between groups.
#[derive(Clone, Copy, PartialEq, Eq, Debug)]
pub struct Counts {
    pub within: (i128, i128),
    pub between: (i128, i128),
}

impl Grouping {
    pub fn in_size(&self) -> bool {
        (1..=1300).contains(&self.count) && self.v <= 50 && self.p >= 1 && self.p <= self.v / 2
    }

    /// Two groups or more, all of one size, which is at least 2.
    pub fn has_even_groups(&self) -> bool {
        let mut members: BTreeMap<u8, usize> = BTreeMap::new();
        self.groups.iter().for_each(|label| *members.entry(*label).or_insert(0) += 1);
        let sizes: BTreeSet<usize> = members.values().copied().collect();
        members.len() >= 2 && sizes.len() == 1 && !sizes.contains(&1)
    }

    /// The index of the first byte that is no object, or stood in its block before.
    pub fn first_stray(&self) -> Option<usize> {
        let blocks = self.objects.chunks(2 * self.p).enumerate();
        let stray = |block: &[u8], place: usize| usize::from(block[place]) >= self.v || block[..place].contains(&block[place]);
        blocks.flat_map(|(number, block)| (0..block.len()).filter(move |place| stray(block, *place)).map(move |place| 2 * self.p * number + place)).next()
    }

    /// The four counts, if each is one number over all its pairs. In a block an object has 1 on the left and -1 on the right: over the blocks that have both of
    /// two objects, the products add to how often they share a side less how often they oppose.
    pub fn counts(&self) -> Option<Counts> {
        let mut meetings = vec![vec![(0i128, 0i128); self.v]; self.v];
        for block in self.objects.chunks(2 * self.p) {
            let signed: Vec<(usize, i128)> = block.iter().enumerate().map(|(place, object)| ((*object).into(), if place < self.p { 1 } else { -1 })).collect();
            for (i, sign) in &signed {
                for (j, other) in &signed {
                    let (blocks, products) = &mut meetings[*i][*j];
                    (*blocks, *products) = (*blocks + 1, *products + sign * other);
                }
            }
        }
        let (mut within, mut between) = (BTreeSet::new(), BTreeSet::new());
        for (i, j) in (0..self.v).flat_map(|i| (0..self.v).map(move |j| (i, j))).filter(|(i, j)| i != j) {
            let (blocks, products) = meetings[i][j];
            let pair = ((blocks + products) / 2, (blocks - products) / 2);
            if self.groups[i] == self.groups[j] { &mut within } else { &mut between }.insert(pair);
        }
        match (&within.into_iter().collect::<Vec<_>>()[..], &between.into_iter().collect::<Vec<_>>()[..]) {
            ([within], [between]) => Some(Counts { within: *within, between: *between }),
            _ => None,
        }
    }

    /// The developed blocks of a design, every object replaced by its g members. Of objects that rise on each side so do the members.
    pub fn of(blocks: &[Block], v: usize, g: usize) -> Grouping {
        let grown = |side: &BTreeSet<usize>| side.iter().flat_map(|object| (0..g).map(move |member| (g * object + member) as u8)).collect::<Vec<u8>>();
        Grouping {
            about: "grouped",
            count: blocks.len(),
            v: g * v,
            p: g * blocks[0].left.len(),
            objects: blocks.iter().flat_map(|block| [grown(&block.left), grown(&block.right)].concat()).collect(),
            groups: (0..g * v).map(|object| (object / g) as u8).collect(),
        }
    }

    /// The sides of all blocks as sets: left, right, next block.
    pub fn sides(&self) -> Vec<BTreeSet<usize>> {
        self.objects.chunks(self.p).map(|side| side.iter().map(|object| usize::from(*object)).collect()).collect()
    }

    /// In how many blocks an object stands.
    pub fn appearances(&self, object: u8) -> i128 {
        self.objects.iter().filter(|other| **other == object).count() as i128
    }
}

impl fmt::Display for Grouping {
    fn fmt(&self, f: &mut fmt::Formatter) -> fmt::Result {
        let Grouping { about, count, v, p, objects, groups } = self;
        write!(f, "{about}: {count} blocks of {p} a side over {v}, {} bytes, groups {groups:?}", objects.len())
    }
}

/// Whether each object of a design can be replaced by g members; g may be any number.
pub fn fits(g: usize, v: usize) -> bool {
    g >= 2 && g <= 50 / v
}

/// Sizes of groups to ask for with v objects: at both sides of the bounds, and such as wrap when they are multiplied.
pub fn sizes(v: usize, seed: &mut Seed) -> Vec<usize> {
    let most = 50 / v.clamp(1, 50);
    let mut all = vec![0, 1, 2, 3, most, most + 1, 50, 51, 1 << 8, 1 << 32, 1 << 63, usize::MAX, (usize::MAX / v.max(1)).wrapping_add(1)];
    seed.shuffle(&mut all);
    all.truncate(3);
    all.push(2 + seed.below(most.max(2) - 1));
    all
}

/// A set of blocks with groups, whole or harmed.
pub fn seeded(seed: &mut Seed) -> Grouping {
    let mut grouping = whole(seed);
    named_anew(&mut grouping, seed);
    if seed.once_in(3) {
        return grouping;
    }
    let (about, harm) = HARM[seed.below(HARM.len())];
    grouping.about = about;
    harm(&mut grouping, seed);
    if seed.once_in(3) {
        let (_, harm) = HARM[seed.below(HARM.len())];
        harm(&mut grouping, seed);
    }
    grouping
}

/// What is partially balanced with respect to its groups, mostly: the grouped sets of designs, some of which are not balanced; balanced designs, for which
/// any groups do; and sets of pairs that meet as their groups say, which come from no design by grouping.
fn whole(seed: &mut Seed) -> Grouping {
    match seed.below(8) {
        0..=3 => {
            let (v, blocks) = developed(seed, 25);
            let most = 50 / v;
            let g = if seed.once_in(2) { most } else { 2 + seed.below(most - 1) };
            Grouping::of(&blocks, v, g)
        }
        4 => {
            let (v, blocks) = developed(seed, 50);
            let sizes: Vec<usize> = (2..=v / 2).filter(|size| v % size == 0).collect();
            let size = if sizes.is_empty() { 1 } else { seed.pick(&sizes) };
            Grouping { about: "a design", groups: (0..v).map(|object| (object / size) as u8).collect(), ..Grouping::of(&blocks, v, 1) }
        }
        5 | 6 => pairs(seed, &[(0, 1)]),
        _ => pairs(seed, &[(2, 1), (1, 2), (1, 0), (1, 1)]),
    }
}

/// The blocks of some design of at most so many objects, and how many these are.
fn developed(seed: &mut Seed, most: usize) -> (usize, Vec<Block>) {
    loop {
        let design = balanced::design(seed);
        let head = Head { n: design.n.into(), flag: design.flag.into(), p: design.p.into(), m: design.m() };
        if head.objects() <= most && head.in_size() && first_unclean(&head, &design.objects).is_none() {
            return (head.objects(), develop(&head, &design.objects));
        }
    }
}

/// One object a side: every two of one group opposed so often, every two of different groups so often.
fn pairs(seed: &mut Seed, often: &[(usize, usize)]) -> Grouping {
    loop {
        let (size, groups) = (2 + seed.below(24), 2 + seed.below(24));
        let v = size * groups;
        let (within, between) = seed.pick(often);
        let times = |i: usize, j: usize| if i / size == j / size { within } else { between };
        if v > 50 {
            continue;
        }
        let objects: Vec<u8> =
            (0..v).flat_map(|i| (0..i).map(move |j| (i, j))).flat_map(|(i, j)| [i as u8, j as u8].repeat(times(i, j))).collect();
        let grouping =
            Grouping { about: "pairs", count: objects.len() / 2, v, p: 1, objects, groups: (0..v).map(|object| (object / size) as u8).collect() };
        if grouping.in_size() {
            return grouping;
        }
    }
}

/// Other numbers for the objects, so that groups do not lie together, and any bytes for labels; each side and the blocks in another order.
fn named_anew(grouping: &mut Grouping, seed: &mut Seed) {
    let (mut names, mut labels): (Vec<u8>, Vec<u8>) = ((0..grouping.v as u8).collect(), (0..=255).collect());
    if seed.once_in(4) {
        return;
    }
    seed.shuffle(&mut names);
    seed.shuffle(&mut labels);
    grouping.objects.iter_mut().for_each(|object| *object = names[usize::from(*object)]);
    let groups: Vec<u8> = (0..grouping.v).map(|object| labels[usize::from(grouping.groups[object])]).collect();
    names.iter().zip(groups).for_each(|(name, label)| grouping.groups[usize::from(*name)] = label);
    let mut blocks: Vec<Vec<u8>> = grouping.objects.chunks(2 * grouping.p).map(|block| block.to_vec()).collect();
    seed.shuffle(&mut blocks);
    for block in &mut blocks {
        let (left, right) = block.split_at_mut(grouping.p);
        seed.shuffle(left);
        seed.shuffle(right);
        if seed.once_in(2) {
            left.swap_with_slice(right);
        }
    }
    grouping.objects = blocks.concat();
}

const HARM: [(&str, fn(&mut Grouping, &mut Seed)); 14] = [
    ("one object moved", one_moved),
    ("two objects exchanged", two_exchanged),
    ("labels exchanged", labels_exchanged),
    ("a block dropped", block_dropped),
    ("a block repeated", block_repeated),
    ("one group", |grouping, _| grouping.groups.fill(9)),
    ("groups of one", |grouping, _| grouping.groups = (0..grouping.groups.len()).map(|object| object as u8).collect()),
    ("a label changed", label_changed),
    ("other groups", other_groups),
    ("a stray object", stray),
    ("two stray objects", two_strays),
    ("a size", size),
    ("the list's length", list_length),
    ("the groups' length", groups_length),
];

/// Another object that keeps the block clean, where there is one.
fn one_moved(grouping: &mut Grouping, seed: &mut Seed) {
    let (v, size) = (grouping.v, 2 * grouping.p.clamp(1, 25));
    if grouping.objects.len() < size {
        return;
    }
    let place = seed.below(grouping.objects.len() / size * size);
    let block = &grouping.objects[place - place % size..place - place % size + size];
    let free: Vec<u8> = (0..v.min(50) as u8).filter(|object| !block.contains(object)).collect();
    if !free.is_empty() {
        grouping.objects[place] = seed.pick(&free);
    } else {
        two_exchanged(grouping, seed);
    }
}

/// One object of each side of a block.
fn two_exchanged(grouping: &mut Grouping, seed: &mut Seed) {
    let p = grouping.p.clamp(1, 25);
    if grouping.objects.len() >= 2 * p {
        let first = 2 * p * seed.below(grouping.objects.len() / (2 * p));
        grouping.objects.swap(first + seed.below(p), first + p + seed.below(p));
    }
}

fn labels_exchanged(grouping: &mut Grouping, seed: &mut Seed) {
    if !grouping.groups.is_empty() {
        let count = grouping.groups.len();
        grouping.groups.swap(seed.below(count), seed.below(count));
    }
}

fn block_dropped(grouping: &mut Grouping, seed: &mut Seed) {
    let size = 2 * grouping.p.clamp(1, 25);
    if grouping.objects.len() >= size {
        let first = size * seed.below(grouping.objects.len() / size);
        grouping.objects.drain(first..first + size);
        grouping.count = grouping.count.wrapping_sub(1);
    }
}

/// The list twice, which keeps the balance, or one block twice, which does not.
fn block_repeated(grouping: &mut Grouping, seed: &mut Seed) {
    let size = 2 * grouping.p.clamp(1, 25);
    if seed.once_in(2) {
        grouping.objects = grouping.objects.repeat(2);
        grouping.count = grouping.count.wrapping_mul(2);
    } else if grouping.objects.len() >= size {
        let block = grouping.objects[..size].to_vec();
        grouping.objects.extend(block);
        grouping.count = grouping.count.wrapping_add(1);
    }
}

/// To one of the others, or to one that no object has.
fn label_changed(grouping: &mut Grouping, seed: &mut Seed) {
    if !grouping.groups.is_empty() {
        let count = grouping.groups.len();
        let other = if seed.once_in(2) { grouping.groups[seed.below(count)] } else { seed.next() as u8 };
        grouping.groups[seed.below(count)] = other;
    }
}

/// Groups of one size that are not those of the blocks.
fn other_groups(grouping: &mut Grouping, seed: &mut Seed) {
    let v = grouping.groups.len();
    let sizes: Vec<usize> = (2..=v / 2).filter(|size| v % size == 0).collect();
    if !sizes.is_empty() {
        let (size, apart) = (seed.pick(&sizes), seed.once_in(2));
        grouping.groups = (0..v).map(|object| (if apart { object % (v / size) } else { object / size }) as u8).collect();
    }
}

fn stray(grouping: &mut Grouping, seed: &mut Seed) {
    if grouping.objects.is_empty() {
        return;
    }
    let place = seed.below(grouping.objects.len());
    let size = 2 * grouping.p.clamp(1, 25);
    grouping.objects[place] = match seed.below(4) {
        0 => 255,
        1 => grouping.v as u8,
        2 => seed.between(grouping.v.min(50) as i64, 254) as u8,
        _ => grouping.objects[place - place % size + seed.below(place % size + 1)],
    };
}

fn two_strays(grouping: &mut Grouping, seed: &mut Seed) {
    stray(grouping, seed);
    stray(grouping, seed);
}

fn size(grouping: &mut Grouping, seed: &mut Seed) {
    let far = seed.pick(&[1 << 8, 1 << 16, 1 << 32, 1 << 63, usize::MAX]);
    match seed.below(6) {
        0 => grouping.count = seed.pick(&[0, 1, 1300, 1301, far]),
        1 => grouping.v = seed.pick(&[0, 1, 2, 50, 51, 255, far]),
        2 => grouping.p = seed.pick(&[0, grouping.v / 2, grouping.v / 2 + 1, 25, 26, far]),
        3 => grouping.count = grouping.count.wrapping_add(far),
        4 => grouping.v = grouping.v.wrapping_add(far),
        _ => grouping.p = grouping.p.wrapping_add(far),
    }
}

fn list_length(grouping: &mut Grouping, seed: &mut Seed) {
    match seed.below(4) {
        0 => grouping.objects.clear(),
        1 => grouping.objects.push(0),
        _ => grouping.objects.truncate(grouping.objects.len().saturating_sub(1)),
    }
}

fn groups_length(grouping: &mut Grouping, seed: &mut Seed) {
    match seed.below(4) {
        0 => grouping.groups.clear(),
        1 => grouping.groups.push(grouping.groups.first().copied().unwrap_or(0)),
        _ => grouping.groups.truncate(grouping.groups.len().saturating_sub(1)),
    }
}
