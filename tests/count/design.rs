//! Developed blocks as sets of objects, and every pair counted over them, block by block.

use crate::job::{Head, INFINITY};
use std::collections::BTreeSet;

/// One weighing: the objects on the left and those on the right.
#[derive(Clone, Debug)]
pub struct Block {
    pub left: BTreeSet<usize>,
    pub right: BTreeSet<usize>,
}

/// The counts of a balanced design, each one counted, none taken from a formula.
#[derive(Clone, Copy, PartialEq, Eq, Debug)]
pub struct Balance {
    pub company: i128,
    pub opposition: i128,
    pub appearances: i128,
}

impl Balance {
    pub fn beta(&self) -> i128 {
        self.opposition - self.company
    }
}

/// Initial block after initial block, shift after shift. The objects are clean.
pub fn develop(head: &Head, objects: &[u8]) -> Vec<Block> {
    let mut blocks = Vec::new();
    for initial in objects.chunks(2 * head.p) {
        for shift in 0..head.n {
            let moved = |object: &u8| match *object {
                INFINITY => head.n,
                object => match head.field() {
                    Some(field) => field.sum(object.into(), shift),
                    None => (usize::from(object) + shift) % head.n,
                },
            };
            blocks.push(Block {
                left: initial[..head.p].iter().map(moved).collect(),
                right: initial[head.p..].iter().map(moved).collect(),
            });
        }
    }
    blocks
}

/// For each pair of objects, in how many blocks they share a side, and in how many they oppose.
pub fn pairs(v: usize, blocks: &[Block]) -> (Vec<Vec<i128>>, Vec<Vec<i128>>) {
    let mut company = vec![vec![0; v]; v];
    let mut opposition = vec![vec![0; v]; v];
    for block in blocks {
        for side in [&block.left, &block.right] {
            for i in side {
                for j in side {
                    company[*i][*j] += 1;
                }
            }
        }
        for i in &block.left {
            for j in &block.right {
                opposition[*i][*j] += 1;
                opposition[*j][*i] += 1;
            }
        }
    }
    (company, opposition)
}

/// The common counts, if every two different objects have the same.
pub fn balance(v: usize, blocks: &[Block]) -> Option<Balance> {
    let (company, opposition) = pairs(v, blocks);
    let found = Balance { company: company[0][1], opposition: opposition[0][1], appearances: company[0][0] };
    for i in 0..v {
        for j in 0..v {
            if i != j && (company[i][j], opposition[i][j]) != (found.company, found.opposition) {
                return None;
            }
        }
    }
    // The paper's relations (000, section 2) must come out of the counts. If they did not, the count itself would be wrong.
    let (objects, count) = (v as i128, blocks.len() as i128);
    let side = blocks[0].left.len() as i128;
    assert!(found.beta() > 0, "a balanced design with beta not positive");
    assert!((0..v).all(|i| company[i][i] == found.appearances), "an object appears too often or too rarely");
    assert_eq!(found.appearances, found.beta() * (objects - 1), "r is not beta(v-1)");
    assert_eq!(2 * side * count, found.beta() * objects * (objects - 1), "b is not beta v(v-1)/2p");
    assert!(count >= objects - 1, "fewer blocks than the values need");
    Some(found)
}
