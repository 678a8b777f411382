//! The lists of papers 000 and 003 that are written in residues, or over the field of nine elements, as our copies print them.
//!
//! Notation: `oo` is the fixed object, `|` parts the sides, `;` the initial blocks, and `x 1 2 4` after a block multiplies its residues
//! by each of these in turn, as the papers' circled plus does. Over the field `e5` is x to the power 5, x² + x + 2 being 0, `0` is 0, and the numbers after
//! an `x` are powers too. The appendix of 000 numbers its objects from 1; its last residue is 0 here; over
//! the field its number i is x to the power i - 1, and 9 is 0.

use crate::field::Field;
use crate::job::INFINITY;

/// A printed list with the parameters printed beside it: v, b, r, p, L1, L2.
pub struct Printed {
    pub name: &'static str,
    pub place: &'static str,
    pub n: u8,
    pub infinity: bool,
    pub field: bool,
    pub list: &'static str,
    pub parameters: [i128; 6],
}

const fn printed(name: &'static str, place: &'static str, n: u8, infinity: bool, list: &'static str, parameters: [i128; 6]) -> Printed {
    Printed { name, place, n, infinity, field: false, list, parameters }
}

const fn over_nine(name: &'static str, place: &'static str, infinity: bool, list: &'static str, parameters: [i128; 6]) -> Printed {
    Printed { name, place, n: 9, infinity, field: true, list, parameters }
}

pub const LISTS: &[Printed] = &[
    printed("000-2.2.1", "000, example 2.2.1", 11, false, "1 2 3 | 4 5 6 x 1 2 4 8 5", [11, 55, 30, 3, 6, 9]),
    printed("000-2.2.2", "000, example 2.2.2", 11, false, "1 4 5 10 | 9 7 3 6 x 1 2 4 8 5", [11, 55, 40, 4, 12, 16]),
    printed("000-2.2.3", "000, example 2.2.3", 7, false, "1 2 4 | 3 6 5", [7, 7, 6, 3, 2, 3]),
    printed("000-2.2.4", "000, example 2.2.4", 11, false, "1 4 5 9 3 | 2 8 10 7 6", [11, 11, 10, 5, 4, 5]),
    printed("000-2.3.1", "000, example 2.3.1", 13, false, "1 2 3 4 5 | 6 7 8 9 10 x 1 2 4 8 3 6", [13, 78, 60, 5, 20, 25]),
    printed("000-2.3.3", "000, example 2.3.3", 13, false, "1 3 9 | 4 12 10 x 1 2", [13, 26, 12, 3, 2, 3]),
    printed("000-2.3.4", "000, example 2.3.4", 13, false, "1 4 3 12 9 10 | 2 8 6 11 5 7", [13, 13, 12, 6, 5, 6]),
    printed("000-2.3.5", "000, example 2.3.5", 13, false, "1 8 12 5 | 4 6 9 7 x 1 2 4", [13, 39, 24, 4, 6, 8]),
    printed("000-2.4.1", "000, example 2.4.1", 7, true, "1 2 4 | 3 5 6; oo 1 2 | 3 5 6; oo 1 4 | 3 5 6; oo 2 4 | 3 5 6", [8, 28, 21, 3, 6, 9]),
    printed(
        "000-2.4.2",
        "000, example 2.4.2",
        13,
        true,
        "1 3 9 | 4 12 10 x 1 2 2 2; oo 1 3 | 4 12 10; oo 1 9 | 4 12 10; oo 3 9 | 4 12 10",
        [14, 91, 39, 3, 6, 9],
    ),
    printed("000-2.5.1", "000, example 2.5.1", 7, true, "oo 1 2 4 | 0 3 6 5", [8, 7, 7, 4, 3, 4]),
    printed("000-2.5.2", "000, example 2.5.2", 11, true, "oo 1 4 5 9 3 | 0 2 8 10 7 6", [12, 11, 11, 6, 5, 6]),
    printed("000-2.6.1", "000, example 2.6.1", 5, true, "oo 1 4 | 0 2 3; 0 1 4 | oo 2 3", [6, 10, 10, 3, 4, 6]),
    printed("000-2.9.2", "000, (2.9.2)", 11, true, "oo 1 4 | 5 9 3; 0 8 1 | 2 7 6", [12, 22, 11, 3, 2, 3]),
    printed("000-2.9c", "000, 2.9 (c)", 11, true, "oo 2 6 7 8 | 1 4 5 9 3 x 1 2 3 4 5; 1 4 5 9 3 | 2 8 10 7 6", [12, 66, 55, 5, 20, 25]),
    printed("000-2.9d", "000, 2.9 (d)", 11, true, "oo 5 6 8 | 0 1 3 7; oo 5 6 8 | 2 4 9 10; 0 1 3 7 | 2 4 9 10", [12, 33, 22, 4, 6, 8]),
    printed("000-appendix-5", "000, design 5, from table 1", 7, false, "1 2 | 3 4; 3 6 | 2 5; 2 4 | 6 1", [7, 21, 12, 2, 2, 4]),
    printed("000-appendix-6", "000, design 6", 7, false, "1 2 4 | 3 6 5", [7, 7, 6, 3, 2, 3]),
    printed("000-appendix-7", "000, design 7", 7, true, "0 1 | 4 2; 1 4 | 2 oo", [8, 14, 7, 2, 1, 2]),
    printed("000-appendix-8", "000, design 8", 7, true, "oo 1 2 | 3 6 5; oo 3 5 | 1 2 4; 1 2 4 | oo 3 6; 1 2 4 | 3 6 5", [8, 28, 21, 3, 6, 9]),
    printed("000-appendix-20", "000, design 20", 11, false, "1 4 5 9 3 | 2 8 10 7 6", [11, 11, 10, 5, 4, 5]),
    printed("000-appendix-21", "000, design 21", 11, true, "0 1 | 3 7; 4 9 | 2 10; oo 5 | 6 8", [12, 33, 11, 2, 1, 2]),
    printed("000-appendix-22", "000, design 22", 11, true, "oo 2 5 | 6 10 4; 1 9 0 | 3 8 7", [12, 22, 11, 3, 2, 3]),
    printed("000-appendix-23", "000, design 23", 11, true, "oo 5 6 8 | 0 1 3 7; oo 5 6 8 | 2 4 9 10; 0 1 3 7 | 2 4 9 10", [12, 33, 22, 4, 6, 8]),
    printed(
        "000-appendix-24",
        "000, design 24",
        11,
        true,
        "oo 2 6 7 8 | 1 4 5 9 3; oo 4 1 3 5 | 2 8 10 7 6; oo 6 7 10 2 | 3 1 4 5 9; oo 8 2 6 10 | 4 5 8 3 1; oo 10 8 2 7 | 5 9 3 1 3; 1 4 5 9 3 | 2 8 10 7 6",
        [12, 66, 55, 5, 20, 25],
    ),
    printed("000-appendix-25", "000, design 25", 11, true, "1 3 4 5 9 oo | 2 6 7 8 10 0", [12, 11, 11, 6, 5, 6]),
    printed("000-appendix-26", "000, design 26", 13, false, "1 12 | 8 5; 2 11 | 3 10; 4 9 | 6 7", [13, 39, 12, 2, 1, 2]),
    printed("000-appendix-27", "000, design 27", 13, false, "1 3 9 | 4 12 10; 2 6 5 | 8 11 7", [13, 26, 6, 3, 2, 3]),
    printed("000-appendix-28", "000, design 28", 13, false, "1 8 12 5 | 4 6 9 7; 2 3 11 10 | 8 12 5 1; 4 6 9 7 | 3 11 10 2", [13, 39, 24, 4, 6, 8]),
    printed(
        "000-appendix-29",
        "000, design 29",
        13,
        false,
        "1 2 3 4 5 | 6 7 8 9 10; 2 4 6 8 10 | 12 1 3 5 7; 4 8 12 3 7 | 11 2 6 10 1; 8 3 11 6 1 | 9 4 12 7 2; 3 6 9 12 2 | 5 8 11 1 4; 6 12 5 11 4 | 10 3 9 2 8",
        [13, 78, 60, 5, 20, 25],
    ),
    printed("000-appendix-30", "000, design 30", 13, false, "1 4 3 12 9 10 | 2 8 6 11 5 7", [13, 13, 12, 6, 5, 6]),
    printed("003-4.1", "003, section 4, example 1", 7, false, "1 2 | 3 4 x 1 2 4", [7, 21, 12, 2, 2, 4]),
    printed("003-4.2", "003, section 4, example 2", 11, false, "1 2 | 3 4 x 1 4 5 9 3", [11, 55, 20, 2, 2, 4]),
    printed("003-5.1", "003, section 5, example 1", 5, false, "1 4 | 2 3", [5, 5, 4, 2, 1, 2]),
    printed("003-5.3", "003, section 5, example 3", 13, false, "1 12 | 8 5; 4 9 | 6 7; 3 10 | 11 2", [13, 39, 12, 2, 1, 2]),
    printed("003-6.1", "003, section 6, example 1", 5, true, "1 4 | oo 2; 2 3 | oo 1; 1 4 | 2 3", [6, 15, 10, 2, 2, 4]),
    printed(
        "003-6.3",
        "003, section 6, example 3",
        13,
        true,
        "1 12 | oo 8; 8 5 | oo 1; 1 12 | 8 5; 4 9 | 6 7 x 1 1; 3 10 | 11 2 x 1 1",
        [14, 91, 26, 2, 2, 4],
    ),
    printed("003-13.2", "003, (13.2)", 7, true, "0 1 | 4 2; 1 4 | 2 oo", [8, 14, 7, 2, 1, 2]),
    printed("003-13.4", "003, (13.4)", 11, true, "0 1 | 3 7; 4 9 | 2 10; oo 5 | 6 8", [12, 33, 11, 2, 1, 2]),
    // Section 11 (a) puts the five-object design of section 5 on the blocks of a list with five residues in each.
    printed(
        "003-11a",
        "003, section 11 (a), from (11.3) and (5.7)",
        21,
        false,
        "0 14 | 1 4; 1 16 | 4 14; 4 0 | 14 16; 14 1 | 16 0; 16 4 | 0 1",
        [21, 105, 20, 2, 1, 2],
    ),
    over_nine("000-2.3.2", "000, example 2.3.2", false, "e0 e2 e4 e6 | e1 e3 e5 e7", [9, 9, 8, 4, 3, 4]),
    over_nine("000-2.6.2", "000, example 2.6.2", true, "oo e0 e2 e4 e6 | 0 e1 e3 e5 e7; 0 e0 e2 e4 e6 | oo e1 e3 e5 e7", [10, 18, 18, 5, 8, 10]),
    over_nine("000-2.9b", "000, 2.9 (b)", true, "oo 0 e0 e4 | e1 e3 e5 e7 x 0 1 2 3; e0 e2 e4 e6 | e1 e3 e5 e7", [10, 45, 36, 4, 12, 16]),
    over_nine("000-appendix-10", "000, design 10", false, "e0 e4 | e2 e6; e1 e5 | e3 e7", [9, 18, 8, 2, 1, 2]),
    over_nine("000-appendix-12", "000, design 12", false, "e0 e2 e4 e6 | e1 e3 e5 e7", [9, 9, 8, 4, 3, 4]),
    over_nine(
        "000-appendix-13",
        "000, design 13",
        true,
        "e0 e4 | oo e1; e1 e5 | oo e0; e0 e4 | e1 e5; e2 e6 | e3 e7; e2 e6 | e3 e7",
        [10, 45, 18, 2, 2, 4],
    ),
    over_nine(
        "000-appendix-15",
        "000, design 15",
        true,
        "oo 0 e0 e4 | e1 e3 e5 e7; oo 0 e1 e5 | e2 e4 e6 e0; oo 0 e2 e6 | e3 e5 e7 e1; oo 0 e3 e7 | e4 e6 e0 e2; e0 e2 e4 e6 | e1 e3 e5 e7",
        [10, 45, 36, 4, 12, 16],
    ),
    over_nine("000-appendix-16", "000, design 16", true, "oo e0 e2 e4 e6 | 0 e1 e3 e5 e7; 0 e0 e2 e4 e6 | oo e1 e3 e5 e7", [10, 18, 18, 5, 8, 10]),
    over_nine("003-5.2", "003, section 5, example 2", false, "e0 e4 | e1 e5; e2 e5 | e3 e7", [9, 18, 8, 2, 1, 2]),
    over_nine(
        "003-6.2",
        "003, section 6, example 2",
        true,
        "e0 e4 | oo e1; e1 e5 | oo e0; e0 e4 | e1 e5; e2 e5 | e3 e7 x 0 0",
        [10, 45, 18, 2, 2, 4],
    ),
];

/// A list in the notation above, in residues: p, and the bytes as a job file has them.
pub fn objects(n: u8, list: &str) -> (u8, Vec<u8>) {
    let read = |word: &str| -> usize { word.parse().expect("a residue") };
    blocks(list, "1", |word, multiplier| read(word) * read(multiplier) % usize::from(n))
}

/// A list over the field of nine elements.
pub fn field_objects(list: &str) -> (u8, Vec<u8>) {
    let field = Field::of(9).expect("a field");
    let power = |word: &str| field.power(word.parse().expect("a power"));
    blocks(list, "0", |word, multiplier| word.strip_prefix('e').map_or(0, |word| field.product(power(word), power(multiplier))))
}

/// Every block of a list, times its multipliers, or times this one where it has none.
fn blocks(list: &str, once: &str, times: impl Fn(&str, &str) -> usize) -> (u8, Vec<u8>) {
    let mut bytes = Vec::new();
    let mut side = 0;
    for block in list.split(';') {
        let (block, multipliers) = block.split_once('x').unwrap_or((block, once));
        let (left, right) = block.split_once('|').expect("a block has two sides");
        let (left, right): (Vec<&str>, Vec<&str>) = (left.split_whitespace().collect(), right.split_whitespace().collect());
        assert_eq!(left.len(), right.len(), "sides of one size");
        side = left.len() as u8;
        for multiplier in multipliers.split_whitespace() {
            bytes.extend(left.iter().chain(&right).map(|word| if *word == "oo" { INFINITY } else { times(word, multiplier) as u8 }));
        }
    }
    (side, bytes)
}

/// Table 1 of 000 in ten-thousandths. Our copy has lost signs of the readings. Of all ways to sign them just one gives the totals
/// of table 2, and it is this one; the sum of squares is the printed one with any signs.
pub const TABLE_1: [i32; 21] =
    [1846, -18, -286, 1500, -400, -3451, -16, -4471, 1700, 730, -1079, -612, 2062, -38, 3031, -1704, -388, -1182, -228, 1355, -70];

/// The totals of table 2 of 000, in ten-thousandths.
pub const TABLE_2_TOTALS: [i128; 7] = [6649, 16533, -12137, 4926, 5058, -16705, -4324];
