//! Document 001: Jiang, Li, Bruck, "Bit-fixing Codes for Multi-level Cells".

use crate::case::{Case, Operation};
use crate::document01::R;
use crate::paper::Source;
use crate::second::stack;

pub fn run() -> usize {
    example_3() + example_4() + example_7() + figure_2() + section_2c()
}

/// Remainders of x^22, x^21, .., x^11 modulo x^11 + x^9 + x^7 + x^6 + x^5 + x + 1: the binary Golay code's columns.
fn golay_columns() -> Vec<usize> {
    let generator = 0b1010_1110_0011;
    let times_x = |remainder: usize| if remainder >> 10 & 1 == 1 { remainder << 1 ^ generator } else { remainder << 1 };
    let mut columns: Vec<usize> = std::iter::successors(Some(times_x(1 << 10)), |&remainder| Some(times_x(remainder))).take(12).collect();
    columns.reverse();
    columns
}

/// A plane of 23 cells that mends t digits: the Golay code mends three.
fn golay_plane(t: u8) -> Vec<u8> {
    let columns = golay_columns();
    let matrix = (0..11).flat_map(|row| columns.iter().map(move |column| (column >> (10 - row) & 1) as u8));
    [2, 11, t].into_iter().chain(matrix).collect()
}

const FREE_PLANE: [u8; 3] = [2, 0, 0];

fn stack_of(n: u8, planes: &[Vec<u8>]) -> Vec<u8> {
    [vec![n, planes.len() as u8], planes.concat()].concat()
}

/// Example 3: levels 3 1 2, errors 1 5 -1, read as 4 6 1. C0, C1, C2 mend 3, 1 and 2 digits. A step is seen by leaving
/// the planes behind it free: then their digits pass as they are.
fn example_3() -> usize {
    let mut source = Source::new("document 001, example 3 (step by step)");
    let codes = [golay_plane(3), golay_plane(1), golay_plane(2)];
    let whole = stack_of(23, &codes);
    let digits = [[1, 1, 0], [1, 0, 1], [0, 0, 0]].map(|first| [&first[..], &[0; 9]].concat());
    let written = stack::encode(&whole, &digits.concat(), 23).expect("a sound message");
    source.gives(&Case::with(Operation::EncodeStack, &whole, &digits.concat(), 23), &written);
    source.holds("levels 3 1 2", written[..3] == [3, 1, 2]);
    source.answers(&Case::of(Operation::TestStack, &whole), 0);
    let with = |first: [u8; 3]| [&first[..], &written[3..]].concat();
    let free = FREE_PLANE.to_vec();
    let after_c0 = stack_of(23, &[codes[0].clone(), free.clone(), free.clone()]);
    let after_c1 = stack_of(23, &[codes[0].clone(), codes[1].clone(), free]);
    source.decodes(Operation::DecodeStack, &after_c0, &with([4, 6, 1]), &with([3, 5, 0]), 3);
    source.decodes(Operation::DecodeStack, &after_c1, &with([4, 6, 1]), &with([3, 5, 6]), 3);
    source.decodes(Operation::DecodeStack, &whole, &with([4, 6, 1]), &with([3, 1, 2]), 3);
    source.done()
}

/// The digits of a level in so many binary places, by recovering the message of a stack without check cells.
fn bits(source: &mut Source, level: u8, places: usize) -> Vec<u8> {
    let body = stack_of(1, &vec![FREE_PLANE.to_vec(); places]);
    let bits: Vec<u8> = (0..places).map(|place| level >> place & 1).collect();
    source.gives(&Case::with(Operation::RecoverStack, &body, &[level], places), &bits);
    bits
}

/// Example 4: cross(i) is the set of levels whose digit i is 1.
fn example_4() -> usize {
    let mut source = Source::new("document 001, example 4 (by recovery)");
    let digits: Vec<Vec<u8>> = (0..8).map(|level| bits(&mut source, level, 3)).collect();
    for (place, cross) in [[1, 3, 5, 7], [2, 3, 6, 7], [4, 5, 6, 7]].iter().enumerate() {
        source.holds("cross", (0..8).filter(|&level| digits[level][place] == 1).eq(cross.iter().copied()));
    }
    source.done()
}

fn labels(source: &mut Source, kind: usize, table: &[u8]) {
    source.gives(&Case::with(Operation::MakeLabels, &[], &[], table.len()).numbered(kind), table);
}

/// Figure 2, from state 0 to state 15.
const STRAIGHT: [u8; 16] = [0, 1, 2, 3, 4, 5, 6, 7, 8, 9, 10, 11, 12, 13, 14, 15];
const GRAY: [u8; 16] = [0, 1, 3, 2, 6, 7, 5, 4, 12, 13, 15, 14, 10, 11, 9, 8];
const REVERSED: [u8; 16] = [0, 8, 4, 12, 2, 10, 6, 14, 1, 9, 5, 13, 3, 11, 7, 15];

/// Example 7: state 5 falls to 4; old level, new level and wrong bits in each labeling. The averages are no operation.
fn example_7() -> usize {
    let mut source = Source::new("document 001, example 7 (its one move)");
    for (table, levels, wrong_bits) in [(STRAIGHT, [5, 4], 4), (GRAY, [7, 6], 4), (REVERSED, [10, 2], 1)] {
        source.gives(&Case::with(Operation::ToLevels, &table, &[5, 4], 2), &levels);
        source.gives(&Case::with(Operation::ToStates, &table, &levels, 2), &[5, 4]);
        let error = (16 + levels[1] - levels[0]) % 16;
        let ones: u8 = bits(&mut source, error, 4).iter().sum();
        source.holds("wrong bits", ones == wrong_bits);
    }
    source.done()
}

/// Figure 2, and construction 8 for every power of two up to 64.
fn figure_2() -> usize {
    let mut source = Source::new("document 001, figure 2 and construction 8");
    labels(&mut source, 1, &STRAIGHT);
    labels(&mut source, 2, &GRAY);
    labels(&mut source, 3, &REVERSED);
    for m in 1..=6 {
        let mut table = vec![0];
        for i in 1..=m {
            table.extend(table.clone().iter().map(|level| level + (1 << (m - i))));
        }
        labels(&mut source, 3, &table);
    }
    source.done()
}

/// Section II-C: with check cells in plane 0 only, the scheme is document 000's. Its sample words, read by a stack.
fn section_2c() -> usize {
    let mut source = Source::new("document 001, section II-C (document 000's code as a stack)");
    let stack = stack_of(5, &[[&[2, 4, 2], &R[6..]].concat(), vec![4, 0, 0]]);
    for (written, read) in [([3, 5, 3, 1, 1], [4, 5, 3, 2, 1]), ([4, 6, 2, 2, 0], [4, 6, 3, 2, 1])] {
        source.decodes(Operation::Decode, &R, &read, &written, 2);
        source.decodes(Operation::DecodeStack, &stack, &read, &written, 2);
    }
    source.done()
}
