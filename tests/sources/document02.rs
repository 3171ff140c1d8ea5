//! Document 02: patterns tried for document 01's examples b, c, d and f (wish 1), numbers of messages (wish 2), leftover bits (wish 3),
//! and the Golay code read by a table (wish 4).

use crate::case::{Case, Operation};
use crate::document01::{F, R};
use crate::paper::Source;
use crate::second::{code, golay, pattern};
use std::collections::HashSet;

/// Six-level cells that mend one rise of 1. It has 6^4 times 2^2 messages, more than there are transponder codes.
const T: [u8; 14] = [6, 2, 6, 3, 1, 1, 1, 1, 2, 2, 1, 2, 1, 2];
/// A transponder code has four octal digits.
const TRANSPONDER_CODES: u64 = 0o10000;
/// The columns of the Golay code's first twelve cells, row 1 of the matrix with the value 1,024 and row 11 with 1.
const COLUMNS: [usize; 12] = [1393, 1993, 1685, 1595, 1644, 822, 411, 1468, 734, 367, 1478, 739];

pub fn run() -> usize {
    patterns_tried() + transponder() + product_of_radices() + leftover_bits() + equal_rows() + golay_code() + golay_refusals()
}

fn patterns_tried() -> usize {
    let mut source = Source::new("document 02, patterns tried");
    source.tries(&R, &[4, 5, 3, 2, 1], 9);
    source.tries(&R, &[4, 6, 3, 2, 1], 15);
    source.tries(&R, &[1, 0, 0, 0, 0], 2);
    source.tries(&F, &[2, 0, 0, 0, 0, 0, 0, 0, 0, 0, 0, 0], 3);
    // The empty pattern, and the last of R's 16.
    source.tries(&R, &[3, 5, 3, 1, 1], 1);
    source.tries(&R, &[0, 0, 0, 1, 1], 16);
    source.done()
}

/// From a number to its message, the codeword, each word read with one cell risen, the codeword, its message and the number.
fn transponder() -> usize {
    let mut source = Source::new("document 02, numbers of messages (all transponder codes, on six-level cells)");
    source.accepts(&T);
    for code in 0..TRANSPONDER_CODES {
        let message = source.numbers(&T, code);
        let codeword = source.mends_every_rise_of(&T, &message);
        source.gives(&Case::with(Operation::Recover, &T, &codeword, 6), &message);
    }
    let message = source.numbers(&T, 0o4271);
    source.holds("4271 in octal is 1 0 2 4 1 0", message == [1, 0, 2, 4, 1, 0]);
    source.gives(&Case::with(Operation::Encode, &T, &message, 6), &[1, 0, 2, 4, 5, 1]);
    source.decodes(Operation::Decode, &T, &[1, 0, 3, 4, 5, 1], &[1, 0, 2, 4, 5, 1], 1);
    source.done()
}

/// 17, 18 and 9, at their bounds and in their order.
fn product_of_radices() -> usize {
    use Operation::*;
    let mut source = Source::new("document 02, numbers of messages (the product of the radices)");
    last_number(&mut source, &T, 5183);
    last_number(&mut source, &R, 2047);
    last_number(&mut source, &[39, 0, 3, 3, 1, 0], 3_u64.pow(39) - 1);
    last_number(&mut source, &[63, 0, 2, 2, 1, 0], (1 << 63) - 1);
    // Above 2^63; the first is below 2^64, the second is 2^64, the third is small modulo 2^64, the last is 64^64.
    for [n, q] in [[40, 3], [64, 2], [28, 5], [64, 64]] {
        let body = [n, 0, q, q, 1, 0];
        source.answers(&Case::with(MessageOfNumber, &body, &[], n.into()), 17);
        source.answers(&Case::with(NumberOfMessage, &body, &vec![0; n.into()], 0), 17);
    }
    // A message of T whose fifth symbol is below q, but not below floor(q/M).
    source.answers(&Case::with(NumberOfMessage, &T, &[0, 0, 0, 0, 2, 0], 0), 9);
    // 17 comes after the lengths, and before 18 and 9: 3^40 is below 2^64 - 1.
    let above = [40, 0, 3, 3, 1, 0];
    source.answers(&Case::with(MessageOfNumber, &above, &[], 39), 8);
    source.answers(&Case::with(NumberOfMessage, &above, &[0; 41], 0), 8);
    source.answers(&Case::with(MessageOfNumber, &above, &[], 40).numbered(usize::MAX), 17);
    source.answers(&Case::with(NumberOfMessage, &above, &[3; 40], 0), 17);
    source.done()
}

/// The number has a message, the next has none.
fn last_number(source: &mut Source, body: &[u8], last: u64) {
    source.numbers(body, last);
    let next = Case::with(Operation::MessageOfNumber, body, &[], body[0].into()).numbered(last as usize + 1);
    source.answers(&next, 18);
}

/// R's messages have 11 bits: the five highest bits of the second byte are left over.
fn leftover_bits() -> usize {
    use Operation::*;
    let mut source = Source::new("document 02, leftover bits (each that is set, and after 14 and 8)");
    source.gives(&Case::with(Pack, &R, &[3, 2, 1, 0, 0], 2), &[51, 0]);
    source.gives(&Case::with(Unpack, &R, &[51, 0], 5), &[3, 2, 1, 0, 0]);
    // The highest bit of the last symbol is not left over.
    source.gives(&Case::with(Unpack, &R, &[51, 4], 5), &[3, 2, 1, 0, 2]);
    (1..32).for_each(|rubbish| source.refuses_bytes(&R, &[51, rubbish << 3], 5, 19));
    // The lengths come before, and 14 too: six levels have no bits.
    source.refuses_bytes(&R, &[51, 8], 4, 8);
    source.refuses_bytes(&R, &[51, 8, 0], 5, 8);
    source.refuses_bytes(&R, &[51, 0, 8], 5, 8);
    source.refuses_bytes(&R, &[255], 5, 8);
    source.refuses_bytes(&T, &[255; 2], 6, 14);
    // Whole bytes have no leftover bits; a single bit has seven.
    source.gives(&Case::with(Unpack, &[8, 0, 2, 2, 1, 0], &[255], 8), &[1; 8]);
    source.gives(&Case::with(Unpack, &[64, 0, 64, 2, 1, 0], &[255; 48], 64), &[63; 64]);
    (2..=255).for_each(|byte| source.refuses_bytes(&[1, 0, 2, 2, 1, 0], &[byte], 1, 19));
    source.done()
}

/// "So that equal rows mean equal bytes": of all pairs of bytes, R takes a message from 2^11, and no two of these have equal rows.
fn equal_rows() -> usize {
    let mut source = Source::new("document 02, leftover bits (equal rows mean equal bytes)");
    let mut rows = HashSet::new();
    for pair in 0..=u16::MAX {
        if let Some(row) = source.row_of_bytes(&R, &pair.to_le_bytes()) {
            source.holds(&format!("{row:?} is the row of other bytes too"), rows.insert(row));
        }
    }
    source.holds("2^11 pairs of bytes are messages of R", rows.len() == 1 << 11);
    source.done()
}

/// For every even q a codeword is read as it was written and with every pattern, by the table and by the search.
fn golay_code() -> usize {
    let mut source = Source::new("document 02, the Golay code by a table (every pattern, for every even q)");
    source.holds("a pattern for each residue", pattern::count(23, 1, 3) == 1 << 11);
    for q in (2..=64).step_by(2) {
        let body = golay::body(q);
        let column = |cell: usize| (0..11).fold(0, |column, row| column * 2 + usize::from(body[6 + 12 * row + cell]));
        source.holds("the columns", (0..12).map(column).eq(COLUMNS));
        source.accepts(&body);
        let codeword = codeword_with_room(q, &body);
        for pattern in pattern::all(23, 1, 3).iter() {
            let mut word = codeword.clone();
            pattern.risen().iter().for_each(|&(cell, _)| word[cell] += 1);
            source.reads_by_table(q, &word, &codeword, pattern.risen().len());
        }
    }
    source.done()
}

/// A codeword of the Golay code that has no level q - 1. Of two levels there is one, of 0s.
fn codeword_with_room(q: usize, body: &[u8]) -> Vec<u8> {
    let data = (0..12).map(|cell| ((5 * cell + 1) % (q - 1)) as u8);
    code::encode(body, &data.chain([0; 11]).collect::<Vec<u8>>(), 23).expect("a sound message")
}

/// 2, 8, 10 and 11, and their order.
fn golay_refusals() -> usize {
    let mut source = Source::new("document 02, the Golay code by a table (2 for every other q; 8; 10; 11)");
    let mut refuses = |q: usize, word: &[u8], out_length: usize, number: usize| {
        source.answers(&Case::with(Operation::DecodeGolay, &[], word, out_length).numbered(q), number);
    };
    for q in (0..=256).filter(|q| q % 2 == 1 || !(2..=64).contains(q)).chain([264, 65_544, (1 << 32) + 8, usize::MAX - 1, usize::MAX]) {
        refuses(q, &[0; 23], 23, 2);
        refuses(q, &[255; 22], 23, 2);
    }
    for q in (2..=64).step_by(2) {
        refuses(q, &[0; 22], 23, 8);
        refuses(q, &[255; 23], 24, 8);
        // The residue of these four is also that of three others, which were read at 0.
        let mut word = [0; 23];
        word[..4].fill(1);
        refuses(q, &word, 23, 11);
        word[22] = q as u8;
        refuses(q, &word, 23, 10);
    }
    source.done()
}
