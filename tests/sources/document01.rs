//! Document 01: examples a to l, the image, the four known mistakes.

use crate::case::{Case, Operation};
use crate::paper::Source;
use crate::second::listing::{self, EXAMPLE};

pub const R: [u8; 10] = [5, 4, 8, 2, 1, 2, 1, 1, 1, 1];
pub const F: [u8; 26] = [12, 2, 5, 5, 2, 1, 0, 1, 1, 1, 1, 4, 4, 4, 4, 4, 4, 1, 2, 3, 4, 0, 1, 2, 3, 4];
const S: [u8; 17] = [3, 3, 2, 2, 1, 1, 1, 2, 2, 1, 1, 1, 2, 2, 1, 1, 1];
const CEILING: [u8; 9] = [4, 3, 8, 3, 2, 1, 2, 2, 2];

pub fn run() -> usize {
    examples() + image() + known_mistakes()
}

fn examples() -> usize {
    use Operation::*;
    let mut source = Source::new("document 01, examples a to l");
    source.gives(&Case::with(Encode, &R, &[3, 2, 1, 0, 0], 5), &[3, 5, 3, 1, 1]);
    source.decodes(Decode, &R, &[4, 5, 3, 2, 1], &[3, 5, 3, 1, 1], 2);
    source.decodes(Decode, &R, &[4, 6, 3, 2, 1], &[4, 6, 2, 2, 0], 2);
    source.decodes(Decode, &R, &[1, 0, 0, 0, 0], &[0; 5], 1);
    source.answers(&Case::with(Decode, &R, &[0, 1, 1, 1, 1], 5), 11);
    source.gives(&Case::with(Encode, &F, &[0, 1, 0, 0, 0, 0, 0, 0, 0, 0, 0, 0], 12), &[0, 1, 0, 0, 0, 0, 0, 0, 0, 0, 4, 4]);
    source.decodes(Decode, &F, &[2, 0, 0, 0, 0, 0, 0, 0, 0, 0, 0, 0], &[0; 12], 1);
    source.answers(&Case::with(Decode, &F, &[0, 0, 0, 0, 0, 0, 0, 0, 0, 0, 0, 3], 12), 11);
    source.rejects(&[2, 1, 8, 2, 1, 1, 1], 6);
    source.accepts(&[1, 0, 2, 2, 1, 0]);
    source.answers(&Case::with(Decode, &CEILING, &[7; 4], 4), 11);
    source.decodes(DecodeStack, &S, &[5, 5, 4], &[5, 5, 5], 1);
    source.decodes(DecodeStack, &S, &[0, 1, 7], &[7, 7, 7], 2);
    let answer = source.answers(&Case::with(DecodeStack, &[2, 1, 2, 1, 0, 1], &[0, 1], 2), 11);
    source.holds("k: plane 0", answer.plane == 0);
    source.holds("n = 45 has 4,051 patterns", crate::second::pattern::count(45, 2, 2) == 4051);
    source.holds("n = 46 has 4,233 patterns", crate::second::pattern::count(46, 2, 2) == 4233);
    source.answers(&Case::of(CodeCells, &[45, 0, 3, 3, 2, 2]), 0);
    source.answers(&Case::of(CodeCells, &[46, 0, 3, 3, 2, 2]), 5);
    source.done()
}

fn image() -> usize {
    let mut source = Source::new("document 01, the image");
    let record = source.gives(&Case::with(Operation::ReadRow, &EXAMPLE, &[], 5).numbered(2), &[3, 5, 3, 1, 1]);
    source.holds("entry 2, count 2", (record.entry, record.refusal, record.count) == (2, 0, 2));
    source.holds("cartlist's line", listing::lines(&EXAMPLE) == "row 2 count 2 levels 3 5 3 1 1\n");
    source.done()
}

/// What each mistake would give back, and what is right.
fn known_mistakes() -> usize {
    use Operation::*;
    let mut source = Source::new("document 01, the four known mistakes");
    // Lowering 0 to q - 1 would give back 7 1 1 1 1, which is a codeword.
    source.gives(&Case::with(Recover, &R, &[7, 1, 1, 1, 1], 5), &[7, 0, 0, 0, 0]);
    source.answers(&Case::with(Decode, &R, &[0, 1, 1, 1, 1], 5), 11);
    // Without the ceiling 7 7 7 7 would be a codeword, since all its residues are 0.
    source.answers(&Case::with(Recover, &CEILING, &[7; 4], 4), 12);
    source.answers(&Case::with(Decode, &CEILING, &[7; 4], 4), 11);
    // Taking all digits from 5 5 4 as first read would give 5 5 3, no codeword: its third cell borrowed from plane 1.
    source.answers(&Case::with(RecoverStack, &S, &[5, 5, 3], 3), 12);
    source.decodes(DecodeStack, &S, &[5, 5, 4], &[5, 5, 5], 1);
    // Each plane of 0 1 7 has one digit wrong, t = 1, although two cells change.
    source.decodes(DecodeStack, &S, &[0, 1, 7], &[7, 7, 7], 2);
    source.done()
}
