//! Document 000: Cassuto, Schwartz, Bohossian, Bruck, "Codes for Multi-Level Flash Memories: Correcting Asymmetric
//! Limited-Magnitude Errors".

use crate::case::{Case, Operation};
use crate::document01::R;
use crate::paper::Source;
use crate::second::distance::all_words;

pub fn run() -> usize {
    sample_words() + sizes() + example_1() + example_2()
}

/// Section I: 5 cells of 8 levels, all even or all odd, t = 2, l = 1. Rows (a), (b) and (d) of the figure.
fn sample_words() -> usize {
    let mut source = Source::new("document 000, sample words");
    for (written, read) in [([3, 5, 3, 1, 1], [4, 5, 3, 2, 1]), ([4, 6, 2, 2, 0], [4, 6, 3, 2, 1])] {
        source.answers(&Case::with(Operation::Recover, &R, &written, 5), 0);
        source.decodes(Operation::Decode, &R, &read, &written, 2);
    }
    source.done()
}

/// Theorems 5 and 6 for that code: its codewords are the words of even and of odd levels, 2 times 4 to the power 5.
fn sizes() -> usize {
    let mut source = Source::new("document 000, all codewords of the sample code");
    let mut codewords = 0;
    for word in all_words(5, 8) {
        let alike = word.iter().all(|level| level % 2 == word[0] % 2);
        source.answers(&Case::with(Operation::Recover, &R, &word, 5), if alike { 0 } else { 12 });
        codewords += usize::from(alike);
    }
    source.holds("2,048 codewords", codewords == 2 * 4_usize.pow(5));
    source.done()
}

/// Example 1: the Hamming code of length 2^m - 1 over q = 2^b mends one rise of 1 and carries nb - m bits.
fn example_1() -> usize {
    let mut source = Source::new("document 000, example 1 (Hamming codes, m = 2 to 6, b = 1 to 6)");
    for m in 2..=6_usize {
        for b in 1..=6_usize {
            let body = hamming(m, b);
            let n = (1 << m) - 1;
            source.accepts(&body);
            source.mends_every_single_rise(&body);
            let size = source.answers(&Case::of(Operation::PackedBytes, &body), 0).size;
            source.holds("nb - m information bits", size == (n * b - m).div_ceil(8));
            lowest_bits_are_hamming(&mut source, &body, n);
        }
    }
    source.done()
}

/// All columns but 0 over two elements, unit columns last; q = 2^b, M = 2, l = 1, t = 1.
fn hamming(m: usize, b: usize) -> Vec<u8> {
    let n = (1 << m) - 1;
    let data: Vec<usize> = (1..=n).filter(|column: &usize| !column.is_power_of_two()).collect();
    let fields = [n, m, 1 << b, 2, 1, 1].map(|field| field as u8);
    let matrix = (0..m).flat_map(|row| data.iter().map(move |column| (column >> row & 1) as u8));
    fields.into_iter().chain(matrix).collect()
}

/// Figure 1: the lowest bits of the encoded levels are a word of the binary code, which is the case b = 1.
fn lowest_bits_are_hamming(source: &mut Source, body: &[u8], n: usize) {
    let r = usize::from(body[1]);
    let top = body[2] - 1;
    let message = [vec![top; n - r], vec![0; r]].concat();
    let codeword = crate::second::code::encode(body, &message, n).expect("a sound message");
    source.gives(&Case::with(Operation::Encode, body, &message, n), &codeword);
    let bits: Vec<u8> = codeword.iter().map(|level| level % 2).collect();
    let binary = [&[body[0], body[1], 2, 2, 1, 1], &body[6..]].concat();
    source.answers(&Case::with(Operation::Recover, &binary, &bits, n), 0);
}

/// Example 2 puts all parity bits into one symbol, labeled by a Gray code. A plan's check cell holds one residue, so the
/// code is none; only that labeling is an operation.
fn example_2() -> usize {
    let mut source = Source::new("document 000, example 2 (not a plan; its Gray labeling of the parity symbol, m = 3)");
    source.gives(&Case::with(Operation::MakeLabels, &[], &[], 8).numbered(2), &[0, 1, 3, 2, 6, 7, 5, 4]);
    source.done()
}
