//! The binary Golay code of 23 cells, for each even number of levels: by distance, and by its generator polynomial.
//!
//! A word is, modulo 2, the polynomial in which the level of cell j is the coefficient of x^(23-j). It is a codeword when the generator
//! divides that. Words are not read by a parity matrix: only `body`, which describes the code to other operations, makes one.

use super::{cells_that_differ, refuse, refused, Decoded, Refused};

pub const CELLS: usize = 23;
const CHECK_CELLS: usize = 11;
const MOST_RISEN: usize = 3;

/// x^11 + x^9 + x^7 + x^6 + x^5 + x + 1. A polynomial over the integers modulo 2 is the number whose bit e is the coefficient of x^e.
const GENERATOR: usize = 1 << 11 | 1 << 9 | 1 << 7 | 1 << 6 | 1 << 5 | 1 << 1 | 1;

/// What the generator leaves of a polynomial that has no power above x^22.
fn remainder(polynomial: usize) -> usize {
    let without = |left: usize, power: usize| if left >> power & 1 == 1 { left ^ GENERATOR << (power - CHECK_CELLS) } else { left };
    (CHECK_CELLS..CELLS).rev().fold(polynomial, without)
}

fn polynomial(word: &[u8]) -> usize {
    word.iter().fold(0, |higher, &level| higher * 2 + usize::from(level % 2))
}

/// The word of two levels that is this polynomial.
pub fn word_of(polynomial: usize) -> Vec<u8> {
    (0..CELLS).rev().map(|power| (polynomial >> power & 1) as u8).collect()
}

/// Is a word of levels below q a codeword? With q even and M = 2 the check cells' ceiling is q, so that it asks nothing.
fn is_codeword(word: &[u8]) -> bool {
    remainder(polynomial(word)) == 0
}

/// The codeword among the words with up to so many cells, none of them before `first`, lowered by one.
fn codeword_below(word: &mut [u8], first: usize, most: usize) -> Option<Vec<u8>> {
    if is_codeword(word) {
        return Some(word.to_vec());
    }
    let cells = if most > 0 { first..CELLS } else { 0..0 };
    for cell in cells {
        if word[cell] > 0 {
            word[cell] -= 1;
            let found = codeword_below(word, cell + 1, most - 1);
            word[cell] += 1;
            if found.is_some() {
                return found;
            }
        }
    }
    None
}

/// Decode a word of q levels: 2 for an odd q or one outside 2 to 64; 8; 10; 11.
pub fn decode(q: usize, word: &[u8], out_length: usize) -> Result<Decoded, Refused> {
    refuse(2, q % 2 == 1 || !(2..=64).contains(&q)).map_err(refused)?;
    refuse(8, word.len() != CELLS || out_length != CELLS).map_err(refused)?;
    refuse(10, word.iter().any(|&level| usize::from(level) >= q)).map_err(refused)?;
    let decoded = codeword_below(&mut word.to_vec(), 0, MOST_RISEN).ok_or(refused(11))?;
    Ok(Decoded { count: cells_that_differ(word, &decoded), word: decoded })
}

/// The description of the code of q levels, which is below 256: the column of cell j is the remainder of x^(23-j), and row k of the
/// matrix has the coefficients of x^(11-k).
pub fn body(q: usize) -> Vec<u8> {
    let columns: Vec<usize> = (CHECK_CELLS..CELLS).rev().map(|power| remainder(1 << power)).collect();
    let row = |power: usize| columns.iter().map(move |column| (column >> power & 1) as u8);
    let fields = [CELLS, CHECK_CELLS, q, 2, 1, MOST_RISEN].map(|field| field as u8);
    fields.into_iter().chain((0..CHECK_CELLS).rev().flat_map(row)).collect()
}

/// For each word of two levels, as a polynomial, the codeword that it can have been read from, if there is one. By distance alone: from
/// each multiple of the generator all words are made in which at most three of its 0s have become 1s.
pub fn codewords_by_word() -> Vec<Option<usize>> {
    let mut codewords = vec![None; 1 << CELLS];
    for factor in 0..1 << (CELLS - CHECK_CELLS) {
        let terms = (0..CELLS - CHECK_CELLS).filter(|power| factor >> power & 1 == 1);
        let codeword = terms.fold(0, |sum, power| sum ^ GENERATOR << power);
        mark(&mut codewords, codeword, codeword, 0, MOST_RISEN);
    }
    codewords
}

/// Mark the word, and all in which up to so many more of its 0s, at no power below `first`, have become 1s.
fn mark(codewords: &mut [Option<usize>], codeword: usize, word: usize, first: usize, most: usize) {
    let other = codewords[word].replace(codeword);
    assert!(other.is_none(), "a word of two codewords");
    let powers = if most > 0 { first..CELLS } else { 0..0 };
    for power in powers.filter(|power| word >> power & 1 == 0) {
        mark(codewords, codeword, word | 1 << power, power + 1, most - 1);
    }
}
