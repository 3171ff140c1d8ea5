//! The benchmark's cases: codes, stacks and words, the same in every run.

use crate::golay::remainder;
use crate::plain;

pub enum Operation {
    Test,
    Decode,
    DecodeStack,
    MessageOfNumber,
    NumberOfMessage,
    Pack,
    Unpack,
}

pub struct Case {
    pub name: String,
    /// Our time is to be at most this part of plain Rust's.
    pub aim: f64,
    pub operation: Operation,
    pub body: Vec<u8>,
    /// Empty for a test; for numbers and for packing the message, for unpacking the bytes.
    pub word: Vec<u8>,
}

impl Case {
    fn test(name: &str, aim: f64, body: Vec<u8>) -> Case {
        Case { name: format!("test, {name}"), aim, operation: Operation::Test, body, word: vec![] }
    }

    fn decode(name: &str, aim: f64, body: &[u8], word: Vec<u8>) -> Case {
        Case { name: format!("decode, {name}"), aim, operation: Operation::Decode, body: body.to_vec(), word }
    }

    fn decode_stack(name: &str, aim: f64, body: &[u8], word: Vec<u8>) -> Case {
        Case { name: format!("decode digit planes, {name}"), aim, operation: Operation::DecodeStack, body: body.to_vec(), word }
    }

    fn message_of_number(name: &str, aim: f64, body: &[u8], word: Vec<u8>) -> Case {
        Case { name: format!("message of number, {name}"), aim, operation: Operation::MessageOfNumber, body: body.to_vec(), word }
    }

    fn number_of_message(name: &str, aim: f64, body: &[u8], word: Vec<u8>) -> Case {
        Case { name: format!("number of message, {name}"), aim, operation: Operation::NumberOfMessage, body: body.to_vec(), word }
    }

    fn pack(name: &str, aim: f64, body: &[u8], word: Vec<u8>) -> Case {
        Case { name: format!("pack, {name}"), aim, operation: Operation::Pack, body: body.to_vec(), word }
    }

    fn unpack(name: &str, aim: f64, body: &[u8], word: Vec<u8>) -> Case {
        Case { name: format!("unpack, {name}"), aim, operation: Operation::Unpack, body: body.to_vec(), word }
    }
}

/// A sequence of numbers that is the same in every run.
pub struct Numbers(pub u64);

impl Numbers {
    fn below(&mut self, bound: usize) -> usize {
        self.0 = self.0.wrapping_mul(6364136223846793005).wrapping_add(1442695040888963407);
        ((self.0 >> 33) as usize) % bound
    }
}

/// A description with a matrix of numbers below M. The fields are n, r, q, M, l, t.
fn description(numbers: &mut Numbers, fields: [u8; 6]) -> Vec<u8> {
    let [n, r, _, m, _, _] = fields.map(usize::from);
    let mut body = fields.to_vec();
    body.extend((0..r * (n - r)).map(|_| numbers.below(m) as u8));
    body
}

/// The first description that is accepted.
fn accepted(mut made: impl FnMut() -> Vec<u8>) -> Vec<u8> {
    loop {
        let body = made();
        if plain::test(&body).is_ok() {
            return body;
        }
    }
}

pub fn random_code(numbers: &mut Numbers, fields: [u8; 6]) -> Vec<u8> {
    accepted(|| description(numbers, fields))
}

/// A code whose columns begin with 1, as t = 1 with M = l + 1 asks: no two of them are equal modulo 2.
pub fn columns_from_one(numbers: &mut Numbers, fields: [u8; 6]) -> Vec<u8> {
    accepted(|| {
        let mut body = description(numbers, fields);
        body[6..6 + (fields[0] - fields[1]) as usize].fill(1);
        body
    })
}

/// The binary Golay code over q levels: the column of cell j is the remainder of x^(23 - j).
fn golay(q: u8) -> Vec<u8> {
    let mut body = vec![23, 11, q, 2, 1, 3];
    for k in 0..11 {
        body.extend((1..=12).map(|j| (remainder(1 << (23 - j)) >> (10 - k) & 1) as u8));
    }
    body
}

/// A random codeword of the Golay code over q levels, with cell 21 at 1 and the two after it below q - 1.
fn golay_codeword(numbers: &mut Numbers, q: u8) -> [u8; 23] {
    loop {
        let mut word: [u8; 23] = std::array::from_fn(|_| numbers.below(q.into()) as u8);
        let odd = word.iter().fold(0, |bits, &level| bits << 1 | (level & 1) as u32);
        for (i, level) in word.iter_mut().enumerate() {
            *level ^= (remainder(odd) >> (22 - i) & 1) as u8;
        }
        if word[20] == 1 && word[21] < q - 1 && word[22] < q - 1 {
            return word;
        }
    }
}

/// A word that is decoded by the table of the Golay code.
pub struct GolayCase {
    pub name: &'static str,
    /// Our time is to be at most this part of the search's.
    pub search_aim: f64,
    pub body: Vec<u8>,
    pub word: [u8; 23],
    /// The cells that differ from the codeword: cell j is bit 23 - j.
    pub pattern: u32,
    /// The count, or the refusal's number.
    pub answer: Result<usize, usize>,
}

/// One codeword with its last cells risen: the last pattern of each weight. It is refused where the first of them fell to 0 instead.
pub fn golay_cases() -> [GolayCase; 5] {
    let q = 8;
    let codeword = golay_codeword(&mut Numbers(1), q);
    [
        ("clean word", f64::INFINITY, [0, 0, 0], Ok(0)),
        ("1 cell late in the order", f64::INFINITY, [0, 0, 1], Ok(1)),
        ("2 cells late in the order", f64::INFINITY, [0, 1, 1], Ok(2)),
        ("3 cells late in the order", 0.1, [1, 1, 1], Ok(3)),
        ("refused, a cell at 0", f64::INFINITY, [-1, 1, 1], Err(11)),
    ]
    .map(|(name, search_aim, rises, answer)| {
        let mut word = codeword;
        for (level, rise) in word[20..].iter_mut().zip(rises) {
            *level = level.wrapping_add_signed(rise);
        }
        let pattern = rises.iter().fold(0, |bits, &rise| bits << 1 | (rise != 0) as u32);
        GolayCase { name, search_aim, body: golay(q), word, pattern, answer }
    })
}

/// The bucket that acceptance (crates/acceptance/src/different.rt) puts a syndrome of at most 12 entries in.
pub fn bucket(syndrome: &[u8]) -> u64 {
    let key = |entries: &[u8]| entries.iter().rev().fold(0u64, |key, &entry| key * 256 + entry as u64);
    let (first, second) = syndrome.split_at(syndrome.len().min(8));
    (key(first) + 61 * key(second)) % 4093
}

/// A code whose patterns, but for those that raise a check cell, all have their syndromes in one bucket. Its columns are in bucket 0
/// and their entries small: no sum of them that a pattern makes reaches M, so its bucket is 0 too. The first `zeros` entries of each
/// are 0, so that the keys also have their low bits in common, by which a bucket's tree is searched.
pub fn one_bucket(numbers: &mut Numbers, fields: [u8; 6], zeros: usize, bucket: fn(&[u8]) -> u64) -> Vec<u8> {
    let [n, r, _, m, l, t] = fields.map(usize::from);
    let small = (m - 1) / (l * t) + 1;
    let mut column = || loop {
        let column: Vec<u8> = (0..r).map(|k| if k < zeros { 0 } else { numbers.below(small) as u8 }).collect();
        if bucket(&column) == 0 {
            return column;
        }
    };
    accepted(|| {
        let columns: Vec<Vec<u8>> = (0..n - r).map(|_| column()).collect();
        let mut body = fields.to_vec();
        body.extend((0..r).flat_map(|k| columns.iter().map(move |column| column[k])));
        body
    })
}

/// The matrix of a binary code of 64 cells and 12 check cells that tells all pairs of errors apart (Zetterberg's, shortened):
/// the column of cell j is a power of an element of order 65 in the field of 4096, brought to unit columns at the check cells.
fn zetterberg() -> Vec<u8> {
    let times_x = |v: u32| if v & 1 << 11 != 0 { v << 1 ^ 0b1_0000_0101_0011 } else { v << 1 };
    let power = |k: u32| (0..k).fold(1u32, |v, _| times_x(v));
    let columns: Vec<u32> = (0..64).map(|j| power(63 * j % 4095)).collect();
    let mut rows: Vec<u64> = (0..12).map(|k| (0..64).fold(0, |row, j| row | ((columns[j] >> k & 1) as u64) << j)).collect();
    for k in 0..12 {
        let pivot = (k..12).find(|&i| rows[i] >> (52 + k) & 1 == 1).expect("the check columns are independent");
        rows.swap(k, pivot);
        for i in (0..12).filter(|&i| i != k) {
            if rows[i] >> (52 + k) & 1 == 1 {
                rows[i] ^= rows[k];
            }
        }
    }
    rows.iter().flat_map(|row| (0..52).map(move |j| (row >> j & 1) as u8)).collect()
}

/// Six binary planes of 64 cells, each accepted for two errors.
pub fn six_planes() -> Vec<u8> {
    let matrix = zetterberg();
    let mut body = vec![64, 6];
    for _ in 0..6 {
        body.extend([2, 12, 2]);
        body.extend(&matrix);
    }
    body
}

/// A word of `six_planes` with two wrong digits in each plane, late in the order.
pub fn two_digits_wrong_in_each_plane() -> Vec<u8> {
    let mut word = vec![0; 64];
    for j in 0..6 {
        word[62 - 2 * j] += 1 << j;
        word[63 - 2 * j] += 1 << j;
    }
    word
}

/// The bytes of a message.
fn packed(body: &[u8], message: &[u8]) -> Vec<u8> {
    let mut bytes = vec![0; plain::packed_bytes(body).expect("powers of two")];
    plain::pack(body, message, &mut bytes).expect("a sound message");
    bytes
}

/// A code, accepted or not, and a word of it that is refused 11.
fn refused(numbers: &mut Numbers, fields: [u8; 6], aim: f64) -> Case {
    let body = description(numbers, fields);
    let [n, r, q, m, l, t] = fields;
    loop {
        let word: Vec<u8> = (0..n).map(|_| numbers.below(q.into()) as u8).collect();
        if plain::decode(&body, &word, &mut vec![0; n.into()]) == Err(11) {
            return Case::decode(&format!("refused, n {n} r {r} M {m} l {l} t {t}"), aim, &body, word);
        }
    }
}

pub fn all() -> Vec<Case> {
    let mut numbers = Numbers(1);
    let golay = golay(8);
    let wide = random_code(&mut numbers, [45, 12, 15, 5, 2, 2]);
    let planes = six_planes();
    let mut cases = vec![
        Case::decode("clean word, n 23", 0.5, &golay, vec![0; 23]),
        Case::decode("clean word, n 45", 0.25, &wide, vec![0; 45]),
    ];
    for (late, aim) in [(1, 0.5), (2, 0.25), (3, 0.25)] {
        let mut word = vec![0; 23];
        word[23 - late..].fill(1);
        let cells = if late == 1 { "cell" } else { "cells" };
        cases.push(Case::decode(&format!("Golay, {late} {cells} late in the order"), aim, &golay, word));
    }
    let [few, many] = [0.5, 0.25];
    for (fields, aim) in [
        ([64, 12, 64, 64, 63, 1], few),
        ([64, 12, 8, 2, 1, 1], few),
        ([45, 12, 9, 3, 2, 2], many),
        ([45, 12, 15, 5, 2, 2], many),
        ([64, 12, 8, 2, 1, 2], many),
        ([28, 12, 8, 2, 1, 3], many),
        ([29, 12, 8, 2, 1, 3], many),
        ([15, 12, 9, 3, 2, 3], many),
    ] {
        cases.push(refused(&mut numbers, fields, aim));
    }
    let from_one = columns_from_one(&mut numbers, [64, 12, 64, 64, 63, 1]);
    let three_cells = random_code(&mut numbers, [29, 12, 14, 7, 1, 3]);
    let shallow = one_bucket(&mut numbers, [45, 7, 64, 64, 2, 2], 0, bucket);
    let deep = one_bucket(&mut numbers, [45, 8, 64, 64, 2, 2], 2, bucket);
    cases.extend([
        Case::decode_stack("64 cells, six planes, t 2, clean", 0.25, &planes, vec![0; 64]),
        Case::decode_stack("the same, two digits wrong in each", 0.25, &planes, two_digits_wrong_in_each_plane()),
        Case::test("Golay, P 2048", 0.25, golay),
        Case::test("n 45 r 12 M 5 l 2 t 2, P 4051", 0.25, wide),
        Case::test("n 64 r 12 M 64 l 63 t 1, P 4033", 0.25, from_one),
        Case::test("n 29 r 12 M 7 l 1 t 3, P 4090", 0.25, three_cells),
        Case::test("n 45 r 7 M 64 l 2 t 2, P 4051, keys in one bucket", 0.25, shallow),
        Case::test("n 45 r 8 M 64 l 2 t 2, P 4051, the same, low bits equal", 0.25, deep),
    ]);
    let transponder = [6, 2, 6, 3, 1, 1, 1, 1, 2, 2, 1, 2, 1, 2];
    // Of two and of three levels the most cells whose messages have numbers, with the last of these.
    for (name, body, message) in [
        ("transponder, n 6 q 6", &transponder[..], vec![1, 0, 2, 4, 1, 0]),
        ("n 63 q 2", &[63, 0, 2, 2, 1, 0], vec![1; 63]),
        ("n 39 q 3", &[39, 0, 3, 3, 1, 0], vec![2; 39]),
    ] {
        cases.push(Case::message_of_number(name, 1.0, body, message.clone()));
        cases.push(Case::number_of_message(name, 1.0, body, message));
    }
    let two_widths = description(&mut numbers, [64, 12, 8, 2, 1, 1]);
    // The most bytes that there are, which are whole; of the others some bits are left over.
    for (name, body, message) in [
        ("R, 11 bits", &[5, 4, 8, 2, 1, 2, 1, 1, 1, 1][..], vec![3, 2, 1, 0, 0]),
        ("n 64 q 64, 384 bits", &[64, 0, 64, 2, 1, 0], (0..64).collect()),
        ("n 64 r 12 q 8 M 2, 180 bits", &two_widths, (0..64).map(|cell| cell % 4).collect()),
    ] {
        cases.push(Case::unpack(name, 1.0, body, packed(body, &message)));
        cases.push(Case::pack(name, 1.0, body, message));
    }
    cases
}
