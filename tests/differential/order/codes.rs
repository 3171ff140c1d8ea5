//! Faults of the operations on codes and on their packed messages, in the order of documents 01 and 02.

use super::{fault, run_faults, wrong_length, Fault};
use crate::case::{Case, Operation};
use crate::codes;
use crate::packed::{bytes_of, leftover, with_bit};
use crate::random::Random;
use crate::second::code::Code;
use crate::second::packing;
use crate::tester::Tester;

const N: usize = 0;
pub const Q: usize = 2;
const MODULUS: usize = 3;
const L: usize = 4;
const T: usize = 5;
const MATRIX: usize = 6;

/// Symbols of the sound case stay below every q that a fault sets.
const SMALL_SYMBOL: usize = 40;

pub fn run(tester: &mut Tester, random: &mut Random, times: usize) {
    use Operation::*;
    for _ in 0..times {
        for operation in [Test, Encode, Decode, Recover, Pack, Unpack, CodeCells, PackedBytes] {
            let sound = sound_case(operation, random);
            let faults: Vec<Fault> = opening().into_iter().chain(behind_opening(operation)).collect();
            run_faults(tester, random, &sound, &faults);
        }
    }
}

/// A code with t = 0, so that it is accepted and every change of a codeword is beyond reach. With n of 46 or more, t = 3
/// makes too many patterns. Its first two columns are equal, so that t = 1 makes it refused 6. q = 64 and M divides it.
fn sound_body(random: &mut Random) -> Vec<u8> {
    let (n, r, modulus) = (random.between(46, 64), random.between(1, 12), random.pick(&[4, 8, 16]));
    let l = random.between(1, modulus - 1);
    let mut body = [n, r, 64, modulus, l, 0].map(|field| field as u8).to_vec();
    for _ in 0..r {
        let mut row = random.bytes(n - r, modulus);
        row[1] = row[0];
        body.extend(row);
    }
    body
}

/// A sound code with leftover bits, so that one can be set.
fn sound_body_with_leftover(random: &mut Random) -> Vec<u8> {
    loop {
        let body = sound_body(random);
        if !leftover(&opened(&body)).is_empty() {
            return body;
        }
    }
}

fn opened(body: &[u8]) -> Code {
    Code::open(body).expect("a sound description")
}

fn sound_case(operation: Operation, random: &mut Random) -> Case {
    use Operation::*;
    let body = if operation == Unpack { sound_body_with_leftover(random) } else { sound_body(random) };
    let code = opened(&body);
    let message = [random.bytes(code.data(), SMALL_SYMBOL), vec![0; code.r]].concat();
    let packed = packing::packed_bytes(&body).expect("powers of two");
    match operation {
        Encode => Case::with(operation, &body, &message, code.n),
        Decode | Recover => Case::with(operation, &body, &code.encoded(&message), code.n),
        Pack => Case::with(operation, &body, &message, packed),
        Unpack => Case::with(operation, &body, &bytes_of(&body, &codes::message(&code, random)), code.n),
        _ => Case::of(operation, &body),
    }
}

/// Faults of opening a code with a check cell, so that there is a matrix, and too many patterns for t = 3.
pub fn opening() -> Vec<Fault<'static>> {
    vec![
        fault(1, |case, random| case.first.truncate(random.between(1, 5))),
        fault(2, |case, random| case.first[N] = random.pick(&[0, 65, 255])),
        fault(2, other_field),
        fault(3, wrong_body_length),
        fault(4, |case, random| case.first[MATRIX] = random.byte_from(usize::from(case.first[MODULUS]))),
        fault(5, |case, _| case.first[T] = 3),
    ]
}

/// A field out of range that says nothing of the body's length.
fn other_field(case: &mut Case, random: &mut Random) {
    let modulus = case.first[MODULUS];
    let (field, value) = random.pick(&[(Q, 65), (Q, modulus - 1), (MODULUS, 65), (MODULUS, 1), (L, 0), (L, modulus), (T, 4), (T, 255)]);
    case.first[field] = value;
}

fn wrong_body_length(case: &mut Case, random: &mut Random) {
    let before = case.first.len();
    case.first.resize(random.pick(&[before - 1, before + 1, before + 256, before + 65_536]), 0);
}

fn behind_opening(operation: Operation) -> Vec<Fault<'static>> {
    use Operation::*;
    let buffer = || fault(8, wrong_length);
    let symbol = || fault(9, large_symbol);
    let level = || fault(10, |case, random| case.second[0] = random.byte_from(64));
    let bits = || fault(14, no_power_of_two);
    match operation {
        Test => vec![fault(6, |case, _| case.first[T] = 1)],
        Encode => vec![buffer(), symbol()],
        Decode => vec![buffer(), level(), fault(11, raise_last_check_cell)],
        Recover => vec![buffer(), level(), fault(12, raise_last_check_cell)],
        Pack => vec![bits(), buffer(), symbol()],
        Unpack => vec![bits(), buffer(), fault(19, set_leftover_bit)],
        PackedBytes => vec![bits()],
        _ => vec![],
    }
}

/// A symbol too large in a data cell or, if it is a check cell's, for that cell.
fn large_symbol(case: &mut Case, random: &mut Random) {
    let code = opened(&case.first);
    let cell = random.below(code.n);
    case.second[cell] = random.byte_from(code.symbol_limit(cell));
}

fn set_leftover_bit(case: &mut Case, random: &mut Random) {
    let bits: Vec<usize> = leftover(&opened(&case.first)).collect();
    case.second = with_bit(&case.second, random.pick(&bits));
}

/// The check cells of the sound codeword lie below M, so that there is room.
fn raise_last_check_cell(case: &mut Case, _: &mut Random) {
    *case.second.last_mut().expect("a word has a cell") += 1;
}

/// q no power of two, or only floor(q/M).
fn no_power_of_two(case: &mut Case, random: &mut Random) {
    let (field, value) = random.pick(&[(Q, 63), (Q, 48), (MODULUS, 21)]);
    case.first[field] = value;
}
