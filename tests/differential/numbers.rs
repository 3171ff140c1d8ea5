//! Cases of the numbers of messages (document 02, wish 2).

use crate::case::{Case, Operation};
use crate::codes::message;
use crate::generate::{body_of, made, Made};
use crate::order::other_length;
use crate::random::Random;
use crate::second::code::Code;
use crate::second::numbers;

/// The bound of 17, and numbers that are large for any code.
const LARGE: [u64; 3] = [(1 << 63) - 1, 1 << 63, u64::MAX];

/// n, r, q and M of codes, by the product of their radices.
const NOTABLE: [[usize; 4]; 25] = [
    // 2^63, with radix 1 and with two radices too.
    [63, 0, 2, 2],
    [64, 1, 2, 2],
    [21, 0, 8, 8],
    [11, 1, 64, 8],
    [13, 3, 64, 32],
    // The most below 2^63, and other products not far below.
    [12, 1, 45, 7],
    [13, 3, 46, 7],
    [39, 0, 3, 3],
    [27, 0, 5, 5],
    [11, 1, 64, 9],
    // The least above 2^63, and others that 64 bits still hold.
    [18, 10, 25, 4],
    [20, 12, 21, 4],
    [40, 0, 3, 3],
    [11, 1, 64, 7],
    // 0 modulo 2^64.
    [64, 0, 2, 2],
    [11, 0, 64, 64],
    [64, 0, 64, 64],
    [64, 12, 64, 2],
    // Small modulo 2^64.
    [28, 0, 5, 5],
    [28, 1, 63, 22],
    [19, 11, 28, 5],
    [25, 6, 43, 5],
    // 2^63 modulo 2^64.
    [15, 3, 32, 3],
    [21, 0, 24, 2],
    [21, 0, 40, 2],
];

/// Calls for each notable code.
pub fn notable_cases(random: &mut Random) -> Vec<Made> {
    let mut cases = Vec::new();
    for [n, r, q, modulus] in NOTABLE {
        let body = body_of([n, r, q, modulus, 1, 0], random);
        let code = Code::open(&body).expect("a sound description");
        cases.extend(cases_of(&body, &code, random));
    }
    cases
}

/// Numbers and messages of a code that opens; some buffers of a wrong length.
pub fn cases_of(body: &[u8], code: &Code, random: &mut Random) -> Vec<Made> {
    let mut cases = Vec::new();
    for value in values(code, random) {
        let length = some_length(code, random);
        cases.push(made(Case::with(Operation::MessageOfNumber, body, &[], length).numbered(value as usize)));
    }
    for mut message in messages(code, random) {
        message.resize(some_length(code, random), 0);
        cases.push(made(Case::with(Operation::NumberOfMessage, body, &message, 0)));
    }
    cases
}

/// n, mostly.
fn some_length(code: &Code, random: &mut Random) -> usize {
    if random.one_in(8) {
        other_length(code.n, random)
    } else {
        code.n
    }
}

/// Numbers below the product of the radices, if it is at most 2^63, and on both sides of it; numbers of any size.
fn values(code: &Code, random: &mut Random) -> Vec<u64> {
    let mut values = vec![0, random.below(usize::MAX) as u64];
    values.extend(LARGE);
    if let Some(product) = numbers::messages(code) {
        values.extend([product - 1, product, product + 1]);
        values.extend([(); 3].map(|()| random.below(product as usize) as u64));
    }
    values
}

/// A message at random, the one of the largest number, and each with a symbol too large.
fn messages(code: &Code, random: &mut Random) -> Vec<Vec<u8>> {
    let last = (0..code.n).map(|cell| code.symbol_limit(cell) as u8 - 1).collect();
    let sound = vec![message(code, random), last];
    let spoiled: Vec<Vec<u8>> = sound.iter().map(|message| with_large_symbol(code, message, random)).collect();
    [sound, spoiled].concat()
}

/// A symbol that is too large for its cell; for a check cell perhaps not for the others.
fn with_large_symbol(code: &Code, message: &[u8], random: &mut Random) -> Vec<u8> {
    let mut spoiled = message.to_vec();
    let cell = random.below(code.n);
    spoiled[cell] = random.pick(&[code.symbol_limit(cell), code.q, 64, 255]) as u8;
    spoiled
}
