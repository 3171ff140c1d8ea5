//! Cases of packed messages, and of bytes in which a leftover bit is set (document 02, wish 3).

use crate::case::{Case, Operation};
use crate::codes::message;
use crate::generate::{made, Made};
use crate::order::wrong_length;
use crate::random::Random;
use crate::second::code::Code;
use crate::second::packing;
use std::ops::Range;

/// The bits of the last byte that no symbol has. They are none when B is a multiple of 8.
pub fn leftover(code: &Code) -> Range<usize> {
    let bits = packing::bits(code);
    bits..bits.next_multiple_of(8)
}

/// The bytes with that bit set.
pub fn with_bit(bytes: &[u8], bit: usize) -> Vec<u8> {
    let mut set = bytes.to_vec();
    set[bit / 8] |= 1 << (bit % 8);
    set
}

pub fn byte_count(body: &[u8]) -> usize {
    packing::packed_bytes(body).expect("symbols of whole bits")
}

/// The bytes of a message, by the second implementation.
pub fn bytes_of(body: &[u8], message: &[u8]) -> Vec<u8> {
    packing::pack(body, message, byte_count(body)).expect("a sound message")
}

/// n, r, q and M of every code with symbols of whole bits, but of the moduli with one floor(q/M) only the least.
pub fn every_shape() -> Vec<[usize; 4]> {
    let mut shapes = Vec::new();
    for q in [2_usize, 4, 8, 16, 32, 64] {
        for modulus in (2..=q).filter(|modulus| (q / modulus).is_power_of_two() && q / modulus < q / (modulus - 1)) {
            for r in 0..=12 {
                shapes.extend((r + 1..=64).map(|n| [n, r, q, modulus]));
            }
        }
    }
    shapes
}

/// Calls for a code that opens: a message packed, its bytes unpacked, each leftover bit of these set alone, and bytes at random.
/// Some buffers have a wrong length.
pub fn cases_of(body: &[u8], code: &Code, random: &mut Random) -> Vec<Made> {
    use Operation::*;
    let message = message(code, random);
    let Ok(length) = packing::packed_bytes(body) else {
        return vec![made(Case::with(Pack, body, &message, 1)), made(Case::with(Unpack, body, &random.bytes(1, 256), code.n))];
    };
    let packed = bytes_of(body, &message);
    let mut inputs = vec![packed.clone(), random.bytes(length, 256)];
    inputs.extend(leftover(code).map(|bit| with_bit(&packed, bit)));
    let mut cases = vec![Case::with(Pack, body, &message, length)];
    cases.extend(inputs.iter().map(|bytes| Case::with(Unpack, body, bytes, code.n)));
    for case in &mut cases {
        if random.one_in(8) {
            wrong_length(case, random);
        }
    }
    cases.into_iter().map(made).collect()
}
