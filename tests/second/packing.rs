//! Packing (document 01: bytes; document 02, wish 3: leftover bits): a code's message as bytes, and back.

use super::code::Code;
use super::refuse;

/// Open a code whose symbols are whole numbers of bits: open; 14.
fn open(body: &[u8]) -> Result<Code, usize> {
    let code = Code::open(body)?;
    refuse(14, !code.q.is_power_of_two() || !(code.q / code.modulus).is_power_of_two())?;
    Ok(code)
}

/// The bits of a cell's symbol.
fn symbol_bits(code: &Code, cell: usize) -> usize {
    code.symbol_limit(cell).ilog2() as usize
}

/// B, of a code whose symbols are whole numbers of bits.
pub fn bits(code: &Code) -> usize {
    (0..code.n).map(|cell| symbol_bits(code, cell)).sum()
}

/// ceil(B/8).
fn byte_count(code: &Code) -> usize {
    bits(code).div_ceil(8)
}

/// A message to bytes: open; 14; 8; 9.
pub fn pack(body: &[u8], message: &[u8], out_length: usize) -> Result<Vec<u8>, usize> {
    let code = open(body)?;
    refuse(8, message.len() != code.n || out_length != byte_count(&code))?;
    refuse(9, code.has_large_symbol(message))?;
    let symbol = |cell: usize| (0..symbol_bits(&code, cell)).map(move |bit| message[cell] >> bit & 1);
    let bits: Vec<u8> = (0..code.n).flat_map(symbol).collect();
    Ok(bits.chunks(8).map(number_of_bits).collect())
}

/// A message from bytes: open; 14; 8; 19. The bits that no symbol took are left over.
pub fn unpack(body: &[u8], bytes: &[u8], out_length: usize) -> Result<Vec<u8>, usize> {
    let code = open(body)?;
    refuse(8, bytes.len() != byte_count(&code) || out_length != code.n)?;
    let mut bits = bytes.iter().flat_map(|byte| (0..8).map(move |bit| byte >> bit & 1));
    let mut symbol = |cell: usize| number_of_bits(&bits.by_ref().take(symbol_bits(&code, cell)).collect::<Vec<u8>>());
    let message = (0..code.n).map(&mut symbol).collect();
    refuse(19, bits.any(|bit| bit == 1))?;
    Ok(message)
}

/// Lowest bit first.
fn number_of_bits(bits: &[u8]) -> u8 {
    bits.iter().rev().fold(0, |number, bit| number * 2 + bit)
}

/// The bytes of a packed message: open; 14.
pub fn packed_bytes(body: &[u8]) -> Result<usize, usize> {
    Ok(byte_count(&open(body)?))
}
