//! Numbers (document 02, wish 2): a code's message as one number, and back.
//!
//! The first symbol is the least significant, and a cell's radix is the limit of its symbols.

use super::code::Code;
use super::refuse;

/// A code with more messages than this has no numbers for them.
const MOST_MESSAGES: u128 = 1 << 63;

/// The product of the radices of the cells before this one. None when 128 bits do not hold it: 64 cells of 64 levels would take 384.
fn place_value(code: &Code, cell: usize) -> Option<u128> {
    (0..cell).map(|before| code.symbol_limit(before) as u128).try_fold(1, u128::checked_mul)
}

/// How many messages there are: the product of all radices, if it is at most 2^63.
pub fn messages(code: &Code) -> Option<u64> {
    place_value(code, code.n).filter(|&product| product <= MOST_MESSAGES).map(|product| product as u64)
}

/// Open a code for a message of this length: open; 8; 17. With it comes how many messages it has.
fn open(body: &[u8], length: usize) -> Result<(Code, u64), usize> {
    let code = Code::open(body)?;
    refuse(8, length != code.n)?;
    let messages = messages(&code).ok_or(17_usize)?;
    Ok((code, messages))
}

/// A message from its number: open; 8; 17; 18. From the last cell down, its place value is taken away as often as it goes.
pub fn message_of_number(body: &[u8], value: u64, out_length: usize) -> Result<Vec<u8>, usize> {
    let (code, messages) = open(body, out_length)?;
    refuse(18, value >= messages)?;
    let mut message = vec![0; code.n];
    let mut rest = u128::from(value);
    for cell in (0..code.n).rev() {
        let place = place_value(&code, cell).expect("at most the product of all radices");
        while rest >= place {
            rest -= place;
            message[cell] += 1;
        }
    }
    Ok(message)
}

/// The number of a message: open; 8; 17; 9. By Horner's rule, from the last symbol down.
pub fn number_of_message(body: &[u8], message: &[u8]) -> Result<u64, usize> {
    let (code, _) = open(body, message.len())?;
    refuse(9, code.has_large_symbol(message))?;
    Ok((0..code.n).rev().fold(0, |number, cell| number * code.symbol_limit(cell) as u64 + u64::from(message[cell])))
}
