//! Circular reading, as the customer describes LEVELS: the first pattern with the row's residues, lowered modulo q.

use super::code::Code;
use super::{cells_that_differ, pattern, refuse, refused, Decoded, Refused};

/// Decode a word of a code circularly: open; 8; 10; 11.
pub fn decode(body: &[u8], word: &[u8]) -> Result<Decoded, Refused> {
    let code = Code::open(body).map_err(refused)?;
    refuse(8, word.len() != code.n).map_err(refused)?;
    refuse(10, word.iter().any(|&level| usize::from(level) >= code.q)).map_err(refused)?;
    let patterns = pattern::all(code.n, code.l, code.t);
    let found = patterns.iter().find(|pattern| code.has_residues(pattern, word)).ok_or(refused(11))?;
    let mut lowered = word.to_vec();
    for &(cell, magnitude) in found.risen() {
        lowered[cell] = ((usize::from(word[cell]) + code.q - magnitude) % code.q) as u8;
    }
    Ok(Decoded { count: cells_that_differ(word, &lowered), word: lowered })
}
