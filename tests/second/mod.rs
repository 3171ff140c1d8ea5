//! A second implementation of document 01, written from its words and document 02's alone, to compare the library with.
//!
//! It decides by distance where it can: to decode, it tries the words within reach one after another and asks of each
//! whether it is a codeword. It is slow and plain on purpose. Every operation gives document 01's answer: what is
//! written to the output, or the refusal's number. Each takes the length of the lent output, since 8 depends on it.

// Only the tool circular_rows reads so.
#[allow(dead_code)]
pub mod circular;
pub mod code;
pub mod distance;
pub mod golay;
pub mod image;
pub mod labeling;
pub mod listing;
pub mod numbers;
pub mod packing;
pub mod pattern;
pub mod stack;

/// A word that decoding gave back, and the cells in which it differs from the received word.
#[derive(Clone, Debug, PartialEq, Eq)]
pub struct Decoded {
    pub word: Vec<u8>,
    pub count: usize,
}

/// A refusal's number; the plane where there is one.
#[derive(Clone, Copy, Debug, PartialEq, Eq)]
pub struct Refused {
    pub number: usize,
    pub plane: Option<usize>,
}

/// A refusal that has no plane.
pub fn refused(number: usize) -> Refused {
    Refused { number, plane: None }
}

/// Refuse with `number` when the case is present; a list of these reads like document 01's lists.
pub fn refuse(number: usize, when: bool) -> Result<(), usize> {
    if when {
        Err(number)
    } else {
        Ok(())
    }
}

/// The number of cells in which two words differ.
pub fn cells_that_differ(one: &[u8], other: &[u8]) -> usize {
    one.iter().zip(other).filter(|(a, b)| a != b).count()
}
