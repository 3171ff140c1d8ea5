//! Decoding by a table of the 23-cell binary Golay code: what the benchmark compares the library's table with.

/// x^11 + x^9 + x^7 + x^6 + x^5 + x + 1, a bit to a coefficient.
const GENERATOR: u32 = 0b1010_1110_0011;

/// What is left of a polynomial of degree below 23, over the field of two elements, divided by the generator.
pub const fn remainder(mut polynomial: u32) -> u32 {
    let mut power = 22;
    while power >= 11 {
        if polynomial >> power & 1 == 1 {
            polynomial ^= GENERATOR << (power - 11);
        }
        power -= 1;
    }
    polynomial
}

/// Of cell j, from 1, the remainder of x^(23 - j).
static COLUMNS: [u16; 23] = columns();

const fn columns() -> [u16; 23] {
    let mut columns = [0; 23];
    let mut i = 0;
    while i < 23 {
        columns[i] = remainder(1 << (22 - i)) as u16;
        i += 1;
    }
    columns
}

/// Of each remainder the pattern of at most three cells that has it; cell j is bit 23 - j.
static PATTERNS: [u32; 2048] = patterns();

const fn patterns() -> [u32; 2048] {
    let mut patterns = [0; 2048];
    let mut pattern: u32 = 0;
    while pattern < 1 << 23 {
        patterns[remainder(pattern) as usize] = pattern;
        // The next number with at most three ones: with three, all numbers before the lowest of them is carried have more.
        pattern += if pattern.count_ones() < 3 { 1 } else { 1 << pattern.trailing_zeros() };
    }
    patterns
}

/// The count, or the refusal's number. As one first writes it: each step is a pass over all 23 cells.
#[inline(never)] // Called, as the boundary is.
pub fn decode(q: usize, word: &[u8], out: &mut [u8]) -> Result<usize, usize> {
    if !(2..=64).contains(&q) || q % 2 != 0 {
        return Err(2);
    }
    if word.len() != 23 || out.len() != 23 {
        return Err(8);
    }
    if word.iter().any(|&level| level as usize >= q) {
        return Err(10);
    }
    let mut index = 0;
    for (&level, &column) in word.iter().zip(&COLUMNS) {
        if level % 2 == 1 {
            index ^= column;
        }
    }
    let pattern = PATTERNS[index as usize];
    let rises = (0..23).rev().map(|bit| (pattern >> bit & 1) as u8);
    if word.iter().zip(rises.clone()).any(|(&level, rise)| level < rise) {
        return Err(11);
    }
    for ((lowered, &level), rise) in out.iter_mut().zip(word).zip(rises) {
        *lowered = level - rise;
    }
    Ok(pattern.count_ones() as usize)
}

/// The cells of a pattern, from 0, the last first.
fn cells(mut pattern: u32) -> impl Iterator<Item = usize> {
    std::iter::from_fn(move || {
        let bit = pattern.trailing_zeros() as usize;
        pattern &= pattern.wrapping_sub(1);
        22usize.checked_sub(bit)
    })
}

/// The columns of the cells with an odd level, added.
#[inline(never)] // Inlined it is slower.
fn index(word: &[u8; 23]) -> u16 {
    word.iter().zip(&COLUMNS).fold(0, |index, (&level, &column)| index ^ column * (level & 1) as u16)
}

/// The same, tuned: no pass ends early, so that it runs on many cells at a time, and then only the risen cells are visited.
#[inline(never)]
pub fn decode_tuned(q: usize, word: &[u8], out: &mut [u8]) -> Result<usize, usize> {
    if !(2..=64).contains(&q) || q % 2 != 0 {
        return Err(2);
    }
    let (Ok(word), Ok(out)) = (<&[u8; 23]>::try_from(word), <&mut [u8; 23]>::try_from(out)) else {
        return Err(8);
    };
    if word.iter().fold(false, |above, &level| above | (level >= q as u8)) {
        return Err(10);
    }
    let pattern = PATTERNS[index(word) as usize];
    if cells(pattern).any(|cell| word[cell] == 0) {
        return Err(11);
    }
    *out = *word;
    let mut count = 0;
    for cell in cells(pattern) {
        out[cell] -= 1;
        count += 1;
    }
    Ok(count)
}

/// What liquid-dsp encodes.
pub const MESSAGE: u32 = 0b1010_0110_1101;

/// liquid-dsp's Golay code of 24 bits. It has no levels, so it decodes what the others refuse.
#[cfg(liquid)]
pub mod liquid {
    extern "C" {
        fn fec_golay2412_encode_symbol(message: u32) -> u32;
        fn fec_golay2412_decode_symbol(received: u32) -> u32;
    }

    /// The message encoded, with the bits of the pattern wrong.
    pub fn received(pattern: u32) -> u32 {
        unsafe { fec_golay2412_encode_symbol(super::MESSAGE) ^ pattern }
    }

    /// The message.
    pub fn decode(received: u32) -> u32 {
        unsafe { fec_golay2412_decode_symbol(received) }
    }
}

/// In its place where it is not installed.
#[cfg(not(liquid))]
pub mod liquid {
    pub fn received(_: u32) -> u32 {
        0
    }

    pub fn decode(_: u32) -> u32 {
        super::MESSAGE
    }
}
