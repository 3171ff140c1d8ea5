//! Stacks of digit planes (document 001: bit-fixing codes) and their operations.

use super::code::Code;
use super::pattern::{self, Pattern};
use super::{cells_that_differ, refuse, refused, Decoded, Refused};

/// A plane is a code with q = M = c and l = c - 1.
#[derive(Clone, Debug)]
pub struct Plane {
    pub code: Code,
    /// The place value (document 01: weight) w of the plane's digit.
    pub place: usize,
}

#[derive(Clone, Debug)]
pub struct Stack {
    pub n: usize,
    /// The product of all c.
    pub q: usize,
    pub planes: Vec<Plane>,
}

impl Plane {
    /// Open the plane at the head of `rest` and step behind it: 1, 2, 3, 4, 5.
    fn open(n: usize, place: usize, rest: &mut &[u8]) -> Result<Plane, usize> {
        refuse(1, rest.len() < 3)?;
        let (c, r, t) = (usize::from(rest[0]), usize::from(rest[1]), usize::from(rest[2]));
        let mut code = Code { n, r, q: c, modulus: c, l: c.saturating_sub(1), t, matrix: Vec::new() };
        refuse(2, !code.in_range())?;
        let behind = 3 + code.entries();
        refuse(3, rest.len() < behind)?;
        code.matrix = rest[3..behind].to_vec();
        refuse(4, code.has_large_entry())?;
        refuse(5, code.has_too_many_patterns())?;
        *rest = &rest[behind..];
        Ok(Plane { code, place })
    }

    fn digit(&self, level: u8) -> u8 {
        (usize::from(level) / self.place % self.code.q) as u8
    }

    pub fn digits(&self, levels: &[u8]) -> Vec<u8> {
        levels.iter().map(|&level| self.digit(level)).collect()
    }

    /// The first pattern whose subtraction, modulo c, turns the digits into a codeword of the plane.
    fn first_pattern(&self, digits: &[u8]) -> Option<Pattern> {
        let (n, l, t) = (self.code.n, self.code.l, self.code.t);
        let mends = |pattern: &&Pattern| {
            let mut candidate = digits.to_vec();
            lower(&mut candidate, pattern, 1, self.code.q);
            self.code.is_codeword(&candidate)
        };
        pattern::all(n, l, t).iter().find(mends).copied()
    }
}

/// Lower each level by magnitude times place, modulo q.
fn lower(levels: &mut [u8], pattern: &Pattern, place: usize, q: usize) {
    for &(cell, magnitude) in pattern.risen() {
        let fall = magnitude * place % q;
        levels[cell] = ((usize::from(levels[cell]) + q - fall) % q) as u8;
    }
}

impl Stack {
    /// Open a stack. A refusal found in a plane says which: document 01 returns the number only, the tests want both.
    pub fn open_and_locate(body: &[u8]) -> Result<Stack, Refused> {
        refuse(1, body.len() < 2).map_err(refused)?;
        let (n, m) = (usize::from(body[0]), usize::from(body[1]));
        refuse(2, !(1..=64).contains(&n) || !(1..=6).contains(&m)).map_err(refused)?;
        let mut rest = &body[2..];
        let mut planes = Vec::new();
        let mut place = 1;
        for j in 0..m {
            let plane = Plane::open(n, place, &mut rest).map_err(|number| Refused { number, plane: Some(j) })?;
            place *= plane.code.q;
            planes.push(plane);
        }
        refuse(3, !rest.is_empty()).map_err(refused)?;
        refuse(7, place > 64).map_err(refused)?;
        Ok(Stack { n, q: place, planes })
    }

    /// Open a stack: 1, 2; in each plane 1, 2, 3, 4, 5; 3, 7.
    pub fn open(body: &[u8]) -> Result<Stack, usize> {
        Stack::open_and_locate(body).map_err(|refused| refused.number)
    }

    pub fn accepted(&self) -> bool {
        self.planes.iter().all(|plane| plane.code.accepted())
    }

    pub fn is_codeword(&self, word: &[u8]) -> bool {
        self.planes.iter().all(|plane| plane.code.is_codeword(&plane.digits(word)))
    }

    /// The length of a message: n - r digits for each plane.
    pub fn symbols(&self) -> usize {
        self.planes.iter().map(|plane| plane.code.data()).sum()
    }

    fn has_large_level(&self, word: &[u8]) -> bool {
        word.iter().any(|&level| usize::from(level) >= self.q)
    }

    /// A message's digits, plane by plane.
    fn messages<'a>(&'a self, message: &'a [u8]) -> impl Iterator<Item = (&'a Plane, &'a [u8])> {
        let mut rest = message;
        self.planes.iter().map(move |plane| {
            let (digits, behind) = rest.split_at(plane.code.data());
            rest = behind;
            (plane, digits)
        })
    }

    fn has_large_symbol(&self, message: &[u8]) -> bool {
        self.messages(message).any(|(plane, digits)| digits.iter().any(|&digit| usize::from(digit) >= plane.code.q))
    }
}

/// Test a stack: open; 6 for any plane.
pub fn test(body: &[u8]) -> Result<(), usize> {
    refuse(6, !Stack::open(body)?.accepted())
}

/// Encode (write): open; 8; 9.
pub fn encode(body: &[u8], message: &[u8], out_length: usize) -> Result<Vec<u8>, usize> {
    let stack = Stack::open(body)?;
    refuse(8, message.len() != stack.symbols() || out_length != stack.n)?;
    refuse(9, stack.has_large_symbol(message))?;
    let mut word = vec![0; stack.n];
    for (plane, digits) in stack.messages(message) {
        let whole = [digits, &vec![0; plane.code.r]].concat();
        for (level, digit) in word.iter_mut().zip(plane.code.encoded(&whole)) {
            *level += digit * plane.place as u8;
        }
    }
    Ok(word)
}

/// Decode (read), plane 0 first: open; 8; 10; 11 with the plane.
pub fn decode(body: &[u8], word: &[u8], out_length: usize) -> Result<Decoded, Refused> {
    let stack = Stack::open(body).map_err(refused)?;
    refuse(8, word.len() != stack.n || out_length != stack.n).map_err(refused)?;
    refuse(10, stack.has_large_level(word)).map_err(refused)?;
    let mut levels = word.to_vec();
    for (j, plane) in stack.planes.iter().enumerate() {
        let none = Refused { number: 11, plane: Some(j) };
        let pattern = plane.first_pattern(&plane.digits(&levels)).ok_or(none)?;
        lower(&mut levels, &pattern, plane.place, stack.q);
    }
    Ok(Decoded { count: cells_that_differ(word, &levels), word: levels })
}

/// Recover a message: open; 8; 10; 12.
pub fn recover(body: &[u8], word: &[u8], out_length: usize) -> Result<Vec<u8>, usize> {
    let stack = Stack::open(body)?;
    refuse(8, word.len() != stack.n || out_length != stack.symbols())?;
    refuse(10, stack.has_large_level(word))?;
    refuse(12, !stack.is_codeword(word))?;
    Ok(stack.planes.iter().flat_map(|plane| plane.digits(&word[..plane.code.data()])).collect())
}

/// n, or the number that opening refuses with.
pub fn cells(body: &[u8]) -> Result<usize, usize> {
    Ok(Stack::open(body)?.n)
}

/// The length of a message, or the number that opening refuses with.
pub fn symbols(body: &[u8]) -> Result<usize, usize> {
    Ok(Stack::open(body)?.symbols())
}
