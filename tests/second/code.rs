//! Codes (document 01: plans) and their operations.

use super::pattern::{self, Pattern};
use super::{cells_that_differ, refuse, refused, Decoded, Refused};
use std::collections::HashSet;

const MOST_PATTERNS: u64 = 4096;
const MOST_CHECK_CELLS: usize = 12;

/// An opened description (plan body). The letters are document 01's; `modulus` is M.
#[derive(Clone, Debug)]
pub struct Code {
    pub n: usize,
    pub r: usize,
    pub q: usize,
    pub modulus: usize,
    pub l: usize,
    pub t: usize,
    /// r rows of n - r entries, row by row.
    pub matrix: Vec<u8>,
}

impl Code {
    /// Open a description (open a plan): 1, 2, 3, 4, 5.
    pub fn open(body: &[u8]) -> Result<Code, usize> {
        refuse(1, body.len() < 6)?;
        let field = |place: usize| usize::from(body[place]);
        let (n, r, q, modulus, l, t) = (field(0), field(1), field(2), field(3), field(4), field(5));
        let code = Code { n, r, q, modulus, l, t, matrix: body[6..].to_vec() };
        refuse(2, !code.in_range())?;
        refuse(3, code.matrix.len() != code.entries())?;
        refuse(4, code.has_large_entry())?;
        refuse(5, code.has_too_many_patterns())?;
        Ok(code)
    }

    /// Are the six fields in their ranges?
    pub fn in_range(&self) -> bool {
        (1..=64).contains(&self.n)
            && self.r <= MOST_CHECK_CELLS
            && self.r < self.n
            && (2..=64).contains(&self.q)
            && (2..=self.q).contains(&self.modulus)
            && (1..self.modulus).contains(&self.l)
            && self.t <= 3
            && self.t <= self.n
    }

    /// The number of entries that the matrix must have.
    pub fn entries(&self) -> usize {
        self.r * self.data()
    }

    pub fn has_large_entry(&self) -> bool {
        self.matrix.iter().any(|&entry| usize::from(entry) >= self.modulus)
    }

    /// P.
    pub fn pattern_count(&self) -> u64 {
        pattern::count(self.n, self.l, self.t)
    }

    pub fn has_too_many_patterns(&self) -> bool {
        self.pattern_count() > MOST_PATTERNS
    }

    /// The number of cells before the check cells.
    pub fn data(&self) -> usize {
        self.n - self.r
    }

    /// Check cells of a codeword stay below this: M times floor(q/M).
    pub fn ceiling(&self) -> usize {
        self.modulus * (self.q / self.modulus)
    }

    fn entry(&self, k: usize, j: usize) -> usize {
        usize::from(self.matrix[k * self.data() + j])
    }

    /// Entry k of the syndrome (residue k), counted from 0.
    pub fn residue(&self, k: usize, word: &[u8]) -> usize {
        let sum: usize = (0..self.data()).map(|j| self.entry(k, j) * usize::from(word[j])).sum();
        (sum + usize::from(word[self.data() + k])) % self.modulus
    }

    /// A word of n levels below q, all residues 0, each check cell below the ceiling.
    pub fn is_codeword(&self, word: &[u8]) -> bool {
        word.len() == self.n
            && word.iter().all(|&level| usize::from(level) < self.q)
            && word[self.data()..].iter().all(|&level| usize::from(level) < self.ceiling())
            && (0..self.r).all(|k| self.residue(k, word) == 0)
    }

    /// The residues of a pattern, taken as a word. A cell of magnitude e adds e times its column.
    fn pattern_residues(&self, pattern: &Pattern) -> [usize; MOST_CHECK_CELLS] {
        let mut residues = [0; MOST_CHECK_CELLS];
        for &(cell, magnitude) in pattern.risen() {
            for (k, residue) in residues.iter_mut().enumerate().take(self.r) {
                let column_entry = if cell < self.data() { self.entry(k, cell) } else { usize::from(cell == self.data() + k) };
                *residue = (*residue + magnitude * column_entry) % self.modulus;
            }
        }
        residues
    }

    /// Do the pattern's residues equal the word's? Circular reading asks this.
    #[allow(dead_code)]
    pub fn has_residues(&self, pattern: &Pattern, word: &[u8]) -> bool {
        let residues = self.pattern_residues(pattern);
        (0..self.r).all(|k| residues[k] == self.residue(k, word))
    }

    /// No two different patterns have all residues equal.
    pub fn accepted(&self) -> bool {
        let mut seen = HashSet::new();
        pattern::all(self.n, self.l, self.t).iter().all(|pattern| seen.insert(self.pattern_residues(pattern)))
    }

    /// The first word within reach, in the order of patterns, that is a codeword.
    fn first_codeword_within_reach(&self, word: &[u8]) -> Option<Vec<u8>> {
        let mut candidate = word.to_vec();
        for pattern in pattern::all(self.n, self.l, self.t).iter() {
            if pattern.risen().iter().any(|&(cell, magnitude)| magnitude > usize::from(word[cell])) {
                continue;
            }
            for &(cell, magnitude) in pattern.risen() {
                candidate[cell] = word[cell] - magnitude as u8;
            }
            if self.is_codeword(&candidate) {
                return Some(candidate);
            }
            for &(cell, _) in pattern.risen() {
                candidate[cell] = word[cell];
            }
        }
        None
    }

    /// Symbols of cell i's place in a message stay below this.
    pub fn symbol_limit(&self, cell: usize) -> usize {
        if cell < self.data() {
            self.q
        } else {
            self.q / self.modulus
        }
    }

    pub fn has_large_symbol(&self, message: &[u8]) -> bool {
        (0..self.n).any(|cell| usize::from(message[cell]) >= self.symbol_limit(cell))
    }

    /// The codeword that carries a message: for each check cell the level with its symbol whose residue is 0.
    pub fn encoded(&self, message: &[u8]) -> Vec<u8> {
        let mut word = message.to_vec();
        for k in 0..self.r {
            let cell = self.data() + k;
            let lowest = usize::from(message[cell]) * self.modulus;
            for level in lowest..lowest + self.modulus {
                word[cell] = level as u8;
                if self.residue(k, &word) == 0 {
                    break;
                }
            }
        }
        word
    }

    fn has_large_level(&self, word: &[u8]) -> bool {
        word.iter().any(|&level| usize::from(level) >= self.q)
    }
}

/// Test a code: open; 6.
pub fn test(body: &[u8]) -> Result<(), usize> {
    refuse(6, !Code::open(body)?.accepted())
}

/// Encode (write): open; 8; 9.
pub fn encode(body: &[u8], message: &[u8], out_length: usize) -> Result<Vec<u8>, usize> {
    let code = Code::open(body)?;
    refuse(8, message.len() != code.n || out_length != code.n)?;
    refuse(9, code.has_large_symbol(message))?;
    Ok(code.encoded(message))
}

/// Decode (read): open; 8; 10; 11.
pub fn decode(body: &[u8], word: &[u8], out_length: usize) -> Result<Decoded, Refused> {
    let code = Code::open(body).map_err(refused)?;
    refuse(8, word.len() != code.n || out_length != code.n).map_err(refused)?;
    refuse(10, code.has_large_level(word)).map_err(refused)?;
    let decoded = code.first_codeword_within_reach(word).ok_or(refused(11))?;
    Ok(Decoded { count: cells_that_differ(word, &decoded), word: decoded })
}

/// Tried (document 02, wish 1): the place of the pattern that was subtracted from `word` where `decoded` was given back.
pub fn tried(body: &[u8], word: &[u8], decoded: &[u8]) -> usize {
    let code = Code::open(body).expect("a description that opens, since a word was given back");
    pattern::place(code.n, code.l, code.t, &Pattern::between(word, decoded))
}

/// Recover a message: open; 8; 10; 12.
pub fn recover(body: &[u8], word: &[u8], out_length: usize) -> Result<Vec<u8>, usize> {
    let code = Code::open(body)?;
    refuse(8, word.len() != code.n || out_length != code.n)?;
    refuse(10, code.has_large_level(word))?;
    refuse(12, !code.is_codeword(word))?;
    let symbol = |cell: usize| if cell < code.data() { word[cell] } else { word[cell] / code.modulus as u8 };
    Ok((0..code.n).map(symbol).collect())
}

/// n, or the number that opening refuses with.
pub fn cells(body: &[u8]) -> Result<usize, usize> {
    Ok(Code::open(body)?.n)
}
