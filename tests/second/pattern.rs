//! Error patterns (document 01: patterns): which cells rose, and by how much.

use std::cell::RefCell;
use std::collections::HashMap;
use std::rc::Rc;

/// At most this many cells may rise in any code.
const MOST_RISEN: usize = 3;

/// The risen cells from the first upward, each with its magnitude (rise). Cells count from 0 here.
///
/// The derived order is document 01's: fewer risen cells first, then the smaller first cell, its smaller magnitude, the
/// smaller second cell, and so on. Places without a cell are (0, 0) and do not matter between patterns of one weight.
#[derive(Clone, Copy, Debug, PartialEq, Eq, PartialOrd, Ord)]
pub struct Pattern {
    weight: usize,
    risen: [(usize, usize); MOST_RISEN],
}

impl Pattern {
    const EMPTY: Pattern = Pattern { weight: 0, risen: [(0, 0); MOST_RISEN] };

    /// The risen cells with their magnitudes.
    pub fn risen(&self) -> &[(usize, usize)] {
        &self.risen[..self.weight]
    }

    fn with(mut self, cell: usize, magnitude: usize) -> Pattern {
        self.risen[self.weight] = (cell, magnitude);
        self.weight += 1;
        self
    }

    /// The pattern whose subtraction from `word` is `lower`.
    pub fn between(word: &[u8], lower: &[u8]) -> Pattern {
        let fall = |(above, below): (&u8, &u8)| usize::from(above - below);
        let falls = word.iter().zip(lower).map(fall).enumerate();
        falls.filter(|&(_, fall)| fall > 0).fold(Pattern::EMPTY, |pattern, (cell, fall)| pattern.with(cell, fall))
    }

    fn first_free_cell(&self) -> usize {
        self.risen().last().map_or(0, |(cell, _)| cell + 1)
    }
}

/// P: the sum over i = 0..t of the ways to choose i of n cells times l to the power i.
pub fn count(n: usize, l: usize, t: usize) -> u64 {
    (0..=t).map(|i| ways_to_choose(n, i) * (l as u64).pow(i as u32)).sum()
}

fn ways_to_choose(n: usize, i: usize) -> u64 {
    (0..i).fold(1, |ways, k| ways * (n - k) as u64 / (k as u64 + 1))
}

/// Lists of patterns by n, l and t.
type Lists = HashMap<(usize, usize, usize), Rc<Vec<Pattern>>>;

/// All patterns of n cells, magnitudes up to l and at most t risen cells, in document 01's order.
pub fn all(n: usize, l: usize, t: usize) -> Rc<Vec<Pattern>> {
    thread_local! {
        // Listing and sorting takes far longer than reading the list, and most calls repeat earlier parameters.
        static LISTED: RefCell<Lists> = RefCell::new(Lists::new());
    }
    LISTED.with(|listed| listed.borrow_mut().entry((n, l, t)).or_insert_with(|| Rc::new(list(n, l, t))).clone())
}

/// The place of a pattern, counted from 1, in document 01's order.
pub fn place(n: usize, l: usize, t: usize, pattern: &Pattern) -> usize {
    all(n, l, t).binary_search(pattern).expect("a pattern of these") + 1
}

fn list(n: usize, l: usize, t: usize) -> Vec<Pattern> {
    let mut patterns = vec![Pattern::EMPTY];
    let mut extended = 0;
    while extended < patterns.len() {
        let shorter = patterns[extended];
        if shorter.weight < t {
            for cell in shorter.first_free_cell()..n {
                patterns.extend((1..=l).map(|magnitude| shorter.with(cell, magnitude)));
            }
        }
        extended += 1;
    }
    patterns.sort();
    patterns
}
