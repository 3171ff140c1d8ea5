//! Cases of the table reader of the binary Golay code, and of what the search reads with that code's description.

use crate::case::{Case, Operation};
use crate::codes::{message, raised};
use crate::fingerkerf::{self, Reading};
use crate::generate::{made, Made};
use crate::memory::FILL;
use crate::order::must_answer;
use crate::random::Random;
use crate::second::code::Code;
use crate::second::golay::{self, CELLS};
use crate::tester::{fail, Tester};
use std::collections::BTreeMap;

pub const FOUR_CELLS: &str = "four cells of the Golay code risen";
pub const BELOW_ZERO: &str = "a cell of the Golay code at 0 that would have to be lowered";

/// Codewords made for each number of levels.
const CODEWORDS: usize = 25;
/// Lengths of which only one is right. The last must not pass for it.
const LENGTHS: [usize; 5] = [0, CELLS - 1, CELLS, CELLS + 1, CELLS + 256];

/// Numbers of levels that are even and in range modulo 2^8, 2^16, 2^32 or 2^63, or that are negative as signed ones; and the largest.
pub const LARGE: [usize; 11] = [
    256 + 8,
    512 + 64,
    65_536 + 8,
    (1 << 32) + 8,
    (1 << 32) + 64,
    (1 << 63) - 2,
    1 << 63,
    (1 << 63) + 8,
    usize::MAX - 7,
    usize::MAX - 1,
    usize::MAX,
];

/// Number and count of every outcome that each number of levels has.
const OUTCOMES: [(usize, usize); 7] = [(0, 0), (0, 1), (0, 2), (0, 3), (8, 0), (10, 0), (11, 0)];

/// Every number of levels that is not refused.
pub fn numbers_of_levels() -> impl Iterator<Item = usize> {
    (2..=64).step_by(2)
}

pub fn run(tester: &mut Tester, random: &mut Random) {
    let mut reached = BTreeMap::new();
    for q in numbers_of_levels() {
        let cases = cases_of(q, random);
        tester.run_all(&cases);
        for Made { case, .. } in &cases {
            *reached.entry((q, same_as_search(case))).or_insert(0) += 1;
        }
    }
    let times = |outcome| numbers_of_levels().map(move |q| (q, outcome)).map(|of| reached.get(&of).copied().unwrap_or(0));
    let least = OUTCOMES.map(|outcome| times(outcome).min().unwrap_or(0));
    let calls: usize = reached.values().sum();
    println!("Golay code, table and search: {calls} calls alike; {} numbers of levels", numbers_of_levels().count());
    println!("Golay code, for each number of levels at least: counts 0 to 3 {:?}, 8, 10 and 11 {:?}", &least[..4], &least[4..]);
    assert!(least.iter().all(|&times| times > 0), "an outcome never reached with some number of levels");
    println!("Golay code, numbers of levels refused 2: {}", every_number_of_levels(tester));
}

/// Read by the table and by the search, the word must leave the same answer, `tried` apart, and the same output. Gives number and count.
fn same_as_search(case: &Case) -> (usize, usize) {
    let (mut by_table, mut by_search) = (vec![FILL; case.out_length], vec![FILL; case.out_length]);
    let table = fingerkerf::decode_golay(case.number, &case.second, &mut by_table);
    let search = fingerkerf::decode(&golay::body(case.number), &case.second, &mut by_search);
    if table != (Reading { tried: 0, ..search }) || by_table != by_search {
        fail(case, &format!("by the table {table:?} {by_table:?}\nby the search {search:?} {by_search:?}"));
    }
    (table.number, table.count)
}

/// Every small number of levels and large ones, with a word that all take, with a level too large, and with wrong lengths. Gives how many
/// are refused.
fn every_number_of_levels(tester: &mut Tester) -> usize {
    let mut refused = 0;
    for q in (0..=260).chain(LARGE) {
        let taken = numbers_of_levels().any(|taken| taken == q);
        let mut answers = |word: &[u8], out_length: usize, label: &str| {
            let label = if taken { label } else { "2" };
            must_answer(tester, &case_of(q, word, out_length), label);
        };
        answers(&[0; CELLS], CELLS, "done");
        answers(&[255; CELLS], CELLS, "10");
        answers(&[0; CELLS], CELLS + 1, "8");
        answers(&[255; CELLS - 1], CELLS, "8");
        refused += usize::from(!taken);
    }
    refused
}

pub fn code_of(q: usize) -> Code {
    Code::open(&golay::body(q)).expect("a sound description")
}

/// A codeword at random; for one time in two with few levels above 1, so that many cells are at 0.
pub fn codeword(code: &Code, random: &mut Random) -> Vec<u8> {
    if random.one_in(2) {
        return code.encoded(&message(code, random));
    }
    let mut message = [random.bytes(code.data(), 2), vec![0; code.r]].concat();
    message[random.below(code.data())] = random.below(code.q) as u8;
    code.encoded(&message)
}

/// Words for a number of levels, at random.
pub fn cases(random: &mut Random) -> Vec<Made> {
    words(&code_of(2 * random.between(1, 32)), random)
}

/// Words within reach and beyond it, then such words in buffers of a wrong length and with a level too large.
fn cases_of(q: usize, random: &mut Random) -> Vec<Made> {
    let code = code_of(q);
    let mut cases: Vec<Made> = (0..CODEWORDS).flat_map(|_| words(&code, random)).collect();
    for word in [codeword(&code, random), below_zero(&code, random), vec![255; CELLS]] {
        cases.extend(wrong_lengths(&word).map(|(word, out_length)| made(case_of(q, &word, out_length))));
        cases.extend(large_levels(q, &word).map(|word| made(case_of(q, &word, CELLS))));
    }
    cases
}

fn case_of(q: usize, word: &[u8], out_length: usize) -> Case {
    Case::with(Operation::DecodeGolay, &[], word, out_length).numbered(q)
}

/// A codeword with no cell risen, with one, two, three and four; a word that no codeword can have been read as; and words at random.
fn words(code: &Code, random: &mut Random) -> Vec<Made> {
    let written = codeword(code, random);
    let case = |word: Vec<u8>| case_of(code.q, &word, CELLS);
    let mut cases: Vec<Made> = (0..=3).map(|risen| made(case(raised(code, &written, risen, 1, random)))).collect();
    cases.push(Made { case: case(raised(code, &written, 4, 1, random)), way: Some(FOUR_CELLS) });
    (0..3).for_each(|_| cases.push(Made { case: case(below_zero(code, random)), way: Some(BELOW_ZERO) }));
    [2, code.q].iter().for_each(|&limit| cases.push(made(case(random.bytes(CELLS, limit)))));
    cases
}

/// A codeword with up to two cells risen and another cell, whose level was odd, at 0. The only pattern that would mend it lowers that cell.
fn below_zero(code: &Code, random: &mut Random) -> Vec<u8> {
    loop {
        let written = codeword(code, random);
        let risen = random.between(0, 2);
        let mut word = raised(code, &written, risen, 1, random);
        let odd: Vec<usize> = (0..CELLS).filter(|&cell| word[cell] == written[cell] && word[cell] % 2 == 1).collect();
        if !odd.is_empty() {
            word[random.pick(&odd)] = 0;
            return word;
        }
    }
}

/// Every pair of lengths of which one is wrong, or both are.
fn wrong_lengths(word: &[u8]) -> impl Iterator<Item = (Vec<u8>, usize)> + '_ {
    let pairs = LENGTHS.iter().flat_map(|&length| LENGTHS.map(|out_length| (length, out_length)));
    let wrong = pairs.filter(|&pair| pair != (CELLS, CELLS));
    wrong.map(|(length, out_length)| (word.iter().copied().chain(std::iter::repeat(0)).take(length).collect(), out_length))
}

/// The word with a level too large, in each cell.
fn large_levels(q: usize, word: &[u8]) -> impl Iterator<Item = Vec<u8>> + '_ {
    let large = [q, q + 1, 128, 255];
    (0..CELLS).flat_map(move |cell| large.map(|level| [&word[..cell], &[level as u8], &word[cell + 1..]].concat()))
}
