//! Cases of the operations on codes, those on bytes and on numbers of their messages included.

use crate::case::{Case, Operation};
use crate::generate::{code_body, damage, faulty_input_cases, made, Made};
use crate::random::Random;
use crate::second::code::Code;
use crate::second::packing;
use crate::{numbers, packed};

pub const TOO_MANY_CELLS: &str = "t + 1 cells of a code risen";
pub const TOO_FAR: &str = "a rise of l + 1";
pub const BELOW_ZERO: &str = "a cell at 0 that would have to be lowered";
pub const AT_CEILING: &str = "a check cell at the ceiling";

/// A code at random, sound or damaged, and calls of all its operations.
pub fn cases(random: &mut Random) -> Vec<Made> {
    let mut body = code_body(random);
    if random.one_in(4) {
        damage(&mut body, random);
    }
    let mut cases: Vec<Made> =
        [Operation::Test, Operation::CodeCells, Operation::PackedBytes].map(|operation| made(Case::of(operation, &body))).into();
    match Code::open(&body) {
        Ok(code) => cases.extend(sound_code_cases(&body, &code, random)),
        Err(_) => cases.extend(refused_code_cases(&body, random)),
    }
    cases
}

/// With a description that does not open, no buffer matters.
fn refused_code_cases(body: &[u8], random: &mut Random) -> Vec<Made> {
    use Operation::*;
    let n = usize::from(body.first().copied().unwrap_or(0));
    let input = random.bytes(n, 3);
    let operations = [Encode, Decode, Recover, Pack, Unpack, MessageOfNumber, NumberOfMessage];
    operations.map(|operation| made(Case::with(operation, body, &input, n))).into()
}

fn sound_code_cases(body: &[u8], code: &Code, random: &mut Random) -> Vec<Made> {
    use Operation::*;
    let mut cases = Vec::new();
    let mut add = |operation: Operation, input: &[u8], out_length: usize, way: Option<&'static str>| {
        cases.push(Made { case: Case::with(operation, body, input, out_length), way });
    };
    for _ in 0..3 {
        let message = message(code, random);
        let codeword = code.encoded(&message);
        add(Encode, &message, code.n, None);
        add(Recover, &codeword, code.n, None);
        add(Recover, &raised(code, &codeword, 1, 1, random), code.n, None);
        add(Decode, &codeword, code.n, None);
        let risen = random.between(0, code.t);
        add(Decode, &raised(code, &codeword, risen, code.l, random), code.n, None);
        add(Decode, &raised(code, &codeword, code.t, code.l, random), code.n, None);
        add(Decode, &raised(code, &codeword, code.t + 1, code.l, random), code.n, Some(TOO_MANY_CELLS));
        add(Decode, &raised_too_far(code, &codeword, random), code.n, Some(TOO_FAR));
        add(Decode, &below_zero(code, random), code.n, Some(BELOW_ZERO));
        add(Decode, &random.bytes(code.n, code.q), code.n, None);
        if let Some(word) = at_ceiling(code, random) {
            add(Decode, &word, code.n, Some(AT_CEILING));
        }
    }
    (0..3).for_each(|_| cases.extend(packed::cases_of(body, code, random)));
    cases.extend(faulty_code_cases(body, code, random));
    cases.extend(numbers::cases_of(body, code, random));
    cases
}

/// Buffers of a wrong length, symbols and levels too large.
fn faulty_code_cases(body: &[u8], code: &Code, random: &mut Random) -> Vec<Made> {
    use Operation::*;
    let (n, packed) = (code.n, packing::packed_bytes(body).unwrap_or(1));
    let lengths = [(Encode, n, n), (Decode, n, n), (Recover, n, n), (Pack, n, packed), (Unpack, packed, n)];
    let large = [code.q, code.modulus, code.q / code.modulus, 64, 255].map(|value| value as u8);
    faulty_input_cases(body, &lengths, &large, random)
}

/// A codeword at random with up to t cells risen, or one more.
pub fn received_word(code: &Code, random: &mut Random) -> Vec<u8> {
    let codeword = code.encoded(&message(code, random));
    let risen = random.between(0, code.t + 1);
    raised(code, &codeword, risen, code.l, random)
}

/// A message at random.
pub fn message(code: &Code, random: &mut Random) -> Vec<u8> {
    (0..code.n).map(|cell| random.below(code.symbol_limit(cell)) as u8).collect()
}

/// Raise so many cells, or as many as there are with room, by at most `most`.
pub fn raised(code: &Code, word: &[u8], cells: usize, most: usize, random: &mut Random) -> Vec<u8> {
    let mut raised = word.to_vec();
    let mut room: Vec<usize> = (0..code.n).filter(|&cell| usize::from(word[cell]) + 1 < code.q).collect();
    for _ in 0..cells.min(room.len()) {
        let cell = room.swap_remove(random.below(room.len()));
        let highest = most.min(code.q - 1 - usize::from(word[cell]));
        raised[cell] += random.between(1, highest) as u8;
    }
    raised
}

/// Raise a cell by l + 1, if one has room, and up to t - 1 others by less.
fn raised_too_far(code: &Code, codeword: &[u8], random: &mut Random) -> Vec<u8> {
    let rise = code.l + 1;
    let room: Vec<usize> = (0..code.n).filter(|&cell| usize::from(codeword[cell]) + rise < code.q).collect();
    let others = random.between(0, code.t.saturating_sub(1));
    let mut word = raised(code, codeword, others, code.l, random);
    if !room.is_empty() {
        let cell = random.pick(&room);
        word[cell] = codeword[cell] + rise as u8;
    }
    word
}

/// A word with the residues of one risen cell, that cell lying below its rise: only lowering it below 0 would mend it.
fn below_zero(code: &Code, random: &mut Random) -> Vec<u8> {
    let cell = random.below(code.data());
    let rise = random.between(1, code.l);
    let mut word = message(code, random);
    word[cell] = random.below(rise) as u8;
    let wrapped = usize::from(word[cell]) + code.modulus - rise;
    let mut mended = word.clone();
    mended[cell] = (wrapped % code.modulus) as u8;
    let check_cells = code.encoded(&mended);
    word[code.data()..].copy_from_slice(&check_cells[code.data()..]);
    word
}

/// A codeword but for one check cell, which has the right residue and lies at or above the ceiling; then a cell raised.
/// There is none when M divides q.
fn at_ceiling(code: &Code, random: &mut Random) -> Option<Vec<u8>> {
    let above = code.q - code.ceiling();
    for _ in 0..10 {
        let mut word = code.encoded(&message(code, random));
        let low = |word: &[u8], cell: usize| usize::from(word[cell]) % code.modulus;
        if let Some(cell) = (code.data()..code.n).find(|&cell| low(&word, cell) < above) {
            word[cell] = (code.ceiling() + low(&word, cell)) as u8;
            let risen = random.below(2).min(code.t);
            return Some(raised(code, &word, risen, code.l, random));
        }
    }
    None
}
