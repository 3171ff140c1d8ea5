//! Faults of the table reader of the Golay code, in the order of its refusals.

use super::{fault, run_faults, wrong_length, Fault};
use crate::case::{Case, Operation};
use crate::golay::{code_of, codeword, numbers_of_levels, LARGE};
use crate::random::Random;
use crate::second::code::Code;
use crate::second::golay::CELLS;
use crate::tester::Tester;

pub fn run(tester: &mut Tester, random: &mut Random, times: usize) {
    for q in numbers_of_levels() {
        let code = code_of(q);
        for _ in 0..times {
            let sound = Case::with(Operation::DecodeGolay, &[], &sound_word(&code, random), CELLS).numbered(q);
            run_faults(tester, random, &sound, &faults(q));
        }
    }
}

/// A codeword with an odd level, so that lowering that cell to 0 leaves a word beyond reach.
fn sound_word(code: &Code, random: &mut Random) -> Vec<u8> {
    loop {
        let word = codeword(code, random);
        if word.iter().any(|level| level % 2 == 1) {
            return word;
        }
    }
}

fn faults(q: usize) -> Vec<Fault<'static>> {
    let small = [0, 1, q - 1, q + 1, 65, 66, 128];
    vec![
        fault(2, move |case, random| case.number = random.pick(&small)),
        fault(2, move |case, random| case.number = random.pick(&LARGE)),
        fault(8, wrong_length),
        fault(10, move |case, random| case.second[random.below(CELLS)] = random.byte_from(q)),
        fault(11, lower_to_0),
    ]
}

/// Put a cell whose level is odd to 0.
fn lower_to_0(case: &mut Case, random: &mut Random) {
    let odd: Vec<usize> = (0..CELLS).filter(|&cell| case.second[cell] % 2 == 1).collect();
    case.second[random.pick(&odd)] = 0;
}
