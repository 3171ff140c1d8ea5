//! The order of refusals: of two faults in one case, the one that document 01 or 02 lists first is answered.

pub mod codes;
pub mod golay;
pub mod images;
pub mod labels;
pub mod numbers;
pub mod stacks;

use crate::case::Case;
use crate::coverage::before;
use crate::random::Random;
use crate::tester::{fail, Tester};

type Spoil<'a> = Box<dyn Fn(&mut Case, &mut Random) + 'a>;

/// A fault: the label of its refusal, and how it is put into a case that has none.
pub struct Fault<'a> {
    label: String,
    spoil: Spoil<'a>,
}

pub fn fault<'a>(label: impl ToString, spoil: impl Fn(&mut Case, &mut Random) + 'a) -> Fault<'a> {
    Fault { label: label.to_string(), spoil: Box::new(spoil) }
}

/// Run the case without a fault, with each fault, and with each two. Faults stand in document 01's order; some share a
/// number. The later fault is put in first, so that what it needs is still there.
pub fn run_faults(tester: &mut Tester, random: &mut Random, sound: &Case, faults: &[Fault]) {
    must_answer(tester, sound, "done");
    for (place, earlier) in faults.iter().enumerate() {
        let mut one = sound.clone();
        (earlier.spoil)(&mut one, random);
        must_answer(tester, &one, &earlier.label);
        for (distance, later) in faults[place + 1..].iter().enumerate() {
            let mut case = sound.clone();
            (later.spoil)(&mut case, random);
            if distance == 0 {
                must_answer(tester, &case, &later.label);
                tester.coverage.note(sound.operation, &before(&earlier.label, &later.label));
            }
            (earlier.spoil)(&mut case, random);
            must_answer(tester, &case, &earlier.label);
        }
    }
}

/// The fault must be there: the second implementation (and so the library) answers its label.
pub fn must_answer(tester: &mut Tester, case: &Case, label: &str) {
    let answered = tester.run(case);
    if answered != label {
        fail(case, &format!("made to answer {label}, answers {answered}"));
    }
}

/// Lengths to add to a buffer that is too long: 256 more must not pass for none.
const TOO_LONG: [usize; 4] = [1, 1, 2, 256];

/// A shorter or a longer length.
pub fn other_length(length: usize, random: &mut Random) -> usize {
    if length > 0 && random.one_in(2) {
        random.pick(&[0, length - 1])
    } else {
        length + random.pick(&TOO_LONG)
    }
}

/// Make one of the lent buffers shorter or longer.
pub fn wrong_length(case: &mut Case, random: &mut Random) {
    if random.one_in(2) {
        wrong_input_length(case, random);
    } else {
        wrong_out_length(case, random);
    }
}

pub fn wrong_input_length(case: &mut Case, random: &mut Random) {
    case.second.resize(other_length(case.second.len(), random), 0);
}

pub fn wrong_out_length(case: &mut Case, random: &mut Random) {
    case.out_length = other_length(case.out_length, random);
}
