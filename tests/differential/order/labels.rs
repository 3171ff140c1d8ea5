//! Faults of making and applying labels, in document 01's order.

use super::{fault, run_faults, wrong_length};
use crate::case::{Case, Operation};
use crate::random::Random;
use crate::tester::Tester;

pub fn run(tester: &mut Tester, random: &mut Random, times: usize) {
    for _ in 0..times {
        make(tester, random);
        apply(Operation::ToLevels, tester, random);
        apply(Operation::ToStates, tester, random);
    }
}

/// The length of 2 is also no power of two.
fn make(tester: &mut Tester, random: &mut Random) {
    let power = random.pick(&[2, 4, 8, 16, 32, 64]);
    let kind = random.between(2, 3);
    let sound = Case::with(Operation::MakeLabels, &[], &[], power).numbered(kind);
    let faults = [
        fault(2, |case, random| case.number = random.pick(&[0, 4, 255, 256 + kind, usize::MAX])),
        fault(2, |case, random| case.out_length = random.pick(&[0, 65, 66, 127, 255, 257, 258, 272])),
        fault(14, |case, random| case.out_length = random.pick(&[3, 5, 6, 7, 9, 12, 31, 33, 48, 63])),
    ];
    run_faults(tester, random, &sound, &faults);
}

fn apply(operation: Operation, tester: &mut Tester, random: &mut Random) {
    let q = random.between(2, 64);
    let table = shuffled(q, random);
    let length = random.between(1, 300);
    let input = random.bytes(length, q);
    let sound = Case::with(operation, &table, &input, input.len());
    let faults = [
        fault(2, |case, random| lengthen(&mut case.first, random)),
        fault(13, no_permutation),
        fault(8, wrong_length),
        fault(10, |case, random| *case.second.last_mut().expect("an input") = random.byte_from(case.first.len())),
    ];
    run_faults(tester, random, &sound, &faults);
}

/// A permutation of the levels below q.
pub fn shuffled(q: usize, random: &mut Random) -> Vec<u8> {
    let mut table: Vec<u8> = (0..q as u8).collect();
    for place in (1..q).rev() {
        table.swap(place, random.below(place + 1));
    }
    table
}

/// A table too long that is as much of a permutation as it was.
fn lengthen(table: &mut Vec<u8>, random: &mut Random) {
    let longest = random.pick(&[128, 256 + table.len()]);
    let length = random.between(longest - 63, longest);
    table.extend((table.len()..length).map(|level| level as u8));
}

/// A level twice, or one of q or more.
fn no_permutation(case: &mut Case, random: &mut Random) {
    case.first[0] = if random.one_in(2) { case.first[1] } else { random.byte_from(case.first.len()) };
}
