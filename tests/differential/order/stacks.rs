//! Faults of the operations on stacks, in document 01's order, for each number of planes.

use super::{fault, run_faults, wrong_length, Fault};
use crate::case::{Case, Operation};
use crate::coverage::in_plane;
use crate::generate::bases;
use crate::random::Random;
use crate::second::stack::{self, Stack};
use crate::stacks::message;
use crate::tester::Tester;

const N: usize = 0;
const PLANES: usize = 1;
/// Inside a plane: c, r, t, then the matrix.
const C: usize = 0;
const R: usize = 1;
const T: usize = 2;
const MATRIX: usize = 3;

pub fn run(tester: &mut Tester, random: &mut Random, times: usize) {
    use Operation::*;
    for _ in 0..times {
        for planes in 1..=6 {
            for operation in [TestStack, EncodeStack, DecodeStack, RecoverStack, StackCells, StackSymbols] {
                let (body, starts) = sound_body(planes, random);
                let sound = sound_case(operation, &body, random);
                let faults: Vec<Fault> = opening(&starts).into_iter().chain(behind_opening(operation, &starts)).collect();
                run_faults(tester, random, &sound, &faults);
            }
        }
    }
}

/// A stack whose planes have t = 0 (see the codes of the same kind), and where each plane starts in the body.
fn sound_body(planes: usize, random: &mut Random) -> (Vec<u8>, Vec<usize>) {
    let n = random.between(46, 64);
    let mut body = vec![n as u8, planes as u8];
    let mut starts = Vec::new();
    for c in bases(planes, random) {
        let r = random.between(1, 12);
        starts.push(body.len());
        body.extend([c as u8, r as u8, 0]);
        for _ in 0..r {
            let mut row = random.bytes(n - r, c);
            row[1] = row[0];
            body.extend(row);
        }
    }
    (body, starts)
}

fn sound_case(operation: Operation, body: &[u8], random: &mut Random) -> Case {
    use Operation::*;
    let stack = Stack::open(body).expect("a sound description");
    let message = message(&stack, random);
    let codeword = stack::encode(body, &message, stack.n).expect("a sound message");
    match operation {
        EncodeStack => Case::with(operation, body, &message, stack.n),
        DecodeStack => Case::with(operation, body, &codeword, stack.n),
        RecoverStack => Case::with(operation, body, &codeword, message.len()),
        _ => Case::of(operation, body),
    }
}

fn opening(starts: &[usize]) -> Vec<Fault<'_>> {
    let mut faults = vec![
        fault(1, |case, _| case.first.truncate(1)),
        fault(2, |case, random| case.first[N] = random.pick(&[0, 65, 255])),
        fault(2, |case, random| case.first[PLANES] = random.pick(&[7, 255])),
    ];
    faults.extend(starts.iter().enumerate().flat_map(|(plane, &start)| opening_plane(plane, start)));
    faults.push(fault("3 left over", |case, random| case.first.extend(vec![0; random.pick(&[1, 3, 256, 65_536])])));
    if starts.len() > 1 {
        faults.push(fault(7, |case, _| case.first[starts[0] + C] = 64));
    }
    faults
}

fn opening_plane(plane: usize, start: usize) -> Vec<Fault<'static>> {
    let put = move |place: usize, values: &'static [u8]| {
        move |case: &mut Case, random: &mut Random| case.first[start + place] = random.pick(values)
    };
    vec![
        fault(in_plane(1, plane), move |case, random| case.first.truncate(start + random.between(1, 2))),
        fault(in_plane(2, plane), put(C, &[0, 1, 65, 255])),
        fault(in_plane(2, plane), put(R, &[13, 64, 255])),
        fault(in_plane(2, plane), put(T, &[4, 255])),
        fault(in_plane(3, plane), move |case, random| case.first.truncate(start + MATRIX + random.between(1, 30))),
        fault(in_plane(4, plane), move |case, random| case.first[start + MATRIX] = random.byte_from(64)),
        fault(in_plane(5, plane), put(T, &[3])),
    ]
}

fn behind_opening<'a>(operation: Operation, starts: &'a [usize]) -> Vec<Fault<'a>> {
    use Operation::*;
    let last = starts.len() - 1;
    let buffer = || fault(8, wrong_length);
    let level = || fault(10, |case, random| case.second[0] = random.byte_from(opened(case).q));
    let clash = move |case: &mut Case, random: &mut Random| case.first[random.pick(starts) + T] = 1;
    match operation {
        TestStack => vec![fault(6, clash)],
        EncodeStack => vec![buffer(), fault(9, large_symbol)],
        DecodeStack => vec![buffer(), level(), fault(in_plane(11, last), move |case, _| change_last_cell(case, last))],
        RecoverStack => {
            vec![buffer(), level(), fault(12, move |case, random| change_last_cell(case, random.between(0, last)))]
        }
        _ => vec![],
    }
}

fn opened(case: &Case) -> Stack {
    Stack::open(&case.first).expect("a sound description")
}

/// A digit that is not below its plane's c.
fn large_symbol(case: &mut Case, random: &mut Random) {
    let stack = opened(case);
    let chosen = random.below(stack.planes.len());
    let behind: usize = stack.planes[..=chosen].iter().map(|plane| plane.code.data()).sum();
    case.second[behind - 1] = random.byte_from(stack.planes[chosen].code.q);
}

/// Change one digit of the last cell, which is a check cell of every plane.
fn change_last_cell(case: &mut Case, plane: usize) {
    let stack = opened(case);
    let plane = &stack.planes[plane];
    let level = case.second.last_mut().expect("a word has a cell");
    let digit = plane.digits(&[*level])[0];
    let place = plane.place as u8;
    *level = if usize::from(digit) + 1 < plane.code.q { *level + place } else { *level - place };
}
