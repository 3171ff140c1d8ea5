//! Faults of an image and of reading a row entry, in document 01's order.

use super::{fault, run_faults, Fault};
use crate::case::{Case, Operation};
use crate::images::{assemble, Body};
use crate::random::Random;
use crate::second::image::{ENTRY_BYTES, PLAN, ROW, STACK};
use crate::tester::Tester;

/// A plan and a stack of three cells, one a check cell, t = 0; then a row of each.
const PLAN_BODY: [u8; 8] = [3, 1, 4, 4, 1, 0, 1, 1];
const STACK_BODY: [u8; 7] = [3, 1, 4, 1, 0, 1, 1];
const PLAN_ENTRY: usize = 1;
const STACK_ENTRY: usize = 2;
const PLAN_ROW: usize = 3;
const STACK_ROW: usize = 4;
const CELLS: usize = 3;

const KIND: usize = 0;
const REFERENCE: usize = 1;
const OFFSET: usize = 2;
const LENGTH: usize = 4;

pub fn run(tester: &mut Tester, random: &mut Random, times: usize) {
    use Operation::*;
    for _ in 0..times {
        for operation in [CheckImage, ReadRow, RowCells] {
            for row in [PLAN_ROW, STACK_ROW] {
                let out_length = if operation == ReadRow { CELLS } else { 0 };
                let sound = Case::with(operation, &sound_image(), &[], out_length).numbered(row);
                run_faults(tester, random, &sound, &faults(operation));
            }
        }
        run_each_way(tester, random);
    }
}

/// Both rows are 3 1 0: a codeword.
fn sound_image() -> Vec<u8> {
    let row = |reference: usize| Body { kind: ROW, reference, bytes: vec![3, 1, 0] };
    let plan = Body { kind: PLAN, reference: 0, bytes: PLAN_BODY.to_vec() };
    let stack = Body { kind: STACK, reference: 0, bytes: STACK_BODY.to_vec() };
    assemble(&[plan, stack, row(PLAN_ENTRY), row(STACK_ENTRY)])
}

/// Where a field of an entry, counted from 1, lies in the image.
fn place(entry: usize, field: usize) -> usize {
    1 + (entry - 1) * ENTRY_BYTES + field
}

/// Where an entry's body starts.
fn body(image: &[u8], entry: usize) -> usize {
    usize::from(image[place(entry, OFFSET)])
}

type Way = fn(&mut Vec<u8>);

/// Ways to make the directory not as document 01 says.
const DIRECTORY_WAYS: [Way; 16] = [
    |image| image.clear(),
    |image| image.truncate(1),
    |image| image.truncate(24),
    |image| image[0] = 0,
    |image| image[0] = 33,
    |image| image[0] = 3,
    |image| image[place(PLAN_ROW, KIND)] = 0,
    |image| image[place(STACK_ROW, KIND)] = 4,
    |image| image[place(PLAN_ENTRY, KIND)] = 255,
    |image| image[place(PLAN_ENTRY, OFFSET)] += 1,
    |image| image[place(PLAN_ENTRY, OFFSET)] -= 1,
    |image| image[place(STACK_ROW, OFFSET) + 1] += 1,
    |image| image[place(STACK_ENTRY, LENGTH)] += 1,
    |image| image[place(STACK_ROW, LENGTH)] -= 1,
    |image| image.push(0),
    |image| image.truncate(image.len() - 1),
];

/// Ways to make a body's test refuse, or a reference wrong.
const BODY_WAYS: [Way; 12] = [
    |image| image[place(PLAN_ENTRY, REFERENCE)] = 1,
    |image| image[place(STACK_ENTRY, REFERENCE)] = 1,
    |image| image[place(PLAN_ROW, REFERENCE)] = 0,
    |image| image[place(PLAN_ROW, REFERENCE)] = PLAN_ROW as u8,
    |image| image[place(PLAN_ROW, REFERENCE)] = STACK_ROW as u8,
    |image| image[place(STACK_ROW, REFERENCE)] = PLAN_ROW as u8,
    |image| image[place(STACK_ROW, REFERENCE)] = 255,
    |image| spoil_body(image, PLAN_ENTRY, 0, 0),
    |image| spoil_body(image, PLAN_ENTRY, 5, 1),
    |image| spoil_body(image, PLAN_ENTRY, 6, 4),
    |image| spoil_body(image, STACK_ENTRY, 1, 0),
    |image| spoil_body(image, STACK_ENTRY, 4, 1),
];

fn spoil_body(image: &mut [u8], entry: usize, byte: usize, value: u8) {
    let start = body(image, entry);
    image[start + byte] = value;
}

/// Every way on its own, through every operation that takes an image.
fn run_each_way(tester: &mut Tester, random: &mut Random) {
    use Operation::*;
    for operation in [CheckImage, ReadRow, RowCells] {
        let sound = Case::with(operation, &sound_image(), &[], 0).numbered(PLAN_ROW);
        let sound = if operation == ReadRow { Case { out_length: CELLS, ..sound } } else { sound };
        for (number, ways) in [(15, &DIRECTORY_WAYS[..]), (16, &BODY_WAYS[..])] {
            for way in ways {
                run_faults(tester, random, &sound, &[fault(number, |case, _| way(&mut case.first))]);
            }
        }
    }
}

fn faults(operation: Operation) -> Vec<Fault<'static>> {
    let mut faults = vec![
        // An image too long keeps what else is wrong with it, so that it goes with every fault behind.
        fault(15, |case, _| case.first.resize(65_536, 0)),
        fault(15, |case, random| case.first.resize(case.first.len() + random.pick(&[1, 256, 65_536]), 0)),
        fault(16, |case, random| random.pick(&BODY_WAYS)(&mut case.first)),
    ];
    if operation != Operation::CheckImage {
        let no_row = [0, PLAN_ENTRY, STACK_ENTRY, 5, 33, 256 + PLAN_ROW, usize::MAX];
        faults.push(fault(2, move |case, random| case.number = random.pick(&no_row)));
    }
    if operation == Operation::ReadRow {
        faults.push(fault("8 recorded", |case, random| case.out_length = random.pick(&[0, 2, 4])));
        faults.push(fault("10 recorded", |case, random| {
            let start = body(&case.first, case.number);
            case.first[start] = random.byte_from(4);
        }));
        faults.push(fault("11 recorded", |case, _| {
            let start = body(&case.first, case.number);
            case.first[start + 2] += 1;
        }));
    }
    faults
}
