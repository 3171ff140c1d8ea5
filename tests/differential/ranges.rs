//! Every value of every field of a description, every number of patterns, the most cells whose messages have numbers, and every
//! leftover bit.

use crate::case::{Case, Operation};
use crate::order::must_answer;
use crate::packed::{bytes_of, every_shape, leftover, with_bit};
use crate::second::code::Code;
use crate::second::numbers;
use crate::tester::Tester;

/// n, r, q, M, l, t of codes near different bounds.
const CODES: [[usize; 6]; 5] = [[5, 4, 8, 2, 1, 2], [64, 12, 64, 64, 63, 1], [13, 12, 9, 4, 3, 1], [2, 1, 64, 3, 2, 1], [1, 0, 2, 2, 1, 0]];

/// n, m, c, r, t of stacks of m planes alike.
const STACKS: [[usize; 5]; 4] = [[3, 3, 2, 2, 1], [64, 1, 64, 12, 1], [13, 2, 8, 12, 1], [1, 1, 2, 0, 0]];

pub fn run(tester: &mut Tester) {
    for value in 0..=255 {
        for code in CODES {
            (0..code.len()).for_each(|field| run_code(tester, set(code, field, value)));
        }
        for stack in STACKS {
            (0..stack.len()).for_each(|field| run_stack(tester, set(stack, field, value)));
        }
    }
    every_number_of_patterns(tester);
    every_product_of_radices(tester);
    every_leftover_bit(tester);
}

fn set<const FIELDS: usize>(mut fields: [usize; FIELDS], field: usize, value: usize) -> [usize; FIELDS] {
    fields[field] = value;
    fields
}

/// The entries of a matrix of 0, as many as its fields say or, if these make no sense, none.
fn matrix(n: usize, r: usize) -> Vec<u8> {
    if r < n && n <= 64 {
        vec![0; r * (n - r)]
    } else {
        Vec::new()
    }
}

fn code_body([n, r, q, modulus, l, t]: [usize; 6]) -> Vec<u8> {
    [[n, r, q, modulus, l, t].map(|field| field as u8).to_vec(), matrix(n, r)].concat()
}

fn stack_body([n, m, c, r, t]: [usize; 5]) -> Vec<u8> {
    let plane = [[c, r, t].map(|field| field as u8).to_vec(), matrix(n, r)].concat();
    [vec![n as u8, m as u8], plane.repeat(m.min(7))].concat()
}

fn run_code(tester: &mut Tester, fields: [usize; 6]) {
    let body = code_body(fields);
    tester.run(&Case::of(Operation::Test, &body));
    tester.run(&Case::of(Operation::PackedBytes, &body));
    tester.run(&Case::with(Operation::Decode, &body, &vec![1; fields[0]], fields[0]));
    tester.run(&Case::with(Operation::MessageOfNumber, &body, &[], fields[0]).numbered(1));
    tester.run(&Case::with(Operation::NumberOfMessage, &body, &vec![0; fields[0]], 0));
}

fn run_stack(tester: &mut Tester, fields: [usize; 5]) {
    let body = stack_body(fields);
    tester.run(&Case::of(Operation::TestStack, &body));
    tester.run(&Case::of(Operation::StackSymbols, &body));
    tester.run(&Case::with(Operation::DecodeStack, &body, &vec![1; fields[0]], fields[0]));
}

/// Refused 5 above 4,096 and not before: every n, l and t, as a code and as a plane.
fn every_number_of_patterns(tester: &mut Tester) {
    for n in 1..=64 {
        for l in 1..=63 {
            for t in 0..=n.min(3) {
                tester.run(&Case::of(Operation::CodeCells, &code_body([n, 0, 64, 64, l, t])));
                tester.run(&Case::of(Operation::StackCells, &stack_body([n, 1, l + 1, 0, t])));
            }
        }
    }
}

/// Refused 17 above 2^63 messages and not before: for every q, floor(q/M) and r the most cells whose messages have numbers, and one
/// cell more.
fn every_product_of_radices(tester: &mut Tester) {
    for q in 2..=64 {
        for modulus in (2..=q).filter(|modulus| q / modulus < q / (modulus - 1)) {
            for r in 0..=12 {
                let codes: Vec<Vec<u8>> = (r + 1..=64).map(|n| code_body([n, r, q, modulus, 1, 0])).collect();
                let few = codes.partition_point(|body| messages(body).is_some());
                codes.iter().take(few + 1).skip(few.saturating_sub(1)).for_each(|body| first_and_last_numbers(tester, body));
            }
        }
    }
}

fn opened(body: &[u8]) -> Code {
    Code::open(body).expect("a sound description")
}

fn messages(body: &[u8]) -> Option<u64> {
    numbers::messages(&opened(body))
}

/// The first number and the last with their messages, and the one behind it. Where there are too many messages, 2^64 - 1 is the last.
fn first_and_last_numbers(tester: &mut Tester, body: &[u8]) {
    let n = usize::from(body[0]);
    let last = messages(body).map_or(u64::MAX, |messages| messages - 1);
    for value in [0, last, last.wrapping_add(1)] {
        tester.run(&Case::with(Operation::MessageOfNumber, body, &[], n).numbered(value as usize));
        let message = numbers::message_of_number(body, value, n).unwrap_or(vec![0; n]);
        tester.run(&Case::with(Operation::NumberOfMessage, body, &message, 0));
    }
}

/// Refused 19 for each leftover bit, and not without one: for every number of cells and bits of symbols, with all other bits 0 and with
/// all of them 1.
fn every_leftover_bit(tester: &mut Tester) {
    let bodies: Vec<Vec<u8>> = every_shape().iter().map(|&[n, r, q, modulus]| code_body([n, r, q, modulus, 1, 0])).collect();
    let counts: Vec<usize> = bodies.iter().map(|body| leftover_bits(tester, body)).collect();
    let without = counts.iter().filter(|&&count| count == 0).count();
    println!("every leftover bit of {} codes: {}; {without} of them have none", counts.len(), counts.iter().sum::<usize>());
}

/// Gives how many there are.
fn leftover_bits(tester: &mut Tester, body: &[u8]) -> usize {
    let code = opened(body);
    let last = (0..code.n).map(|cell| code.symbol_limit(cell) as u8 - 1).collect();
    for message in [vec![0; code.n], last] {
        let bytes = bytes_of(body, &message);
        must_answer(tester, &Case::with(Operation::Unpack, body, &bytes, code.n), "done");
        for bit in leftover(&code) {
            must_answer(tester, &Case::with(Operation::Unpack, body, &with_bit(&bytes, bit), code.n), "19");
        }
    }
    leftover(&code).len()
}
