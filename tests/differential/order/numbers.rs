//! Faults of the numbers of messages, in document 02's order.

use super::codes::{opening, Q};
use super::{fault, run_faults, wrong_input_length, wrong_out_length, Fault};
use crate::case::{Case, Operation};
use crate::codes::message;
use crate::generate::body_of;
use crate::random::Random;
use crate::second::code::Code;
use crate::second::{numbers, pattern};
use crate::tester::Tester;

pub fn run(tester: &mut Tester, random: &mut Random, times: usize) {
    for _ in 0..times {
        let body = sound_body(random);
        let code = opened(&body);
        let (value, message) = (random.below(messages(&code)), message(&code, random));
        let of_number = Case::with(Operation::MessageOfNumber, &body, &[], code.n).numbered(value);
        run_faults(tester, random, &of_number, &faults(fault(8, wrong_out_length), fault(18, large_number)));
        let of_message = Case::with(Operation::NumberOfMessage, &body, &message, 0);
        run_faults(tester, random, &of_message, &faults(fault(8, wrong_input_length), fault(9, large_symbol)));
    }
}

/// A code whose messages have numbers, but not with q = 64, and that has too many patterns with t = 3.
fn sound_body(random: &mut Random) -> Vec<u8> {
    loop {
        let (data, r, q) = (random.between(11, 50), random.between(1, 12), random.between(2, 16));
        let (n, modulus) = (data + r, random.between(2, q));
        let l = random.between(1, modulus - 1);
        let body = body_of([n, r, q, modulus, l, 0], random);
        if numbers::messages(&opened(&body)).is_some() && pattern::count(n, l, 3) > 4096 {
            return body;
        }
    }
}

fn opened(body: &[u8]) -> Code {
    Code::open(body).expect("a sound description")
}

/// How many messages the sound code has.
fn messages(code: &Code) -> usize {
    numbers::messages(code).expect("messages that have numbers") as usize
}

fn faults(buffer: Fault<'static>, last: Fault<'static>) -> Vec<Fault<'static>> {
    opening().into_iter().chain([buffer, fault(17, too_many_messages), last]).collect()
}

/// The least q with which there are too many messages, or another.
fn too_many_messages(case: &mut Case, random: &mut Random) {
    let code = opened(&case.first);
    let is_too_large = |&q: &usize| numbers::messages(&Code { q, ..code.clone() }).is_none();
    let too_large: Vec<usize> = (code.q..=64).filter(is_too_large).collect();
    let chosen = if random.one_in(2) { too_large[0] } else { random.pick(&too_large) };
    case.first[Q] = chosen as u8;
}

/// The largest is, for some codes, also above the product that 17 refuses.
fn large_number(case: &mut Case, random: &mut Random) {
    let product = messages(&opened(&case.first));
    case.number = random.pick(&[product, product + 1, 1 << 63, usize::MAX]);
}

/// Too large for every q.
fn large_symbol(case: &mut Case, random: &mut Random) {
    let cell = random.below(case.second.len());
    case.second[cell] = random.byte_from(64);
}
