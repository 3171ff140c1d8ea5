//! Small codes and stacks, and the Golay code of two levels, every word: what is decoded is decided by distance to every codeword. Small
//! codes, every number: each has a message of its own. Small codes, every string of bytes: it is that of a message or refused.

use crate::case::{call_library, compare, Answer, Case, Expected, Operation};
use crate::generate::{bases, body_of};
use crate::memory::FILL;
use crate::packed::{byte_count, bytes_of, every_shape};
use crate::random::Random;
use crate::second::code::{self, Code};
use crate::second::distance::{all_words, code_reaches, stack_reaches, words_below};
use crate::second::stack::{self, Stack};
use crate::second::{cells_that_differ, golay, numbers, packing, Decoded, Refused};
use crate::tester::{fail, Tester};
use std::collections::{HashMap, HashSet};

/// Every set of parameters with at most so many words, once.
const WORDS_OF_EVERY_CODE: usize = 130;
/// Larger codes with two check cells or more, so many, with at most so many words.
const LARGER: usize = 60;
const WORDS_OF_LARGER: usize = 2500;
/// n, r, q, M of larger codes whose numbers are tried, with two radices above 1: six-level cells for transponder codes, R, others.
const NUMBERED: [[usize; 4]; 4] = [[6, 2, 6, 3], [5, 4, 8, 2], [5, 2, 5, 2], [3, 1, 12, 5]];
/// n, r, q, M of codes whose messages have 9, 10, .. 16 bits, so that the second byte has from seven leftover bits to none.
const TWO_BYTES: [[usize; 4]; 8] =
    [[3, 1, 16, 7], [5, 0, 4, 4], [5, 4, 8, 2], [6, 3, 8, 3], [3, 1, 32, 4], [8, 2, 4, 2], [18, 3, 2, 2], [4, 2, 64, 16]];
/// Stacks at random, so many, with at most so many words.
const STACKS: usize = 400;
const WORDS_OF_STACKS: usize = 600;

pub fn run(tester: &mut Tester, random: &mut Random) {
    let mut accepted = 0;
    let small: Vec<[usize; 6]> = parameters(4, 6).into_iter().filter(|fields| words(fields) <= WORDS_OF_EVERY_CODE).collect();
    let is_large = |fields: &[usize; 6]| fields[1] > 1 && (500..=WORDS_OF_LARGER).contains(&words(fields));
    let large: Vec<[usize; 6]> = parameters(5, 12).into_iter().filter(is_large).collect();
    let chosen: Vec<[usize; 6]> = (0..LARGER).map(|_| random.pick(&large)).collect();
    for fields in small.iter().chain(&chosen) {
        accepted += usize::from(every_word_of_code(fields, tester, random));
    }
    println!("every word of {} codes, {accepted} of them accepted", small.len() + chosen.len());
    every_word_of_golay_code();
    every_number(tester, random);
    every_string_of_bytes(tester, random);
    let accepted = (0..STACKS).filter(|_| every_word_of_stack(tester, random)).count();
    println!("every word of {STACKS} stacks, {accepted} of them accepted");
}

fn words(fields: &[usize; 6]) -> usize {
    let [n, _, q, ..] = *fields;
    q.pow(n as u32)
}

/// n, r, q, M, l, t: all in range, up to the given n and q.
fn parameters(most_n: usize, most_q: usize) -> Vec<[usize; 6]> {
    let mut all = Vec::new();
    for n in 1..=most_n {
        for r in 0..n {
            for q in 2..=most_q {
                for modulus in 2..=q {
                    for l in 1..modulus {
                        all.extend((0..=n.min(3)).map(|t| [n, r, q, modulus, l, t]));
                    }
                }
            }
        }
    }
    all
}

/// Decode and recover every word; true when the code is accepted.
fn every_word_of_code(fields: &[usize; 6], tester: &mut Tester, random: &mut Random) -> bool {
    let body = body_of(*fields, random);
    let Ok(code) = Code::open(&body) else { return false };
    let accepted = tester.run(&Case::of(Operation::Test, &body)) == "done";
    let words = all_words(code.n, code.q);
    let codewords: Vec<&Vec<u8>> = words.iter().filter(|word| code.is_codeword(word)).collect();
    let messages: usize = (0..code.n).map(|cell| code.symbol_limit(cell)).product();
    assert!(codewords.len() == messages, "a codeword for each message");
    for word in &words {
        let case = Case::with(Operation::Decode, &body, word, code.n);
        tester.run(&case);
        let reached = within_reach(&codewords, |codeword| code_reaches(&code, codeword, word));
        decided_by_distance(&case, accepted, &reached, code::decode(&body, word, code.n));
        tester.run(&Case::with(Operation::Recover, &body, word, code.n));
    }
    accepted
}

/// The table reader on every word of two levels. It is called directly, since in guarded memory this would take minutes.
fn every_word_of_golay_code() {
    let mut counts = [0; 4];
    let codewords = golay::codewords_by_word();
    for (number, codeword) in codewords.iter().enumerate() {
        let word = golay::word_of(number);
        let mut out = [FILL; golay::CELLS];
        let answer = call_library(Operation::DecodeGolay, 2, &[], &word, &mut out);
        let expected = match codeword.map(golay::word_of) {
            Some(written) => {
                let count = cells_that_differ(&word, &written);
                counts[count] += 1;
                Expected { answer: Answer { count, ..Answer::default() }, out: Some(written) }
            }
            None => Expected { answer: Answer { number: 11, ..Answer::default() }, out: None },
        };
        if let Err(difference) = compare(&expected, answer, &out, FILL) {
            fail(&Case::with(Operation::DecodeGolay, &[], &word, golay::CELLS).numbered(2), &difference);
        }
    }
    let given: usize = counts.iter().sum();
    println!(
        "every word of the Golay code of two levels: {given} given back, with counts 0 to 3 {counts:?}, {} refused 11",
        codewords.len() - given
    );
}

/// Numbers have nothing to do with l and t: each n, r, q and M with few words once, and the larger codes.
fn every_number(tester: &mut Tester, random: &mut Random) {
    let is_small = |fields: &[usize; 6]| fields[4..] == [1, 0] && words(fields) <= WORDS_OF_EVERY_CODE;
    let larger = NUMBERED.map(|[n, r, q, modulus]| [n, r, q, modulus, 1, 0]);
    let codes = parameters(4, 6).into_iter().filter(is_small).chain(larger);
    let counts: Vec<usize> = codes.map(|fields| every_number_of_code(fields, tester, random)).collect();
    println!("every number of {} codes: {}", counts.len(), counts.iter().sum::<usize>());
}

/// Every number has a message of its own, which has that number and can be encoded, and these are all messages. Gives how many. It is
/// asked of the second implementation, whose answers each run compares with the library's.
fn every_number_of_code(fields: [usize; 6], tester: &mut Tester, random: &mut Random) -> usize {
    let (n, body) = (fields[0], body_of(fields, random));
    let code = Code::open(&body).expect("a sound description");
    let mut messages: HashSet<Vec<u8>> = all_messages(&code).into_iter().collect();
    let count = messages.len();
    let case_of = |value: usize| Case::with(Operation::MessageOfNumber, &body, &[], n).numbered(value);
    for case in (0..count).map(case_of) {
        tester.run(&case);
        let message = numbers::message_of_number(&body, case.number as u64, n).unwrap_or_default();
        tester.run(&Case::with(Operation::NumberOfMessage, &body, &message, 0));
        let goes_back = numbers::number_of_message(&body, &message) == Ok(case.number as u64);
        let encoded = tester.run(&Case::with(Operation::Encode, &body, &message, n)) == "done";
        if !messages.remove(&message) || !goes_back || !encoded {
            fail(&case, &format!("message {message:?}"));
        }
    }
    tester.run(&case_of(count));
    count
}

fn all_messages(code: &Code) -> Vec<Vec<u8>> {
    let limits: Vec<usize> = (0..code.n).map(|cell| code.symbol_limit(cell)).collect();
    words_below(&limits)
}

/// Of all codes whose messages have one byte, and of some with two bytes.
fn every_string_of_bytes(tester: &mut Tester, random: &mut Random) {
    let mut body = |[n, r, q, modulus]: [usize; 4]| body_of([n, r, q, modulus, 1, 0], random);
    let mut bodies: Vec<Vec<u8>> = every_shape().into_iter().map(&mut body).filter(|body| packing::packed_bytes(body) == Ok(1)).collect();
    bodies.extend(TWO_BYTES.map(&mut body));
    let taken: usize = bodies.iter().map(|body| every_string_of_code(body, tester)).sum();
    let strings: usize = bodies.iter().map(|body| 256_usize.pow(byte_count(body) as u32)).sum();
    println!("every string of bytes of {} codes: {taken} of messages, {} refused 19", bodies.len(), strings - taken);
}

/// All messages, by the bytes that they are packed to.
fn packed_messages(body: &[u8], code: &Code, tester: &mut Tester) -> HashMap<Vec<u8>, Vec<u8>> {
    let mut packed = |message: Vec<u8>| {
        tester.run(&Case::with(Operation::Pack, body, &message, byte_count(body)));
        (bytes_of(body, &message), message)
    };
    let messages: HashMap<Vec<u8>, Vec<u8>> = all_messages(code).into_iter().map(&mut packed).collect();
    assert!(messages.len() == 1 << packing::bits(code), "bytes of its own for each message");
    messages
}

/// Bytes to which a message is packed give that message back, all others are refused 19; and no two that are not refused have messages
/// with equal rows. Gives how many these are. It is asked of the second implementation, as for numbers.
fn every_string_of_code(body: &[u8], tester: &mut Tester) -> usize {
    let code = Code::open(body).expect("a sound description");
    let messages = packed_messages(body, &code, tester);
    let mut rows = HashSet::new();
    for bytes in all_words(byte_count(body), 256) {
        let case = Case::with(Operation::Unpack, body, &bytes, code.n);
        tester.run(&case);
        let taken = packing::unpack(body, &bytes, code.n);
        if taken != messages.get(&bytes).cloned().ok_or(19) {
            fail(&case, &format!("taken {taken:?}"));
        }
        if let Ok(message) = taken {
            tester.run(&Case::with(Operation::Encode, body, &message, code.n));
            if !rows.insert(code.encoded(&message)) {
                fail(&case, "other bytes have the same row");
            }
        }
    }
    rows.len()
}

/// Decode and recover every word of a small stack at random; true when it is accepted.
fn every_word_of_stack(tester: &mut Tester, random: &mut Random) -> bool {
    let body = small_stack(random);
    let stack = Stack::open(&body).expect("a sound description");
    let accepted = tester.run(&Case::of(Operation::TestStack, &body)) == "done";
    let words = all_words(stack.n, stack.q);
    let codewords: Vec<&Vec<u8>> = words.iter().filter(|word| stack.is_codeword(word)).collect();
    for word in &words {
        let case = Case::with(Operation::DecodeStack, &body, word, stack.n);
        tester.run(&case);
        // Of a stack that is not accepted, distance decides nothing: planes do not go back.
        if accepted {
            let reached = within_reach(&codewords, |codeword| stack_reaches(&stack, codeword, word));
            decided_by_distance(&case, accepted, &reached, stack::decode(&body, word, stack.n));
        }
        tester.run(&Case::with(Operation::RecoverStack, &body, word, stack.symbols()));
    }
    accepted
}

fn within_reach<'a>(codewords: &[&'a Vec<u8>], reaches: impl Fn(&[u8]) -> bool) -> Vec<&'a [u8]> {
    codewords.iter().map(|codeword| codeword.as_slice()).filter(|codeword| reaches(codeword)).collect()
}

fn small_stack(random: &mut Random) -> Vec<u8> {
    loop {
        let (n, planes) = (random.between(1, 4), random.between(1, 4));
        let bases = bases(planes, random);
        if bases.iter().product::<usize>().pow(n as u32) > WORDS_OF_STACKS {
            continue;
        }
        let mut body = vec![n as u8, planes as u8];
        for c in bases {
            let (r, t) = (random.between(0, n - 1), random.between(0, n.min(2)));
            body.extend([c, r, t].map(|field| field as u8));
            body.extend(random.bytes(r * (n - r), c));
        }
        return body;
    }
}

/// A word is given back exactly when a codeword is within reach; it is one of these, of an accepted code the only one,
/// and the count is the cells in which it differs.
fn decided_by_distance(case: &Case, accepted: bool, reached: &[&[u8]], answer: Result<Decoded, Refused>) {
    let right = match &answer {
        Ok(Decoded { word, count }) => reached.contains(&word.as_slice()) && *count == cells_that_differ(word, &case.second),
        Err(refused) => refused.number == 11 && reached.is_empty(),
    };
    if !right || (accepted && reached.len() > 1) {
        fail(case, &format!("answer {answer:?}, codewords within reach {reached:?}"));
    }
}
