//! Cases of the operations on stacks.

use crate::case::{Case, Operation};
use crate::generate::{damage, faulty_input_cases, made, stack_body, Made};
use crate::random::Random;
use crate::second::stack::{self, Stack};

pub const TOO_MANY_DIGITS: &str = "t + 1 digits of a plane changed";

/// A stack at random, sound or damaged, and calls of all its operations.
pub fn cases(random: &mut Random) -> Vec<Made> {
    use Operation::*;
    let mut body = stack_body(random);
    if random.one_in(3) {
        damage(&mut body, random);
    }
    let mut cases: Vec<Made> = [TestStack, StackCells, StackSymbols].map(|operation| made(Case::of(operation, &body))).into();
    match Stack::open(&body) {
        Ok(stack) => cases.extend(sound_stack_cases(&body, &stack, random)),
        Err(_) => cases.extend([EncodeStack, DecodeStack, RecoverStack].map(|operation| made(Case::with(operation, &body, &[0, 1], 2)))),
    }
    cases
}

fn sound_stack_cases(body: &[u8], stack: &Stack, random: &mut Random) -> Vec<Made> {
    use Operation::*;
    let mut cases = Vec::new();
    let symbols = stack.symbols();
    for _ in 0..2 {
        let message = message(stack, random);
        let codeword = stack::encode(body, &message, stack.n).expect("a sound message");
        let decode = |word: &[u8]| Case::with(DecodeStack, body, word, stack.n);
        let within = |random: &mut Random| changed(stack, &codeword, None, random);
        cases.push(made(Case::with(EncodeStack, body, &message, stack.n)));
        cases.push(made(Case::with(RecoverStack, body, &codeword, symbols)));
        cases.push(made(Case::with(RecoverStack, body, &within(random), symbols)));
        cases.push(made(decode(&within(random))));
        cases.push(made(decode(&within(random))));
        cases.push(made(decode(&random.bytes(stack.n, stack.q))));
        let beyond = random.below(stack.planes.len());
        cases.push(Made { case: decode(&changed(stack, &codeword, Some(beyond), random)), way: Some(TOO_MANY_DIGITS) });
    }
    cases.extend(faulty_stack_cases(body, stack, random));
    cases
}

/// A message at random.
pub fn message(stack: &Stack, random: &mut Random) -> Vec<u8> {
    stack.planes.iter().flat_map(|plane| random.bytes(plane.code.data(), plane.code.q)).collect()
}

/// A codeword at random with up to t digits of each plane changed, in one plane perhaps one more.
pub fn received_word(body: &[u8], stack: &Stack, random: &mut Random) -> Vec<u8> {
    let codeword = stack::encode(body, &message(stack, random), stack.n).expect("a sound message");
    let beyond = random.below(2 * stack.planes.len());
    changed(stack, &codeword, Some(beyond), random)
}

/// Add an error: in each plane at most t digits not 0, in the plane `beyond` one more.
fn changed(stack: &Stack, codeword: &[u8], beyond: Option<usize>, random: &mut Random) -> Vec<u8> {
    let mut errors = vec![0; stack.n];
    for (j, plane) in stack.planes.iter().enumerate() {
        let cells = if beyond == Some(j) { plane.code.t + 1 } else { random.between(0, plane.code.t) };
        let mut free: Vec<usize> = (0..stack.n).collect();
        for _ in 0..cells.min(stack.n) {
            let cell = free.swap_remove(random.below(free.len()));
            errors[cell] += random.between(1, plane.code.q - 1) * plane.place;
        }
    }
    codeword.iter().zip(errors).map(|(&level, error)| ((usize::from(level) + error) % stack.q) as u8).collect()
}

/// Buffers of a wrong length, symbols and levels too large.
fn faulty_stack_cases(body: &[u8], stack: &Stack, random: &mut Random) -> Vec<Made> {
    use Operation::*;
    let (n, symbols) = (stack.n, stack.symbols());
    let lengths = [(EncodeStack, symbols, n), (DecodeStack, n, n), (RecoverStack, n, symbols)];
    faulty_input_cases(body, &lengths, &[2, 3, stack.q as u8, 64, 255], random)
}
