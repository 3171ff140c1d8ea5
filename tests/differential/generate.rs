//! Descriptions of codes and stacks at random, and damage to them.

use crate::case::{Case, Operation};
use crate::order::wrong_length;
use crate::random::Random;
use crate::second::pattern;

/// A generated case. A word that was made to lie beyond reach says in which way.
pub struct Made {
    pub case: Case,
    pub way: Option<&'static str>,
}

pub fn made(case: Case) -> Made {
    Made { case, way: None }
}

/// For each operation, with the lengths of its input and its output: a buffer of a wrong length, or a large value.
pub fn faulty_input_cases(body: &[u8], lengths: &[(Operation, usize, usize)], large: &[u8], random: &mut Random) -> Vec<Made> {
    let mut cases = Vec::new();
    for &(operation, in_length, out_length) in lengths {
        let mut case = Case::with(operation, body, &random.bytes(in_length, 2), out_length);
        if random.one_in(2) {
            wrong_length(&mut case, random);
        } else {
            case.second[random.below(in_length)] = random.pick(large);
        }
        cases.push(made(case));
    }
    cases
}

/// How many patterns a code may have. Few, mostly, since trying them all takes the second implementation's time.
fn pattern_limit(random: &mut Random) -> u64 {
    random.pick(&[30, 100, 300, 300, 1000, 4096])
}

fn cells(random: &mut Random) -> usize {
    let most = random.pick(&[3, 6, 12, 24, 45, 64]);
    random.between(1, most)
}

/// Many check cells, so that most codes are accepted, or any number.
fn check_cells(n: usize, random: &mut Random) -> usize {
    let most = (n - 1).min(12);
    if random.one_in(3) {
        random.between(0, most)
    } else {
        random.between(most / 2, most)
    }
}

fn levels(random: &mut Random) -> usize {
    if random.one_in(2) {
        random.pick(&[2, 4, 8, 16, 32, 64])
    } else {
        random.between(2, 64)
    }
}

/// All levels, a divisor of them, or any modulus.
fn modulus(q: usize, random: &mut Random) -> usize {
    match random.below(3) {
        0 => q,
        1 => random.pick(&(2..=q).filter(|modulus| q % modulus == 0).collect::<Vec<usize>>()),
        _ => random.between(2, q),
    }
}

/// The largest magnitude, small more often than not.
fn magnitude(modulus: usize, random: &mut Random) -> usize {
    let most = if random.one_in(3) { modulus - 1 } else { (modulus - 1).min(3) };
    random.between(1, most)
}

/// The body of a code that opens.
pub fn code_body(random: &mut Random) -> Vec<u8> {
    let limit = pattern_limit(random);
    loop {
        let n = cells(random);
        let (r, q) = (check_cells(n, random), levels(random));
        let modulus = modulus(q, random);
        let (l, t) = (magnitude(modulus, random), random.between(0, n.min(3)));
        if pattern::count(n, l, t) <= limit {
            return body_of([n, r, q, modulus, l, t], random);
        }
    }
}

/// The body of a code with these parameters, n, r, q, M, l, t, and a matrix at random.
pub fn body_of(parameters: [usize; 6], random: &mut Random) -> Vec<u8> {
    let [n, r, _, modulus, ..] = parameters;
    [&parameters.map(|field| field as u8)[..], &random.bytes(r * (n - r), modulus)].concat()
}

/// So many bases of 2 or more with a product of at most 64.
pub fn bases(planes: usize, random: &mut Random) -> Vec<usize> {
    let mut bases = vec![2; planes];
    for _ in 0..random.below(40) {
        let plane = random.below(planes);
        bases[plane] += 1;
        if bases.iter().product::<usize>() > 64 {
            bases[plane] -= 1;
        }
    }
    bases
}

/// The body of a stack that opens.
pub fn stack_body(random: &mut Random) -> Vec<u8> {
    let n = cells(random);
    let planes = random.between(1, 6);
    let limit = pattern_limit(random);
    let mut body = vec![n as u8, planes as u8];
    for c in bases(planes, random) {
        body.extend(plane(n, c, limit, random));
    }
    body
}

fn plane(n: usize, c: usize, limit: u64, random: &mut Random) -> Vec<u8> {
    let r = check_cells(n, random);
    let most = (0..=n.min(3)).rev().find(|&t| pattern::count(n, c - 1, t) <= limit).unwrap_or(0);
    let t = random.between(0, most);
    [&[c as u8, r as u8, t as u8], &random.bytes(r * (n - r), c)[..]].concat()
}

/// Damage a body: cut it, lengthen it, or change some byte, one of the first more often.
pub fn damage(body: &mut Vec<u8>, random: &mut Random) {
    match random.below(4) {
        0 => body.truncate(random.below(body.len() + 1)),
        1 => body.extend(vec![0; random.between(1, 3)]),
        2 if !body.is_empty() => change(body, 8, random),
        _ if !body.is_empty() => change(body, usize::MAX, random),
        _ => body.push(0),
    }
}

fn change(body: &mut [u8], among_first: usize, random: &mut Random) {
    let place = random.below(body.len().min(among_first));
    body[place] = random.pick(&[0, 1, 2, 13, 64, 65, 255]);
}
