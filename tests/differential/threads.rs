//! The same calls from several threads at once, on the same inputs.

use crate::case::{call_library, compare, expect, Case, Expected};
use crate::generate::Made;
use crate::memory::FILL;
use crate::tester::fail;
use std::thread;

const THREADS: usize = 4;

/// Every thread runs every case, each starting at another. Gives the number of calls.
pub fn run(cases: Vec<Made>) -> usize {
    let expected: Vec<(Case, Expected)> = cases.into_iter().map(|made| (made.case.clone(), expect(&made.case))).collect();
    thread::scope(|scope| {
        for number in 0..THREADS {
            let expected = &expected;
            scope.spawn(move || run_from(expected, number * expected.len() / THREADS));
        }
    });
    THREADS * expected.len()
}

fn run_from(cases: &[(Case, Expected)], start: usize) {
    for (case, expected) in cases[start..].iter().chain(&cases[..start]) {
        let mut out = vec![FILL; case.out_length];
        let answer = call_library(case.operation, case.number, &case.first, &case.second, &mut out);
        compare(expected, answer, &out, FILL).unwrap_or_else(|difference| fail(case, &difference));
    }
}
