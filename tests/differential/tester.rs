//! Runs cases: the library in guarded memory against the second implementation, and counts what was reached.

use crate::case::{call_library, compare, expect, Case, Operation};
use crate::coverage::{label, Coverage};
use crate::generate::Made;
use crate::memory::{on_forbidden_access, Pages, Place, FILL};
use std::collections::{BTreeMap, BTreeSet};
use std::ptr;
use std::sync::atomic::{AtomicPtr, Ordering};

/// Pages for descriptions, tables, words and messages, which mostly have at most so many bytes.
const SMALL: usize = 1;
const SMALL_BYTES: usize = 4096;
/// Pages for images and whatever is longer.
const LARGE: usize = 20;

/// Each way of lying beyond reach must have come up so often.
const LEAST_OF_A_WAY: usize = 200;

pub struct Tester {
    first_small: Pages,
    first_large: Pages,
    second: Pages,
    out: Pages,
    pub coverage: Coverage,
    calls: BTreeMap<Operation, usize>,
    read: usize,
    beyond: usize,
    ways: BTreeMap<&'static str, usize>,
    /// The figures of `tried` that came up with a count.
    tried: BTreeSet<usize>,
}

impl Tester {
    pub fn new() -> Tester {
        on_forbidden_access(print_running_case);
        Tester {
            first_small: Pages::new(SMALL),
            first_large: Pages::new(LARGE),
            second: Pages::new(SMALL),
            out: Pages::new(1),
            coverage: Coverage::default(),
            calls: BTreeMap::new(),
            read: 0,
            beyond: 0,
            ways: BTreeMap::new(),
            tried: BTreeSet::new(),
        }
    }

    /// Run a case, twice so that its slices lie at the start and at the end of their pages, and give its label.
    pub fn run(&mut self, case: &Case) -> String {
        let expected = expect(case);
        RUNNING.store(ptr::from_ref(case).cast_mut(), Ordering::Relaxed);
        for place in [Place::AtStart, Place::AtEnd] {
            let first = if case.first.len() > SMALL_BYTES { &mut self.first_large } else { &mut self.first_small };
            let (input, second) = (first.input(&case.first, place), self.second.input(&case.second, place));
            let out = self.out.output(case.out_length, place);
            let answer = call_library(case.operation, case.number, input, second, out);
            let (out, around_untouched) = self.out.after(case.out_length, place);
            let compared = compare(&expected, answer, &out, FILL);
            let whole = compared.and_then(|()| around_untouched.then_some(()).ok_or("memory beside the output written".to_string()));
            whole.unwrap_or_else(|difference| fail(case, &difference));
            *self.calls.entry(case.operation).or_default() += 1;
        }
        RUNNING.store(ptr::null_mut(), Ordering::Relaxed);
        let label = label(case, &expected.answer);
        self.count_reading(case.operation, &label);
        self.coverage.note(case.operation, &label);
        if expected.answer.tried > 0 {
            self.tried.insert(expected.answer.tried);
        }
        label
    }

    /// Run generated cases. A word made to lie beyond reach in some way counts there when it does.
    pub fn run_all(&mut self, cases: &[Made]) {
        for Made { case, way } in cases {
            let beyond = self.run(case).starts_with("11");
            if let Some(way) = way.filter(|_| beyond) {
                *self.ways.entry(way).or_default() += 1;
            }
        }
    }

    fn count_reading(&mut self, operation: Operation, label: &str) {
        if matches!(operation, Operation::Decode | Operation::DecodeGolay | Operation::DecodeStack | Operation::ReadRow) {
            let beyond = label.starts_with("11");
            self.read += usize::from(beyond || label == "done");
            self.beyond += usize::from(beyond);
        }
    }

    /// Print all counts; true when nothing is missing and a third of the words read lay beyond reach, in every way.
    pub fn report(&self, ways: &[&'static str]) -> bool {
        for (operation, calls) in &self.calls {
            println!("{operation:?}: {calls} calls; {}", self.coverage.summary(*operation));
        }
        let missing = self.coverage.missing();
        missing.iter().for_each(|label| println!("never reached: {label}"));
        println!("words read: {}, beyond reach: {} ({}%)", self.read, self.beyond, self.beyond * 100 / self.read.max(1));
        let few = ways.iter().filter(|way| self.ways.get(*way).copied().unwrap_or(0) < LEAST_OF_A_WAY).count();
        ways.iter().for_each(|way| println!("beyond reach, {way}: {}", self.ways.get(way).unwrap_or(&0)));
        println!("patterns tried: {} figures, up to {}", self.tried.len(), self.tried.last().unwrap_or(&0));
        println!("{} calls compared", self.total());
        missing.is_empty() && few == 0 && self.beyond * 3 >= self.read
    }

    pub fn total(&self) -> usize {
        self.calls.values().sum()
    }
}

/// The case that runs, for the message when it touches memory that was not lent.
static RUNNING: AtomicPtr<Case> = AtomicPtr::new(ptr::null_mut());

extern "C" fn print_running_case(_: i32) {
    // A forbidden access comes from the library's call, during which the case is borrowed and unchanged.
    match unsafe { RUNNING.load(Ordering::Relaxed).as_ref() } {
        Some(case) => fail(case, "memory touched that was not lent, or an input written"),
        None => stop("memory touched that was not lent"),
    }
}

/// A difference ends the run, with the input.
pub fn fail(case: &Case, difference: &str) -> ! {
    stop(&format!("{case:?}\n{difference}"))
}

pub fn stop(difference: &str) -> ! {
    println!("DIFFERENCE\n{difference}");
    std::process::exit(1)
}
