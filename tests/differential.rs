//! The library, over its C boundary, against a second implementation of document 01, and of what document 02 adds.
//!
//! `differential [CARTLIST]`: with the path of the program `cartlist` its lines are compared too. The cases come from a
//! fixed seed. A difference, a refusal never reached or too few words beyond reach end it with exit code 1.

#[path = "../bindings/rust/fingerkerf.rs"]
#[allow(dead_code)] // The tests compare the raw answers and leave the conversions to callers.
mod fingerkerf;
mod second;

#[path = "differential/case.rs"]
mod case;
#[path = "differential/codes.rs"]
mod codes;
#[path = "differential/coverage.rs"]
mod coverage;
#[path = "differential/exhaustive.rs"]
mod exhaustive;
#[path = "differential/generate.rs"]
mod generate;
#[path = "differential/golay.rs"]
mod golay;
#[path = "differential/images.rs"]
mod images;
#[path = "differential/labels.rs"]
mod labels;
#[path = "differential/memory.rs"]
mod memory;
#[path = "differential/numbers.rs"]
mod numbers;
#[path = "differential/order/mod.rs"]
mod order;
#[path = "differential/packed.rs"]
mod packed;
#[path = "differential/program.rs"]
mod program;
#[path = "differential/random.rs"]
mod random;
#[path = "differential/ranges.rs"]
mod ranges;
#[path = "differential/stacks.rs"]
mod stacks;
#[path = "differential/tester.rs"]
mod tester;
#[path = "differential/threads.rs"]
mod threads;

use generate::Made;
use random::Random;
use tester::Tester;

const SEED: u64 = 2010;

/// How often each generator runs.
const CODES: usize = 8000;
const STACKS: usize = 4000;
const LABELS: usize = 3000;
const IMAGES: usize = 1500;
const NOTABLE_NUMBERS: usize = 20;
const ORDER: usize = 12;
const ORDER_OF_GOLAY: usize = 4;
const ORDER_OF_STACKS: usize = 2;
const PROGRAM_IMAGES: usize = 300;

const WAYS: [&str; 7] = [
    codes::TOO_MANY_CELLS,
    codes::TOO_FAR,
    codes::BELOW_ZERO,
    codes::AT_CEILING,
    golay::FOUR_CELLS,
    golay::BELOW_ZERO,
    stacks::TOO_MANY_DIGITS,
];

fn main() {
    let mut random = Random::new(SEED);
    let mut tester = Tester::new();
    run_order(&mut tester, &mut random);
    ranges::run(&mut tester);
    exhaustive::run(&mut tester, &mut random);
    run_generated(&mut tester, &mut random);
    println!("from several threads at once: {} calls", threads::run(some_of_each(&mut random)));
    match std::env::args().nth(1) {
        Some(path) => println!("cartlist: {} images", program::run(&path, &mut random, PROGRAM_IMAGES)),
        None => println!("cartlist: not run, no path given"),
    }
    if !tester.report(&WAYS) {
        println!("FAILED: something was never reached");
        std::process::exit(1);
    }
    println!("no difference");
}

fn run_order(tester: &mut Tester, random: &mut Random) {
    order::codes::run(tester, random, ORDER);
    order::golay::run(tester, random, ORDER_OF_GOLAY);
    order::numbers::run(tester, random, ORDER);
    order::stacks::run(tester, random, ORDER_OF_STACKS);
    order::labels::run(tester, random, ORDER);
    order::images::run(tester, random, ORDER);
    println!("order of refusals: {} calls", tester.total());
}

fn run_generated(tester: &mut Tester, random: &mut Random) {
    (0..CODES).for_each(|_| tester.run_all(&codes::cases(random)));
    golay::run(tester, random);
    (0..NOTABLE_NUMBERS).for_each(|_| tester.run_all(&numbers::notable_cases(random)));
    (0..STACKS).for_each(|_| tester.run_all(&stacks::cases(random)));
    (0..LABELS).for_each(|_| tester.run_all(&labels::cases(random)));
    tester.run_all(&labels::every_table());
    (0..IMAGES).for_each(|_| tester.run_all(&images::cases(random)));
    images::unusual_images().iter().for_each(|image| tester.run_all(&images::cases_of(image, random)));
}

fn some_of_each(random: &mut Random) -> Vec<Made> {
    let generators = [codes::cases, golay::cases, stacks::cases, labels::cases, images::cases];
    (0..200).flat_map(|_| generators.iter().flat_map(|cases| cases(random)).collect::<Vec<Made>>()).collect()
}
