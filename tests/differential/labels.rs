//! Cases of making and applying labels.

use crate::case::{Case, Operation};
use crate::generate::{made, Made};
use crate::order::labels::shuffled;
use crate::random::Random;

/// Every kind with every length up to 70, once.
pub fn every_table() -> Vec<Made> {
    let lengths = |kind: usize| (0..=70).map(move |q| made(Case::with(Operation::MakeLabels, &[], &[], q).numbered(kind)));
    (0..=5).flat_map(lengths).collect()
}

/// A table at random, a permutation or nearly one, applied both ways.
pub fn cases(random: &mut Random) -> Vec<Made> {
    let q = random.between(0, 66);
    let mut table = shuffled(q, random);
    if q > 0 && random.one_in(4) {
        table[random.below(q)] = random.pick(&[0, 1, 63, 64, q as u8, 255]);
    }
    let length = random.pick(&[0, 1, 2, 7, 64, 200, 1000]);
    let mut input = random.bytes(length, q.max(1));
    if length > 0 && random.one_in(8) {
        input[random.below(length)] = random.pick(&[q as u8, 64, 255]);
    }
    let out_length = if random.one_in(8) { random.below(70) } else { length };
    [Operation::ToLevels, Operation::ToStates].map(|operation| made(Case::with(operation, &table, &input, out_length))).into()
}
