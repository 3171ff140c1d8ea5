//! Times of calls that are to be compared.

use std::time::Instant;

const ROUNDS: usize = 101;
const ROUND_MICROSECONDS: u128 = 500;

fn nanoseconds(call: &mut dyn FnMut(), calls: usize) -> f64 {
    let start = Instant::now();
    for _ in 0..calls {
        call();
    }
    start.elapsed().as_nanos() as f64 / calls as f64
}

/// So many calls that a round takes long enough for the clock, and is short enough to be left alone in many rounds.
fn calls_in_a_round(call: &mut dyn FnMut()) -> usize {
    let mut calls = 1;
    loop {
        let start = Instant::now();
        for _ in 0..calls {
            call();
        }
        if start.elapsed().as_micros() >= ROUND_MICROSECONDS {
            return calls;
        }
        calls *= 2;
    }
}

/// Nanoseconds a call, of each the least of all rounds. The rounds take turns, so that what slows the machine meets all.
pub fn least<const N: usize>(mut compared: [&mut dyn FnMut(); N]) -> [f64; N] {
    let calls = compared.each_mut().map(|call| calls_in_a_round(*call));
    let mut least = [f64::INFINITY; N];
    for _ in 0..ROUNDS {
        for i in 0..N {
            least[i] = least[i].min(nanoseconds(compared[i], calls[i]));
        }
    }
    least
}
