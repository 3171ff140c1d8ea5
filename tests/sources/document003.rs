//! Document 003: Kløve, Bose, Elarief, "Systematic single limited magnitude error correcting codes for Flash Memories".

use crate::document01::F;
use crate::paper::{code_of_columns, Source};

pub fn run() -> usize {
    examples_1_and_2() + table_1() + table_of_section_2e() + sequences() + theorem_1() + section_2c() + above_64() + theorems_4_to_6()
}

/// One check cell: the sequence is the only row of the parity matrix.
fn code_of_sequence(q: usize, l: usize, sequence: &[usize]) -> Vec<u8> {
    let columns: Vec<Vec<u8>> = sequence.iter().map(|&entry| vec![entry as u8]).collect();
    code_of_columns(q, l, &columns)
}

/// All columns of r entries below q whose first entry that is not 0 belongs to the sequence (section III).
fn code_of_section_3(q: usize, l: usize, r: usize, sequence: &[usize]) -> Vec<u8> {
    let columns = crate::second::distance::all_words(r, q);
    let leads = |column: &&Vec<u8>| column.iter().find(|&&entry| entry != 0).is_some_and(|&lead| sequence.contains(&usize::from(lead)));
    code_of_columns(q, l, &columns.iter().filter(leads).cloned().collect::<Vec<Vec<u8>>>())
}

fn examples_1_and_2() -> usize {
    let mut source = Source::new("document 003, example 1 (q = 4, l = 1)");
    let first = code_of_section_3(4, 1, 2, &[1, 2, 3]);
    source.holds("length 15, 2 check digits", first[..2] == [15, 2]);
    source.accepts(&first);
    source.mends_every_single_rise(&first);
    let count = source.done();
    let mut source = Source::new("document 003, example 2 (q = 5, l = 2)");
    let second = code_of_section_3(5, 2, 2, &[1, 4]);
    source.holds("document 01's plan F", second == F);
    source.accepts(&second);
    source.mends_every_single_rise(&second);
    count + source.done()
}

/// q, the sequence, and 0 when it makes a code or the number that refuses it.
type Row = (usize, &'static [usize], usize);

/// Table I, l = 2. A sequence that holds q/2 makes no code: twice q/2 is 0, the syndrome of the empty pattern.
const TABLE_1: [Row; 13] = [
    (2, &[1], 2),
    (5, &[1, 4], 0),
    (6, &[1, 3, 5], 6),
    (9, &[1, 3, 4, 7], 0),
    (11, &[1, 3, 4, 5, 9], 0),
    (14, &[1, 3, 4, 5, 7, 13], 6),
    (15, &[1, 3, 4, 5, 7, 12, 13], 0),
    (18, &[1, 3, 4, 5, 7, 9, 15, 17], 6),
    (21, &[1, 3, 4, 5, 7, 9, 16, 17, 20], 0),
    (22, &[1, 3, 4, 5, 7, 9, 11, 17, 19, 21], 6),
    (25, &[1, 3, 4, 5, 7, 9, 11, 12, 19, 20, 21], 0),
    (29, &[1, 3, 4, 5, 7, 9, 11, 12, 13, 23, 25, 28], 0),
    (30, &[1, 3, 4, 5, 7, 9, 11, 12, 13, 15, 23, 25, 29], 6),
];

/// Table I's last column, twice each entry.
const TABLE_1_DOUBLES: [&[usize]; 13] = [
    &[0],
    &[2, 3],
    &[2, 0, 4],
    &[2, 6, 8, 5],
    &[2, 6, 8, 10, 7],
    &[2, 6, 8, 10, 0, 12],
    &[2, 6, 8, 10, 14, 9, 11],
    &[2, 6, 8, 10, 14, 0, 12, 16],
    &[2, 6, 8, 10, 14, 18, 11, 13, 19],
    &[2, 6, 8, 10, 14, 18, 0, 12, 16, 20],
    &[2, 6, 8, 10, 14, 18, 22, 24, 13, 15, 17],
    &[2, 6, 8, 10, 14, 18, 22, 24, 26, 17, 21, 27],
    &[2, 6, 8, 10, 14, 18, 22, 24, 26, 0, 16, 20, 28],
];

/// Section II-E, l = 3. A sequence makes no code when twice or three times an entry is 0.
const TABLE_OF_SECTION_2E: [Row; 10] = [
    (3, &[1], 2),
    (7, &[1, 6], 0),
    (8, &[1, 4, 7], 6),
    (15, &[1, 4, 5, 7, 13], 6),
    (20, &[1, 4, 5, 9, 13, 17], 0),
    (26, &[1, 4, 5, 7, 13, 16, 23], 6),
    (28, &[1, 4, 5, 7, 9, 13, 17, 24, 25], 0),
    (34, &[1, 4, 5, 7, 9, 11, 17, 20, 29, 31], 6),
    (40, &[1, 4, 5, 7, 9, 11, 13, 19, 20, 23, 32, 35, 37], 6),
    (50, &[1, 4, 5, 7, 9, 11, 13, 16, 23, 25, 28, 40, 43, 47], 6),
];

fn table_1() -> usize {
    let mut source = Source::new("document 003, table I (7 codes, 5 refused 6, 1 refused 2)");
    for ((q, sequence, _), doubles) in TABLE_1.iter().zip(TABLE_1_DOUBLES) {
        source.holds("doubles as printed", sequence.iter().map(|entry| 2 * entry % q).eq(doubles.iter().copied()));
    }
    TABLE_1.iter().for_each(|row| table_row(&mut source, 2, row));
    source.done()
}

fn table_of_section_2e() -> usize {
    let mut source = Source::new("document 003, table of section II-E (3 codes, 6 refused 6, 1 refused 2)");
    TABLE_OF_SECTION_2E.iter().for_each(|row| table_row(&mut source, 3, row));
    source.done()
}

fn table_row(source: &mut Source, l: usize, &(q, sequence, number): &Row) {
    let body = code_of_sequence(q, l, sequence);
    source.rejects(&body, number);
    match number {
        0 => source.mends_every_single_rise(&body),
        6 => source.holds("a multiple of an entry is 0", sequence.iter().any(|entry| (1..=l).any(|rise| rise * entry % q == 0))),
        _ => source.holds("l is not below q", l >= q),
    }
}

/// The exponent of a prime in a number.
fn valuation(prime: usize, mut number: usize) -> usize {
    let mut exponent = 0;
    while number % prime == 0 {
        number /= prime;
        exponent += 1;
    }
    exponent
}

/// Sections II-D and II-E: the general constructions for q = 35 and q = 50, and the greedy list for q = 35.
fn sequences() -> usize {
    let mut source = Source::new("document 003, sequences for q = 35 (both) and q = 50");
    let constructed = [1, 3, 4, 5, 7, 9, 11, 12, 13, 15, 16, 17];
    let greedy = [1, 3, 4, 5, 7, 9, 11, 12, 13, 15, 16, 17, 27, 28, 29, 33];
    let for_50 = [1, 4, 5, 7, 9, 11, 13, 16];
    source.holds("q = 35 constructed", (1..=17).filter(|&c| valuation(2, c) % 2 == 0).eq(constructed));
    source.holds("q = 50 constructed", (1..=16).filter(|&c| valuation(2, c) % 2 == 0 && valuation(3, c) % 2 == 0).eq(for_50));
    for (q, l, sequence) in [(35, 2, &constructed[..]), (35, 2, &greedy), (50, 3, &for_50)] {
        let body = code_of_sequence(q, l, sequence);
        source.accepts(&body);
        source.mends_every_single_rise(&body);
    }
    // The paper's formula for the length gives 10 where its own list has 12, and for q = 100 its 32 where there are 33.
    let formula = |q: usize| q / 4 + q / 16 + q / 64;
    let length = |q: usize| (1..=q / 2).filter(|&c| valuation(2, c) % 2 == 0).count();
    source.holds("q = 35: 10 by the formula, 12 in the list", (formula(35), length(35)) == (10, constructed.len()));
    source.holds("q = 100: 32 by the formula, 33 entries", (formula(100), length(100)) == (32, 33));
    source.done()
}

fn is_prime(number: usize) -> bool {
    number > 1 && (2..number).all(|divisor| number % divisor != 0)
}

/// Theorem 1: p prime, p at least m and l + 1, q = p(l + 1) up to 64.
fn theorem_1() -> usize {
    let mut source = Source::new("document 003, theorem 1 (every l, p and m with q up to 64)");
    for l in 1..=63 {
        for p in (l + 1..=64 / (l + 1)).filter(|&p| is_prime(p)) {
            for m in 2..=p {
                let sequence: Vec<usize> = (0..m).map(|i| i * (l + 1) + 1).collect();
                source.accepts(&code_of_sequence(p * (l + 1), l, &sequence));
            }
        }
    }
    source.done()
}

/// Section II-C: q prime up to 64, the order of 2 even, powers of 4, l = 2.
fn section_2c() -> usize {
    let mut source = Source::new("document 003, section II-C (primes up to 64, l = 2)");
    for q in (5..=64).filter(|&q| is_prime(q)) {
        let powers: Vec<usize> = std::iter::successors(Some(1), |power| Some(power * 2 % q).filter(|&next| next != 1)).collect();
        if powers.len() % 2 == 0 {
            let sequence: Vec<usize> = powers.iter().copied().step_by(2).collect();
            let body = code_of_sequence(q, 2, &sequence);
            source.accepts(&body);
            source.mends_every_single_rise(&body);
        }
    }
    source.done()
}

/// Example 3 begins at q = 73, theorem 2's list at 139: no plan has more than 64 levels, and 2 says so. Moduli that fit a
/// byte are tried.
fn above_64() -> usize {
    let mut source = Source::new("document 003, example 3 and theorem 2's list (q above 64, refused 2)");
    source.rejects(&code_of_sequence(73, 6, &[1, 9, 8, 72, 64, 65]), 2);
    for q in [139, 163] {
        let cubes: Vec<usize> = std::iter::successors(Some(27 % q), |power| Some(power * 27 % q)).take((q - 1) / 3).collect();
        source.rejects(&code_of_sequence(q, 3, &cubes), 2);
    }
    source.done()
}

/// Section III with two or more check cells, where n is at most 64.
fn theorems_4_to_6() -> usize {
    let mut source = Source::new("document 003, theorems 4, 5 and 6 (r of 2 and more)");
    let all = |q: usize| (1..q).collect::<Vec<usize>>();
    let codes = [
        (2, 1, 6, all(2)),
        (3, 1, 3, all(3)),
        (4, 1, 3, all(4)),
        (7, 1, 2, all(7)),
        (8, 1, 2, all(8)),
        (5, 2, 2, vec![1, 4]),
        (9, 2, 2, vec![1, 3, 4, 7]),
        (11, 2, 2, vec![1, 3, 4, 5, 9]),
        (7, 3, 2, vec![1, 6]),
    ];
    for (q, l, r, sequence) in codes {
        let body = code_of_section_3(q, l, r, &sequence);
        source.holds("theorem 5: the length", usize::from(body[0]) == sequence.len() * (q.pow(r as u32) - 1) / (q - 1));
        source.accepts(&body);
        source.mends_every_single_rise(&body);
    }
    // Theorem 4 needs every magnitude prime to q: for q = 8 the columns 1 0 and 1 4 have the same double, 2 0.
    source.accepts(&code_of_sequence(8, 2, &[1, 3]));
    source.rejects(&code_of_section_3(8, 2, 2, &[1, 3]), 6);
    source.done()
}
