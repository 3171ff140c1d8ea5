//! Our time over plain Rust's, case by case: same run, same input, rounds in turn, output buffers not cleared between calls.
//!
//! `bench [CARTLIST]`: with the path of the program `cartlist` its time on the largest images is printed beside the boundary's.
//! `bench --golay`: the table of the Golay code alone.

mod cases;
#[path = "../bindings/rust/fingerkerf.rs"]
#[allow(dead_code)] // The benchmark calls ten of the operations.
mod fingerkerf;
mod golay;
mod images;
mod plain;
mod timing;

use cases::{Case, GolayCase, Operation};
use std::hint::black_box;

fn test_times(case: &Case) -> [f64; 2] {
    let body = &case.body[..];
    assert_eq!(fingerkerf::test(body), plain::test(body), "{}", case.name);
    timing::least([
        &mut || {
            black_box(fingerkerf::test(black_box(body))).ok();
        },
        &mut || {
            black_box(plain::test(black_box(body))).ok();
        },
    ])
}

/// A count, or a refusal with its plane.
type Answer = Result<usize, (usize, usize)>;

fn answer(reading: fingerkerf::Reading) -> Answer {
    reading.result().map(|decoded| decoded.count).map_err(|refused| (refused.number, refused.plane))
}

fn plain_decode(body: &[u8], word: &[u8], out: &mut [u8]) -> Answer {
    plain::decode(body, word, out).map(|(count, _)| count).map_err(|number| (number, 0))
}

fn decode_times(
    case: &Case,
    ours: fn(&[u8], &[u8], &mut [u8]) -> fingerkerf::Reading,
    plain: fn(&[u8], &[u8], &mut [u8]) -> Answer,
) -> [f64; 2] {
    let (body, word) = (&case.body[..], &case.word[..]);
    let (mut ours_out, mut plain_out) = (vec![0xaa; word.len()], vec![0xaa; word.len()]);
    assert_eq!(answer(ours(body, word, &mut ours_out)), plain(body, word, &mut plain_out), "{}", case.name);
    assert_eq!(ours_out, plain_out, "{}", case.name);
    timing::least([
        &mut || {
            black_box(ours(black_box(body), black_box(word), black_box(&mut ours_out)));
        },
        &mut || {
            black_box(plain(black_box(body), black_box(word), black_box(&mut plain_out))).ok();
        },
    ])
}

fn message_of_number_times(case: &Case) -> [f64; 2] {
    let (body, message) = (&case.body[..], &case.word[..]);
    let value = plain::number_of_message(body, message).expect("a message that has a number");
    let (mut ours_out, mut plain_out) = (vec![0xaa; message.len()], vec![0xaa; message.len()]);
    assert_eq!(fingerkerf::message_of_number(body, value, &mut ours_out), Ok(()), "{}", case.name);
    assert_eq!(plain::message_of_number(body, value, &mut plain_out), Ok(()), "{}", case.name);
    assert_eq!((&ours_out[..], &plain_out[..]), (message, message), "{}", case.name);
    timing::least([
        &mut || {
            black_box(fingerkerf::message_of_number(black_box(body), black_box(value), black_box(&mut ours_out))).ok();
        },
        &mut || {
            black_box(plain::message_of_number(black_box(body), black_box(value), black_box(&mut plain_out))).ok();
        },
    ])
}

fn number_of_message_times(case: &Case) -> [f64; 2] {
    let (body, message) = (&case.body[..], &case.word[..]);
    assert_eq!(fingerkerf::number_of_message(body, message).result(), plain::number_of_message(body, message), "{}", case.name);
    timing::least([
        &mut || {
            black_box(fingerkerf::number_of_message(black_box(body), black_box(message)));
        },
        &mut || {
            black_box(plain::number_of_message(black_box(body), black_box(message))).ok();
        },
    ])
}

/// An operation that takes a description and an input, and writes to an output.
type Writing = fn(&[u8], &[u8], &mut [u8]) -> Result<(), usize>;

fn writing_times(case: &Case, out_length: usize, ours: Writing, plain: Writing) -> [f64; 2] {
    let (body, input) = (&case.body[..], &case.word[..]);
    let (mut ours_out, mut plain_out) = (vec![0xaa; out_length], vec![0xaa; out_length]);
    assert_eq!(ours(body, input, &mut ours_out), Ok(()), "{}", case.name);
    assert_eq!(plain(body, input, &mut plain_out), Ok(()), "{}", case.name);
    assert_eq!(ours_out, plain_out, "{}", case.name);
    timing::least([
        &mut || {
            black_box(ours(black_box(body), black_box(input), black_box(&mut ours_out))).ok();
        },
        &mut || {
            black_box(plain(black_box(body), black_box(input), black_box(&mut plain_out))).ok();
        },
    ])
}

fn pack_times(case: &Case) -> [f64; 2] {
    let length = plain::packed_bytes(&case.body).expect("powers of two");
    writing_times(case, length, fingerkerf::pack, plain::pack)
}

fn unpack_times(case: &Case) -> [f64; 2] {
    writing_times(case, case.body[0].into(), fingerkerf::unpack, plain::unpack)
}

/// Of our table, our search, plain Rust's table as one first writes it and tuned, and liquid-dsp.
fn golay_times(case: &GolayCase) -> [f64; 5] {
    let (q, body, word) = (case.body[2] as usize, &case.body[..], &case.word[..]);
    let [mut ours_out, mut search_out, mut plain_out, mut tuned_out] = [[0xaa; 23]; 4];
    let received = golay::liquid::received(case.pattern);
    let expected = case.answer.map_err(|number| (number, 0));
    assert_eq!(answer(fingerkerf::decode_golay(q, word, &mut ours_out)), expected, "{}", case.name);
    assert_eq!(answer(fingerkerf::decode(body, word, &mut search_out)), expected, "{}", case.name);
    assert_eq!(golay::decode(q, word, &mut plain_out), case.answer, "{}", case.name);
    assert_eq!(golay::decode_tuned(q, word, &mut tuned_out), case.answer, "{}", case.name);
    assert_eq!([search_out, plain_out, tuned_out], [ours_out; 3], "{}", case.name);
    assert_eq!(golay::liquid::decode(received), golay::MESSAGE, "{}", case.name);
    timing::least([
        &mut || {
            black_box(fingerkerf::decode_golay(black_box(q), black_box(word), black_box(&mut ours_out)));
        },
        &mut || {
            black_box(fingerkerf::decode(black_box(body), black_box(word), black_box(&mut search_out)));
        },
        &mut || {
            black_box(golay::decode(black_box(q), black_box(word), black_box(&mut plain_out))).ok();
        },
        &mut || {
            black_box(golay::decode_tuned(black_box(q), black_box(word), black_box(&mut tuned_out))).ok();
        },
        &mut || {
            black_box(golay::liquid::decode(black_box(received)));
        },
    ])
}

fn print_cases() {
    println!("{:<62} {:>10} {:>13} {:>6} {:>8}", "case", "ours, ns", "plain, ns", "ratio", "at most");
    for case in cases::all() {
        let [ours, plain] = match case.operation {
            Operation::Test => test_times(&case),
            Operation::Decode => decode_times(&case, fingerkerf::decode, plain_decode),
            Operation::DecodeStack => decode_times(&case, fingerkerf::decode_stack, plain::decode_stack),
            Operation::MessageOfNumber => message_of_number_times(&case),
            Operation::NumberOfMessage => number_of_message_times(&case),
            Operation::Pack => pack_times(&case),
            Operation::Unpack => unpack_times(&case),
        };
        let ratio = ours / plain;
        let note = if ratio > case.aim { "above" } else { "" };
        println!("{:<62} {ours:>10.0} {plain:>13.0} {ratio:>6.2} {:>8.2}  {note}", case.name, case.aim);
    }
}

/// Our time is to be at most that of the faster plain form, and with three late cells at most a tenth of the search's.
fn print_golay() {
    print!("{:<30} {:>9} {:>11} {:>10} {:>9}", "Golay by the table, q 8", "ours, ns", "search, ns", "plain, ns", "tuned, ns");
    println!(" {:>13} {:>11} {:>10} {:>9}", "liquid, ns", "ours/search", "ours/plain", "ours/tuned");
    for case in cases::golay_cases() {
        let [ours, search, plain, tuned, liquid] = golay_times(&case);
        let liquid = if cfg!(liquid) { format!("{liquid:.1}") } else { "not installed".to_string() };
        let (to_search, to_plain, to_tuned) = (ours / search, ours / plain, ours / tuned);
        let note = if to_plain > 1.0 || to_tuned > 1.0 || to_search > case.search_aim { "above" } else { "" };
        print!("{:<30} {ours:>9.1} {search:>11.1} {plain:>10.1} {tuned:>9.1}", case.name);
        println!(" {liquid:>13} {to_search:>11.3} {to_plain:>10.2} {to_tuned:>9.2}  {note}");
    }
}

fn print_images(cartlist: Option<&str>) {
    println!("{:<46} {:>12} {:>15} {:>26}", "image", "check, ns", "read rows, ns", "cartlist with start, ns");
    for image in images::all() {
        let [check, rows] = images::boundary_times(&image);
        let program = cartlist.map_or("not run".to_string(), |path| format!("{:.0}", images::cartlist_time(path, &image)));
        println!("{:<46} {check:>12.0} {rows:>15.0} {program:>26}", image.name);
    }
}

fn main() {
    let argument = std::env::args().nth(1);
    if argument.as_deref() == Some("--golay") {
        return print_golay();
    }
    print_cases();
    print_golay();
    println!("Output buffers were not cleared between calls.");
    print_images(argument.as_deref());
}
