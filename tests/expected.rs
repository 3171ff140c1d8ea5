//! What the crate case_runner must print for the cases on standard input, by the second implementation.
//! `make expected` writes the stored output of the programs worked_examples and vectors with it.

#[allow(dead_code)] // Parts of it serve other tests alone.
mod second;

use second::image::{Image, Record};
use second::{code, golay, labeling, numbers, packing, stack, Decoded, Refused};

/// What an output holds before a call.
const FILL: u8 = 9;

/// A case's fields. The last one is the output's length.
struct Fields<'a> {
    first: Vec<u8>,
    /// Bytes, or one number.
    second: &'a str,
    out_length: usize,
}

fn main() {
    let text = std::io::read_to_string(std::io::stdin()).expect("text on standard input");
    for line in text.lines() {
        let is_case = !line.is_empty() && !line.starts_with('#');
        println!("{}", if is_case { answer(line) } else { line.to_string() });
    }
}

fn decimals<T: std::str::FromStr>(field: &str) -> Vec<T> {
    field.split_whitespace().map(|word| word.parse().unwrap_or_else(|_| panic!("no number: {word}"))).collect()
}

/// A field of one number.
fn decimal<T: std::str::FromStr>(field: &str) -> T {
    let mut all = decimals(field);
    assert!(all.len() == 1, "not one number: {field}");
    all.remove(0)
}

fn fields(text: &str) -> Fields<'_> {
    let parts: Vec<&str> = text.split('/').collect();
    let out_length = if parts.len() > 1 { decimal(parts[parts.len() - 1]) } else { 0 };
    let second = if parts.len() > 2 { parts[1] } else { "" };
    assert!(parts.len() < 4, "more than three fields: {text}");
    Fields { first: decimals(parts[0]), second, out_length }
}

fn answer(line: &str) -> String {
    let (name, rest) = line.split_once(' ').unwrap_or((line, ""));
    let Fields { first, second, out_length } = fields(rest);
    let bytes = || decimals::<u8>(second);
    match name {
        "test" => tested(code::test(&first)),
        "encode" => written(code::encode(&first, &bytes(), out_length), out_length),
        "decode" => decoded(&first, &bytes(), out_length),
        "recover" => written(code::recover(&first, &bytes(), out_length), out_length),
        "code_cells" => sized(code::cells(&first)),
        "decode_golay" => read(golay::decode(decimal(second), &first, out_length), out_length),
        "test_stack" => tested(stack::test(&first)),
        "encode_stack" => written(stack::encode(&first, &bytes(), out_length), out_length),
        "decode_stack" => read(stack::decode(&first, &bytes(), out_length), out_length),
        "recover_stack" => written(stack::recover(&first, &bytes(), out_length), out_length),
        "stack_cells" => sized(stack::cells(&first)),
        "stack_symbols" => sized(stack::symbols(&first)),
        "make_labels" => written(labeling::make(usize::from(first[0]), out_length), out_length),
        "to_levels" => written(labeling::to_levels(&first, &bytes(), out_length), out_length),
        "to_states" => written(labeling::to_states(&first, &bytes(), out_length), out_length),
        "pack" => written(packing::pack(&first, &bytes(), out_length), out_length),
        "unpack" => written(packing::unpack(&first, &bytes(), out_length), out_length),
        "packed_bytes" => sized(packing::packed_bytes(&first)),
        "message_of_number" => written(numbers::message_of_number(&first, decimal(second), out_length), out_length),
        "number_of_message" => numbered(numbers::number_of_message(&first, &bytes())),
        "check_image" => tested(Image::check(&first).map(|_| ())),
        "read_row" => recorded(read_row(&first, decimal(second), out_length), out_length),
        "row_cells" => sized(Image::check(&first).and_then(|image| image.row_cells(decimal(second)))),
        _ => panic!("no operation of that name: {line}"),
    }
}

fn read_row(image: &[u8], entry: usize, out_length: usize) -> Result<Record, usize> {
    Image::check(image)?.read_row(entry, out_length)
}

fn refusal(number: usize) -> String {
    format!("refused {number}")
}

/// The answer, and what the output then holds.
fn with_buffer(answer: String, out: &[u8]) -> String {
    let numbers: String = out.iter().map(|number| format!(" {number}")).collect();
    format!("{answer}:{numbers}")
}

fn untouched(answer: String, out_length: usize) -> String {
    with_buffer(answer, &vec![FILL; out_length])
}

fn tested(result: Result<(), usize>) -> String {
    result.map_or_else(refusal, |()| "accepted".to_string())
}

fn sized(result: Result<usize, usize>) -> String {
    result.map_or_else(refusal, |size| format!("size {size}"))
}

fn numbered(result: Result<u64, usize>) -> String {
    result.map_or_else(refusal, |value| format!("number {value}"))
}

fn written(result: Result<Vec<u8>, usize>, out_length: usize) -> String {
    match result {
        Ok(out) => with_buffer("written".to_string(), &out),
        Err(number) => untouched(refusal(number), out_length),
    }
}

fn read(result: Result<Decoded, Refused>, out_length: usize) -> String {
    match result {
        Ok(Decoded { word, count }) => with_buffer(format!("count {count}"), &word),
        Err(Refused { number, plane: Some(plane) }) => untouched(format!("refused {number} plane {plane}"), out_length),
        Err(Refused { number, plane: None }) => untouched(refusal(number), out_length),
    }
}

/// Decoding a word of a code: a count comes with the number of patterns tried.
fn decoded(body: &[u8], received: &[u8], out_length: usize) -> String {
    match code::decode(body, received, out_length) {
        Ok(Decoded { word, count }) => with_buffer(format!("count {count} tried {}", code::tried(body, received, &word)), &word),
        refused => read(refused, out_length),
    }
}

fn recorded(result: Result<Record, usize>, out_length: usize) -> String {
    match result {
        Ok(Record { entry, outcome }) => format!("entry {entry} {}", read(outcome, out_length)),
        Err(number) => untouched(refusal(number), out_length),
    }
}
