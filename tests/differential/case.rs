//! A case: one call of the library, and what the second implementation says that it must answer.

use crate::fingerkerf;
use crate::second::image::{Image, Record};
use crate::second::{code, golay, labeling, numbers, packing, stack, Decoded, Refused};

/// The enum of the operations, and the list of them all.
macro_rules! operations {
    ($($name:ident)*) => {
        #[derive(Clone, Copy, Debug, PartialEq, Eq, PartialOrd, Ord)]
        pub enum Operation {
            $($name),*
        }
        pub const OPERATIONS: &[Operation] = &[$(Operation::$name),*];
    };
}

operations! {
    Test Encode Decode Recover DecodeGolay
    TestStack EncodeStack DecodeStack RecoverStack
    MakeLabels ToLevels ToStates
    Pack Unpack
    MessageOfNumber NumberOfMessage
    CheckImage ReadRow
    CodeCells StackCells StackSymbols PackedBytes RowCells
}

/// What is handed to a call; what an operation does not take is left empty or 0.
#[derive(Clone, Debug)]
pub struct Case {
    pub operation: Operation,
    /// The description, the label table or the image.
    pub first: Vec<u8>,
    /// The kind of a labeling, an entry's number, a number of levels, or a message's number, whose 64 bits an x86-64 program's usize holds.
    pub number: usize,
    /// The message, word, states, levels or bytes.
    pub second: Vec<u8>,
    pub out_length: usize,
}

impl Case {
    /// A case whose operation takes a description, table or image only.
    pub fn of(operation: Operation, first: &[u8]) -> Case {
        Case::with(operation, first, &[], 0)
    }

    pub fn with(operation: Operation, first: &[u8], second: &[u8], out_length: usize) -> Case {
        Case { operation, first: first.to_vec(), number: 0, second: second.to_vec(), out_length }
    }

    pub fn numbered(mut self, number: usize) -> Case {
        self.number = number;
        self
    }
}

/// Every field of every answer of the boundary; what an answer does not have is 0.
#[derive(Clone, Copy, Debug, Default, PartialEq, Eq)]
pub struct Answer {
    pub number: usize,
    pub entry: usize,
    pub refusal: usize,
    pub count: usize,
    pub tried: usize,
    pub plane: usize,
    pub size: usize,
    pub value: u64,
}

/// What a call must answer.
#[derive(Clone, Debug)]
pub struct Expected {
    pub answer: Answer,
    /// What the output holds after the call; none when it must stay as it was.
    pub out: Option<Vec<u8>>,
}

/// Call the library.
pub fn call_library(operation: Operation, number: usize, first: &[u8], second: &[u8], out: &mut [u8]) -> Answer {
    use Operation::*;
    match operation {
        Test => plain(fingerkerf::test(first)),
        Encode => plain(fingerkerf::encode(first, second, out)),
        Decode => reading(fingerkerf::decode(first, second, out)),
        Recover => plain(fingerkerf::recover(first, second, out)),
        DecodeGolay => reading(fingerkerf::decode_golay(number, second, out)),
        TestStack => plain(fingerkerf::test_stack(first)),
        EncodeStack => plain(fingerkerf::encode_stack(first, second, out)),
        DecodeStack => reading(fingerkerf::decode_stack(first, second, out)),
        RecoverStack => plain(fingerkerf::recover_stack(first, second, out)),
        MakeLabels => plain(fingerkerf::make_labels(number, out)),
        ToLevels => plain(fingerkerf::to_levels(first, second, out)),
        ToStates => plain(fingerkerf::to_states(first, second, out)),
        Pack => plain(fingerkerf::pack(first, second, out)),
        Unpack => plain(fingerkerf::unpack(first, second, out)),
        MessageOfNumber => plain(fingerkerf::message_of_number(first, number as u64, out)),
        NumberOfMessage => value(fingerkerf::number_of_message(first, second)),
        CheckImage => plain(fingerkerf::check_image(first)),
        ReadRow => record(fingerkerf::read_row(first, number, out)),
        CodeCells => size(fingerkerf::code_cells(first)),
        StackCells => size(fingerkerf::stack_cells(first)),
        StackSymbols => size(fingerkerf::stack_symbols(first)),
        PackedBytes => size(fingerkerf::packed_bytes(first)),
        RowCells => size(fingerkerf::row_cells(first, number)),
    }
}

fn plain(result: Result<(), usize>) -> Answer {
    Answer { number: result.err().unwrap_or(0), ..Answer::default() }
}

fn reading(read: fingerkerf::Reading) -> Answer {
    let fingerkerf::Reading { number, count, tried, plane } = read;
    Answer { number, count, tried, plane, ..Answer::default() }
}

fn record(read: fingerkerf::Record) -> Answer {
    let fingerkerf::Record { number, entry, refusal, count, plane } = read;
    Answer { number, entry, refusal, count, plane, ..Answer::default() }
}

fn size(read: fingerkerf::Size) -> Answer {
    Answer { number: read.number, size: read.size, ..Answer::default() }
}

fn value(read: fingerkerf::Value) -> Answer {
    Answer { number: read.number, value: read.value, ..Answer::default() }
}

/// Ask the second implementation.
pub fn expect(case: &Case) -> Expected {
    use Operation::*;
    let Case { operation, first, number, second, out_length } = case;
    match operation {
        Test => accepted(code::test(first)),
        Encode => written(code::encode(first, second, *out_length)),
        Decode => with_tried(decoded(code::decode(first, second, *out_length)), first, second),
        Recover => written(code::recover(first, second, *out_length)),
        DecodeGolay => decoded(golay::decode(*number, second, *out_length)),
        TestStack => accepted(stack::test(first)),
        EncodeStack => written(stack::encode(first, second, *out_length)),
        DecodeStack => decoded(stack::decode(first, second, *out_length)),
        RecoverStack => written(stack::recover(first, second, *out_length)),
        MakeLabels => written(labeling::make(*number, *out_length)),
        ToLevels => written(labeling::to_levels(first, second, *out_length)),
        ToStates => written(labeling::to_states(first, second, *out_length)),
        Pack => written(packing::pack(first, second, *out_length)),
        Unpack => written(packing::unpack(first, second, *out_length)),
        MessageOfNumber => written(numbers::message_of_number(first, *number as u64, *out_length)),
        NumberOfMessage => valued(numbers::number_of_message(first, second)),
        CheckImage => accepted(Image::check(first).map(|_| ())),
        ReadRow => recorded(Image::check(first).and_then(|image| image.read_row(*number, *out_length))),
        CodeCells => sized(code::cells(first)),
        StackCells => sized(stack::cells(first)),
        StackSymbols => sized(stack::symbols(first)),
        PackedBytes => sized(packing::packed_bytes(first)),
        RowCells => sized(Image::check(first).and_then(|image| image.row_cells(*number))),
    }
}

fn expected(answer: Answer, out: Option<Vec<u8>>) -> Expected {
    Expected { answer, out }
}

fn refusal(number: usize) -> Expected {
    expected(Answer { number, ..Answer::default() }, None)
}

fn accepted(result: Result<(), usize>) -> Expected {
    refusal(result.err().unwrap_or(0))
}

fn written(result: Result<Vec<u8>, usize>) -> Expected {
    match result {
        Ok(out) => expected(Answer::default(), Some(out)),
        Err(number) => refusal(number),
    }
}

fn answered(result: Result<Answer, usize>) -> Expected {
    result.map_or_else(refusal, |answer| expected(answer, None))
}

fn sized(result: Result<usize, usize>) -> Expected {
    answered(result.map(|size| Answer { size, ..Answer::default() }))
}

fn valued(result: Result<u64, usize>) -> Expected {
    answered(result.map(|value| Answer { value, ..Answer::default() }))
}

fn decoded(result: Result<Decoded, Refused>) -> Expected {
    match result {
        Ok(Decoded { word, count }) => expected(Answer { count, ..Answer::default() }, Some(word)),
        Err(Refused { number, plane }) => expected(Answer { number, plane: plane.unwrap_or(0), ..Answer::default() }, None),
    }
}

fn recorded(result: Result<Record, usize>) -> Expected {
    match result {
        Ok(Record { entry, outcome }) => {
            let Expected { answer, out } = decoded(outcome);
            expected(Answer { number: 0, entry, refusal: answer.number, ..answer }, out)
        }
        Err(number) => refusal(number),
    }
}

/// Decoding a word of a code, with `tried` where it is given back.
fn with_tried(mut expected: Expected, body: &[u8], word: &[u8]) -> Expected {
    expected.answer.tried = expected.out.as_ref().map_or(0, |out| code::tried(body, word, out));
    expected
}

/// Compare what a call answered and left in its output with what was expected. `before` is what the output held.
pub fn compare(expected: &Expected, answer: Answer, out: &[u8], before: u8) -> Result<(), String> {
    let untouched = vec![before; out.len()];
    let wanted = expected.out.as_ref().unwrap_or(&untouched);
    if answer != expected.answer {
        return Err(format!("answer {answer:?}\nexpected {:?}", expected.answer));
    }
    if out != wanted {
        return Err(format!("output {out:?}\nexpected {wanted:?}"));
    }
    Ok(())
}
