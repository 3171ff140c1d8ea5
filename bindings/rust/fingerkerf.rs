//! Fingerkerf from Rust: safe calls of the C boundary, on slices.
//!
//! A refusal is a number of document 01 or 02. It changes no buffer. The library keeps no state, so calls may run at once.
//! An empty slice is handed over as null with length 0, which the boundary allows.
//! Link with `-L native=target/staticlib -l static=fingerkerf`.

/// What decoding answers, as the boundary gives it. `result` turns it into a `Result`.
#[repr(C)]
#[derive(Clone, Copy, Debug, PartialEq, Eq)]
pub struct Reading {
    /// 0 with a count, otherwise the refusal's number.
    pub number: usize,
    /// Cells that were changed.
    pub count: usize,
    /// Error patterns tried: the place, from 1 to P, of the given pattern in document 01's order; 0 with a stack, a table or a refusal.
    pub tried: usize,
    /// The plane, from 0, of a stack's 11; otherwise 0.
    pub plane: usize,
}

/// What reading a row entry answers, as the boundary gives it. `result` turns it into a `Result`.
#[repr(C)]
#[derive(Clone, Copy, Debug, PartialEq, Eq)]
pub struct Record {
    /// 0 with a record; 15, 16 or 2 without, and all other fields 0.
    pub number: usize,
    /// The entry's number, from 1.
    pub entry: usize,
    /// 0 with a count; otherwise 8, 10 or 11.
    pub refusal: usize,
    /// Cells that were changed.
    pub count: usize,
    /// The plane, from 0, of a stack's 11; otherwise 0.
    pub plane: usize,
}

/// A size that a caller needs before a call, as the boundary gives it. `result` turns it into a `Result`.
#[repr(C)]
#[derive(Clone, Copy, Debug, PartialEq, Eq)]
pub struct Size {
    /// 0 with a size, otherwise the refusal's number.
    pub number: usize,
    pub size: usize,
}

/// A message's number, as the boundary gives it. `result` turns it into a `Result`.
#[repr(C)]
#[derive(Clone, Copy, Debug, PartialEq, Eq)]
pub struct Value {
    /// 0 with a value, otherwise the refusal's number.
    pub number: usize,
    pub value: u64,
}

/// A word was decoded.
#[derive(Clone, Copy, Debug, PartialEq, Eq)]
pub struct Decoded {
    pub count: usize,
    /// Error patterns tried, up to the given one; 0 for a stack, for a row entry and where a table was read.
    pub tried: usize,
}

/// A word was not decoded. Only a stack's 11 has a plane; a code's 11 shows the same 0 as plane 0 at the boundary,
/// so `plane` says what the boundary said.
#[derive(Clone, Copy, Debug, PartialEq, Eq)]
pub struct Refused {
    pub number: usize,
    pub plane: usize,
}

impl Reading {
    pub fn result(self) -> Result<Decoded, Refused> {
        match self.number {
            0 => Ok(Decoded { count: self.count, tried: self.tried }),
            number => Err(Refused { number, plane: self.plane }),
        }
    }
}

impl Record {
    /// The outer error is a refusal without a record (15, 16, 2); the inner result is the record's outcome.
    pub fn result(self) -> Result<Result<Decoded, Refused>, usize> {
        match (self.number, self.refusal) {
            (0, 0) => Ok(Ok(Decoded { count: self.count, tried: 0 })),
            (0, number) => Ok(Err(Refused { number, plane: self.plane })),
            (number, _) => Err(number),
        }
    }
}

impl Size {
    pub fn result(self) -> Result<usize, usize> {
        unless_refused(self.number, self.size)
    }
}

impl Value {
    pub fn result(self) -> Result<u64, usize> {
        unless_refused(self.number, self.value)
    }
}

/// The functions of the static library. A slice is a pointer, then a length.
mod boundary {
    use super::{Reading, Record, Size, Value};

    type In = *const u8;
    type Out = *mut u8;

    extern "C" {
        pub fn levels_test(body: In, body_len: usize) -> usize;
        pub fn levels_encode(body: In, body_len: usize, message: In, message_len: usize, out: Out, out_len: usize) -> usize;
        pub fn levels_decode(body: In, body_len: usize, word: In, word_len: usize, out: Out, out_len: usize) -> Reading;
        pub fn levels_decode_golay(q: usize, word: In, word_len: usize, out: Out, out_len: usize) -> Reading;
        pub fn levels_recover(body: In, body_len: usize, word: In, word_len: usize, out: Out, out_len: usize) -> usize;
        pub fn levels_test_stack(body: In, body_len: usize) -> usize;
        pub fn levels_encode_stack(body: In, body_len: usize, message: In, message_len: usize, out: Out, out_len: usize) -> usize;
        pub fn levels_decode_stack(body: In, body_len: usize, word: In, word_len: usize, out: Out, out_len: usize) -> Reading;
        pub fn levels_recover_stack(body: In, body_len: usize, word: In, word_len: usize, out: Out, out_len: usize) -> usize;
        pub fn levels_make_labels(kind: usize, table: Out, table_len: usize) -> usize;
        pub fn levels_to_levels(table: In, table_len: usize, states: In, states_len: usize, levels: Out, levels_len: usize) -> usize;
        pub fn levels_to_states(table: In, table_len: usize, levels: In, levels_len: usize, states: Out, states_len: usize) -> usize;
        pub fn levels_pack(body: In, body_len: usize, message: In, message_len: usize, bytes: Out, bytes_len: usize) -> usize;
        pub fn levels_unpack(body: In, body_len: usize, bytes: In, bytes_len: usize, message: Out, message_len: usize) -> usize;
        pub fn levels_message_of_number(body: In, body_len: usize, value: u64, message: Out, message_len: usize) -> usize;
        pub fn levels_number_of_message(body: In, body_len: usize, message: In, message_len: usize) -> Value;
        pub fn levels_check_image(image: In, image_len: usize) -> usize;
        pub fn levels_read_row(image: In, image_len: usize, entry: usize, out: Out, out_len: usize) -> Record;
        pub fn levels_code_cells(body: In, body_len: usize) -> Size;
        pub fn levels_stack_cells(body: In, body_len: usize) -> Size;
        pub fn levels_stack_symbols(body: In, body_len: usize) -> Size;
        pub fn levels_packed_bytes(body: In, body_len: usize) -> Size;
        pub fn levels_row_cells(image: In, image_len: usize, entry: usize) -> Size;
    }
}

fn input(bytes: &[u8]) -> *const u8 {
    if bytes.is_empty() {
        std::ptr::null()
    } else {
        bytes.as_ptr()
    }
}

fn output(bytes: &mut [u8]) -> *mut u8 {
    if bytes.is_empty() {
        std::ptr::null_mut()
    } else {
        bytes.as_mut_ptr()
    }
}

fn unless_refused<T>(number: usize, answer: T) -> Result<T, usize> {
    match number {
        0 => Ok(answer),
        number => Err(number),
    }
}

fn done(number: usize) -> Result<(), usize> {
    unless_refused(number, ())
}

// Each call below is safe: the boundary reads and writes only inside the slices, whose lengths are handed over with
// them, and a borrowed output overlaps no input.

/// Is the code (document 01: plan) accepted?
pub fn test(body: &[u8]) -> Result<(), usize> {
    done(unsafe { boundary::levels_test(input(body), body.len()) })
}

/// Encode a message (write): `out` has n cells.
pub fn encode(body: &[u8], message: &[u8], out: &mut [u8]) -> Result<(), usize> {
    done(unsafe { boundary::levels_encode(input(body), body.len(), input(message), message.len(), output(out), out.len()) })
}

/// Decode a received word (read a row): `out` has n cells. It does not test the code.
pub fn decode(body: &[u8], word: &[u8], out: &mut [u8]) -> Reading {
    unsafe { boundary::levels_decode(input(body), body.len(), input(word), word.len(), output(out), out.len()) }
}

/// Decode a received word of the binary Golay code of 23 cells by a table, without a description: q is even, 2 to 64, and `out` has
/// 23 cells. It answers as `decode` does with that code's description, but for `tried`, which is 0.
pub fn decode_golay(q: usize, word: &[u8], out: &mut [u8]) -> Reading {
    unsafe { boundary::levels_decode_golay(q, input(word), word.len(), output(out), out.len()) }
}

/// Recover the message of a codeword: `out` has n symbols.
pub fn recover(body: &[u8], word: &[u8], out: &mut [u8]) -> Result<(), usize> {
    done(unsafe { boundary::levels_recover(input(body), body.len(), input(word), word.len(), output(out), out.len()) })
}

/// Is the stack of digit planes accepted?
pub fn test_stack(body: &[u8]) -> Result<(), usize> {
    done(unsafe { boundary::levels_test_stack(input(body), body.len()) })
}

/// Encode a stack's message: plane by plane n - r digits; `out` has n cells.
pub fn encode_stack(body: &[u8], message: &[u8], out: &mut [u8]) -> Result<(), usize> {
    done(unsafe { boundary::levels_encode_stack(input(body), body.len(), input(message), message.len(), output(out), out.len()) })
}

/// Decode a received word of a stack: `out` has n cells. It does not test the stack.
pub fn decode_stack(body: &[u8], word: &[u8], out: &mut [u8]) -> Reading {
    unsafe { boundary::levels_decode_stack(input(body), body.len(), input(word), word.len(), output(out), out.len()) }
}

/// Recover the message of a stack's codeword: `out` has `stack_symbols` digits.
pub fn recover_stack(body: &[u8], word: &[u8], out: &mut [u8]) -> Result<(), usize> {
    done(unsafe { boundary::levels_recover_stack(input(body), body.len(), input(word), word.len(), output(out), out.len()) })
}

/// Make a labeling: kind 1 straight, 2 Gray, 3 reversed; q is the table's length.
pub fn make_labels(kind: usize, table: &mut [u8]) -> Result<(), usize> {
    done(unsafe { boundary::levels_make_labels(kind, output(table), table.len()) })
}

/// The level of each state.
pub fn to_levels(table: &[u8], states: &[u8], levels: &mut [u8]) -> Result<(), usize> {
    done(unsafe { boundary::levels_to_levels(input(table), table.len(), input(states), states.len(), output(levels), levels.len()) })
}

/// The state of each level.
pub fn to_states(table: &[u8], levels: &[u8], states: &mut [u8]) -> Result<(), usize> {
    done(unsafe { boundary::levels_to_states(input(table), table.len(), input(levels), levels.len(), output(states), states.len()) })
}

/// A code's message as bytes: `bytes` has `packed_bytes` of them.
pub fn pack(body: &[u8], message: &[u8], bytes: &mut [u8]) -> Result<(), usize> {
    done(unsafe { boundary::levels_pack(input(body), body.len(), input(message), message.len(), output(bytes), bytes.len()) })
}

/// A code's message from bytes: `message` has n symbols. Bits of the last byte past the last symbol must be 0 (19).
pub fn unpack(body: &[u8], bytes: &[u8], message: &mut [u8]) -> Result<(), usize> {
    done(unsafe { boundary::levels_unpack(input(body), body.len(), input(bytes), bytes.len(), output(message), message.len()) })
}

/// A code's message from its number, the first symbol least significant: `message` has n symbols.
pub fn message_of_number(body: &[u8], value: u64, message: &mut [u8]) -> Result<(), usize> {
    done(unsafe { boundary::levels_message_of_number(input(body), body.len(), value, output(message), message.len()) })
}

/// The number of a code's message.
pub fn number_of_message(body: &[u8], message: &[u8]) -> Value {
    unsafe { boundary::levels_number_of_message(input(body), body.len(), input(message), message.len()) }
}

/// Is the image as document 01 says, and does every body pass its test?
pub fn check_image(image: &[u8]) -> Result<(), usize> {
    done(unsafe { boundary::levels_check_image(input(image), image.len()) })
}

/// Read a row entry, counted from 1: `out` has `row_cells` cells.
pub fn read_row(image: &[u8], entry: usize, out: &mut [u8]) -> Record {
    unsafe { boundary::levels_read_row(input(image), image.len(), entry, output(out), out.len()) }
}

/// n of a code, or the number that opening refuses with.
pub fn code_cells(body: &[u8]) -> Size {
    unsafe { boundary::levels_code_cells(input(body), body.len()) }
}

/// n of a stack, or the number that opening refuses with.
pub fn stack_cells(body: &[u8]) -> Size {
    unsafe { boundary::levels_stack_cells(input(body), body.len()) }
}

/// The length of a stack's message, or the number that opening refuses with.
pub fn stack_symbols(body: &[u8]) -> Size {
    unsafe { boundary::levels_stack_symbols(input(body), body.len()) }
}

/// The bytes of a code's packed message, or opening's number, or 14.
pub fn packed_bytes(body: &[u8]) -> Size {
    unsafe { boundary::levels_packed_bytes(input(body), body.len()) }
}

/// n of the code or stack that a row entry refers to, or 15, 16 or 2.
pub fn row_cells(image: &[u8], entry: usize) -> Size {
    unsafe { boundary::levels_row_cells(input(image), image.len(), entry) }
}
