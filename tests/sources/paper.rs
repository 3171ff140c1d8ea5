//! What a source says, put to the library and to the second implementation.

use crate::case::{call_library, compare, expect, Answer, Case, Operation};
use crate::second::golay;

/// What an output holds before a call.
const FILL: u8 = 0xA5;

/// One source, and how many of its statements held.
pub struct Source {
    name: &'static str,
    held: usize,
}

impl Source {
    pub fn new(name: &'static str) -> Source {
        Source { name, held: 0 }
    }

    /// Print the source's line and give its count.
    pub fn done(self) -> usize {
        println!("{}: {} held", self.name, self.held);
        self.held
    }

    /// A statement that needs no call.
    pub fn holds(&mut self, statement: &str, true_here: bool) {
        if !true_here {
            self.fail(statement);
        }
        self.held += 1;
    }

    fn fail(&self, statement: &str) -> ! {
        println!("FAILED: {}: {statement}", self.name);
        std::process::exit(1)
    }

    /// Call the library. The second implementation must agree.
    fn call(&mut self, case: &Case) -> (Answer, Vec<u8>) {
        let mut out = vec![FILL; case.out_length];
        let answer = call_library(case.operation, case.number, &case.first, &case.second, &mut out);
        let compared = compare(&expect(case), answer, &out, FILL);
        compared.unwrap_or_else(|difference| self.fail(&format!("{case:?}\n{difference}")));
        (answer, out)
    }

    /// The call refuses with this number, or with 0 does not.
    pub fn answers(&mut self, case: &Case, number: usize) -> Answer {
        let (answer, _) = self.call(case);
        self.holds(&format!("{case:?} answers {number}, not {answer:?}"), answer.number == number);
        answer
    }

    pub fn accepts(&mut self, body: &[u8]) {
        self.answers(&Case::of(Operation::Test, body), 0);
    }

    pub fn rejects(&mut self, body: &[u8], number: usize) {
        self.answers(&Case::of(Operation::Test, body), number);
    }

    /// The call is done and leaves this in its output.
    pub fn gives(&mut self, case: &Case, wanted: &[u8]) -> Answer {
        let (answer, out) = self.call(case);
        self.holds(&format!("{case:?} gives {wanted:?}, not {out:?} {answer:?}"), answer.number == 0 && out == wanted);
        answer
    }

    /// The word is decoded to that codeword, with that count.
    pub fn decodes(&mut self, operation: Operation, body: &[u8], word: &[u8], codeword: &[u8], count: usize) {
        let answer = self.gives(&Case::with(operation, body, word, codeword.len()), codeword);
        self.holds(&format!("{body:?} reads {word:?} with count {count}"), answer.count == count);
    }

    /// The word is given back by the pattern at that place in the order, counted from 1.
    pub fn tries(&mut self, body: &[u8], word: &[u8], place: usize) {
        let answer = self.answers(&Case::with(Operation::Decode, body, word, word.len()), 0);
        self.holds(&format!("{body:?} reads {word:?} with {place} tried, not {answer:?}"), answer.tried == place);
    }

    /// The word of the Golay code of q levels is read by the table, to that codeword with that count; the search reads the same.
    pub fn reads_by_table(&mut self, q: usize, word: &[u8], codeword: &[u8], count: usize) {
        let (by_table, levels) = self.call(&Case::with(Operation::DecodeGolay, &[], word, codeword.len()).numbered(q));
        let reading = Answer { count, ..Answer::default() };
        self.holds(
            &format!("{q} levels, {word:?} is read by the table, not {by_table:?} {levels:?}"),
            by_table == reading && levels == codeword,
        );
        let mut found = vec![FILL; codeword.len()];
        let by_search = call_library(Operation::Decode, 0, &golay::body(q), word, &mut found);
        let alike = by_table == (Answer { tried: 0, ..by_search }) && found == levels;
        self.holds(&format!("{q} levels, {word:?} is read by the search, not {by_search:?} {found:?}"), alike);
    }

    /// The number has a message, which is given back; and that message has the number.
    pub fn numbers(&mut self, body: &[u8], value: u64) -> Vec<u8> {
        let n = usize::from(body[0]);
        let (answer, message) = self.call(&Case::with(Operation::MessageOfNumber, body, &[], n).numbered(value as usize));
        self.holds(&format!("{body:?} has a message for {value}, not {answer:?}"), answer.number == 0);
        let answer = self.answers(&Case::with(Operation::NumberOfMessage, body, &message, 0), 0);
        self.holds(&format!("{body:?} numbers {message:?} with {value}, not {answer:?}"), answer.value == value);
        message
    }

    /// The message is encoded, to the codeword that is given back; every rise up to l of every cell of it is decoded.
    pub fn mends_every_rise_of(&mut self, body: &[u8], message: &[u8]) -> Vec<u8> {
        let (n, q, l) = (usize::from(body[0]), body[2], body[4]);
        let (_, codeword) = self.call(&Case::with(Operation::Encode, body, message, n));
        for cell in 0..n {
            for rise in (1..=l).filter(|rise| codeword[cell] + rise < q) {
                let mut word = codeword.clone();
                word[cell] += rise;
                self.decodes(Operation::Decode, body, &word, &codeword, 1);
            }
        }
        codeword
    }

    /// No message is taken from the bytes.
    pub fn refuses_bytes(&mut self, body: &[u8], bytes: &[u8], out_length: usize, number: usize) {
        self.answers(&Case::with(Operation::Unpack, body, bytes, out_length), number);
    }

    /// The row to which the bytes' message is encoded. None when the bytes are refused 19.
    pub fn row_of_bytes(&mut self, body: &[u8], bytes: &[u8]) -> Option<Vec<u8>> {
        let n = usize::from(body[0]);
        let (answer, message) = self.call(&Case::with(Operation::Unpack, body, bytes, n));
        if answer.number == 19 {
            return None;
        }
        self.holds(&format!("{body:?} takes a message from {bytes:?}, not {answer:?}"), answer.number == 0);
        let (_, row) = self.call(&Case::with(Operation::Encode, body, &message, n));
        Some(row)
    }

    /// Messages of 0 and of 1 in every data cell are encoded; every rise up to l of every cell of these codewords is
    /// decoded.
    pub fn mends_every_single_rise(&mut self, body: &[u8]) {
        let (n, r) = (usize::from(body[0]), usize::from(body[1]));
        for symbol in [0, 1] {
            self.mends_every_rise_of(body, &[vec![symbol; n - r], vec![0; r]].concat());
        }
    }
}

/// The description of a code from the columns of its parity matrix, unit columns last, q = M, t = 1 (document 003).
pub fn code_of_columns(q: usize, l: usize, columns: &[Vec<u8>]) -> Vec<u8> {
    let r = columns[0].len();
    let is_unit = |column: &&Vec<u8>| column.iter().filter(|&&entry| entry == 0).count() == r - 1 && column.contains(&1);
    let data: Vec<&Vec<u8>> = columns.iter().filter(|column| !is_unit(column)).collect();
    assert!(data.len() + r == columns.len(), "every unit column once");
    let fields = [columns.len(), r, q, q, l, 1].map(|field| field as u8);
    let matrix = (0..r).flat_map(|row| data.iter().map(move |column| column[row]));
    fields.into_iter().chain(matrix).collect()
}
