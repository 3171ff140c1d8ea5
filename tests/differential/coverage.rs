//! What the calls reached: the refusals of each operation, and pairs of neighbours in the lists of documents 01 and 02.

use crate::case::{Answer, Case, Operation, OPERATIONS};
use crate::second::stack::Stack;
use crate::second::Refused;
use std::collections::BTreeMap;

const MOST_PLANES: usize = 6;
const IN_PLANE: &str = " in plane ";
const BEFORE: &str = " before ";

/// How often each label of each operation was reached.
#[derive(Default)]
pub struct Coverage {
    reached: BTreeMap<(Operation, String), usize>,
}

/// The label of an answer: `done`, or the number; of a stack also the plane, or `left over` for the 3 behind all planes.
pub fn label(case: &Case, answer: &Answer) -> String {
    use Operation::*;
    match (case.operation, answer.number) {
        (ReadRow, 0) if answer.refusal > 0 => format!("{} recorded", answer.refusal),
        (_, 0) => "done".to_string(),
        (DecodeStack, 11) => in_plane(11, answer.plane),
        (TestStack | EncodeStack | DecodeStack | RecoverStack | StackCells | StackSymbols, number) => opening_label(&case.first, number),
        (_, number) => number.to_string(),
    }
}

fn opening_label(body: &[u8], number: usize) -> String {
    match Stack::open_and_locate(body) {
        Err(Refused { plane: Some(plane), .. }) => in_plane(number, plane),
        Err(Refused { number: 3, .. }) => "3 left over".to_string(),
        _ => number.to_string(),
    }
}

pub fn in_plane(number: usize, plane: usize) -> String {
    format!("{number}{IN_PLANE}{plane}")
}

impl Coverage {
    pub fn note(&mut self, operation: Operation, label: &str) {
        *self.reached.entry((operation, label.to_string())).or_default() += 1;
    }

    /// The required labels that were never reached.
    pub fn missing(&self) -> Vec<String> {
        let unreached = |(operation, label): &(Operation, String)| !self.reached.contains_key(&(*operation, label.clone()));
        required().into_iter().filter(unreached).map(|(operation, label)| format!("{operation:?}: {label}")).collect()
    }

    /// How often each label of an operation was reached, in the order of its list; a plane's numbers plane by plane.
    pub fn summary(&self, operation: Operation) -> String {
        let times = |label: &String| self.reached.get(&(operation, label.clone())).copied().unwrap_or(0);
        let mut parts = vec![format!("done {}", times(&"done".to_string()))];
        let labels = list(operation, MOST_PLANES);
        for label in labels.iter().filter(|label| !label.contains(IN_PLANE)) {
            parts.push(format!("{label}: {}", times(label)));
        }
        for number in [1, 2, 3, 4, 5, 11] {
            let by_plane: Vec<usize> = (0..MOST_PLANES).map(|plane| times(&in_plane(number, plane))).collect();
            if by_plane.iter().any(|&times| times > 0) {
                parts.push(format!("{number} by plane: {by_plane:?}"));
            }
        }
        let pairs = self.reached.keys().filter(|(of, label)| *of == operation && label.contains(BEFORE)).count();
        parts.push(format!("neighbours in order: {pairs}"));
        parts.join(", ")
    }
}

/// What each operation declines, in the order of documents 01 and 02, for a stack of so many planes.
pub fn list(operation: Operation, planes: usize) -> Vec<String> {
    use Operation::*;
    let numbers = |numbers: &[usize]| numbers.iter().map(usize::to_string).collect::<Vec<String>>();
    let code = |more: &[usize]| [numbers(&[1, 2, 3, 4, 5]), numbers(more)].concat();
    let stack = |more: &[usize]| [stack_list(planes), numbers(more)].concat();
    match operation {
        Test => code(&[6]),
        Encode => code(&[8, 9]),
        Decode => code(&[8, 10, 11]),
        Recover => code(&[8, 10, 12]),
        DecodeGolay => numbers(&[2, 8, 10, 11]),
        TestStack => stack(&[6]),
        EncodeStack => stack(&[8, 9]),
        DecodeStack => [stack(&[8, 10]), vec![in_plane(11, planes - 1)]].concat(),
        RecoverStack => stack(&[8, 10, 12]),
        MakeLabels => numbers(&[2, 14]),
        ToLevels | ToStates => numbers(&[2, 13, 8, 10]),
        Pack => code(&[14, 8, 9]),
        Unpack => code(&[14, 8, 19]),
        MessageOfNumber => code(&[8, 17, 18]),
        NumberOfMessage => code(&[8, 17, 9]),
        CheckImage => numbers(&[15, 16]),
        ReadRow => [numbers(&[15, 16, 2]), ["8 recorded", "10 recorded", "11 recorded"].map(String::from).to_vec()].concat(),
        CodeCells => code(&[]),
        StackCells | StackSymbols => stack(&[]),
        PackedBytes => code(&[14]),
        RowCells => numbers(&[15, 16, 2]),
    }
}

/// Opening a stack. With a single plane no product is above 64.
fn stack_list(planes: usize) -> Vec<String> {
    let mut labels = vec!["1".to_string(), "2".to_string()];
    labels.extend((0..planes).flat_map(|plane| (1..=5).map(move |number| in_plane(number, plane))));
    labels.push("3 left over".to_string());
    if planes > 1 {
        labels.push("7".to_string());
    }
    labels
}

pub fn before(earlier: &str, later: &str) -> String {
    format!("{earlier}{BEFORE}{later}")
}

/// Every label of every list, every pair of neighbours, and an answer that is no refusal.
fn required() -> Vec<(Operation, String)> {
    let mut labels = Vec::new();
    for &operation in OPERATIONS {
        labels.push((operation, "done".to_string()));
        for planes in 1..=MOST_PLANES {
            let list = list(operation, planes);
            labels.extend(list.windows(2).map(|pair| (operation, before(&pair[0], &pair[1]))));
            labels.extend(list.into_iter().map(|label| (operation, label)));
        }
    }
    labels.sort();
    labels.dedup();
    labels
}
