//! Cartridge images, and cases of checking them and of reading their rows.

use crate::case::{Case, Operation};
use crate::generate::{code_body, damage, made, stack_body, Made};
use crate::random::Random;
use crate::second::code::{self, Code};
use crate::second::image::{Image, ENTRY_BYTES, MOST_BYTES, MOST_ENTRIES, PLAN, ROW, STACK};
use crate::second::listing;
use crate::second::stack::{self, Stack};
use crate::{codes, stacks};

/// An entry with its body.
#[derive(Clone, Debug)]
pub struct Body {
    pub kind: u8,
    pub reference: usize,
    pub bytes: Vec<u8>,
}

/// An image of these bodies, its directory as document 01 says.
pub fn assemble(bodies: &[Body]) -> Vec<u8> {
    let mut image = vec![bodies.len() as u8];
    let mut offset = 1 + bodies.len() * ENTRY_BYTES;
    for body in bodies {
        image.extend([body.kind, body.reference as u8]);
        image.extend((offset as u16).to_le_bytes());
        image.extend((body.bytes.len() as u16).to_le_bytes());
        offset += body.bytes.len();
    }
    image.extend(bodies.iter().flat_map(|body| body.bytes.iter()));
    image
}

/// Bodies of an image that passes its check, more often than not.
fn bodies(random: &mut Random) -> Vec<Body> {
    let most = random.pick(&[2, 4, 8, MOST_ENTRIES]);
    let count = random.between(1, most);
    let mut bodies: Vec<Body> = Vec::new();
    for _ in 0..count {
        let described: Vec<usize> = (1..=bodies.len()).filter(|&number| bodies[number - 1].kind != ROW).collect();
        let next = if described.is_empty() || random.one_in(4) {
            description(random)
        } else {
            let reference = random.pick(&described);
            let bytes = row(&bodies[reference - 1], random);
            Body { kind: ROW, reference, bytes }
        };
        bodies.push(next);
    }
    bodies
}

/// A code or a stack, accepted but for one time in sixteen.
fn description(random: &mut Random) -> Body {
    loop {
        let (kind, bytes) = if random.one_in(2) { (PLAN, code_body(random)) } else { (STACK, stack_body(random)) };
        let accepted = if kind == PLAN { code::test(&bytes).is_ok() } else { stack::test(&bytes).is_ok() };
        if accepted || random.one_in(16) {
            return Body { kind, reference: 0, bytes };
        }
    }
}

/// A received word of the description, now and then with a level too large or of a wrong length.
fn row(description: &Body, random: &mut Random) -> Vec<u8> {
    let mut word = received_word(description, random).unwrap_or_default();
    match random.below(12) {
        0 => word.resize(random.below(80), 0),
        1 if !word.is_empty() => word[0] = random.byte_from(2),
        _ => {}
    }
    word
}

/// None of a description that does not open.
fn received_word(description: &Body, random: &mut Random) -> Option<Vec<u8>> {
    let body = &description.bytes;
    if description.kind == PLAN {
        Code::open(body).ok().map(|code| codes::received_word(&code, random))
    } else {
        Stack::open(body).ok().map(|stack| stacks::received_word(body, &stack, random))
    }
}

/// An image at random, sound or damaged.
pub fn image(random: &mut Random) -> Vec<u8> {
    let mut bodies = bodies(random);
    if random.one_in(8) {
        let entry = random.below(bodies.len());
        bodies[entry].reference = random.pick(&[0, 1, entry, entry + 1, entry + 2, 255]);
    }
    if random.one_in(12) {
        let entry = random.below(bodies.len());
        damage(&mut bodies[entry].bytes, random);
    }
    let mut image = assemble(&bodies);
    if random.one_in(8) {
        damage(&mut image, random);
    }
    image
}

/// Document 01's image, and images at the bounds of length, of entries and of rows.
pub fn unusual_images() -> Vec<Vec<u8>> {
    let plan = Body { kind: PLAN, reference: 0, bytes: vec![5, 4, 8, 2, 1, 2, 1, 1, 1, 1] };
    let row = |length: usize| Body { kind: ROW, reference: 1, bytes: vec![1; length] };
    let before_row = 1 + 2 * ENTRY_BYTES + plan.bytes.len();
    let whole = |length: usize| assemble(&[plan.clone(), row(length - before_row)]);
    let many = |entries: usize| assemble(&[vec![plan.clone()], vec![row(5); entries - 1]].concat());
    vec![
        listing::EXAMPLE.to_vec(),
        Vec::new(),
        whole(MOST_BYTES),
        whole(MOST_BYTES + 1),
        vec![0; MOST_BYTES + 1],
        [whole(MOST_BYTES), vec![0; 5000]].concat(),
        many(MOST_ENTRIES),
        many(MOST_ENTRIES + 1),
        many(1),
        assemble(&[plan.clone(), row(0)]),
        assemble(&[Body { bytes: Vec::new(), ..plan }]),
    ]
}

/// Check an image and read some of its entries, with an output of the right length or not.
pub fn cases_of(image: &[u8], random: &mut Random) -> Vec<Made> {
    let mut cases = vec![made(Case::of(Operation::CheckImage, image))];
    let entries = usize::from(image.first().copied().unwrap_or(0)).min(MOST_ENTRIES);
    let checked = Image::check(image);
    let rows: Vec<usize> = checked.iter().flat_map(|checked| checked.rows()).collect();
    for _ in 0..4 {
        let entry = if rows.is_empty() || random.one_in(4) { random.below(entries + 2) } else { random.pick(&rows) };
        let cells = checked.as_ref().ok().and_then(|checked| checked.row_cells(entry).ok()).unwrap_or(1);
        let out_length = if random.one_in(10) { random.below(70) } else { cells };
        cases.push(made(Case::with(Operation::ReadRow, image, &[], out_length).numbered(entry)));
        cases.push(made(Case::of(Operation::RowCells, image).numbered(entry)));
    }
    cases
}

pub fn cases(random: &mut Random) -> Vec<Made> {
    let image = image(random);
    cases_of(&image, random)
}
