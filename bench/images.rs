//! The largest images: checked and read over the boundary, and listed by the program cartlist.

use crate::cases::{random_code, six_planes, two_digits_wrong_in_each_plane, Numbers};
use crate::{fingerkerf, plain, timing};
use std::hint::black_box;
use std::io::Write;
use std::process::{Command, Stdio};

/// A row entry, and what reading it is to give.
struct Row {
    entry: usize,
    count: usize,
    levels: Vec<u8>,
}

pub struct Image {
    pub name: &'static str,
    bytes: Vec<u8>,
    rows: Vec<Row>,
}

/// An image of entries with kind, reference and body.
fn image(entries: &[(u8, u8, &[u8])]) -> Vec<u8> {
    let mut bytes = vec![entries.len() as u8];
    let mut offset = 1 + 6 * entries.len();
    for &(kind, reference, body) in entries {
        bytes.extend([kind, reference]);
        bytes.extend((offset as u16).to_le_bytes());
        bytes.extend((body.len() as u16).to_le_bytes());
        offset += body.len();
    }
    bytes.extend(entries.iter().flat_map(|&(_, _, body)| body));
    bytes
}

/// Document 01's image: what starting the program costs.
fn smallest() -> Image {
    let entries: [(u8, u8, &[u8]); 2] = [(1, 0, &[5, 4, 8, 2, 1, 2, 1, 1, 1, 1]), (3, 1, &[4, 5, 3, 2, 1])];
    let row = Row { entry: 2, count: 2, levels: vec![3, 5, 3, 1, 1] };
    Image { name: "document 01's", bytes: image(&entries), rows: vec![row] }
}

fn codes() -> Image {
    let code = random_code(&mut Numbers(1), [29, 12, 14, 7, 1, 3]);
    let mut word = [0; 29];
    word[26..].fill(1);
    let mut levels = vec![0; 29];
    let (count, _) = plain::decode(&code, &word, &mut levels).expect("three cells are within reach");
    let mut entries = vec![(1, 0, &code[..]); 31];
    entries.push((3, 31, &word));
    Image { name: "31 codes of P 4090 and a row", bytes: image(&entries), rows: vec![Row { entry: 32, count, levels }] }
}

fn stacks() -> Image {
    let (stack, word) = (six_planes(), two_digits_wrong_in_each_plane());
    let mut levels = vec![0; 64];
    let count = plain::decode_stack(&stack, &word, &mut levels).expect("two digits of each plane are within reach");
    let mut entries = vec![(2, 0, &stack[..]); 16];
    entries.extend((1..=16).map(|reference| (3, reference, &word[..])));
    let rows = (17..=32).map(|entry| Row { entry, count, levels: levels.clone() }).collect();
    Image { name: "16 stacks of six planes and 16 rows", bytes: image(&entries), rows }
}

pub fn all() -> [Image; 3] {
    [smallest(), codes(), stacks()]
}

/// Nanoseconds of checking the image, and of reading all its rows; each reading checks the image again.
pub fn boundary_times(image: &Image) -> [f64; 2] {
    let bytes = &image.bytes[..];
    let mut out = vec![0; image.rows[0].levels.len()];
    assert_eq!(fingerkerf::check_image(bytes), Ok(()), "{}", image.name);
    for row in &image.rows {
        let record = fingerkerf::read_row(bytes, row.entry, &mut out);
        assert_eq!((record.number, record.refusal, record.count, &out), (0, 0, row.count, &row.levels), "{}", image.name);
    }
    timing::least([
        &mut || {
            black_box(fingerkerf::check_image(black_box(bytes))).ok();
        },
        &mut || {
            for row in &image.rows {
                black_box(fingerkerf::read_row(black_box(bytes), row.entry, black_box(&mut out)));
            }
        },
    ])
}

/// What cartlist prints of an image.
fn listing(cartlist: &str, image: &[u8]) -> Vec<u8> {
    let mut program = Command::new(cartlist).stdin(Stdio::piped()).stdout(Stdio::piped()).spawn().expect("cartlist starts");
    program.stdin.take().expect("its input").write_all(image).expect("cartlist reads the image");
    program.wait_with_output().expect("cartlist ends").stdout
}

fn line(row: &Row) -> String {
    let levels: Vec<String> = row.levels.iter().map(u8::to_string).collect();
    format!("row {} count {} levels {}\n", row.entry, row.count, levels.join(" "))
}

/// Nanoseconds of a run of cartlist, its start included.
pub fn cartlist_time(cartlist: &str, image: &Image) -> f64 {
    let lines: String = image.rows.iter().map(line).collect();
    assert_eq!(String::from_utf8_lossy(&listing(cartlist, &image.bytes)), lines, "{}", image.name);
    let [least] = timing::least([&mut || {
        listing(cartlist, &image.bytes);
    }]);
    least
}
