//! What the program `cartlist` writes for an image.

use super::image::{Image, Record};

/// Document 01's image. Its whole output is `row 2 count 2 levels 3 5 3 1 1`.
pub const EXAMPLE: [u8; 28] = [2, 1, 0, 13, 0, 10, 0, 3, 1, 23, 0, 5, 0, 5, 4, 8, 2, 1, 2, 1, 1, 1, 1, 4, 5, 3, 2, 1];

/// All of the program's output: a line for each row entry, or the single line of a refused image.
pub fn lines(bytes: &[u8]) -> String {
    match Image::check(bytes) {
        Err(number) => format!("image refused {number}\n"),
        Ok(image) => image.rows().map(|number| line(&image, number)).collect(),
    }
}

fn line(image: &Image, number: usize) -> String {
    let cells = image.row_cells(number).expect("a row entry");
    let Record { entry, outcome } = image.read_row(number, cells).expect("a row entry");
    match outcome {
        Ok(decoded) => {
            let levels: String = decoded.word.iter().map(|level| format!(" {level}")).collect();
            format!("row {entry} count {} levels{levels}\n", decoded.count)
        }
        Err(refused) => format!("row {entry} refused {}\n", refused.number),
    }
}
