//! Lists the rows of a cartridge image that circular reading mends and reading by distance refuses or reads otherwise.
//!
//! This is a tool for moving away from LEVELS. It is not part of the library, and nothing of it is proved.
//!
//!     build/circular_rows IMAGE

#[allow(dead_code)]
mod second;

use second::image::Image;
use second::{circular, code, Decoded, Refused};

fn shown(reading: &Result<Decoded, Refused>) -> String {
    match reading {
        Ok(decoded) => {
            let levels: String = decoded.word.iter().map(|level| format!(" {level}")).collect();
            format!("count {} levels{levels}", decoded.count)
        }
        Err(refused) => format!("refused {}", refused.number),
    }
}

fn list(image: &Image) {
    for number in image.rows() {
        let Some((plan, row)) = image.plan_and_row(number) else { continue };
        let by_distance = code::decode(plan, row, usize::from(plan[0]));
        let circularly = circular::decode(plan, row);
        if by_distance != circularly {
            println!("row {number}: circular {}; by distance {}", shown(&circularly), shown(&by_distance));
        }
    }
}

fn main() {
    println!("a tool, not proved: rows that circular reading and reading by distance read differently");
    let name = std::env::args().nth(1).expect("the name of an image");
    let bytes = std::fs::read(name).expect("a file that can be read");
    match Image::check(&bytes) {
        Ok(image) => list(&image),
        Err(number) => println!("image refused {number}"),
    }
}
