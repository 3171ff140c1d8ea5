//! Prints the rows of the cartridge image in a file, a line for each, as `cartlist` does.
//!
//!     rustc --edition 2021 -L native=target/staticlib -l static=fingerkerf -o build/rows bindings/rust/rows.rs
//!     build/rows samples/document

#[allow(dead_code)]
mod fingerkerf;

fn print_row(image: &[u8], entry: usize, cells: usize) {
    let mut levels = vec![0; cells];
    match fingerkerf::read_row(image, entry, &mut levels).result() {
        Ok(Ok(decoded)) => {
            let levels: String = levels.iter().map(|level| format!(" {level}")).collect();
            println!("row {entry} count {} levels{levels}", decoded.count);
        }
        Ok(Err(refused)) => println!("row {entry} refused {}", refused.number),
        Err(number) => println!("image refused {number}"),
    }
}

fn main() {
    let name = std::env::args().nth(1).expect("the name of an image");
    let image = std::fs::read(name).expect("a file that can be read");
    if let Err(number) = fingerkerf::check_image(&image) {
        println!("image refused {number}");
        return;
    }
    for entry in 1..=usize::from(image[0]) {
        if let Ok(cells) = fingerkerf::row_cells(&image, entry).result() {
            print_row(&image, entry, cells);
        }
    }
}
