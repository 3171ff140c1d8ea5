//! The program `cartlist`: its whole output against the second implementation's lines.

use crate::random::Random;
use crate::second::listing;
use crate::{images, tester};
use std::io::Write;
use std::process::{Command, Stdio};

/// Run the program on unusual images and on so many at random. Gives the number of images.
pub fn run(program: &str, random: &mut Random, times: usize) -> usize {
    let mut inputs = images::unusual_images();
    inputs.extend((0..times).map(|_| images::image(random)));
    for image in &inputs {
        let (written, wanted) = (output(program, image), listing::lines(image));
        if written != wanted.as_bytes() {
            let written = String::from_utf8_lossy(&written);
            tester::stop(&format!("{program} on {image:?}\nwrites {written:?}\nexpected {wanted:?}"));
        }
    }
    inputs.len()
}

/// What the program writes for an image on its standard input. It may stop reading once the input is too long.
fn output(program: &str, image: &[u8]) -> Vec<u8> {
    let started = Command::new(program).stdin(Stdio::piped()).stdout(Stdio::piped()).spawn();
    let mut child = started.unwrap_or_else(|error| tester::stop(&format!("{program} does not start: {error}")));
    let mut input = child.stdin.take().expect("a piped input");
    let image = image.to_vec();
    let writer = std::thread::spawn(move || drop(input.write_all(&image)));
    let output = child.wait_with_output().expect("a program that ends");
    writer.join().expect("a writer that ends");
    if output.status.code().is_none() {
        tester::stop(&format!("{program} ends with {}", output.status));
    }
    output.stdout
}
