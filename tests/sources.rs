//! The examples of documents 01 and 02 and of documents 000, 001 and 003: the library against the second implementation and
//! against what each paper says. One line for each source, then the total. docs/SOURCES.md lists what is not expressible.

#[path = "../bindings/rust/fingerkerf.rs"]
#[allow(dead_code)] // The tests compare the raw answers and leave the conversions to callers.
mod fingerkerf;
#[allow(dead_code)] // Parts of it serve the differential tests alone.
mod second;

#[path = "differential/case.rs"]
#[allow(dead_code)] // Not every operation has an example.
mod case;
#[path = "sources/document000.rs"]
mod document000;
#[path = "sources/document001.rs"]
mod document001;
#[path = "sources/document003.rs"]
mod document003;
#[path = "sources/document01.rs"]
mod document01;
#[path = "sources/document02.rs"]
mod document02;
#[path = "sources/paper.rs"]
mod paper;

fn main() {
    let total = document01::run() + document02::run() + document000::run() + document001::run() + document003::run();
    println!("{total} statements of the sources held");
}
