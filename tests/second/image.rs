//! The cartridge image: a directory (document 01: contents) of entries, then their bodies.

use super::{code, refuse, stack, Decoded, Refused};

pub const PLAN: u8 = 1;
pub const STACK: u8 = 2;
pub const ROW: u8 = 3;

pub const MOST_ENTRIES: usize = 32;
pub const MOST_BYTES: usize = 65_535;
pub const ENTRY_BYTES: usize = 6;

#[derive(Clone, Copy, Debug)]
struct Entry {
    kind: u8,
    reference: usize,
    offset: usize,
    length: usize,
}

/// An image that was checked. Entries count from 1.
pub struct Image<'a> {
    bytes: &'a [u8],
    entries: Vec<Entry>,
}

/// What reading a row entry leaves: the entry's number and an outcome, either a count (with the word) or a refusal.
#[derive(Clone, Debug, PartialEq, Eq)]
pub struct Record {
    pub entry: usize,
    pub outcome: Result<Decoded, Refused>,
}

impl Entry {
    fn read(bytes: &[u8]) -> Entry {
        let sixteen_bits = |low: usize| usize::from(bytes[low]) + 256 * usize::from(bytes[low + 1]);
        Entry { kind: bytes[0], reference: usize::from(bytes[1]), offset: sixteen_bits(2), length: sixteen_bits(4) }
    }
}

/// The directory: 15 when it is not as document 01 says, references apart.
fn directory(image: &[u8]) -> Result<Vec<Entry>, usize> {
    refuse(15, image.is_empty() || image.len() > MOST_BYTES)?;
    let count = usize::from(image[0]);
    refuse(15, !(1..=MOST_ENTRIES).contains(&count))?;
    let bodies = 1 + count * ENTRY_BYTES;
    refuse(15, image.len() < bodies)?;
    let entries: Vec<Entry> = image[1..bodies].chunks(ENTRY_BYTES).map(Entry::read).collect();
    refuse(15, entries.iter().any(|entry| !(PLAN..=ROW).contains(&entry.kind)))?;
    let mut end = bodies;
    for entry in &entries {
        refuse(15, entry.offset != end)?;
        end += entry.length;
    }
    refuse(15, end != image.len())?;
    Ok(entries)
}

impl<'a> Image<'a> {
    /// Check an image: 15; 16.
    pub fn check(bytes: &'a [u8]) -> Result<Image<'a>, usize> {
        let image = Image { bytes, entries: directory(bytes)? };
        refuse(16, !(1..=image.entries.len()).all(|number| image.is_sound(number)))?;
        Ok(image)
    }

    fn entry(&self, number: usize) -> Option<&Entry> {
        self.entries.get(number.checked_sub(1)?)
    }

    fn body(&self, entry: &Entry) -> &'a [u8] {
        &self.bytes[entry.offset..entry.offset + entry.length]
    }

    /// Does the body's test accept, and is the reference right?
    fn is_sound(&self, number: usize) -> bool {
        let entry = self.entries[number - 1];
        match entry.kind {
            PLAN => entry.reference == 0 && code::test(self.body(&entry)).is_ok(),
            STACK => entry.reference == 0 && stack::test(self.body(&entry)).is_ok(),
            _ => entry.reference < number && self.entry(entry.reference).is_some_and(|earlier| earlier.kind != ROW),
        }
    }

    /// The row entry of that number with the entry it refers to: 2 for a number that is no row's.
    fn row(&self, number: usize) -> Result<(&Entry, &Entry), usize> {
        let row = self.entry(number).filter(|entry| entry.kind == ROW).ok_or(2_usize)?;
        Ok((row, self.entry(row.reference).expect("a checked reference")))
    }

    /// The numbers of the row entries.
    pub fn rows(&self) -> impl Iterator<Item = usize> + '_ {
        (1..=self.entries.len()).filter(|&number| self.entries[number - 1].kind == ROW)
    }

    /// Read a row entry: 2; then the record.
    pub fn read_row(&self, number: usize, out_length: usize) -> Result<Record, usize> {
        let (row, description) = self.row(number)?;
        let decode = if description.kind == PLAN { code::decode } else { stack::decode };
        let outcome = decode(self.body(description), self.body(row), out_length);
        Ok(Record { entry: number, outcome })
    }

    /// The bodies of a row entry's plan and of the row; none for a row of a stack. Circular reading takes them.
    #[allow(dead_code)]
    pub fn plan_and_row(&self, number: usize) -> Option<(&'a [u8], &'a [u8])> {
        let (row, description) = self.row(number).ok()?;
        (description.kind == PLAN).then(|| (self.body(description), self.body(row)))
    }

    /// n of the plan or stack that a row entry refers to.
    pub fn row_cells(&self, number: usize) -> Result<usize, usize> {
        let (_, description) = self.row(number)?;
        let cells = if description.kind == PLAN { code::cells } else { stack::cells };
        cells(self.body(description))
    }
}
