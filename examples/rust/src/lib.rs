//! PKCS #12 files: reading, writing, attributes, pairing and listing, uploads, and files wrapped as text, over the
//! proved library libp12.a. include/p12.h says what each call answers.
//!
//! ```no_run
//! let file = std::fs::read("keys.p12").unwrap();
//! let table = p12::read(&file).unwrap();
//! for (row, bag) in table.bags().iter().enumerate() {
//!     println!("{:?}: {:?}", bag.kind(), table.certificate_for(&file, row));
//! }
//! ```
#![deny(unsafe_op_in_unsafe_fn)]
#![deny(unsafe_code)]

mod numbers;
#[allow(unsafe_code)]
mod sys;
mod table;
mod upload;

pub use numbers::{
    Number, ATTRIBUTE_ROWS, BAG_ROWS, FILE_BYTES, LEVELS, LISTING_BYTES, OPAQUE_LEVELS, PAIRS_BYTES, SAFE_ROWS, TABLE_LENGTH, TEXT_BYTES,
    UPLOAD_LEVELS,
};
pub use table::{Attribute, Bag, BagKind, Parts, Range, Safe, SafeKind, Table};
pub use upload::{Passed, Spoiled, Upload};

use numbers::{DONE, OK};
use std::fmt;

impl Number {
    fn of(number: u8) -> Number {
        *Number::ALL.iter().find(|one| **one as u8 == number).expect("a number of p12.h")
    }
}

/// A refusal: its number, and the offset in the file for the numbers 1 to 8 and 15, in the text for 16.
#[derive(Clone, Copy, Debug, PartialEq, Eq)]
pub struct Refusal {
    pub number: Number,
    pub offset: usize,
}

impl fmt::Display for Refusal {
    fn fmt(&self, f: &mut fmt::Formatter<'_>) -> fmt::Result {
        write!(f, "refused {} at {}", self.number as u8, self.offset)
    }
}

impl std::error::Error for Refusal {}

fn answer<T>(number: u8, offset: usize, value: T) -> Result<T, Refusal> {
    match number {
        OK => Ok(value),
        _ => Err(Refusal { number: Number::of(number), offset }),
    }
}

/// How many words of 16 bits the library takes a table for: `TABLE_LENGTH`, unless it is of another version than these types.
pub fn table_length() -> usize {
    sys::table_length()
}

/// Reads a file.
pub fn read(file: &[u8]) -> Result<Table, Refusal> {
    let mut table = Table::default();
    read_into(file, &mut table)?;
    Ok(table)
}

/// Reads a file into a table. A refused file leaves the empty table in it, whatever it held before.
pub fn read_into(file: &[u8], table: &mut Table) -> Result<(), Refusal> {
    let (number, offset) = sys::read(file, table);
    answer(number, offset, ())
}

/// The part of a file that its MAC is computed over. The offset of a refusal isn't reported: it is 0.
pub fn mac_input(file: &[u8]) -> Result<&[u8], Refusal> {
    let (number, start, end) = sys::mac_input(file);
    answer(number, 0, &file[start..end])
}

/// Writes the listing of a file to the front of the buffer, and gives its length. Refused files are
/// listed too. `ShortBuffer` leaves the buffer as it was.
pub fn list(file: &[u8], out: &mut [u8]) -> Result<usize, Refusal> {
    let (number, written) = sys::list(file, out);
    answer(number, 0, written)
}

/// Writes the pairs of a file to the front of the buffer, and gives the length: a line for each key bag. A refused file
/// has the line of its refusal. `ShortBuffer` leaves the buffer as it was.
pub fn pairs(file: &[u8], out: &mut [u8]) -> Result<usize, Refusal> {
    let (number, written) = sys::pairs(file, out);
    answer(number, 0, written)
}

/// The listing of a file.
pub fn listing(file: &[u8]) -> String {
    text(file, LISTING_BYTES, list)
}

/// The pairs of a file.
pub fn pair_lines(file: &[u8]) -> String {
    text(file, PAIRS_BYTES, pairs)
}

/// A text of a file, which fits into so many bytes.
fn text(file: &[u8], most: usize, write: fn(&[u8], &mut [u8]) -> Result<usize, Refusal>) -> String {
    let mut out = vec![0; most];
    let written = write(file, &mut out).expect("a buffer for every text");
    out.truncate(written);
    String::from_utf8(out).expect("a text is ASCII")
}

/// The bytes that a text wraps. `NotText` has the offset of the first byte with which no text could go on; `TooLong`
/// for more than `FILE_BYTES` bytes.
pub fn import(text: &[u8]) -> Result<Vec<u8>, Refusal> {
    let mut out = vec![0; FILE_BYTES.min(text.len())];
    let written = import_into(text, &mut out)?;
    out.truncate(written);
    Ok(out)
}

/// The text of bytes. `NotText` for none, `TooLong` for more than `FILE_BYTES`.
pub fn export(bytes: &[u8]) -> Result<String, Refusal> {
    let mut out = vec![0; TEXT_BYTES];
    let written = export_into(bytes, &mut out)?;
    out.truncate(written);
    Ok(String::from_utf8(out).expect("a text is ASCII"))
}

/// Writes the bytes that a text wraps to the front of the buffer, and returns their number. A refusal leaves the
/// buffer as it was.
pub fn import_into(text: &[u8], out: &mut [u8]) -> Result<usize, Refusal> {
    let (number, offset, written) = sys::import(text, out);
    answer(number, offset, written)
}

/// Writes the text of bytes to the front of the buffer, and returns its length. A refusal leaves the buffer as it was.
pub fn export_into(bytes: &[u8], out: &mut [u8]) -> Result<usize, Refusal> {
    let (number, written) = sys::export(bytes, out);
    answer(number, 0, written)
}

/// The number of elements in an attribute's values, and element i, counted from 0, header included.
pub fn element(bytes: &[u8], values: Range, i: usize) -> (usize, Option<&[u8]>) {
    let (count, start, end) = sys::element(bytes, values.start.into(), values.end.into(), i);
    (count, if i < count { bytes.get(start..end) } else { None })
}

/// The elements of an attribute's values, in order. Each is found from the front, so the time for all grows with the square of their number.
pub fn elements(bytes: &[u8], values: Range) -> impl Iterator<Item = &[u8]> {
    (0..).map_while(move |i| element(bytes, values, i).1)
}

impl Table {
    /// Writes the file of the table to the front of the buffer, and gives its length. The ranges point into `bytes`. A refusal leaves the buffer
    /// as it was.
    pub fn write(&self, bytes: &[u8], out: &mut [u8]) -> Result<usize, Refusal> {
        let (number, written) = sys::write(self, bytes, out);
        answer(number, 0, written)
    }

    /// Attribute i of a bag, counted from 0; `None` behind the last one.
    pub fn attribute(&self, bytes: &[u8], bag: usize, i: usize) -> Result<Option<Attribute>, Refusal> {
        match sys::attribute(self, bytes, bag, i) {
            (DONE, _) => Ok(None),
            (number, row) => answer(number, 0, Some(row)),
        }
    }

    /// The attributes of a bag, in order.
    pub fn attributes_of(&self, bytes: &[u8], bag: usize) -> Result<Vec<Attribute>, Refusal> {
        (0..).map_while(|i| self.attribute(bytes, bag, i).transpose()).collect()
    }

    /// The row of the certificate bag that belongs to a key bag.
    pub fn certificate_for(&self, bytes: &[u8], key: usize) -> Result<usize, Refusal> {
        let (number, bag) = sys::certificate_for(self, bytes, key);
        answer(number, 0, bag)
    }
}
