//! The calls of p12.h, and for each a safe function over slices. The only unsafe code of the crate.
//!
//! What p12.h takes on trust holds by the types: a slice's pointer and length belong together and the pointer isn't NULL; a `&mut` shares no byte
//! with anything else that is handed over; results behind pointers are locals. `Table` and `Attribute` are `repr(C)`, and all their members are u16,
//! so they are words without padding, and any words are a value of them.
use crate::numbers::{TABLE_LENGTH, UPLOAD_LENGTH};
use crate::table::{Attribute, Table};
use std::mem::{align_of, size_of};

pub const ATTRIBUTE_WORDS: usize = size_of::<Attribute>() / size_of::<u16>();

const _: () = assert!(size_of::<Table>() == TABLE_LENGTH * size_of::<u16>() && ATTRIBUTE_WORDS == 5 && align_of::<Table>() == align_of::<u16>());

extern "C" {
    fn p12_table_length() -> usize;
    fn p12_read(file: *const u8, length: usize, table: *mut u16, words: usize, offset: *mut usize) -> u8;
    fn p12_mac_input(file: *const u8, length: usize, start: *mut usize, end: *mut usize) -> u8;
    fn p12_write(table: *const u16, words: usize, bytes: *const u8, length: usize, out: *mut u8, capacity: usize, written: *mut usize) -> u8;
    fn p12_attribute(table: *const u16, words: usize, bytes: *const u8, length: usize, bag: usize, i: usize, row: *mut u16, row_words: usize) -> u8;
    fn p12_element(bytes: *const u8, length: usize, values_start: u32, values_end: u32, i: usize, start: *mut usize, end: *mut usize) -> usize;
    fn p12_certificate_for(table: *const u16, words: usize, bytes: *const u8, length: usize, key: usize, bag: *mut usize) -> u8;
    fn p12_list(file: *const u8, length: usize, out: *mut u8, capacity: usize, written: *mut usize) -> u8;
    fn p12_pairs(file: *const u8, length: usize, out: *mut u8, capacity: usize, written: *mut usize) -> u8;
    fn p12_import(text: *const u8, length: usize, out: *mut u8, capacity: usize, written: *mut usize, offset: *mut usize) -> u8;
    fn p12_export(bytes: *const u8, length: usize, out: *mut u8, capacity: usize, written: *mut usize) -> u8;
    fn p12_upload_begin(length: usize, state: *mut u16, cells: usize) -> u8;
    fn p12_upload_take(state: *mut u16, cells: usize, portion: *const u8, length: usize) -> u8;
    fn p12_upload_status(state: *const u16, cells: usize, offset: *mut usize, after: *mut usize) -> u8;
    fn p12_upload_end(state: *const u16, cells: usize, offset: *mut usize, after: *mut usize, elements: *mut usize, level: *mut usize) -> u8;
}

/// How many words the library takes a table for.
pub fn table_length() -> usize {
    // SAFETY: nothing is handed over.
    unsafe { p12_table_length() }
}

fn words(table: &Table) -> *const u16 {
    (table as *const Table).cast()
}

/// The number and the offset.
pub fn read(file: &[u8], table: &mut Table) -> (u8, usize) {
    let mut offset = 0;
    let memory: *mut Table = table;
    // SAFETY: the module's head; `memory` is TABLE_LENGTH words that `table` lends.
    let number = unsafe { p12_read(file.as_ptr(), file.len(), memory.cast(), TABLE_LENGTH, &mut offset) };
    (number, offset)
}

/// The number, the start and the end.
pub fn mac_input(file: &[u8]) -> (u8, usize, usize) {
    let (mut start, mut end) = (0, 0);
    // SAFETY: the module's head.
    let number = unsafe { p12_mac_input(file.as_ptr(), file.len(), &mut start, &mut end) };
    (number, start, end)
}

/// The number and the length written.
pub fn write(table: &Table, bytes: &[u8], out: &mut [u8]) -> (u8, usize) {
    let mut written = 0;
    // SAFETY: the module's head.
    let number = unsafe { p12_write(words(table), TABLE_LENGTH, bytes.as_ptr(), bytes.len(), out.as_mut_ptr(), out.len(), &mut written) };
    (number, written)
}

/// The number and the row; an empty row where none is given.
pub fn attribute(table: &Table, bytes: &[u8], bag: usize, i: usize) -> (u8, Attribute) {
    let mut row = Attribute::default();
    let memory: *mut Attribute = &mut row;
    // SAFETY: the module's head; `memory` is ATTRIBUTE_WORDS words of a local.
    let number = unsafe { p12_attribute(words(table), TABLE_LENGTH, bytes.as_ptr(), bytes.len(), bag, i, memory.cast(), ATTRIBUTE_WORDS) };
    (number, row)
}

/// The count, the start and the end.
pub fn element(bytes: &[u8], values_start: u32, values_end: u32, i: usize) -> (usize, usize, usize) {
    let (mut start, mut end) = (0, 0);
    // SAFETY: the module's head.
    let count = unsafe { p12_element(bytes.as_ptr(), bytes.len(), values_start, values_end, i, &mut start, &mut end) };
    (count, start, end)
}

/// The number and the certificate's bag.
pub fn certificate_for(table: &Table, bytes: &[u8], key: usize) -> (u8, usize) {
    let mut bag = 0;
    // SAFETY: the module's head.
    let number = unsafe { p12_certificate_for(words(table), TABLE_LENGTH, bytes.as_ptr(), bytes.len(), key, &mut bag) };
    (number, bag)
}

/// The number and the length written.
pub fn list(file: &[u8], out: &mut [u8]) -> (u8, usize) {
    let mut written = 0;
    // SAFETY: the module's head.
    let number = unsafe { p12_list(file.as_ptr(), file.len(), out.as_mut_ptr(), out.len(), &mut written) };
    (number, written)
}

/// The number and the length written.
pub fn pairs(file: &[u8], out: &mut [u8]) -> (u8, usize) {
    let mut written = 0;
    // SAFETY: the module's head.
    let number = unsafe { p12_pairs(file.as_ptr(), file.len(), out.as_mut_ptr(), out.len(), &mut written) };
    (number, written)
}

/// The number, the offset and the length written.
pub fn import(text: &[u8], out: &mut [u8]) -> (u8, usize, usize) {
    let (mut written, mut offset) = (0, 0);
    // SAFETY: the module's head.
    let number = unsafe { p12_import(text.as_ptr(), text.len(), out.as_mut_ptr(), out.len(), &mut written, &mut offset) };
    (number, offset, written)
}

/// The number and the length written.
pub fn export(bytes: &[u8], out: &mut [u8]) -> (u8, usize) {
    let mut written = 0;
    // SAFETY: the module's head.
    let number = unsafe { p12_export(bytes.as_ptr(), bytes.len(), out.as_mut_ptr(), out.len(), &mut written) };
    (number, written)
}

/// What an upload's state is kept in.
pub type Cells = [u16; UPLOAD_LENGTH];

/// The number.
pub fn upload_begin(length: usize, state: &mut Cells) -> u8 {
    // SAFETY: the module's head.
    unsafe { p12_upload_begin(length, state.as_mut_ptr(), state.len()) }
}

/// The number.
pub fn upload_take(state: &mut Cells, portion: &[u8]) -> u8 {
    // SAFETY: the module's head.
    unsafe { p12_upload_take(state.as_mut_ptr(), state.len(), portion.as_ptr(), portion.len()) }
}

/// The number, the offset, and the number of bytes after which it was certain.
pub fn upload_status(state: &Cells) -> (u8, usize, usize) {
    let (mut offset, mut after) = (0, 0);
    // SAFETY: the module's head.
    let number = unsafe { p12_upload_status(state.as_ptr(), state.len(), &mut offset, &mut after) };
    (number, offset, after)
}

/// The same, and the number of elements and the greatest level.
pub fn upload_end(state: &Cells) -> (u8, usize, usize, usize, usize) {
    let (mut offset, mut after, mut elements, mut level) = (0, 0, 0, 0);
    // SAFETY: the module's head.
    let number = unsafe { p12_upload_end(state.as_ptr(), state.len(), &mut offset, &mut after, &mut elements, &mut level) };
    (number, offset, after, elements, level)
}
