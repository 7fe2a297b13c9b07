//! The table of a file: the structs of p12.h, member by member.

use crate::numbers::{ATTRIBUTE_ROWS, BAG_ROWS, SAFE_ROWS};

/// Bytes `start` up to `end - 1` of a file.
#[repr(C)]
#[derive(Clone, Copy, Debug, Default, PartialEq, Eq)]
pub struct Range {
    pub start: u16,
    pub end: u16,
}

impl Range {
    /// The bytes that the range names, if it lies in them.
    pub fn of(self, bytes: &[u8]) -> Option<&[u8]> {
        bytes.get(usize::from(self.start)..usize::from(self.end))
    }
}

/// An algorithm's identifier and parameters (absent: an empty range), or the identifier of a type; and a ciphertext, a digest, a key, or the value.
#[repr(C)]
#[derive(Clone, Copy, Debug, Default, PartialEq, Eq)]
pub struct Parts {
    pub identifier: Range,
    pub parameters: Range,
    pub value: Range,
}

#[derive(Clone, Copy, Debug, PartialEq, Eq)]
pub enum SafeKind {
    Plain,
    Encrypted,
}

#[derive(Clone, Copy, Debug, PartialEq, Eq)]
pub enum BagKind {
    Key,
    ShroudedKey,
    Certificate,
    Crl,
    Secret,
    Nested,
}

impl BagKind {
    pub fn is_key(self) -> bool {
        matches!(self, BagKind::Key | BagKind::ShroudedKey)
    }
}

#[repr(C)]
#[derive(Clone, Copy, Debug, Default, PartialEq, Eq)]
pub struct Safe {
    /// The number of the kind; 0 in an empty row.
    pub kind: u16,
    pub parts: Parts,
}

impl Safe {
    pub fn kind(&self) -> Option<SafeKind> {
        match self.kind {
            1 => Some(SafeKind::Plain),
            2 => Some(SafeKind::Encrypted),
            _ => None,
        }
    }
}

#[repr(C)]
#[derive(Clone, Copy, Debug, Default, PartialEq, Eq)]
pub struct Bag {
    /// The number of the kind; 0 in an empty row.
    pub kind: u16,
    /// The row of its safe.
    pub safe: u16,
    /// 0 for none, else the row of the enclosing bag and 1.
    pub enclosing: u16,
    pub parts: Parts,
    /// Whether the bag has a set of attributes, 0 or 1.
    pub has_set: u16,
}

impl Bag {
    pub fn kind(&self) -> Option<BagKind> {
        match self.kind {
            1 => Some(BagKind::Key),
            2 => Some(BagKind::ShroudedKey),
            3 => Some(BagKind::Certificate),
            4 => Some(BagKind::Crl),
            5 => Some(BagKind::Secret),
            6 => Some(BagKind::Nested),
            _ => None,
        }
    }

    /// The row of the enclosing bag.
    pub fn enclosing(&self) -> Option<usize> {
        usize::from(self.enclosing).checked_sub(1)
    }
}

#[repr(C)]
#[derive(Clone, Copy, Debug, Default, PartialEq, Eq)]
pub struct Attribute {
    /// The row of its bag.
    pub bag: u16,
    pub identifier: Range,
    /// The body of the SET.
    pub values: Range,
}

/// A table as reading gives it, or as the caller makes it for writing. Any values are allowed: the calls that take a table judge it.
#[repr(C)]
#[derive(Clone, Copy, Debug, PartialEq, Eq)]
pub struct Table {
    /// The number of elements in the file.
    pub elements: u16,
    pub safe_count: u16,
    pub bag_count: u16,
    pub attribute_count: u16,
    /// What the MAC is computed over.
    pub mac_input: Range,
    /// The digest's algorithm, and the digest.
    pub mac: Parts,
    pub mac_salt: Range,
    /// The MAC's iterations: their remainder by 65,536, and their quotient. Together 1 where none are written.
    pub mac_iterations_low: u16,
    pub mac_iterations_high: u16,
    pub safe_rows: [Safe; SAFE_ROWS],
    pub bag_rows: [Bag; BAG_ROWS],
    pub attribute_rows: [Attribute; ATTRIBUTE_ROWS],
}

impl Default for Table {
    /// The empty table.
    fn default() -> Self {
        Table {
            elements: 0,
            safe_count: 0,
            bag_count: 0,
            attribute_count: 0,
            mac_input: Range::default(),
            mac: Parts::default(),
            mac_salt: Range::default(),
            mac_iterations_low: 0,
            mac_iterations_high: 0,
            safe_rows: [Safe::default(); SAFE_ROWS],
            bag_rows: [Bag::default(); BAG_ROWS],
            attribute_rows: [Attribute::default(); ATTRIBUTE_ROWS],
        }
    }
}

/// The rows below a count.
fn below<T>(rows: &[T], count: u16) -> &[T] {
    &rows[..rows.len().min(usize::from(count))]
}

impl Table {
    /// The MAC's iterations.
    pub fn mac_iterations(&self) -> u32 {
        u32::from(self.mac_iterations_high) << 16 | u32::from(self.mac_iterations_low)
    }

    pub fn set_mac_iterations(&mut self, iterations: u32) {
        self.mac_iterations_low = (iterations & 0xFFFF) as u16;
        self.mac_iterations_high = (iterations >> 16) as u16;
    }

    pub fn safes(&self) -> &[Safe] {
        below(&self.safe_rows, self.safe_count)
    }

    pub fn bags(&self) -> &[Bag] {
        below(&self.bag_rows, self.bag_count)
    }

    pub fn attributes(&self) -> &[Attribute] {
        below(&self.attribute_rows, self.attribute_count)
    }
}
