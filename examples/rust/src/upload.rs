//! An upload, checked while it arrives.
use crate::numbers::{Number, OK, UPLOAD_LENGTH};
use crate::{sys, Refusal};

/// An upload: its length is announced, and its bytes come in portions that are cut anywhere.
///
/// ```no_run
/// let mut upload = p12::Upload::begin(2572);
/// upload.take(b"\x30\x82").unwrap(); // Err as soon as a fault is certain
/// println!("{:?}", upload.end());
/// ```
#[derive(Clone, Copy, Debug, PartialEq, Eq)]
pub struct Upload {
    state: sys::Cells,
}

/// A fault, and the number of bytes after which it was certain.
#[derive(Clone, Copy, Debug, PartialEq, Eq)]
pub struct Spoiled {
    pub refusal: Refusal,
    pub after: usize,
}

/// What a check that passed counted; the outermost element is level 1.
#[derive(Clone, Copy, Debug, PartialEq, Eq)]
pub struct Passed {
    pub elements: usize,
    pub level: usize,
}

fn answer<T>(number: u8, offset: usize, after: usize, value: T) -> Result<T, Spoiled> {
    match number {
        OK => Ok(value),
        _ => Err(Spoiled { refusal: Refusal { number: Number::of(number), offset }, after }),
    }
}

impl Upload {
    /// A length that is refused (0, or over 65,535) is a fault at once: see `status`.
    pub fn begin(length: usize) -> Upload {
        let mut state = [0; UPLOAD_LENGTH];
        sys::upload_begin(length, &mut state);
        Upload { state }
    }

    /// A portion arrives; it may be empty. The fault that is certain then, if there is one: it stays, whatever arrives.
    pub fn take(&mut self, portion: &[u8]) -> Result<(), Spoiled> {
        sys::upload_take(&mut self.state, portion);
        self.status()
    }

    /// What is certain so far.
    pub fn status(&self) -> Result<(), Spoiled> {
        let (number, offset, after) = sys::upload_status(&self.state);
        answer(number, offset, after, ())
    }

    /// The answer if the upload ends here. `Early` if bytes are missing: it can take more.
    pub fn end(&self) -> Result<Passed, Spoiled> {
        let (number, offset, after, elements, level) = sys::upload_end(&self.state);
        answer(number, offset, after, Passed { elements, level })
    }
}
