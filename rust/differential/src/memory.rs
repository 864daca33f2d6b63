//! Memory that is lent to the library.

use std::fmt::{Arguments, Debug, Display, Formatter, Result as Printed};

/// Values on each side of the lent part.
const MARGIN: usize = 8;

/// A lent part between two margins. Compared whole with a copy, it shows a change anywhere in the
/// lent part, and just outside it.
#[derive(Clone, Debug, PartialEq, Eq)]
pub struct Memory<T> {
    values: Vec<T>,
}

impl<T: Copy> Memory<T> {
    pub fn new(lent: &[T], margin: T) -> Self {
        let margin = [margin; MARGIN];
        Memory {
            values: [&margin, lent, &margin].concat(),
        }
    }

    pub fn lent(&mut self) -> &mut [T] {
        let end = self.values.len() - MARGIN;
        &mut self.values[MARGIN..end]
    }
}

/// What a call is lent, and what that is to be afterwards.
pub struct Lent<T> {
    now: Memory<T>,
    after: Memory<T>,
}

impl<T: Copy + PartialEq + Debug> Lent<T> {
    pub fn new(before: &[T], after: &[T], margin: T) -> Lent<T> {
        Lent {
            now: Memory::new(before, margin),
            after: Memory::new(after, margin),
        }
    }

    /// One number, and what it is to be if it is to be changed.
    pub fn number(before: T, after: Option<T>) -> Lent<T> {
        Lent::new(&[before], &[after.unwrap_or(before)], before)
    }

    pub fn lent(&mut self) -> &mut [T] {
        self.now.lent()
    }

    pub fn pointer(&mut self) -> *mut T {
        self.lent().as_mut_ptr()
    }

    pub fn slice(&mut self) -> (*const T, usize) {
        let lent = self.lent();
        (lent.as_ptr(), lent.len())
    }

    pub fn assert_number(&self, call: Arguments) {
        assert_eq!(self.now, self.after, "{call}");
    }

    /// The same of bytes, which are too many to be printed.
    pub fn assert_bytes(&self, call: Arguments) {
        let agree = self.now == self.after;
        assert!(agree, "the bytes after {call}");
    }
}

/// Bytes in a message: how many, and the first of them.
pub struct Shown<'a>(pub &'a [u8]);

impl Display for Shown<'_> {
    fn fmt(&self, formatter: &mut Formatter) -> Printed {
        let Shown(bytes) = self;
        let first = &bytes[..bytes.len().min(40)];
        write!(formatter, "{} bytes {first:02x?}", bytes.len())
    }
}
