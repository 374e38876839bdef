//! A reader over bytes. It keeps the bytes and the place of the next byte together, and
//! gives none if the bytes end early.

/// Bytes and the place of the next one.
#[derive(Clone, Copy, Debug)]
pub struct Reader<'a> {
    bytes: &'a [u8],
    next: usize,
}

impl<'a> Reader<'a> {
    /// A reader at the first byte.
    pub fn new(bytes: &'a [u8]) -> Reader<'a> {
        Reader { bytes, next: 0 }
    }

    /// The next byte.
    pub fn byte(&mut self) -> Option<u8> {
        let byte = *self.bytes.get(self.next)?;
        self.next += 1;
        Some(byte)
    }

    /// The next `count` bytes.
    pub fn take(&mut self, count: usize) -> Option<&'a [u8]> {
        let taken = self.bytes.get(self.next..self.next + count)?;
        self.next += count;
        Some(taken)
    }

    /// Whether no byte is left.
    pub fn at_end(&self) -> bool {
        self.next == self.bytes.len()
    }
}
