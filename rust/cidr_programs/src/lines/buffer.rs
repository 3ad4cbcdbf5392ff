// Written by scripts/plain out of crates/lines/src/buffer.rt

//! Bytes gathered in a slice that the caller lends.

/// Bytes that are gathered at the front of a lent slice: none at first, and at most as many as the
/// slice is long.
///
/// No call allocates.
///
/// ```
/// # use cidr_programs::in_examples::*;
/// let mut slice = [0; 9];
/// let mut buffer = cidr_programs::lines::buffer::Buffer::new(&mut slice);
/// buffer.push_bytes(b"too long");
/// buffer.push(b'\n');
/// assert_eq!(buffer.as_slice(), b"too long\n".as_slice());
/// ```
pub struct Buffer<'a> {
    slice: &'a mut [u8],
    count: usize,
}

impl<'a> Buffer<'a> {
    /// Creates an empty buffer in the slice.
    ///
    /// ```
    /// # use cidr_programs::in_examples::*;
    /// let mut slice = [0; 9];
    /// let mut buffer = cidr_programs::lines::buffer::Buffer::new(&mut slice);
    /// assert_eq!(buffer.remaining(), 9);
    /// ```
    pub fn new(slice: &'a mut [u8]) -> Buffer<'a> {
        Buffer { slice, count: 0 }
    }

    /// Returns whether the buffer is empty.
    ///
    /// ```
    /// # use cidr_programs::in_examples::*;
    /// let mut slice = [0; 9];
    /// let mut buffer = cidr_programs::lines::buffer::Buffer::new(&mut slice);
    /// assert!(buffer.is_empty());
    /// buffer.push(b'1');
    /// assert!(!buffer.is_empty());
    /// ```
    pub fn is_empty(&self) -> bool {
        self.count == 0
    }

    /// Returns how many more bytes fit in the buffer.
    ///
    /// ```
    /// # use cidr_programs::in_examples::*;
    /// let mut slice = [0; 9];
    /// let mut buffer = cidr_programs::lines::buffer::Buffer::new(&mut slice);
    /// buffer.push_bytes(b"10/8");
    /// assert_eq!(buffer.remaining(), 5);
    /// ```
    pub fn remaining(&self) -> usize {
        self.slice.len() - self.count
    }

    /// Returns the bytes in the buffer.
    ///
    /// ```
    /// # use cidr_programs::in_examples::*;
    /// let mut slice = [0; 9];
    /// let mut buffer = cidr_programs::lines::buffer::Buffer::new(&mut slice);
    /// buffer.push_bytes(b"10/8");
    /// assert_eq!(buffer.as_slice(), b"10/8".as_slice());
    /// ```
    pub fn as_slice(&self) -> &[u8] {
        &self.slice[..self.count]
    }

    /// Removes all bytes.
    ///
    /// ```
    /// # use cidr_programs::in_examples::*;
    /// let mut slice = [0; 9];
    /// let mut buffer = cidr_programs::lines::buffer::Buffer::new(&mut slice);
    /// buffer.push_bytes(b"10/8");
    /// buffer.clear();
    /// assert_eq!((buffer.is_empty(), buffer.remaining()), (true, 9));
    /// ```
    pub fn clear(&mut self) {
        self.count = 0;
    }

    /// Adds these bytes at the end. There must be room for them.
    #[inline(always)]
    #[doc(hidden)]
    pub fn push_bytes(&mut self, bytes: &[u8]) {
        let end = self.count + bytes.len();
        self.slice[self.count..end].copy_from_slice(bytes);
        self.count = end;
    }

    /// Adds these bytes at the end if `is_added` is true, or adds none; both take the same time.
    /// There must be room for the bytes either way.
    #[inline(always)]
    pub(crate) fn push_bytes_if(&mut self, bytes: &[u8], is_added: bool) {
        let end = self.count + bytes.len();
        self.slice[self.count..end].copy_from_slice(bytes);
        self.count += if is_added { bytes.len() } else { 0 };
    }

    /// Adds this byte at the end. There must be room for it.
    #[inline(always)]
    #[doc(hidden)]
    pub fn push(&mut self, byte: u8) {
        self.slice[self.count] = byte;
        self.count += 1;
    }
}
