// Written by scripts/plain out of crates/lines/src/output.rt

//! Gathers bytes before they are written.

use crate::lines::buffer::Buffer;
use crate::lines::fault::RunFault;
use crate::lines::watched::device::Device;
use crate::lines::writing::{hand_on, write_whole};
use fosibegan_core::plain_std::io::Write;

/// A writer, and the bytes that wait to be written, in a slice that the caller lends.
///
/// Once a call of the writer has failed, the writer is not called again, and each call of `put`,
/// `put_if`, `hand_on` and `finish` returns `RunFault::Write`. No call allocates, unless the writer
/// does.
///
/// ```
/// # use cidr_programs::in_examples::*;
/// let mut slice = [0; 64];
/// let mut output = cidr_programs::lines::output::Output::new(Vec::new(Global), &mut slice);
/// assert_eq!(output.put(b"10.0.0.0/8\n"), Ok(()));
/// assert_eq!(output.finish(), Ok(()));
/// ```
pub struct Output<'a, W: Write> {
    writer: Device<W>,
    waiting: Buffer<'a>,
}

impl<'a, W: Write> Output<'a, W> {
    /// Creates an output to the writer, with no bytes waiting. No call of the writer counts as
    /// failed yet.
    ///
    /// ```
    /// # use cidr_programs::in_examples::*;
    /// let mut slice = [0; 64];
    /// let mut output = cidr_programs::lines::output::Output::new(Vec::new(Global), &mut slice);
    /// assert_eq!(output.put(b"10.0.0.0/8\n"), Ok(()));
    /// ```
    pub fn new(writer: W, slice: &'a mut [u8]) -> Output<'a, W> {
        Output {
            writer: Device::new(writer),
            waiting: Buffer::new(slice),
        }
    }

    /// Adds these bytes. If there is no room for them, the bytes that wait are written first; if
    /// the new bytes do not fit even then, they are written too.
    ///
    /// Returns `RunFault::Write` if a write failed, now or earlier. Then a beginning of the bytes
    /// that waited and of these bytes was written.
    ///
    /// ```
    /// # use cidr_programs::in_examples::*;
    /// let mut slice = [0; 8];
    /// let mut output = cidr_programs::lines::output::Output::new([].as_mut_slice(), &mut slice);
    /// assert_eq!(output.put(b"1.1.1.1\n"), Ok(()));
    /// assert_eq!(output.put(b"\n"), Err(cidr_programs::lines::fault::RunFault::Write));
    /// ```
    pub fn put(&mut self, bytes: &[u8]) -> Result<(), RunFault> {
        if self.writer.failed() {
            return Err(RunFault::Write);
        }
        if self.waiting.remaining() >= bytes.len() {
            self.waiting.push_bytes(bytes);
            return Ok(());
        }
        hand_on(&mut self.writer, &mut self.waiting)?;
        self.put_first(bytes)
    }

    /// Adds these bytes as `put` does if `is_put` is true, or adds none. If there is room for them,
    /// no branch depends on `is_put`, which is faster than a branch that the processor mispredicts.
    ///
    /// ```
    /// # use cidr_programs::in_examples::*;
    /// let mut slice = [0; 8];
    /// let mut room = [b'.'; 5];
    /// let mut output = cidr_programs::lines::output::Output::new(room.as_mut_slice(), &mut slice);
    /// assert_eq!(output.put_if(b"::1\n", true), Ok(()));
    /// assert_eq!(output.put_if(b"::2\n", false), Ok(()));
    /// assert_eq!(output.finish(), Ok(()));
    /// drop(output);
    /// assert_eq!(room, *b"::1\n.");
    /// ```
    #[inline(always)]
    pub fn put_if(&mut self, bytes: &[u8], is_put: bool) -> Result<(), RunFault> {
        if self.writer.failed() {
            return Err(RunFault::Write);
        }
        if self.waiting.remaining() >= bytes.len() {
            self.waiting.push_bytes_if(bytes, is_put);
            return Ok(());
        }
        if !is_put {
            return Ok(());
        }
        self.put(bytes)
    }

    // Adds bytes if none wait, to a writer that has not failed.
    fn put_first(&mut self, bytes: &[u8]) -> Result<(), RunFault> {
        if self.waiting.remaining() >= bytes.len() {
            self.waiting.push_bytes(bytes);
            return Ok(());
        }
        write_whole(&mut self.writer, bytes)
    }

    /// Writes the bytes that wait.
    ///
    /// Returns `RunFault::Write` if a write failed, now or earlier. Then a beginning of the bytes
    /// that waited was written.
    ///
    /// ```
    /// # use cidr_programs::in_examples::*;
    /// let mut slice = [0; 64];
    /// let mut output = cidr_programs::lines::output::Output::new([].as_mut_slice(), &mut slice);
    /// assert_eq!(output.hand_on(), Ok(()));
    /// assert_eq!(output.put(b"\n"), Ok(()));
    /// assert_eq!(output.hand_on(), Err(cidr_programs::lines::fault::RunFault::Write));
    /// ```
    pub fn hand_on(&mut self) -> Result<(), RunFault> {
        if self.writer.failed() {
            return Err(RunFault::Write);
        }
        hand_on(&mut self.writer, &mut self.waiting)
    }

    /// Writes the bytes that wait, and flushes the writer.
    ///
    /// Returns `RunFault::Write` if a write or the flush failed, now or earlier. Then a beginning
    /// of the bytes that waited was written.
    ///
    /// ```
    /// # use cidr_programs::in_examples::*;
    /// let mut slice = [0; 64];
    /// let mut room = [0; 2];
    /// let mut output = cidr_programs::lines::output::Output::new(room.as_mut_slice(), &mut slice);
    /// assert_eq!(output.put(b"ok"), Ok(()));
    /// assert_eq!(output.finish(), Ok(()));
    /// ```
    pub fn finish(&mut self) -> Result<(), RunFault> {
        self.hand_on()?;
        if self.writer.flush().is_err() {
            return Err(RunFault::Write);
        }
        Ok(())
    }
}
