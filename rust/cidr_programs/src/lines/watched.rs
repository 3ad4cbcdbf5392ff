// Written by scripts/plain out of crates/lines/src/watched.rt

//! A device that records whether a call of it failed.

pub(crate) mod device;
mod whole;

use crate::lines::watched::device::Device;
use fosibegan_core::plain_std::io;
use fosibegan_core::plain_std::io::{Read, Write};

/// A reader or a writer, and whether a call of it through this value has failed.
///
/// A read, a write or a flush fails if it returns an error, of any kind. A write also fails if it
/// is given bytes but takes none. Once a call has failed, `failed` stays true, but the device can
/// still be called.
///
/// ```
/// # use cidr_programs::in_examples::*;
/// # ended(|| {
/// let mut room = [0; 1];
/// let mut writer = cidr_programs::lines::watched::Watched::new(room.as_mut_slice());
/// assert_eq!((writer.write(b"ab")?, writer.failed()), (1, false));
/// assert_eq!((writer.write(b"b")?, writer.failed()), (0, true));
/// # Ok(())
/// # });
/// ```
pub struct Watched<D> {
    pub(crate) device: Device<D>,
}

impl<D> Watched<D> {
    /// Wraps a device. No call of it counts as failed yet.
    ///
    /// ```
    /// # use cidr_programs::in_examples::*;
    /// let reader = cidr_programs::lines::watched::Watched::new(b"10.0.0.0/8".as_slice());
    /// assert!(!reader.failed());
    /// ```
    pub fn new(device: D) -> Watched<D> {
        Watched {
            device: Device::new(device),
        }
    }

    /// Returns whether a call of the device has failed.
    ///
    /// ```
    /// # use cidr_programs::in_examples::*;
    /// # ended(|| {
    /// let mut writer = cidr_programs::lines::watched::Watched::new([].as_mut_slice());
    /// assert_eq!(writer.write(b"a")?, 0);
    /// assert!(writer.failed());
    /// # Ok(())
    /// # });
    /// ```
    pub fn failed(&self) -> bool {
        self.device.failed()
    }

    /// Returns the device.
    ///
    /// ```
    /// # use cidr_programs::in_examples::*;
    /// # ended(|| {
    /// let mut writer = cidr_programs::lines::watched::Watched::new(Vec::new(Global));
    /// writer.write(b"ok")?;
    /// assert_eq!(writer.into_inner().as_slice(), b"ok".as_slice());
    /// # Ok(())
    /// # });
    /// ```
    pub fn into_inner(self) -> D {
        self.device.into_inner()
    }
}

impl<D: Read> Watched<D> {
    /// Reads from the device, in one call, and returns its result.
    ///
    /// `Ok` contains the number of bytes that were put at the front of `buf`, which is 0 only at
    /// the end of the input or if `buf` is empty. The error is the device's. Does not allocate,
    /// unless the device does.
    ///
    /// ```
    /// # use cidr_programs::in_examples::*;
    /// # ended(|| {
    /// let mut reader = cidr_programs::lines::watched::Watched::new(b"abc".as_slice());
    /// let mut piece = [0; 2];
    /// assert_eq!(reader.read(&mut piece)?, 2);
    /// assert_eq!(piece, *b"ab");
    /// # Ok(())
    /// # });
    /// ```
    pub fn read(&mut self, buf: &mut [u8]) -> io::Result<usize> {
        self.device.try_read(buf)
    }
}

impl<D: Write> Watched<D> {
    /// Writes these bytes to the device, in one call, and returns its result.
    ///
    /// `Ok` contains the number of bytes that the device took, from the front of `buf`. The error
    /// is the device's. Does not allocate, unless the device does.
    ///
    /// ```
    /// # use cidr_programs::in_examples::*;
    /// # ended(|| {
    /// let mut room = [0; 2];
    /// let mut writer = cidr_programs::lines::watched::Watched::new(room.as_mut_slice());
    /// assert_eq!(writer.write(b"abc")?, 2);
    /// # Ok(())
    /// # });
    /// ```
    pub fn write(&mut self, buf: &[u8]) -> io::Result<usize> {
        self.device.try_write(buf)
    }

    /// Flushes the device, in one call, and returns its result. The error is the device's. Does not
    /// allocate, unless the device does.
    ///
    /// ```
    /// # use cidr_programs::in_examples::*;
    /// let mut writer = cidr_programs::lines::watched::Watched::new(fosibegan_core::plain_std::io::sink());
    /// assert!(writer.flush().is_ok());
    /// assert!(!writer.failed());
    /// ```
    pub fn flush(&mut self) -> io::Result<()> {
        self.device.try_flush()
    }
}
