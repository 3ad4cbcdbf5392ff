// Written by scripts/plain out of crates/lines/src/watched/device.rt

//! A device that is not called again after a call has failed.

use fosibegan_core::plain_std::io;
use fosibegan_core::plain_std::io::{Read, Write};

/// A reader or a writer, and whether a call of it has failed.
///
/// `read`, `write` and `flush` require a device that has not failed, and the rest of the crate uses
/// only these. `try_read`, `try_write` and `try_flush`, which call a device even if it has failed,
/// are only for `Watched`.
pub(crate) struct Device<D> {
    inner: D,
    failed: bool,
}

impl<D> Device<D> {
    pub(crate) fn new(inner: D) -> Device<D> {
        Device {
            inner,
            failed: false,
        }
    }

    /// Returns whether a call of the device has failed.
    pub(crate) fn failed(&self) -> bool {
        self.failed
    }

    pub(super) fn into_inner(self) -> D {
        self.inner
    }
}

impl<D: Read> Device<D> {
    /// Reads from the device, in one call. The device must not have failed.
    pub(crate) fn read(&mut self, buf: &mut [u8]) -> io::Result<usize> {
        self.try_read(buf)
    }

    pub(super) fn try_read(&mut self, buf: &mut [u8]) -> io::Result<usize> {
        let result = self.inner.read(buf);
        if result.is_err() {
            self.failed = true;
        }
        result
    }
}

impl<D: Write> Device<D> {
    /// Writes these bytes to the device, in one call. The device must not have failed.
    pub(crate) fn write(&mut self, buf: &[u8]) -> io::Result<usize> {
        self.try_write(buf)
    }

    /// Flushes the device, in one call. The device must not have failed.
    pub(crate) fn flush(&mut self) -> io::Result<()> {
        self.try_flush()
    }

    pub(super) fn try_write(&mut self, buf: &[u8]) -> io::Result<usize> {
        let result = self.inner.write(buf);
        if match result {
            Ok(count) => count == 0 && !buf.is_empty(),
            Err(_) => true,
        } {
            self.failed = true;
        }
        result
    }

    pub(super) fn try_flush(&mut self) -> io::Result<()> {
        let result = self.inner.flush();
        if result.is_err() {
            self.failed = true;
        }
        result
    }
}
