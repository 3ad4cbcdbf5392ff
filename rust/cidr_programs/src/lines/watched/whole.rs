// Written by scripts/plain out of crates/lines/src/watched/whole.rt

//! Writes whole texts to a device, unless a call of it has failed.

use crate::lines::fault::RunFault;
use crate::lines::watched::Watched;
use crate::lines::writing::write_whole;
use fosibegan_core::plain_std::io::Write;

impl<D: Write> Watched<D> {
    /// Writes all of these bytes, in as many calls as the device needs.
    ///
    /// Returns `RunFault::Write` if a write failed, now or earlier. Then a beginning of the bytes
    /// was written, and a device that had failed before was not called. Does not allocate, unless
    /// the device does.
    ///
    /// ```
    /// # use cidr_programs::in_examples::*;
    /// let mut room = [0; 4];
    /// let mut writer = cidr_programs::lines::watched::Watched::new(room.as_mut_slice());
    /// assert_eq!(writer.write_whole(b"::1"), Ok(()));
    /// assert_eq!(writer.write_whole(b"::2"), Err(cidr_programs::lines::fault::RunFault::Write));
    /// ```
    pub fn write_whole(&mut self, bytes: &[u8]) -> Result<(), RunFault> {
        if self.device.failed() {
            return Err(RunFault::Write);
        }
        write_whole(&mut self.device, bytes)
    }

    /// Flushes the device, in one call.
    ///
    /// Returns `RunFault::Write` if the flush failed, or a call before it. A device that had failed
    /// before is not called. Does not allocate, unless the device does.
    ///
    /// ```
    /// # use cidr_programs::in_examples::*;
    /// let mut writer = cidr_programs::lines::watched::Watched::new(fosibegan_core::plain_std::io::sink());
    /// assert_eq!(writer.finish(), Ok(()));
    /// ```
    pub fn finish(&mut self) -> Result<(), RunFault> {
        if self.device.failed() || self.device.flush().is_err() {
            return Err(RunFault::Write);
        }
        Ok(())
    }
}
