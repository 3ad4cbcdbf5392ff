// Written by scripts/plain out of crates/lines/src/writing.rt

//! Writes bytes to a device that has not failed.

use crate::lines::buffer::Buffer;
use crate::lines::fault::RunFault;
use crate::lines::watched::device::Device;
use fosibegan_core::plain_std::io::Write;

/// Writes the bytes that wait, and removes them from the buffer.
pub(crate) fn hand_on<W: Write>(
    writer: &mut Device<W>,
    waiting: &mut Buffer<'_>,
) -> Result<(), RunFault> {
    write_whole(writer, waiting.as_slice())?;
    waiting.clear();
    Ok(())
}

/// Writes all of these bytes, however many the device takes at a time.
pub(crate) fn write_whole<W: Write>(writer: &mut Device<W>, bytes: &[u8]) -> Result<(), RunFault> {
    let mut at = 0;
    while at < bytes.len() {
        let count = match writer.write(&bytes[at..]) {
            Ok(count) => count,
            Err(_) => return Err(RunFault::Write),
        };
        if count == 0 {
            return Err(RunFault::Write);
        }
        at += count;
    }
    Ok(())
}
