// Written by scripts/plain out of crates/program/src/putting.rt

//! Writes several texts, one after another.

use crate::lines::fault::RunFault;
use crate::lines::output::Output;
use fosibegan_core::plain_std::io::Write;

/// Writes two texts, one after the other. The error is that a write failed.
///
/// ```
/// # use cidr_programs::in_examples::*;
/// let (mut slice, mut room) = ([0; 8], [0; 3]);
/// let mut output = cidr_programs::lines::output::Output::new(room.as_mut_slice(), &mut slice);
/// assert_eq!(cidr_programs::program::putting::put_both(b"12", b"\n", &mut output), Ok(()));
/// assert_eq!(output.finish(), Ok(()));
/// drop(output);
/// assert_eq!(room, *b"12\n");
/// ```
pub fn put_both<W: Write>(
    first: &[u8],
    second: &[u8],
    output: &mut Output<'_, W>,
) -> Result<(), RunFault> {
    output.put(first)?;
    output.put(second)
}

/// Writes all of these texts, one after another. The error is that a write failed.
///
/// ```
/// # use cidr_programs::in_examples::*;
/// let (mut slice, mut room) = ([0; 8], [0; 6]);
/// let mut output = cidr_programs::lines::output::Output::new(room.as_mut_slice(), &mut slice);
/// assert_eq!(cidr_programs::program::putting::put_all(&["10", ".0", "/8"], &mut output), Ok(()));
/// assert_eq!(output.finish(), Ok(()));
/// drop(output);
/// assert_eq!(room, *b"10.0/8");
/// ```
pub fn put_all<W: Write>(texts: &[&str], output: &mut Output<'_, W>) -> Result<(), RunFault> {
    for text in texts {
        output.put(text.as_bytes())?;
    }
    Ok(())
}
