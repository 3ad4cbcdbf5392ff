// Written by scripts/plain out of crates/cidr_join/src/printing.rt

//! Prints a line.

use crate::found::Found;
use crate::join::Join;
use cidr_programs::lines::fault::RunFault;
use cidr_programs::lines::line_end::LineEnd;
use cidr_programs::lines::output::Output;
use cidr_programs::program::log_reader::put_feed;
use cidr_programs::program::putting::put_both;
use fosibegan_core::plain_std::io::Write;

/// Writes a line and, before or after it, what was found for its address: the value, the network,
/// or a minus sign for nothing. `line` is the line without its end, `whole` with it; a missing line
/// feed is added.
pub(crate) fn print_line<W: Write>(
    join: &Join<'_>,
    found: &Found<'_>,
    line: &[u8],
    whole: &[u8],
    end: LineEnd,
    output: &mut Output<'_, W>,
) -> Result<(), RunFault> {
    match found {
        Found::Network(network) => {
            let text = network.canonical();
            let mark = text.as_bytes();
            print_with(line, whole, end, join.last, mark, output)
        }
        Found::Value(value) => print_with(line, whole, end, join.last, value.bytes(), output),
        Found::Nothing => print_with(line, whole, end, join.last, b"-", output),
    }
}

// Writes a line with the mark before it or, if `last`, after it.
fn print_with<W: Write>(
    line: &[u8],
    whole: &[u8],
    end: LineEnd,
    last: bool,
    mark: &[u8],
    output: &mut Output<'_, W>,
) -> Result<(), RunFault> {
    if !last {
        put_both(mark, b"\t", output)?;
        output.put(whole)?;
        return put_feed(end, output);
    }
    let tail = &whole[line.len()..];
    put_both(line, b"\t", output)?;
    put_both(mark, tail, output)?;
    put_feed(end, output)
}
