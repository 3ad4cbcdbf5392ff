// Written by scripts/plain out of crates/cidr_filter/src/printing.rt

//! Prints a line.

use crate::filter::{Filter, OutputMode, Verdict};
use crate::matcher::Matcher;
use crate::naming::{behind_name, put_head};
use crate::printing_addresses::print_addresses;
use fosibegan_core::ipnetwork::IpNetwork;
use cidr_programs::lines::fault::RunFault;
use cidr_programs::lines::line_end::LineEnd;
use cidr_programs::lines::output::Output;
use cidr_programs::program::log_reader::put_feed;
use cidr_programs::program::putting::put_both;
use fosibegan_core::plain_std::io::Write;

/// Writes what is printed for the selected line with this number and verdict. `line` is the part of
/// it that is judged, `whole` the line with its end.
pub(crate) fn print_selected<W: Write>(
    filter: &Filter,
    number: u64,
    verdict: &Verdict,
    line: &[u8],
    whole: &[u8],
    end: LineEnd,
    output: &mut Output<'_, W>,
) -> Result<(), RunFault> {
    match filter.shows {
        OutputMode::Lines => print_named(filter, number, verdict, whole, end, output),
        OutputMode::Addresses => print_addresses(filter, number, line, output),
        OutputMode::Names => {
            put_both(
                filter.name.bytes(),
                &[behind_name(filter.nul, b'\n')],
                output,
            )
        },
        OutputMode::Count | OutputMode::Nothing => Ok(()),
    }
}

/// Returns whether selected lines are printed as they are, and nothing else.
pub(crate) fn prints_as_read(filter: &Filter) -> bool {
    match (filter.shows, &filter.listed) {
        (OutputMode::Lines, Matcher::Addresses(_)) => !filter.numbered
            && filter.name.bytes().is_empty(),
        _ => false,
    }
}

// Writes the name and number that come first, with `--longest` the block that contains the
// address, and then the line. `whole` is the line with its end; a missing line feed is added.
fn print_named<W: Write>(
    filter: &Filter,
    number: u64,
    verdict: &Verdict,
    whole: &[u8],
    end: LineEnd,
    output: &mut Output<'_, W>,
) -> Result<(), RunFault> {
    put_head(filter, number, output)?;
    put_mark(&filter.listed, verdict, output)?;
    put_line(whole, end, output)
}

// Writes a line as it was read, and a line feed if it has none.
fn put_line<W: Write>(
    whole: &[u8],
    end: LineEnd,
    output: &mut Output<'_, W>,
) -> Result<(), RunFault> {
    output.put(whole)?;
    put_feed(end, output)
}

// Writes what `--longest` prints before a line with this verdict.
fn put_mark<W: Write>(
    listed: &Matcher,
    verdict: &Verdict,
    output: &mut Output<'_, W>,
) -> Result<(), RunFault> {
    match listed {
        Matcher::Addresses(_) | Matcher::Networks(_) => Ok(()),
        Matcher::Blocks(_) => put_block(block_in(verdict), output),
    }
}

// Writes a block, or a minus sign for none, and a tab.
fn put_block<W: Write>(block: Option<IpNetwork>, output: &mut Output<'_, W>) -> Result<(), RunFault> {
    match block {
        Some(block) => put_both(block.canonical().as_bytes(), b"\t", output),
        None => put_both(b"-", b"\t", output),
    }
}

// Returns the block that is printed before a line with this verdict.
fn block_in(verdict: &Verdict) -> Option<IpNetwork> {
    match *verdict {
        Verdict::Inside(block) => block,
        Verdict::Outside => None,
        Verdict::NoAddress => None,
        Verdict::TooLong => None,
    }
}
