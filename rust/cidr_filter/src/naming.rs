// Written by scripts/plain out of crates/cidr_filter/src/naming.rt

//! What is printed before a line: the name of its log, and its number; and the count of the
//! selected lines of a log.

use crate::filter::Filter;
use cidr_programs::lines::fault::RunFault;
use cidr_programs::lines::output::Output;
use cidr_programs::program::messages::number_text;
use cidr_programs::program::putting::put_both;
use fosibegan_core::plain_std::io::Write;

/// Returns the label that is printed for the log with this name before its lines or their count;
/// empty if none is printed.
pub(crate) fn label_of(named: bool, name: &str) -> &[u8] {
    if !named {
        return b"".as_slice();
    }
    if name == "-" {
        return b"(standard input)".as_slice();
    }
    name.as_bytes()
}

/// Writes what is printed first for the line with this number.
#[inline(always)]
pub(crate) fn put_head<W: Write>(
    filter: &Filter,
    number: u64,
    output: &mut Output<'_, W>,
) -> Result<(), RunFault> {
    put_name(filter.nul, filter.name.bytes(), output)?;
    put_number(filter.numbered, number, output)
}

/// If lines are counted, writes how many lines of a log were selected, after the label of the log
/// and a colon, or NUL if `nul`.
pub(crate) fn put_count<W: Write>(
    counts: bool,
    nul: bool,
    label: &[u8],
    selected: u64,
    output: &mut Output<'_, W>,
) -> Result<(), RunFault> {
    if !counts {
        return Ok(());
    }
    put_name(nul, label, output)?;
    put_total(selected, output)
}

// Writes a number and a line feed.
fn put_total<W: Write>(number: u64, output: &mut Output<'_, W>) -> Result<(), RunFault> {
    put_both(number_text(number).as_bytes(), b"\n", output)
}

/// Returns the byte after the name of a log: NUL if `nul`, else the other.
pub(crate) fn behind_name(nul: bool, other: u8) -> u8 {
    if nul { 0 } else { other }
}

// Writes the label of the log and a colon, or NUL if `nul`, or nothing if the label is empty.
#[inline(always)]
fn put_name<W: Write>(nul: bool, name: &[u8], output: &mut Output<'_, W>) -> Result<(), RunFault> {
    if name.is_empty() {
        return Ok(());
    }
    put_both(name, &[behind_name(nul, b':')], output)
}

// Writes the number of a line and a colon, if lines are numbered.
#[inline(always)]
fn put_number<W: Write>(
    numbered: bool,
    number: u64,
    output: &mut Output<'_, W>,
) -> Result<(), RunFault> {
    if !numbered {
        return Ok(());
    }
    put_decimal(number, output)
}

// Writes a number and a colon.
fn put_decimal<W: Write>(number: u64, output: &mut Output<'_, W>) -> Result<(), RunFault> {
    put_both(number_text(number).as_bytes(), b":", output)
}
