// Written by scripts/plain out of crates/cidr_filter/src/printing_addresses.rt

//! Prints the addresses and networks of a line that are in the list.

use crate::filter::Filter;
use crate::naming::put_head;
use cidr_programs::line_addresses::{Found, Pick, next_found, part_of, picked};
use cidr_programs::lines::fault::RunFault;
use cidr_programs::lines::output::Output;
use cidr_programs::program::putting::put_both;
use fosibegan_core::plain_std::io::Write;

/// Writes the addresses of the line with this number that are in the list, as they are spelled,
/// each on a line.
pub(crate) fn print_addresses<W: Write>(
    filter: &Filter,
    line_number: u64,
    line: &[u8],
    output: &mut Output<'_, W>,
) -> Result<(), RunFault> {
    let of_line = OfLine {
        filter,
        number: line_number,
    };
    match part_of(&filter.area.part, line) {
        Some(part) => of_line.print_part(part, output),
        None => Ok(()),
    }
}

// Prints the addresses of the line with this number.
#[derive(Clone, Copy)]
struct OfLine<'f> {
    filter: &'f Filter<'f>,
    number: u64,
}

impl OfLine<'_> {
    // Writes the addresses of a part of a line that are in the list.
    fn print_part<W: Write>(&self, part: &[u8], output: &mut Output<'_, W>) -> Result<(), RunFault> {
        match self.filter.area.pick {
            Pick::Each => self.print_each(part, output),
            _ => self.print_picked(part, self.filter.area.pick, output),
        }
    }

    // Writes the address of a part of a line that `pick` selects, if it is in the list.
    fn print_picked<W: Write>(
        &self,
        part: &[u8],
        pick: Pick,
        output: &mut Output<'_, W>,
    ) -> Result<(), RunFault> {
        match picked(part, pick, self.filter.listed.reads_networks()) {
            Some(found) => self.print_found(part, &found, output),
            None => Ok(()),
        }
    }

    // Writes all addresses of a part of a line that are in the list.
    fn print_each<W: Write>(&self, line: &[u8], output: &mut Output<'_, W>) -> Result<(), RunFault> {
        let mut at = 0;
        let networks = self.filter.listed.reads_networks();
        'addresses: while let Some(found) = next_found(line, at, networks) {
            self.print_found(line, &found, output)?;
            at = found.next;
        }
        Ok(())
    }

    // Writes the text of what was found in a line and a line feed, if it is in the list.
    fn print_found<W: Write>(
        &self,
        line: &[u8],
        found: &Found,
        output: &mut Output<'_, W>,
    ) -> Result<(), RunFault> {
        if !self.filter.prints(line, found) {
            return Ok(());
        }
        self.print_text(&line[found.start..found.end], output)
    }

    // Writes the name and number that come first, and then the text and a line feed.
    fn print_text<W: Write>(&self, text: &[u8], output: &mut Output<'_, W>) -> Result<(), RunFault> {
        put_head(self.filter, self.number, output)?;
        put_both(text, b"\n", output)
    }
}
