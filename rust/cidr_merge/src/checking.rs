// Written by scripts/plain out of crates/cidr_merge/src/checking.rt

//! Reports the wrong entries of lists, in a strict check those with host bits, and those with which
//! lists end, if they may have been cut.

use crate::entry_match::entry_of;
use crate::findings::{either, tell_cut, tell_host_bits, tell_wrong};
use crate::named_lists::text_in;
use crate::numbered_lines::{Line, NumberedLines};
use crate::text_lines::TextLines;
use crate::texts::WholeLists;
use fosibegan_core::ipnetwork::Ipv4Addr;
use cidr_programs::lines::output::Output;
use cidr_programs::lists::{
    Blank, Entry, LineForm, Rules, ends_with_feed, front_len, trim, without_comment,
};
use fosibegan_core::plain_std::io::Write;

/// Prints the findings for the lines of lists, strictly or not, and returns whether there are any.
pub(crate) fn check_lists<W: Write>(
    strictly: bool,
    lists: &WholeLists<'_>,
    output: &mut Output<'_, W>,
) -> bool {
    let mut found = false;
    let mut lines = NumberedLines::of(lists);
    while let Some(line) = lines.next() {
        let more = check_line(lists.rules, strictly, &line, output);
        found = either(found, more);
    }
    found
}

// Prints the finding for a line that is read by these rules, strictly or not, and returns whether
// there is one.
fn check_line<W: Write>(
    rules: Rules,
    strictly: bool,
    line: &Line<'_>,
    output: &mut Output<'_, W>,
) -> bool {
    match entry_of(rules, line.text) {
        Ok(said) => tell_if_loose(is_loose(strictly, said), line, output),
        Err(fault) => {
            tell_wrong(line, fault, output);
            true
        }
    }
}

// Prints the finding for host bits if `is_loose`, and returns `is_loose`.
fn tell_if_loose<W: Write>(is_loose: bool, line: &Line<'_>, output: &mut Output<'_, W>) -> bool {
    if is_loose {
        tell_host_bits(line, output);
        return true;
    }
    false
}

// Returns whether an entry has host bits and the check is strict.
fn is_loose(strictly: bool, said: Option<Entry>) -> bool {
    strictly && has_host_bits(said)
}

// Returns whether an entry has host bits.
fn has_host_bits(said: Option<Entry>) -> bool {
    match said {
        Some(entry) => cidr_programs::lists::has_host_bits(&entry),
        None => false,
    }
}

/// Prints the findings for the ends of lists, and returns whether there are any.
pub(crate) fn check_ends<W: Write>(lists: &WholeLists<'_>, output: &mut Output<'_, W>) -> bool {
    let mut found = false;
    for at in 0..lists.names.len() {
        let text = lists.texts[at].as_slice();
        let more = check_end(lists.rules, lists.names[at].as_str(), text, output);
        found = either(found, more);
    }
    found
}

/// Prints the findings for the ends of lists if asked to, and returns whether there are any.
pub(crate) fn check_ends_if<W: Write>(
    asked: bool,
    lists: &WholeLists<'_>,
    output: &mut Output<'_, W>,
) -> bool {
    if asked {
        return check_ends(lists, output);
    }
    false
}

// Prints the finding for the end of a list, and returns whether there is one.
fn check_end<W: Write>(rules: Rules, name: &str, text: &[u8], output: &mut Output<'_, W>) -> bool {
    match text_in(name) {
        Some(_) => false,
        None => check_file_end(rules, name, text, output),
    }
}

// The same for a FILE.
fn check_file_end<W: Write>(
    rules: Rules,
    name: &str,
    text: &[u8],
    output: &mut Output<'_, W>,
) -> bool {
    if ends_with_feed(text) {
        return false;
    }
    let (number, text) = end_line(text);
    let line = Line {
        list: 0,
        name,
        number,
        text,
    };
    tell_if_cut(rules, &line, output)
}

// Prints the finding for a last line that no line feed ends, and returns whether there is one.
fn tell_if_cut<W: Write>(rules: Rules, line: &Line<'_>, output: &mut Output<'_, W>) -> bool {
    match entry_of(rules, line.text) {
        Ok(said) => tell_cut_if(may_go_on(rules, said, line.text), line, output),
        Err(_) => false,
    }
}

// Prints the finding for a last line if it may go on, and returns whether it may.
fn tell_cut_if<W: Write>(may_go_on: bool, line: &Line<'_>, output: &mut Output<'_, W>) -> bool {
    if may_go_on {
        tell_cut(line, output);
        return true;
    }
    false
}

// Returns whether a line that these rules read as this has an entry and may go on.
fn may_go_on(rules: Rules, said: Option<Entry>, line: &[u8]) -> bool {
    match said {
        Some(_) => is_open(rules, line),
        None => false,
    }
}

// Returns whether a line that is read by these rules may go on: nothing comes after its entry, or
// only blanks, after which it may have a mask.
fn is_open(rules: Rules, line: &[u8]) -> bool {
    match rules.form {
        LineForm::Plain => {
            let entry = trim::<Blank>(without_comment(line));
            ends_with_text(line, entry) || mask_may_follow(rules.takes_masks, line)
        }
        LineForm::Csv => false,
        LineForm::Ipset => ends_with_text(line, trim::<Blank>(line)),
        LineForm::Nft => ends_with_text(line, trim::<Blank>(line)) && !has_comma(line),
    }
}

// Returns whether a mask may follow a line, where they are taken: it is an IPv4 address.
fn mask_may_follow(takes_masks: bool, line: &[u8]) -> bool {
    // Does nothing. The proof needs the law: what reading an address gives can be computed.
    takes_masks && Ipv4Addr::read_bytes(trim::<Blank>(line)).is_ok()
}

// Returns whether a line, without the blanks before it, is as long as this text of it.
fn ends_with_text(line: &[u8], text: &[u8]) -> bool {
    line.len() - front_len::<Blank>(line) == text.len()
}

// Returns whether the last byte of a line is a comma.
fn has_comma(line: &[u8]) -> bool {
    match line.last() {
        Some(byte) => *byte == b',',
        None => false,
    }
}

// Returns the last line of a text, and its number; an empty line and 0 if it has none.
fn end_line(text: &[u8]) -> (usize, &[u8]) {
    let mut number = 0;
    let mut last = b"".as_slice();
    let mut lines = TextLines::of(text);
    while let Some(line) = lines.next() {
        number += 1;
        last = line;
    }
    (number, last)
}
