// Written by scripts/plain out of crates/log_programs/src/telling.rt

//! Reports logs that cannot be opened or have no addresses, and lines that are too long. If a write
//! fails, nothing else changes.

use crate::log_programs::log_stats::LogStats;
use crate::log_programs::without_address::WithoutAddress;
use crate::line_addresses::{Area, Part, Pick, Place, Text};
use crate::lines::output::Output;
use crate::lists::OpenFault;
use crate::program::arguments::is_stand_in;
use crate::program::log_fault::tell_fault_of;
use crate::program::messages::{tell, tell_head, tell_number, tell_of};
use crate::program::usage::tell_shown;
use fosibegan_core::plain_std::io::Write;

/// Reports, in the name of a program, that no line of the log of this name has an address in this
/// area, if the log has lines and none has one.
///
/// ```
/// # use cidr_programs::in_examples::*;
/// use cidr_programs::line_addresses::{Area, Part, Pick, Place};
/// use cidr_programs::log_programs::telling::tell_lacking;
///
/// let area = Area { part: Part::Word(Place::Number(3)), pick: Pick::Number(2) };
/// let (mut slice, mut room) = ([0; 64], [b'.'; 64]);
/// let mut errors = cidr_programs::lines::output::Output::new(room.as_mut_slice(), &mut slice);
/// tell_lacking("cidr_filter", &area, "log", 7, false, &mut errors);
/// assert_eq!(errors.finish(), Ok(()));
/// drop(errors);
/// assert!(room.starts_with(b"cidr_filter: log: no line has 2 addresses in word 3\n."));
/// ```
pub fn tell_lacking<E: Write>(
    program: &str,
    area: &Area<'_>,
    name: &str,
    lines: u64,
    is_addressed: bool,
    errors: &mut Output<'_, E>,
) {
    if lacks(lines, is_addressed) {
        tell_area(program, area, name, errors);
    }
}

// Returns whether there are lines and none has an address.
fn lacks(lines: u64, is_addressed: bool) -> bool {
    lines > 0 && !is_addressed
}

// Reports that no line of the log of this name has an address in this area.
fn tell_area<E: Write>(program: &str, area: &Area<'_>, name: &str, errors: &mut Output<'_, E>) {
    tell_head(program, name, errors);
    tell(": no line has ", errors);
    tell_needed(needed(area.pick), errors);
    tell_where(&area.part, errors);
    tell("\n", errors);
}

// Returns how many addresses a part must have for the picked one to exist.
fn needed(pick: Pick) -> u32 {
    match pick {
        Pick::Number(number) => number,
        _ => 1,
    }
}

// Reports how many addresses are needed.
fn tell_needed<E: Write>(number: u32, errors: &mut Output<'_, E>) {
    if number > 1 {
        tell_number(u64::from(number), errors);
        tell(" addresses ", errors);
    } else {
        tell("an address ", errors);
    }
}

// Reports which part of a line is searched.
fn tell_where<E: Write>(part: &Part<'_>, errors: &mut Output<'_, E>) {
    match part {
        Part::Field { place, .. } => tell_place("in field ", *place, errors),
        Part::Word(place) => tell_place("in word ", *place, errors),
        Part::Line => tell("anywhere in it", errors),
        Part::After(text) => tell_after(text, errors),
    }
}

// Reports a text, and then a place.
fn tell_place<E: Write>(text: &str, place: Place, errors: &mut Output<'_, E>) {
    tell(text, errors);
    tell(place.text().as_str(), errors);
}

// Reports the text after which the address is searched.
fn tell_after<E: Write>(text: &Text<'_>, errors: &mut Output<'_, E>) {
    tell("after ", errors);
    tell_shown(text.bytes(), errors);
}

/// How many lines of the logs of a run have no address where one is looked for. A log in which none
/// has one does not count: `tell_lacking` reports it.
#[derive(Clone, Copy, Debug, PartialEq, Eq)]
pub struct Unaddressed {
    lines: u64,
    bare: u64,
}

impl Unaddressed {
    /// Returns the counts of no logs.
    ///
    /// ```
    /// # use cidr_programs::in_examples::*;
    /// use cidr_programs::log_programs::telling::Unaddressed;
    ///
    /// assert_eq!(Unaddressed::new(), Unaddressed::new());
    /// ```
    pub fn new() -> Unaddressed {
        Unaddressed { lines: 0, bare: 0 }
    }

    /// Counts the lines of a log.
    ///
    /// ```
    /// # use cidr_programs::in_examples::*;
    /// use cidr_programs::log_programs::log_stats::LogStats;
    /// use cidr_programs::log_programs::telling::Unaddressed;
    ///
    /// let (mut seen, mut all) = (LogStats::new(), Unaddressed::new());
    /// seen.add(false);
    /// all.add(&seen);
    /// assert_eq!(all, Unaddressed::new());
    /// seen.add(true);
    /// all.add(&seen);
    /// assert!(all != Unaddressed::new());
    /// ```
    pub fn add(&mut self, seen: &LogStats) {
        if seen.is_addressed {
            self.lines = self.lines.saturating_add(seen.lines);
            self.bare = self.bare.saturating_add(seen.bare);
        }
    }
}

/// Reports, in the name of a program, how many lines have no address in this area, if some have
/// none.
///
/// ```
/// # use cidr_programs::in_examples::*;
/// use cidr_programs::line_addresses::{Area, Part, Pick, Place};
/// use cidr_programs::log_programs::log_stats::LogStats;
/// use cidr_programs::log_programs::telling::{Unaddressed, tell_unaddressed};
///
/// let area = Area { part: Part::Word(Place::Number(3)), pick: Pick::Whole };
/// let (mut slice, mut room) = ([0; 64], [b'.'; 64]);
/// let mut errors = cidr_programs::lines::output::Output::new(room.as_mut_slice(), &mut slice);
/// let (mut seen, mut all) = (LogStats::new(), Unaddressed::new());
/// seen.add(true);
/// seen.add(false);
/// all.add(&seen);
/// tell_unaddressed("cidr_filter", &area, &all, &mut errors);
/// assert_eq!(errors.finish(), Ok(()));
/// drop(errors);
/// assert!(room.starts_with(b"cidr_filter: 1 of 2 lines has no address in word 3\n."));
/// ```
pub fn tell_unaddressed<E: Write>(
    program: &str,
    area: &Area<'_>,
    counted: &Unaddressed,
    errors: &mut Output<'_, E>,
) {
    if counted.bare > 0 {
        tell_of(program, ": ", errors);
        tell_number(counted.bare, errors);
        tell(" of ", errors);
        tell_number(counted.lines, errors);
        tell(
            if counted.bare == 1 {
                " lines has "
            } else {
                " lines have "
            },
            errors,
        );
        tell_lacked(needed(area.pick), errors);
        tell_where(&area.part, errors);
        tell("\n", errors);
    }
}

// Reports that fewer addresses are there than are needed.
fn tell_lacked<E: Write>(number: u32, errors: &mut Output<'_, E>) {
    if number > 1 {
        tell("fewer than ", errors);
        tell_needed(number, errors);
    } else {
        tell("no address ", errors);
    }
}

/// Returns whether a line is missed: a line is too long, and such lines are not dropped.
///
/// ```
/// # use cidr_programs::in_examples::*;
/// use cidr_programs::log_programs::log_stats::LogStats;
/// use cidr_programs::log_programs::telling::is_missed;
/// use cidr_programs::log_programs::without_address::WithoutAddress;
///
/// let mut seen = LogStats::new();
/// seen.add_long();
/// assert!(is_missed(WithoutAddress::Keep, &seen) && !is_missed(WithoutAddress::Drop, &seen));
/// ```
pub fn is_missed(bad: WithoutAddress, seen: &LogStats) -> bool {
    !bad.is_dropped() && seen.first_long != 0
}

/// Reports, in the name of a program, the first line of the log of this name that is too long,
/// unless such lines are dropped. If the counts are asked for and the log has lines, also reports
/// how many lines have no address and how many are too long.
///
/// ```
/// # use cidr_programs::in_examples::*;
/// use cidr_programs::log_programs::log_stats::LogStats;
/// use cidr_programs::log_programs::telling::tell_seen;
/// use cidr_programs::log_programs::without_address::WithoutAddress;
///
/// let (mut slice, mut room) = ([0; 64], [b'.'; 64]);
/// let mut errors = cidr_programs::lines::output::Output::new(room.as_mut_slice(), &mut slice);
/// let mut seen = LogStats::new();
/// seen.add_long();
/// tell_seen("cidr_join", "log", WithoutAddress::Unsaid, &seen, &mut errors);
/// assert_eq!(errors.finish(), Ok(()));
/// drop(errors);
/// assert!(room.starts_with(b"cidr_join: log:1: line too long\n."));
/// ```
pub fn tell_seen<E: Write>(
    program: &str,
    name: &str,
    bad: WithoutAddress,
    seen: &LogStats,
    errors: &mut Output<'_, E>,
) {
    tell_missed(program, name, is_missed(bad, seen), seen.first_long, errors);
    tell_asked(program, name, is_asked(bad, seen.lines), seen, errors);
}

/// Reports, in the name of a program, that the log of this name cannot be opened, and why.
///
/// ```
/// # use cidr_programs::in_examples::*;
/// use cidr_programs::lists::OpenFault;
/// use cidr_programs::log_programs::telling::tell_closed;
///
/// let (mut slice, mut room) = ([0; 64], [b'.'; 64]);
/// let mut errors = cidr_programs::lines::output::Output::new(room.as_mut_slice(), &mut slice);
/// tell_closed("cidr_join", "log", OpenFault::Missing, &mut errors);
/// assert_eq!(errors.finish(), Ok(()));
/// drop(errors);
/// assert!(room.starts_with(b"cidr_join: log: cannot open: no such file\n."));
/// ```
pub fn tell_closed<E: Write>(
    program: &str,
    name: &str,
    fault: OpenFault,
    errors: &mut Output<'_, E>,
) {
    let text = if is_stand_in(name) {
        ": cannot open: name is not UTF-8\n"
    } else {
        fault.text()
    };
    tell_fault_of(program, name, text, errors);
}

// Returns whether to report how many of these lines have no address.
fn is_asked(bad: WithoutAddress, lines: u64) -> bool {
    bad.is_reported() && lines > 0
}

// Reports that the line with this number is too long, if a line is missed.
fn tell_missed<E: Write>(
    program: &str,
    name: &str,
    is_missed: bool,
    number: u64,
    errors: &mut Output<'_, E>,
) {
    if is_missed {
        tell_head(program, name, errors);
        tell(":", errors);
        tell_number(number, errors);
        tell(": line too long\n", errors);
    }
}

// Reports how many lines have no address, and how many are too long, if that is asked for.
fn tell_asked<E: Write>(
    program: &str,
    name: &str,
    is_asked: bool,
    seen: &LogStats,
    errors: &mut Output<'_, E>,
) {
    if is_asked {
        tell_head(program, name, errors);
        tell(": lines without an address: ", errors);
        tell_number(seen.bare, errors);
        tell(", too long: ", errors);
        tell_number(seen.long, errors);
        tell("\n", errors);
    }
}
