// Written by scripts/plain out of crates/log_programs/src/help.rt

//! What the programs for logs say of the options that they share.

/// What `--help` prints of a program, with the lines of the shared options in their places: what
/// is before `-k`, then what comes before `--nth`, and then the rest. Each piece but the first
/// begins with a line feed, and none but the last ends with one.
///
/// ```
/// # use cidr_programs::in_examples::*;
/// use cidr_programs::log_programs::help::log_help;
///
/// const HELP: &str = log_help!("first", "", "\nlast\n");
/// assert!(HELP.starts_with("first\n    -k N "));
/// assert!(HELP.ends_with("\nlast\n"));
/// ```
#[macro_export]
macro_rules! log_help {
    ($first:literal, $between:literal, $last:literal $(,)?) => {
        concat!(
            $first,
            "
    -k N            the address is field N; the default is 1. Field -1 is the last, -2 the one
                    before it, and so on
    -d CHAR         every single CHAR separates fields; the default is every space
    -w              runs of spaces and tabs separate fields. Not with -d",
            $between,
            "
    --nth WHICH     use only this one of the addresses found: first, last, or a number from 1 up; -a
                    need not be given
    --after TEXT    the address is the one that follows the first TEXT in a line directly, or after
                    blanks, quotation marks and [, found as by -a; else the line has none. --nth
                    counts from it on. --after SRC= is not found inside ORIG_SRC=. Not with -a, -k,
                    -d or -w",
            $last,
        )
    };
}

pub use log_help;
