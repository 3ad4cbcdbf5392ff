// Written by scripts/plain out of crates/cidr_join/src/whole.rt

//! Refuses lists that may have been cut, if they have to be whole.

use crate::help::PROGRAM;
use crate::reading::ReadList;
use crate::rows::WHOLE;
use cidr_programs::lines::output::Output;
use cidr_programs::lists::ends_with_feed;
use cidr_programs::options::given::is_given;
use cidr_programs::options::items::Item;
use cidr_programs::program::log_fault::tell_fault_of;
use fosibegan_core::plain_std::io::Write;

/// Reports the first list that does not end with a line feed, if the options ask for whole ones,
/// and returns whether there is one.
pub(crate) fn tell_cut_if_asked<E: Write>(
    items: &[Item<'_>],
    lists: &[ReadList<'_>],
    errors: &mut Output<'_, E>,
) -> bool {
    is_given(items, WHOLE) && tell_cut(lists, errors)
}

// Reports the first list that does not end with a line feed, and returns whether there is one.
fn tell_cut<E: Write>(lists: &[ReadList<'_>], errors: &mut Output<'_, E>) -> bool {
    for list in lists {
        if !ends_with_feed(list.text.as_slice()) {
            tell_fault_of(PROGRAM, list.name.as_str(), CUT, errors);
            return true;
        }
    }
    false
}

// What is reported about a list that does not end with a line feed, after its name.
const CUT: &str = ": no line feed at its end; it may have been cut off\n";
