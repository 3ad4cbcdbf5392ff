//! What the programs `cidr`, `cidr_merge`, `cidr_filter` and `cidr_join` share: lines, lists of networks, addresses of
//! logs, command lines. Not for other use: nothing here is kept stable. Made of proved sources, and tested.
#![forbid(unsafe_code)]
// A value of JSON borrows its document here, so that its type has a lifetime, which the sources do not write.
#![allow(unknown_lints, mismatched_lifetime_syntaxes)]

pub mod allotting;
pub mod line_addresses;
pub mod lines;
pub mod lists;
pub mod log_programs;
pub mod options;
pub mod program;
pub mod reducing;

/// What the examples have in scope.
#[doc(hidden)]
#[allow(ambiguous_glob_reexports)]
pub mod in_examples {
    pub use crate::{allotting::*, line_addresses::*, lines::*, lists::*, log_programs::*, options::*, program::*, reducing::*, *};
    pub use fosibegan_core::in_examples::*;
}
