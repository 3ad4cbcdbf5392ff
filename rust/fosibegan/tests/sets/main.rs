//! Sets of addresses, compared with sets of `std` and with plain intervals.

mod frozen;
mod full;
mod iterators;
mod made;
mod small;
mod space;
mod traits;
