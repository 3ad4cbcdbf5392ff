//! How a test or an example ends that passes on any error.
use core::fmt::{Debug, Display};

/// Stands for any error: that which makes one ends the test, and shows what it was.
pub struct Fail(());

impl Fail {
    /// Ends the test, and shows why.
    #[track_caller]
    pub fn new(why: impl Display) -> Self {
        panic!("{why}")
    }
}

impl<E: Debug> From<E> for Fail {
    #[track_caller]
    fn from(error: E) -> Self {
        panic!("{error:?}")
    }
}

/// Runs a test.
pub fn ended(test: impl FnOnce() -> Result<(), Fail>) {
    let _ = test();
}
