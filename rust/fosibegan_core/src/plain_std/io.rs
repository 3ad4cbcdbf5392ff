pub use ::std::io::*;
pub use crate::plain_std::rt::{Stderr, Stdin, Stdout};
