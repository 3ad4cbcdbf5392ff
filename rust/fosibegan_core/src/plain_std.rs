//! What the sources have of their own standard library and Rust's has not, over Rust's: what allocates returns a
//! Result, and the memory is asked for by `try_reserve`. Written by hand.

pub mod alloc;
pub mod arrayvec;
pub mod collections;
pub mod json;
#[cfg(feature = "serde")]
pub mod serde_json;
#[allow(unsafe_code)]
#[doc(hidden)]
pub mod simd;
pub mod string;
pub mod test;
pub mod vec;

mod tree;

#[cfg(feature = "std")]
pub mod env;
#[cfg(feature = "std")]
pub mod fs;
#[cfg(feature = "std")]
pub mod io;
#[cfg(feature = "std")]
pub mod os;
#[cfg(feature = "std")]
pub mod rt;
#[cfg(all(unix, feature = "std"))]
#[allow(unsafe_code)]
mod streams;
#[cfg(feature = "std")]
pub mod time;
#[cfg(feature = "std")]
#[allow(unsafe_code)]
mod words;

#[doc(hidden)]
pub use crate::{
    plain_format as format, plain_print as print, plain_println as println, plain_vec as vec, plain_assert as assert,
    plain_assert_eq as assert_eq, plain_assert_ne as assert_ne,
};

/// What a body that returns a Result has made, where a call that cannot fail is asked for.
#[doc(hidden)]
#[inline(always)]
pub fn made<T>(body: impl FnOnce() -> Result<T, alloc::AllocError>) -> T {
    match body() {
        Ok(made) => made,
        Err(_) => panic!("a copy that cannot fail has failed"),
    }
}

/// A `clone` that returns a Result.
#[doc(hidden)]
pub trait KitClone: Sized {
    fn kit_clone(&self) -> Result<Self, alloc::AllocError>;
}

impl<T: Clone> KitClone for T {
    #[inline(always)]
    fn kit_clone(&self) -> Result<Self, alloc::AllocError> {
        Ok(self.clone())
    }
}

#[doc(hidden)]
#[macro_export]
macro_rules! plain_assert {
    ($rt:ident; $($fact:tt)*) => { ::core::assert!($($fact)*) };
    ($($fact:tt)*) => { ::core::assert!($($fact)*) };
}

#[doc(hidden)]
#[macro_export]
macro_rules! plain_assert_eq {
    ($rt:ident; $($fact:tt)*) => { ::core::assert_eq!($($fact)*) };
    (&$rt:ident; $($fact:tt)*) => { ::core::assert_eq!($($fact)*) };
    ($($fact:tt)*) => { ::core::assert_eq!($($fact)*) };
}

#[doc(hidden)]
#[macro_export]
macro_rules! plain_assert_ne {
    ($rt:ident; $($fact:tt)*) => { ::core::assert_ne!($($fact)*) };
    ($($fact:tt)*) => { ::core::assert_ne!($($fact)*) };
}

#[doc(hidden)]
#[macro_export]
macro_rules! plain_print {
    ($rt:expr; $($text:tt)*) => {
        $crate::plain_std::rt::print(&$rt, ::core::format_args!($($text)*))
    };
}

#[doc(hidden)]
#[macro_export]
macro_rules! plain_println {
    ($rt:expr; $($text:tt)*) => {
        $crate::plain_std::rt::print_line(&$rt, ::core::format_args!($($text)*))
    };
}

#[doc(hidden)]
#[macro_export]
macro_rules! plain_vec {
    (in $alloc:expr; $item:expr; $count:expr) => {
        $crate::plain_std::vec::Vec::repeated($alloc, $item, $count)
    };
    (in $alloc:expr; $($item:expr),* $(,)?) => {
        $crate::plain_std::vec::Vec::from_array($alloc, [$($item),*])
    };
}

#[doc(hidden)]
#[macro_export]
macro_rules! plain_format {
    (in $alloc:expr; $($text:tt)*) => {
        $crate::plain_std::string::formatted($alloc, ::core::format_args!($($text)*))
    };
}
