"""Changes a copy of the packages of plain Rust so that Debian's rustc 1.63 takes it, for the test on Windows: what its std
has not is named otherwise, or stands in a module of the library.

    older.py FOLDER

FOLDER has the packages, as `scripts/plain --tests --to FOLDER` writes them. A change that finds nothing is an error.
"""

import pathlib
import re
import sys

MODULE = '''
/// What std has not in Rust 1.63.
#[doc(hidden)]
pub mod older {
    pub trait Chunks<T> {
        fn first_chunk<const N: usize>(&self) -> Option<&[T; N]>;
        fn first_chunk_mut<const N: usize>(&mut self) -> Option<&mut [T; N]>;
    }

    impl<T> Chunks<T> for [T] {
        fn first_chunk<const N: usize>(&self) -> Option<&[T; N]> {
            self.get(..N)?.try_into().ok()
        }

        fn first_chunk_mut<const N: usize>(&mut self) -> Option<&mut [T; N]> {
            self.get_mut(..N)?.try_into().ok()
        }
    }

    pub trait IsTerminal {
        fn is_terminal(&self) -> bool {
            false
        }
    }

    impl<T> IsTerminal for T {}

    /// Makes its value at each call, and keeps it for ever.
    pub struct OnceLock<T>(core::marker::PhantomData<fn() -> T>);

    impl<T: 'static> OnceLock<T> {
        pub const fn new() -> Self {
            OnceLock(core::marker::PhantomData)
        }

        pub fn get_or_init(&self, made: impl FnOnce() -> T) -> &'static T {
            std::boxed::Box::leak(std::boxed::Box::new(made()))
        }
    }
}
'''
# In which file, what, and what stands for it there.
CHANGES = [
    ("*/src/**/*.rs", r"\bcore::error\b", "std::error"),
    ("*/tests/**/*.rs", r"\bstd::hash::\{DefaultHasher, ", "std::{collections::hash_map::DefaultHasher, hash::{"),
    ("*/tests/**/*.rs", r"(hash_map::DefaultHasher, hash::\{[^}]*\})", r"\1}"),
    ("*/tests/units/of_ipnetwork/debug.rs", r" JsonFault,|.*JsonFault::.*\n", ""),
    ("fosibegan_core/src/plain_std/rt.rs", r"#\[cfg\(not\(unix\)\)\]\nuse std::io::IsTerminal as _;\n", ""),
    ("fosibegan_core/src/plain_std/rt.rs", r"self\.0\.is_terminal\(\)", "false"),
    ("fosibegan_core/src/plain_std/rt.rs", r"\.as_encoded_bytes\(\)", r'.to_str().unwrap_or("\\0").as_bytes()'),
    ("fosibegan_core/src/plain_std/words.rs", r"\.as_encoded_bytes\(\)", r'.to_str().unwrap_or("\\0").as_bytes()'),
    ("fosibegan_core/src/plain_std/words.rs", r"\bstd::sync::OnceLock\b", "crate::older::OnceLock"),
    ("fosibegan_core/src/plain_std/io.rs", r"\A", "pub use crate::older::IsTerminal;\n"),
    ("fosibegan_core/src/plain_std/simd.rs", r"\A((?://!.*\n|\n)*)", r"\1use crate::older::Chunks as _;\n"),
    ("fosibegan_core/src/lib.rs", r"\Z", MODULE),
]


def main():
    top = pathlib.Path(sys.argv[1])
    for pattern, old, new in CHANGES:
        changed = 0
        for file in top.glob(pattern):
            text, count = re.subn(old, new, file.read_text())
            changed += count
            if count:
                file.write_text(text)
        if not changed:
            sys.exit(f"older.py: nothing in {pattern} is {old}")


if __name__ == "__main__":
    main()
