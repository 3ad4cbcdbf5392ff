//! The words of the command line, which take no memory. Rust's std copies them all, and ends the program if there is no
//! memory for that.

/// The word of this number; the first is the name of the program.
pub(crate) use by_system::word;

/// The C library gives what the section lists the words, which stay where they are until the process ends.
#[cfg(all(target_os = "linux", target_env = "gnu"))]
mod by_system {
    use std::ffi::CStr;
    use std::hint::black_box;
    use std::os::raw::{c_char, c_int};
    use std::ptr;
    use std::sync::atomic::{AtomicPtr, AtomicUsize, Ordering::Relaxed};

    static COUNT: AtomicUsize = AtomicUsize::new(0);
    static WORDS: AtomicPtr<*const c_char> = AtomicPtr::new(ptr::null_mut());

    extern "C" fn note_words(count: c_int, words: *mut *const c_char) {
        COUNT.store(usize::try_from(count).unwrap_or(0), Relaxed);
        WORDS.store(words, Relaxed);
    }

    /// What this section lists is called before `main`. A program has it only if something in it names this item.
    #[link_section = ".init_array"]
    static NOTE_WORDS: extern "C" fn(c_int, *mut *const c_char) = note_words;

    pub(crate) fn word(number: usize) -> Option<&'static [u8]> {
        black_box(&NOTE_WORDS);
        if number >= COUNT.load(Relaxed) {
            return None;
        }
        // SAFETY: glibc calls `note_words` with the arguments of `main`: so many pointers to texts that end with NUL.
        Some(unsafe { CStr::from_ptr(*WORDS.load(Relaxed).add(number)) }.to_bytes())
    }
}

/// Elsewhere the words are those of Rust's std.
#[cfg(not(all(target_os = "linux", target_env = "gnu")))]
mod by_system {
    use std::ffi::OsString;
    use std::sync::OnceLock;
    use std::vec::Vec;

    pub(crate) fn word(number: usize) -> Option<&'static [u8]> {
        static WORDS: OnceLock<Vec<OsString>> = OnceLock::new();
        let words = WORDS.get_or_init(|| std::env::args_os().collect());
        words.get(number).map(|word| word.as_encoded_bytes())
    }
}
