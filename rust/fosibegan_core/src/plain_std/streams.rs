//! The standard streams by their descriptors, without the buffers of Rust's own streams. Rust's runtime opens `/dev/null`
//! for a stream that is closed when the program starts; here each read and write of such a stream is an error.
use std::fs::File;
use std::hint::black_box;
use std::io::{self, IsTerminal as _, Read, Write};
use std::mem::ManuallyDrop;
use std::os::fd::FromRawFd as _;
use std::os::raw::c_int;
use std::sync::atomic::{AtomicU8, Ordering::Relaxed};

/// The command that returns the flags of a descriptor. Its number is the same on each Unix.
const F_GETFD: c_int = 1;

/// The error of a closed descriptor. Its number is the same on each Unix.
const EBADF: i32 = 9;

extern "C" {
    fn fcntl(descriptor: c_int, command: c_int, ...) -> c_int;
}

/// The standard streams that were closed at the start: for descriptor `n` the bit `1 << n`.
static CLOSED: AtomicU8 = AtomicU8::new(0);

extern "C" fn note_closed() {
    for descriptor in 0..3 {
        // SAFETY: the command takes no pointer and changes nothing.
        if unsafe { fcntl(descriptor, F_GETFD) } < 0 {
            CLOSED.fetch_or(1 << descriptor, Relaxed);
        }
    }
}

/// What this section lists is called before Rust's runtime. A program has it only if something in it names this item.
#[cfg_attr(target_vendor = "apple", link_section = "__DATA,__mod_init_func")]
#[cfg_attr(not(target_vendor = "apple"), link_section = ".init_array")]
static NOTE_CLOSED: extern "C" fn() = note_closed;

/// A standard stream. A read or a write of it is one call of the system.
#[derive(Debug)]
pub(crate) struct Stream(Option<ManuallyDrop<File>>);

impl Stream {
    /// The stream of descriptor 0, 1 or 2.
    pub(crate) fn of(descriptor: c_int) -> Self {
        black_box(&NOTE_CLOSED);
        if CLOSED.load(Relaxed) & 1 << descriptor != 0 {
            return Stream(None);
        }
        // SAFETY: Rust's runtime keeps these three descriptors open until the process ends. The file is never dropped, so
        // it closes none of them.
        Stream(Some(ManuallyDrop::new(unsafe { File::from_raw_fd(descriptor) })))
    }

    fn file(&self) -> io::Result<&File> {
        self.0.as_deref().ok_or_else(|| io::Error::from_raw_os_error(EBADF))
    }

    /// Whether the stream is a terminal.
    pub(crate) fn is_terminal(&self) -> bool {
        self.file().is_ok_and(|file| file.is_terminal())
    }
}

impl Read for Stream {
    fn read(&mut self, room: &mut [u8]) -> io::Result<usize> {
        self.file()?.read(room)
    }
}

impl Write for Stream {
    fn write(&mut self, bytes: &[u8]) -> io::Result<usize> {
        self.file()?.write(bytes)
    }

    fn flush(&mut self) -> io::Result<()> {
        Ok(())
    }
}
