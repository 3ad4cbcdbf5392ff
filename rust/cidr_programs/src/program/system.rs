// Written by scripts/plain out of crates/program/src/system.rt

//! The files of the system.

use fosibegan_core::plain_std::rt::HostRuntime;
use crate::program::progress::Progress;
use fosibegan_core::plain_std::arrayvec::ArrayVec;
use crate::lines::watched::Watched;
use crate::lists::OpenLists;
use std::cell::RefCell;
use fosibegan_core::plain_std::fs::{File, Metadata};
use fosibegan_core::plain_std::io::{ErrorKind, IsTerminal, Read, Stdin};
use fosibegan_core::plain_std::os::unix::fs::{FileTypeExt, MetadataExt};
use fosibegan_core::plain_std::{fs, io};

/// The most pipes that are opened: as many files as Linux lets a process have open, if not asked
/// for more. They are remembered without memory being asked for.
const PIPES_MAX: usize = 1_024;

/// The files of the system, where `-` names standard input.
///
/// A pipe is opened only once, whatever its names, such as `-` and `/dev/stdin`: what is read of it
/// is gone, so that it would be empty the next time. The error is of the kind `NotSeekable`.
///
/// ```
/// # use cidr_programs::in_examples::*;
/// # let rt = HostRuntime::new();
/// use cidr_programs::lists::OpenLists;
///
/// let system = cidr_programs::program::system::System::new(&rt);
/// assert!(system.open("-").is_ok());
/// ```
pub struct System<'a> {
    rt: &'a HostRuntime,
    progress: Option<&'a Progress<'a>>,
    // The device and inode numbers of the pipes that were opened.
    pipes: RefCell<ArrayVec<(u64, u64), PIPES_MAX>>,
}

impl<'a> System<'a> {
    /// Creates a view of the system's files, without showing how much is read.
    ///
    /// ```
    /// # use cidr_programs::in_examples::*;
    /// # let rt = HostRuntime::new();
    /// use cidr_programs::lists::OpenLists;
    ///
    /// let system = cidr_programs::program::system::System::new(&rt);
    /// assert!(system.open("no such file").is_err());
    /// ```
    pub fn new(rt: &'a HostRuntime) -> System<'a> {
        System {
            rt,
            progress: None,
            pipes: RefCell::new(ArrayVec::new()),
        }
    }

    /// Creates a view of the system's files that counts and shows what is read of them.
    ///
    /// ```
    /// # use cidr_programs::in_examples::*;
    /// # let rt = HostRuntime::new();
    /// use cidr_programs::lists::OpenLists;
    /// use cidr_programs::program::progress::Progress;
    /// use cidr_programs::program::system::System;
    ///
    /// let progress = Progress::new(&rt, true);
    /// assert!(System::with_progress(&rt, &progress).open("-").is_ok());
    /// ```
    pub fn with_progress(rt: &'a HostRuntime, progress: &'a Progress<'a>) -> System<'a> {
        System {
            rt,
            progress: Some(progress),
            pipes: RefCell::new(ArrayVec::new()),
        }
    }

    // Opens the file of this name, or standard input. A pipe is remembered, and refused if it was
    // opened before, or if no more can be remembered.
    fn device_of(&self, name: &str) -> io::Result<Device> {
        let device = device_of(self.rt, name)?;
        let Some(pipe) = numbers_of_pipe(metadata_of(self.rt, &device)) else {
            return Ok(device);
        };
        let Ok(mut pipes) = self.pipes.try_borrow_mut() else {
            return Err(io::Error::from(ErrorKind::NotSeekable));
        };
        if pipes.as_slice().contains(&pipe) {
            return Err(io::Error::from(ErrorKind::NotSeekable));
        }
        if pipes.is_full() {
            return Err(io::Error::from(ErrorKind::Other));
        }
        pipes.push(pipe);
        Ok(device)
    }

    // Returns the progress that counts the reading of this file: none if it is typed at a terminal.
    fn progress_of(&self, name: &str) -> Option<&'a Progress<'a>> {
        if name == "-" && self.rt.stdin().is_terminal() {
            return None;
        }
        self.progress
    }
}

/// A file or standard input.
///
/// ```
/// # use cidr_programs::in_examples::*;
/// # let rt = HostRuntime::new();
/// let device = cidr_programs::program::system::Device::Input(rt.stdin());
/// assert!(matches!(device, cidr_programs::program::system::Device::Input(_)));
/// ```
pub enum Device {
    /// A file.
    File(File),
    /// Standard input.
    Input(Stdin),
}

impl Read for Device {
    fn read(&mut self, buf: &mut [u8]) -> io::Result<usize> {
        match self {
            Device::File(file) => file.read(buf),
            Device::Input(input) => input.read(buf),
        }
    }
}

/// A device, and the progress that counts what is read of it.
///
/// ```
/// # use cidr_programs::in_examples::*;
/// # let rt = HostRuntime::new();
/// use cidr_programs::lists::OpenLists;
/// use fosibegan_core::plain_std::io::Read;
///
/// let mut list = cidr_programs::program::system::System::new(&rt).open("no such file");
/// assert!(list.is_err());
/// ```
pub struct ShownDevice<'a> {
    device: Device,
    progress: Option<&'a Progress<'a>>,
}

impl Read for ShownDevice<'_> {
    fn read(&mut self, buf: &mut [u8]) -> io::Result<usize> {
        let count = self.device.read(buf)?;
        if let Some(progress) = self.progress {
            if let Some(read) = buf.get(..count) {
                progress.count(read);
            }
        }
        Ok(count)
    }
}

// Whether a file that was opened is a directory, which the system opens but does not read.
fn is_directory(file: &File) -> bool {
    match file.metadata() {
        Ok(metadata) => metadata.is_dir(),
        Err(_) => false,
    }
}

// Returns the device and inode numbers of a regular file, and `None` for anything else, such as a
// terminal or a pipe.
fn numbers_of_file(said: io::Result<Metadata>) -> Option<(u64, u64)> {
    match said {
        Ok(metadata) if metadata.is_file() => Some((metadata.dev(), metadata.ino())),
        _ => None,
    }
}

// Returns the device and inode numbers of a pipe, and `None` for anything else.
fn numbers_of_pipe(said: io::Result<Metadata>) -> Option<(u64, u64)> {
    match said {
        Ok(metadata) if metadata.file_type().is_fifo() => Some((metadata.dev(), metadata.ino())),
        _ => None,
    }
}

// Returns what the system says of what was opened.
fn metadata_of(rt: &HostRuntime, device: &Device) -> io::Result<Metadata> {
    match device {
        Device::File(file) => file.metadata(),
        Device::Input(_) => fs::metadata(rt, "/proc/self/fd/0"),
    }
}

// Whether what was opened is the regular file that standard output goes to, by what Linux says
// about open descriptors.
fn is_output(rt: &HostRuntime, device: &Device) -> bool {
    let Some(output) = numbers_of_file(fs::metadata(rt, "/proc/self/fd/1")) else {
        return false;
    };
    numbers_of_file(metadata_of(rt, device)) == Some(output)
}

// Opens the file of this name, or standard input.
fn device_of(rt: &HostRuntime, name: &str) -> io::Result<Device> {
    if name == "-" {
        return Ok(Device::Input(rt.stdin()));
    }
    let file = fs::open(rt, name)?;
    if is_directory(&file) {
        return Err(io::Error::from(ErrorKind::IsADirectory));
    }
    Ok(Device::File(file))
}

impl<'a> OpenLists for System<'a> {
    type List = ShownDevice<'a>;

    fn open(&self, name: &str) -> io::Result<ShownDevice<'a>> {
        Ok(ShownDevice {
            device: self.device_of(name)?,
            progress: self.progress_of(name),
        })
    }

    fn open_input(&self, name: &str) -> io::Result<ShownDevice<'a>> {
        let list = self.open(name)?;
        if is_output(self.rt, &list.device) {
            return Err(io::Error::from(ErrorKind::Deadlock));
        }
        Ok(list)
    }

    fn close(&self, _name: &str, list: Watched<ShownDevice<'a>>) {
        drop(list);
    }
}
