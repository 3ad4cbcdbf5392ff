// Written by scripts/plain out of crates/lists/src/opening.rt

//! Opens files, and says why one cannot be opened.

use crate::lists::open_lists::OpenLists;
use crate::lines::watched::Watched;
use fosibegan_core::plain_std::io::ErrorKind;

/// Why a file cannot be opened.
///
/// ```
/// # use cidr_programs::in_examples::*;
/// use fosibegan_core::plain_std::io::ErrorKind;
///
/// assert_eq!(OpenFault::of(ErrorKind::NotFound), OpenFault::Missing);
/// assert_eq!(OpenFault::of(ErrorKind::TimedOut), OpenFault::Other);
/// ```
#[derive(Clone, Copy, Debug, PartialEq, Eq)]
pub enum OpenFault {
    /// There is no file of this name.
    Missing,
    /// The program may not read it.
    Denied,
    /// It is a directory.
    Directory,
    /// It is also the output.
    Output,
    /// It is a pipe that was opened before.
    Spent,
    /// There is another cause.
    Other,
}

impl OpenFault {
    /// Returns the cause that the kind of the system's error stands for.
    ///
    /// ```
    /// # use cidr_programs::in_examples::*;
    /// use fosibegan_core::plain_std::io::ErrorKind;
    ///
    /// assert_eq!(OpenFault::of(ErrorKind::PermissionDenied), OpenFault::Denied);
    /// assert_eq!(OpenFault::of(ErrorKind::Deadlock), OpenFault::Output);
    /// ```
    pub fn of(kind: ErrorKind) -> OpenFault {
        match kind {
            ErrorKind::NotFound => OpenFault::Missing,
            ErrorKind::PermissionDenied => OpenFault::Denied,
            ErrorKind::IsADirectory => OpenFault::Directory,
            ErrorKind::Deadlock => OpenFault::Output,
            ErrorKind::NotSeekable => OpenFault::Spent,
            _ => OpenFault::Other,
        }
    }

    /// Returns what is reported about the cause, after the name of the file.
    ///
    /// ```
    /// # use cidr_programs::in_examples::*;
    /// assert_eq!(OpenFault::Missing.text(), ": cannot open: no such file\n");
    /// assert_eq!(OpenFault::Other.text(), ": cannot open\n");
    /// ```
    pub fn text(self) -> &'static str {
        match self {
            OpenFault::Missing => ": cannot open: no such file\n",
            OpenFault::Denied => ": cannot open: permission denied\n",
            OpenFault::Directory => ": cannot open: is a directory\n",
            OpenFault::Output => ": input file is also the output\n",
            OpenFault::Spent => ": a pipe can be read only once\n",
            OpenFault::Other => ": cannot open\n",
        }
    }
}

/// Opens the list of this name. Once a read of it has failed, it is not read again.
///
/// An error that says why is returned if it cannot be opened.
///
/// ```
/// # use cidr_programs::in_examples::*;
/// # let rt = HostRuntime::new();
/// let system = program::system::System::new(&rt);
/// assert!(cidr_programs::lists::open_list(&system, "-").is_ok());
/// assert!(cidr_programs::lists::open_list(&system, "no such file").is_err());
/// ```
pub fn open_list<L: OpenLists>(lists: &L, name: &str) -> Result<Watched<L::List>, OpenFault> {
    match lists.open(name) {
        Ok(list) => Ok(Watched::new(list)),
        Err(error) => Err(OpenFault::of(error.kind())),
    }
}

/// Opens the file of this name, to be read while its lines are written, as `open_list` opens a
/// list. A file that is also the output may be refused.
///
/// An error that says why is returned if it cannot be opened.
///
/// ```
/// # use cidr_programs::in_examples::*;
/// # let rt = HostRuntime::new();
/// let system = program::system::System::new(&rt);
/// assert!(cidr_programs::lists::open_input(&system, "-").is_ok());
/// assert!(cidr_programs::lists::open_input(&system, "no such file").is_err());
/// ```
pub fn open_input<L: OpenLists>(lists: &L, name: &str) -> Result<Watched<L::List>, OpenFault> {
    match lists.open_input(name) {
        Ok(list) => Ok(Watched::new(list)),
        Err(fault) => Err(OpenFault::of(fault.kind())),
    }
}
