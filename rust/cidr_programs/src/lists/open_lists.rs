// Written by scripts/plain out of crates/lists/src/open_lists.rt

//! Where lists come from.

use crate::lines::watched::Watched;
use fosibegan_core::plain_std::io;
use fosibegan_core::plain_std::io::Read;

/// Opens lists by their names, and closes them.
///
/// ```
/// # use cidr_programs::in_examples::*;
/// # let rt = HostRuntime::new();
/// // Whether there is a list of this name.
/// fn is_there<L: cidr_programs::lists::OpenLists>(lists: &L, name: &str) -> bool {
///     lists.open(name).is_ok()
/// }
///
/// assert!(is_there(&program::system::System::new(&rt), "-"));
/// ```
pub trait OpenLists {
    /// A list that is open.
    type List: Read;

    /// Opens the list of this name. The error is the system's.
    ///
    /// An implementation may refuse a pipe that it opened before, since nothing would be left in it.
    ///
    /// ```
    /// # use cidr_programs::in_examples::*;
    /// # let rt = HostRuntime::new();
    /// use cidr_programs::lists::OpenLists;
    ///
    /// let system = program::system::System::new(&rt);
    /// assert!(system.open("-").is_ok());
    /// assert!(system.open("no such file").is_err());
    /// ```
    fn open(&self, name: &str) -> io::Result<Self::List>;

    /// Opens the file of this name, to be read while its lines are written. The error is the
    /// system's.
    ///
    /// An implementation may refuse the file that is also being written, since reading it would
    /// never end. By default the file is opened as a list.
    ///
    /// ```
    /// # use cidr_programs::in_examples::*;
    /// # let rt = HostRuntime::new();
    /// use cidr_programs::lists::OpenLists;
    ///
    /// let system = program::system::System::new(&rt);
    /// assert!(system.open_input("-").is_ok());
    /// assert!(system.open_input("no such file").is_err());
    /// ```
    fn open_input(&self, name: &str) -> io::Result<Self::List> {
        self.open(name)
    }

    /// Closes the list of this name. The contract records whether a read of it failed.
    ///
    /// ```
    /// # use cidr_programs::in_examples::*;
    /// # let rt = HostRuntime::new();
    /// # ended(|| {
    /// use cidr_programs::lines::watched::Watched;
    /// use cidr_programs::lists::OpenLists;
    ///
    /// let system = program::system::System::new(&rt);
    /// let list = Watched::new(system.open("-")?);
    /// assert!(!list.failed());
    /// system.close("-", list);
    /// # Ok(())
    /// # });
    /// ```
    fn close(&self, name: &str, list: Watched<Self::List>);
}
