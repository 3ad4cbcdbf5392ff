//! What only some systems have.

/// Of Unix.
pub mod unix {
    /// Files.
    pub mod fs {
        #[cfg(unix)]
        pub use ::std::os::unix::fs::{FileTypeExt, MetadataExt};

        /// Kinds of files that other systems have not.
        #[cfg(not(unix))]
        pub trait FileTypeExt {
            /// Whether it is a pipe.
            fn is_fifo(&self) -> bool;
        }

        #[cfg(not(unix))]
        impl FileTypeExt for ::std::fs::FileType {
            fn is_fifo(&self) -> bool {
                false
            }
        }

        /// What tells a file from others, which other systems do not say.
        #[cfg(not(unix))]
        pub trait MetadataExt {
            /// The number of its device.
            fn dev(&self) -> u64;

            /// Its number there.
            fn ino(&self) -> u64;
        }

        #[cfg(not(unix))]
        impl MetadataExt for ::std::fs::Metadata {
            fn dev(&self) -> u64 {
                0
            }

            fn ino(&self) -> u64 {
                0
            }
        }
    }
}
