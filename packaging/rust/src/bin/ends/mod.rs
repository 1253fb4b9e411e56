//! Standard input and output as files. Written by hand.

use std::fs::File;
use std::os::fd::FromRawFd;

/// Returns standard input and standard output, without buffers.
pub fn ends() -> (File, File) {
    // SAFETY: both descriptors are open, since Rust opens a null device where one isn't. Nothing else owns them.
    unsafe { (File::from_raw_fd(0), File::from_raw_fd(1)) }
}
