//! Files.

use super::host::HostRuntime;
use super::vec::Vec;
use std::fs::File;
use std::io::{Error, ErrorKind, Read};

/// Returns the bytes of a file. If an allocation fails the error is `OutOfMemory`.
pub fn read(rt: &HostRuntime, name: &str) -> Result<Vec<u8>, Error> {
    let mut file = File::open(name)?;
    let mut text = Vec::new(rt.alloc());
    let mut chunk = [0; 8192];
    loop {
        match file.read(&mut chunk) {
            Ok(0) => return Ok(text),
            Ok(n) => text.extend_from_slice(&chunk[..n]).map_err(|_| ErrorKind::OutOfMemory)?,
            Err(error) if error.kind() == ErrorKind::Interrupted => {}
            Err(error) => return Err(error),
        }
    }
}
