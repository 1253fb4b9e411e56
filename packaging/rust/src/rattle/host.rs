//! What the system gives a program.

use super::alloc::Global;
use super::env::FillError;
use std::ffi::OsString;
use std::fmt::Arguments;
use std::fs::File;
use std::io::{Read, Result, Stderr, Write};
use std::sync::Arc;

/// The arguments, and standard input and output.
pub struct HostRuntime {
    arguments: Vec<OsString>,
    input: Arc<File>,
    output: Arc<File>,
}

/// Standard input, without a buffer.
pub struct Stdin(Arc<File>);

/// Standard output, without a buffer.
pub struct Stdout(Arc<File>);

impl HostRuntime {
    /// The arguments of the process, with these files as standard input and output.
    pub fn new(input: File, output: File) -> Self {
        HostRuntime { arguments: std::env::args_os().collect(), input: Arc::new(input), output: Arc::new(output) }
    }

    pub fn alloc(&self) -> Global {
        Global
    }

    pub fn stdin(&self) -> Stdin {
        Stdin(self.input.clone())
    }

    pub fn stdout(&self) -> Stdout {
        Stdout(self.output.clone())
    }

    pub fn stderr(&self) -> Stderr {
        std::io::stderr()
    }

    /// Writes an argument to the front of the bytes, and returns its length.
    pub fn arg(&self, at: usize, into: &mut [u8]) -> std::result::Result<usize, FillError> {
        let Some(argument) = self.arguments.get(at) else {
            return Err(FillError::NotPresent);
        };
        let bytes = argument.as_encoded_bytes();
        match into.get_mut(..bytes.len()) {
            None => Err(FillError::TooLong),
            Some(front) => {
                front.copy_from_slice(bytes);
                Ok(bytes.len())
            }
        }
    }
}

impl Read for Stdin {
    fn read(&mut self, into: &mut [u8]) -> Result<usize> {
        (&*self.0).read(into)
    }
}

impl Write for Stdout {
    fn write(&mut self, bytes: &[u8]) -> Result<usize> {
        (&*self.0).write(bytes)
    }

    fn flush(&mut self) -> Result<()> {
        (&*self.0).flush()
    }
}

/// Writes a line to standard error.
pub(crate) fn write_error(_: &HostRuntime, text: Arguments<'_>) -> Result<()> {
    std::io::stderr().write_fmt(format_args!("{text}\n"))
}
