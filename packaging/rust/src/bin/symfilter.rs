//! The program `symfilter`. Written by hand.

mod ends;

use cosvigle::programs::{HostRuntime, symfilter};
use std::process::ExitCode;

fn main() -> ExitCode {
    let (input, output) = ends::ends();
    symfilter(HostRuntime::new(input, output))
}
