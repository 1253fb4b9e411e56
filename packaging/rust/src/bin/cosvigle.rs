//! The program `cosvigle`. Written by hand.

mod ends;

use cosvigle::programs::{HostRuntime, cosvigle};
use std::process::ExitCode;

fn main() -> ExitCode {
    let (input, output) = ends::ends();
    cosvigle(HostRuntime::new(input, output))
}
