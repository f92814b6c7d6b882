//! Input and output.
pub use std::io::{Error, ErrorKind, Read, Result, Stdin, Stdout, Write};

pub fn writer(_: &crate::prelude::HostRuntime) -> Stdout {
    std::io::stdout()
}
