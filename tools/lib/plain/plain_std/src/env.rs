//! The words of a call.
use crate::prelude::{HostRuntime, String};

pub fn args(_: &HostRuntime) -> crate::io::Result<impl Iterator<Item = String>> {
    Ok(std::env::args().map(String))
}
