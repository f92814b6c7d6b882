//! `String` of the toolchain.
use crate::alloc::{AllocError, Global};
use std::ops::Deref;

#[derive(Debug, PartialEq, Eq)]
pub struct String(pub std::string::String);

impl String {
    pub fn new(_: Global) -> Self {
        String(std::string::String::new())
    }
    pub fn from_str(_: Global, text: &str) -> Result<Self, AllocError> {
        Ok(String(text.to_string()))
    }
    pub fn from_utf8_lossy(_: Global, bytes: &[u8]) -> Result<Self, AllocError> {
        Ok(String(
            std::string::String::from_utf8_lossy(bytes).into_owned(),
        ))
    }
    pub fn formatted(text: std::string::String) -> Result<Self, AllocError> {
        Ok(String(text))
    }
    pub fn push_str(&mut self, text: &str) -> Result<(), AllocError> {
        self.0.push_str(text);
        Ok(())
    }
}

impl Deref for String {
    type Target = std::string::String;
    fn deref(&self) -> &Self::Target {
        &self.0
    }
}
