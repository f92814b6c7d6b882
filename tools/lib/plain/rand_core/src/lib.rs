//! The words of a generator.
pub mod utils {
    pub trait NextWord {
        fn next_word(&mut self) -> u32;
    }
}
