//! A second word store beside the first: digests to compare, times to beat.

pub mod bench;
pub mod book;
pub mod lists;
pub mod reading;
#[cfg(test)]
mod reading_tests;
pub mod run;
pub mod store;
#[cfg(test)]
mod tests;
