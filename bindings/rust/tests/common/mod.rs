//! What the tests share: repeatable random numbers, an ordinary matcher, random lists and tables, and the streams of the second program.
#![allow(dead_code)]

pub mod builders;
pub mod dice;
pub mod ordinary;
pub mod stream;

/// A number of the environment, or this one where it is not set.
pub fn number(name: &str, otherwise: u64) -> u64 {
    std::env::var(name).map_or(otherwise, |text| text.parse().unwrap_or_else(|_| panic!("{name} is a number")))
}
