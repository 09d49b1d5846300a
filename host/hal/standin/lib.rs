//! Stands in for the register crate and for `time`: fields go by the numbers of their words in docs/CODES.md, values by
//! their codes there. It records what is done to the fields, or (`--cfg quiet`) stores each in a word and keeps no record.

#[cfg_attr(quiet, path = "quiet.rs")]
pub mod chip;
pub mod stm32;
pub mod time;
