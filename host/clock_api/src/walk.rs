//! Walks: a list one entry at a time, over values that were read.
use crate::{raw, Chip, Entry, Refusal, Request, Scale};
use core::slice;

/// What a walk shows.
#[derive(Clone, Copy, Debug, PartialEq, Eq)]
pub enum Shown {
    /// The entry to carry out next; the same wait again while its fields read otherwise.
    Next(Entry),
    /// All done.
    Finished,
    /// Refused, or ended by a check.
    Refused(Refusal),
}

impl Shown {
    /// From nine words: an entry, nine 0, or 5 and the refusal's number.
    pub fn from_words(words: [u32; 9]) -> Option<Shown> {
        match words[0] {
            0 => Some(Shown::Finished),
            5 => Some(Shown::Refused(Refusal::numbered(words[1]))),
            _ => Entry::from_words(words).map(Shown::Next),
        }
    }
}

/// Walks a request's list. Each step takes the values read at the entry shown, of its first and second field. What is shown
/// before the first step and after each is left in `shown`, nine words each, as far as it holds them; the answer counts them.
pub fn walk(request: &Request, chip: &Chip, reads: &[[u32; 2]], shown: &mut [[u32; 9]]) -> usize {
    raw::walk(&request.to_bytes(chip), &chip.to_bytes(), flat(reads), flat_mut(shown))
}

/// Walks `Pwr::freeze`: wait for ACTVOSRDY, read ACTVOS, and if it is not the target, set VOS and wait for VOSRDY.
pub fn voltage_walk(target: Scale, reads: &[[u32; 2]], shown: &mut [[u32; 9]]) -> usize {
    raw::voltage_walk(target as u32, flat(reads), flat_mut(shown))
}

// An array of arrays has no gaps: the same words as one slice.
fn flat<const N: usize>(words: &[[u32; N]]) -> &[u32] {
    unsafe { slice::from_raw_parts(words.as_ptr().cast(), N * words.len()) }
}

fn flat_mut<const N: usize>(words: &mut [[u32; N]]) -> &mut [u32] {
    unsafe { slice::from_raw_parts_mut(words.as_mut_ptr().cast(), N * words.len()) }
}
