//! A bank: one word for each field.
use crate::{raw, Chip, Entry, Field, Kind, Refusal, Request};

/// The values of all 82 fields.
#[derive(Clone, Copy, Debug, PartialEq, Eq)]
pub struct Bank {
    /// The words, by field number.
    pub words: [u32; raw::BANK],
}

impl Bank {
    /// At reset values: HSION 1, HSIDIV 2, HPRE and each PPRE 1 (these hold divisors), the rest 0.
    pub const fn reset() -> Bank {
        let mut words = [0; raw::BANK];
        words[61] = 1;
        words[62] = 1;
        words[63] = 1;
        words[64] = 1;
        words[76] = 1;
        words[77] = 2;
        Bank { words }
    }

    /// A field's value.
    pub fn get(&self, field: Field) -> u32 {
        self.words[field.word()]
    }

    /// Applies one entry: it changes the fields that it sets, a wait, check or read none.
    pub fn apply(&mut self, entry: &Entry) {
        if entry.kind() == Kind::Set {
            for (field, value) in entry.fields() {
                self.words[field.word()] = value;
            }
        }
    }

    /// Plans a request and applies its whole list. Refused, the bank keeps its words.
    pub fn store(&mut self, request: &Request, chip: &Chip) -> Result<(), Refusal> {
        Refusal::of(raw::bank(&request.to_bytes(chip), &chip.to_bytes(), &mut self.words))
    }
}
