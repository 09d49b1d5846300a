//! Register entries: what is to be written, waited for and checked, in order.
use crate::{raw, Chip, Refusal, Request};
use core::fmt;

/// A field of the chip's registers, as the number of its word in a bank.
#[derive(Clone, Copy, Debug, PartialEq, Eq, Hash)]
pub struct Field(u8);

const PLL_FIELDS: [&str; 15] = ["VCOSEL", "RGE", "M", "N", "FRACN", "FRACEN", "P", "PEN", "Q", "QEN", "R", "REN", "SRC", "ON", "RDY"];
#[rustfmt::skip]
const OTHER_FIELDS: [&str; 37] = [
    "LSION", "LSIRDY", "WRHIGHFREQ", "LATENCY", "PRFTEN", "CSION", "CSIRDY", "HSI48ON", "HSI48RDY",
    "MCO1SEL", "MCO1PRE", "MCO2SEL", "MCO2PRE", "HSEON", "HSEBYP", "HSERDY", "HPRE", "PPRE1", "PPRE2", "PPRE3",
    "CKPERSEL", "TIMPRE", "SW", "SWS", "SBSEN", "EN1", "CS1", "EN2", "CS2", "RDY1", "RDY2",
    "HSION", "HSIDIV", "VOS", "ACTVOS", "ACTVOSRDY", "VOSRDY",
];

impl Field {
    /// The field of a bank's word.
    pub fn at(word: usize) -> Option<Field> {
        if word < raw::BANK {
            Some(Field(word as u8))
        } else {
            None
        }
    }

    /// The number of its word in a bank.
    pub fn word(self) -> usize {
        self.0 as usize
    }

    /// Which PLL it belongs to, from 1, if to one.
    pub fn pll(self) -> Option<usize> {
        if self.word() < 45 {
            Some(self.word() / 15 + 1)
        } else {
            None
        }
    }

    /// The manual's name, without the PLL's number.
    pub fn name(self) -> &'static str {
        match self.pll() {
            Some(_) => PLL_FIELDS[self.word() % 15],
            None => OTHER_FIELDS[self.word() - 45],
        }
    }
}

impl fmt::Display for Field {
    fn fmt(&self, f: &mut fmt::Formatter<'_>) -> fmt::Result {
        if let Some(pll) = self.pll() {
            write!(f, "PLL{pll} ")?;
        }
        f.write_str(self.name())
    }
}

/// What an entry asks for.
#[derive(Clone, Copy, Debug, PartialEq, Eq)]
pub enum Kind {
    /// Set up to four fields, together.
    Set = 1,
    /// Wait until up to two fields read their values, together.
    Wait = 2,
    /// Go on only if the field reads its value.
    Check = 3,
    /// Read the field; what was read decides how to go on.
    Read = 4,
}

/// One register entry.
#[derive(Clone, Copy, PartialEq, Eq)]
pub struct Entry {
    words: [u32; 9],
}

impl Entry {
    /// An entry from its nine words: a kind, and four times a field from 1, or 0, with its value.
    pub fn from_words(words: [u32; 9]) -> Option<Entry> {
        let named = (0..4).all(|k| words[2 * k + 1] <= raw::BANK as u32);
        if matches!(words[0], 1..=4) && named {
            Some(Entry { words })
        } else {
            None
        }
    }

    /// Its nine words.
    pub fn words(&self) -> &[u32; 9] {
        &self.words
    }

    /// What it asks for.
    pub fn kind(&self) -> Kind {
        match self.words[0] {
            1 => Kind::Set,
            2 => Kind::Wait,
            3 => Kind::Check,
            _ => Kind::Read,
        }
    }

    /// Its fields with the values they are set to, waited or checked for.
    pub fn fields(&self) -> impl Iterator<Item = (Field, u32)> + '_ {
        self.words[1..].chunks(2).filter(|pair| pair[0] > 0).map(|pair| (Field(pair[0] as u8 - 1), pair[1]))
    }
}

impl fmt::Display for Entry {
    fn fmt(&self, f: &mut fmt::Formatter<'_>) -> fmt::Result {
        f.write_str(match self.kind() {
            Kind::Set => "set",
            Kind::Wait => "wait",
            Kind::Check => "check",
            Kind::Read => "read",
        })?;
        for (field, value) in self.fields() {
            match self.kind() {
                Kind::Read => write!(f, " {field}")?,
                _ => write!(f, " {field}={value}")?,
            }
        }
        Ok(())
    }
}

impl fmt::Debug for Entry {
    fn fmt(&self, f: &mut fmt::Formatter<'_>) -> fmt::Result {
        write!(f, "Entry({self})")
    }
}

/// A plan's whole list.
#[derive(Clone)]
pub struct Entries {
    list: [u32; raw::LIST],
}

impl Entries {
    /// How many there are.
    pub fn len(&self) -> usize {
        self.list[0] as usize
    }

    /// Whether there are none: never in a plan.
    pub fn is_empty(&self) -> bool {
        self.len() == 0
    }

    /// The entries in order.
    pub fn iter(&self) -> impl Iterator<Item = Entry> + '_ {
        self.list[1..].chunks_exact(9).take(self.len()).filter_map(|nine| {
            let mut words = [0; 9];
            words.copy_from_slice(nine);
            Entry::from_words(words)
        })
    }
}

/// Plans a request: its register entries.
pub fn entries(request: &Request, chip: &Chip) -> Result<Entries, Refusal> {
    let mut list = [0; raw::LIST];
    Refusal::of(raw::entries(&request.to_bytes(chip), &chip.to_bytes(), &mut list))?;
    Ok(Entries { list })
}
