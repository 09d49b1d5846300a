//! The PLLs' registers against one run of the sources: the fields that its entries leave in a bank at reset values, packed here.
use crate::compare::UNTOUCHED;
use clock_api::{raw, Bank, Registers};
use std::collections::BTreeSet;

/// A field of a PLL's registers.
struct Place {
    name: &'static str,
    /// CFGR, DIVR or FRACR.
    register: usize,
    /// Its lowest bit there.
    bit: u32,
    width: u32,
    /// Its place among the PLL's 15 words of a bank.
    field: usize,
}

const fn place(name: &'static str, register: usize, bit: u32, width: u32, field: usize) -> Place {
    Place { name, register, bit, width, field }
}

const CFGR: usize = 0;
const DIVR: usize = 1;
const FRACR: usize = 2;
const M: usize = 2;
const FRACN: usize = 4;
const FRACEN: usize = 5;
const SRC: usize = 12;
/// HSE and PLL1 P in a report.
const HSE: usize = 24;
const PLL1P: usize = 34;
/// RM0492: RCC_PLLxCFGR, RCC_PLLxDIVR, RCC_PLLxFRACR. N, P, Q and R are less by 1, as in a bank.
const PLACES: [Place; 13] = [
    place("SRC", CFGR, 0, 2, SRC),
    place("RGE", CFGR, 2, 2, 1),
    place("FRACEN", CFGR, 4, 1, FRACEN),
    place("VCOSEL", CFGR, 5, 1, 0),
    place("M", CFGR, 8, 6, M),
    place("PEN", CFGR, 16, 1, 7),
    place("QEN", CFGR, 17, 1, 9),
    place("REN", CFGR, 18, 1, 11),
    place("N", DIVR, 0, 9, 3),
    place("P", DIVR, 9, 7, 6),
    place("Q", DIVR, 16, 7, 8),
    place("R", DIVR, 24, 7, 10),
    place("FRACN", FRACR, 3, 13, FRACN),
];

/// The registers of a PLL by its words of a bank. An error where one does not fit.
fn packed(fields: &[u32]) -> Result<[u32; 3], String> {
    let mut words = [0; 3];
    for Place { name, register, bit, width, field } in &PLACES {
        let value = fields[*field];
        if value >> width != 0 {
            return Err(format!("the Rust sets {name} to {value}, which is above {width} bits"));
        }
        words[*register] |= value << bit;
    }
    Ok(words)
}

/// How many words were compared: three for each PLL. Those of a PLL that the chip lacks are as they were. One without an output in the report
/// has its source alone.
pub fn compare(plls: usize, report: &[u32], bank: &Bank, words: &[u32; raw::PLL_REGISTERS]) -> Result<u64, String> {
    let idle = |k: usize| (0..3).all(|output| report[PLL1P + 6 * k + 2 * output] == 0);
    let source = if report[HSE] == 1 { 3 } else { 1 };
    for (k, planner) in words.chunks_exact(3).enumerate() {
        let rust = if k < plls { packed(&bank.words[15 * k..][..15])? } else { [UNTOUCHED; 3] };
        if k < plls && idle(k) && rust != [source, 0, 0] {
            return Err(format!("PLL{} has no output, and by the Rust {rust:08x?}", k + 1));
        }
        if rust != planner {
            return Err(format!("CFGR, DIVR, FRACR of PLL{}: by the Rust {rust:08x?}, the planner {planner:08x?}", k + 1));
        }
    }
    Ok(3 * plls as u64)
}

impl Place {
    /// What a value shows of the field: itself where the field is short, and else the highest bit.
    fn shows(&self, pll: usize, value: u32) -> Option<String> {
        match self.width {
            1 | 2 => Some(format!("PLL{pll} {} {value}", self.name)),
            width if value >> (width - 1) == 1 => Some(format!("PLL{pll} {} with its highest bit", self.name)),
            _ => None,
        }
    }
}

/// What a PLL's words of a bank show of its registers. PLLs are counted from 1.
pub fn shown(pll: usize, fields: &[u32]) -> Vec<String> {
    if fields[M] == 0 {
        return vec![idle(pll, fields[SRC])];
    }
    let mut shown: Vec<String> = PLACES.iter().filter_map(|place| place.shows(pll, fields[place.field])).collect();
    if (fields[FRACEN], fields[FRACN]) == (1, 0) {
        shown.push(without_fraction(pll));
    }
    shown
}

/// All that plans can show: each value and highest bit, and no source but HSI and HSE.
pub fn all(pll: usize) -> BTreeSet<String> {
    let values = |place: &Place| if place.field == SRC { vec![1, 3] } else { (0..1 << place.width).collect() };
    let each = PLACES.iter().flat_map(|place| values(place).into_iter().filter_map(move |value| place.shows(pll, value)));
    each.chain([idle(pll, 1), idle(pll, 3), without_fraction(pll)]).collect()
}

fn idle(pll: usize, source: u32) -> String {
    format!("PLL{pll} idle, SRC {source}")
}

fn without_fraction(pll: usize) -> String {
    format!("PLL{pll} FRACEN 1, FRACN 0")
}

/// Whether the wrapper has these words.
pub fn same(registers: &Registers, words: &[u32]) -> bool {
    registers.iter().flat_map(|pll| [pll.cfgr, pll.divr, pll.fracr]).eq(words.iter().copied())
}

#[cfg(test)]
mod tests {
    use super::*;
    use clock_api::Field;

    #[test]
    fn names_are_the_fields_own() {
        assert!(PLACES.iter().all(|place| Field::at(place.field).map(Field::name) == Some(place.name)));
    }

    /// Document 01's settings A and C, a PLL with no output, and each field at its most.
    #[test]
    fn worked_values() {
        assert_eq!(packed(&[0, 2, 8, 124, 0, 0, 1, 1, 0, 0, 0, 0, 1, 1, 0]), Ok([0x0001_0809, 0x0000_027C, 0]));
        assert_eq!(packed(&[1, 0, 18, 234, 66, 1, 33, 1, 0, 0, 0, 0, 1, 1, 0]), Ok([0x0001_1231, 0x0000_42EA, 0x0000_0210]));
        assert_eq!(packed(&[0, 0, 0, 0, 0, 0, 0, 0, 0, 0, 0, 0, 3, 0, 0]), Ok([3, 0, 0]));
        let most = [1, 3, 63, 511, 8191, 1, 127, 1, 127, 1, 127, 1, 3, 1, 1];
        assert_eq!(packed(&most), Ok([0x0007_3F3F, 0x7F7F_FFFF, 0x0000_FFF8]));
        for field in 0..13 {
            let mut above = most;
            above[field] += 1;
            assert!(packed(&above).is_err(), "field {field}");
        }
    }
}
