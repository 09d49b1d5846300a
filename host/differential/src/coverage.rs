//! What the run must have met: a comparison that never came to a rule says nothing about it.
use crate::judge::Chip;
use crate::registers;
use clock_api::{raw, Bank, REFUSALS};
use hal::{at, Asked, Nine, Record};
use std::collections::BTreeMap;

/// How often each thing was met.
#[derive(Default)]
pub struct Coverage(BTreeMap<String, u64>);

/// The page whose table of refusals says which call answers each; scripts/check-docs holds it to the rules.
const CODES: &str = include_str!("../../../docs/CODES.md");
const AHB: [u32; 9] = [1, 2, 4, 8, 16, 64, 128, 256, 512];
const APB: [u32; 5] = [1, 2, 4, 8, 16];
const OUTPUTS: [&str; 3] = ["P", "Q", "R"];
/// RDY1 and RDY2, as an entry has them.
const RDY1: u32 = 75;

impl Coverage {
    fn met(&mut self, what: String) {
        *self.0.entry(what).or_default() += 1;
    }

    pub fn refusal(&mut self, number: u32) {
        self.met(format!("refusal {number}"));
    }

    /// 14 or 15 where the sources end, by the divider that they wrote.
    pub fn departure(&mut self, number: u32, divider: u64) {
        self.met(format!("departure {number}"));
        if divider == 257 {
            self.met("divider 257".into());
        }
    }

    pub fn plan(&mut self, asked: &Asked, chip: &Chip, report: &[u32; 55], bank: &Bank, entries: usize) {
        self.met(variant(chip.plls, &chip.odd));
        self.met(format!("AHB / {}", bank.words[61]));
        for apb in 0..3 {
            self.met(format!("APB{} / {}", apb + 1, bank.words[62 + apb]));
        }
        for mco in 0..2 {
            let divisor = bank.words[55 + 2 * mco];
            self.met(format!("MCO{} / {divisor}", mco + 1));
            if divisor > 0 {
                self.met(format!("MCO{} from source {}", mco + 1, asked.codes[1 + mco]));
            }
        }
        for pll in (0..chip.plls as usize).filter(|pll| asked.codes[3 + pll] == 1) {
            let clocks = &report[34 + 6 * pll..];
            if let Some(first) = (0..3).find(|output| clocks[2 * output] == 1) {
                self.met(format!("PLL{} in Fractional for {}", pll + 1, OUTPUTS[first]));
            }
        }
        if [raw::FEWEST, raw::MOST].contains(&entries) {
            self.met(format!("{entries} entries"));
        }
        if asked.hertz[at::HSE].is_none() {
            self.met("from HSI".into());
        }
    }

    /// A PLL that clock_pll was compared on.
    pub fn pll(&mut self) {
        self.met("clock_pll".into());
    }

    /// A PLL, from 1, whose registers were compared, by its words of the bank.
    pub fn registers(&mut self, pll: usize, fields: &[u32]) {
        registers::shown(pll, fields).into_iter().for_each(|what| self.met(what));
    }

    /// A request that no setter builds.
    pub fn by_no_setter(&mut self) {
        self.met("by no setter".into());
    }

    /// A walk over late flags: RDY1 down, or RDY2 alone; ended by the check.
    pub fn walk(&mut self, record: &Record, last: Nine) {
        let late = record.entries.iter().zip(&record.reads).filter(|(entry, _)| entry[1] == RDY1);
        for (_, read) in late {
            match read {
                [Some(0), _] => self.met("RDY1 late".into()),
                [_, Some(0)] => self.met("RDY2 late".into()),
                _ => {}
            }
        }
        if last[0] == 5 {
            self.refusal(last[1]);
        }
    }

    /// What was met less often than it must be in so many requests beside the fixed ones, which are there for the last three.
    pub fn lacking(&self, requests: u64) -> Vec<String> {
        let share = requests / 20_000;
        let often = |what: String| (what, share);
        let mut wanted: Vec<(String, u64)> = answered().map(|n| often(format!("refusal {n}"))).collect();
        wanted.extend([14, 15].map(|n| often(format!("departure {n}"))));
        // MCO1 from LSE is 20, so no plan has it
        wanted.extend([0, 2, 3, 4].map(|source| often(format!("MCO1 from source {source}"))));
        wanted.extend((0..6).map(|source| often(format!("MCO2 from source {source}"))));
        wanted.extend(AHB.map(|divisor| often(format!("AHB / {divisor}"))));
        wanted.extend((1..=3).flat_map(|apb| APB.map(|divisor| often(format!("APB{apb} / {divisor}")))));
        wanted.extend((1..=2).flat_map(|mco| (0..=15).map(move |divisor| often(format!("MCO{mco} / {divisor}")))));
        wanted.extend((1..=3).flat_map(|pll| OUTPUTS.map(|output| often(format!("PLL{pll} in Fractional for {output}")))));
        wanted.extend((1..=3).flat_map(registers::all).map(often));
        wanted.extend(hal::VARIANTS.iter().map(|v| often(variant(v.plls, &v.odd))));
        wanted.extend(["RDY1 late", "RDY2 late", "from HSI", "clock_pll", "by no setter"].map(|what| often(what.into())));
        wanted.extend([raw::FEWEST, raw::MOST].map(|entries| (format!("{entries} entries"), 1)));
        wanted.push(("divider 257".into(), 1));
        let times = |what: &String| self.0.get(what).copied().unwrap_or(0);
        let lacking = wanted.iter().filter(|(what, least)| times(what) < *least);
        lacking.map(|(what, least)| format!("{what}: {} times, and not {least}", times(what))).collect()
    }
}

/// What the table says of a refusal: the calls that answer it.
fn calls(number: u32) -> Option<&'static str> {
    let row = CODES.lines().skip_while(|line| *line != "## Refusals").find(|line| line.starts_with(&format!("| {number} | ")))?;
    row.split(" | ").nth(3)
}

/// The refusals that some call answers.
fn answered() -> impl Iterator<Item = u32> {
    REFUSALS.iter().map(|row| row.0).filter(|number| calls(*number) != Some("no call"))
}

fn variant(plls: u8, odd: &[bool; 3]) -> String {
    format!("{plls} PLLs, odd P {:?}", &odd[..plls as usize])
}

#[test]
fn what_is_not_met_is_told() {
    let mut coverage = Coverage::default();
    let lacking = coverage.lacking(1_000_000);
    assert!(lacking.contains(&"refusal 19: 0 times, and not 50".into()));
    assert!(lacking.contains(&"refusal 24: 0 times, and not 50".into()));
    assert!(!lacking.contains(&"refusal 12: 0 times, and not 50".into()));
    assert!(lacking.contains(&"PLL3 RGE 3: 0 times, and not 50".into()));
    assert!(lacking.contains(&"divider 257: 0 times, and not 1".into()));
    assert_eq!(coverage.lacking(0).len(), 3);
    coverage.departure(14, 257);
    assert_eq!(coverage.lacking(1_000_000).len(), lacking.len() - 1);
}

#[test]
fn the_table_has_every_refusal() {
    assert!(REFUSALS.iter().all(|row| calls(row.0).is_some()));
    assert!(REFUSALS.windows(2).all(|two| two[0].0 < two[1].0));
}
