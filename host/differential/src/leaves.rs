//! The leaves against one run of the sources: its report, and the words that its entries leave.
use clock_api::{raw, Bank};

const HSE: usize = 24;
const HSI: usize = 16;
const PLL1P: usize = 34;
const MCO1_SOURCES: [usize; 5] = [HSI, 26, HSE, PLL1P + 2, 20];
const MCO2_SOURCES: [usize; 6] = [0, PLL1P + 6, HSE, PLL1P, 18, 22];
/// The first of a PLL's words of the bank that clock_pll gives: VCOSEL, RGE, M, N - 1, FRACN, FRACEN, then P, Q, R as divider - 1, enable.
const NAMES: [&str; 12] = ["VCOSEL", "RGE", "M", "N", "FRACN", "FRACEN", "P", "PEN", "Q", "QEN", "R", "REN"];

/// A clock of a request or a report: 0 or 1, and the hertz.
type Set = (u32, u32);

fn asked(request: &[u8], at: usize) -> Set {
    (request[at].into(), u32::from_le_bytes([request[at + 1], request[at + 2], request[at + 3], request[at + 4]]))
}

fn same<T: PartialEq + std::fmt::Debug>(leaf: &str, rust: T, planner: T) -> Result<(), String> {
    if rust == planner {
        Ok(())
    } else {
        Err(format!("{leaf}: the Rust {rust:?}, the planner {planner:?}"))
    }
}

/// How many PLLs were compared: those whose outputs are just the requested ones, as the sources' own function has them.
pub fn compare(request: &[u8], chip: &[u8], report: &[u32], bank: &Bank) -> Result<u64, String> {
    let clock = |k: usize| -> Set { (report[k], report[k + 1]) };
    let mut two = [0; 2];
    let (system, hclk) = (report[1], report[3]);
    let (set, hertz) = asked(request, 25);
    same("clock_ahb answers", 0, raw::ahb(system, set, hertz, &mut two))?;
    same("clock_ahb", [bank.words[61], hclk], two)?;
    for k in 0..3 {
        let (set, hertz) = asked(request, 30 + 5 * k);
        same("clock_apb answers", 0, raw::apb(hclk, set, hertz, &mut two))?;
        same("clock_apb", [bank.words[62 + k], report[5 + 2 * k]], two)?;
    }
    for k in 0..2 {
        same("clock_timer", report[11 + 2 * k], raw::timer(hclk, report[52 + k]))?;
    }
    let outputs = [(46, MCO1_SOURCES[request[46] as usize], 55, 30), (52, MCO2_SOURCES[request[52] as usize], 57, 32)];
    for (at, source, word, told) in outputs {
        let (set, hertz) = asked(request, at + 1);
        let mut three = [0; 3];
        same("clock_mco answers", 0, raw::mco(report[source + 1], set, hertz, &mut three))?;
        same("clock_mco", [bank.words[word], report[told], report[told + 1]], three)?;
    }
    let source = if report[HSE] == 1 { report[HSE + 1] } else { report[HSI + 1] };
    let mut compared = 0;
    for k in 0..chip[0] as usize {
        let part = &request[58 + 16 * k..][..raw::PART];
        let told: Vec<Set> = (0..3).map(|j| clock(PLL1P + 6 * k + 2 * j)).collect();
        if (0..3).any(|j| asked(part, 1 + 5 * j).0 != told[j].0) {
            continue;
        }
        let mut w = [0; raw::PLL];
        same("clock_pll answers", 0, raw::pll(chip[1 + k].into(), source, part, &mut w))?;
        for j in 0..3 {
            same("an output of clock_pll", told[j], (w[9 + 3 * j], w[11 + 3 * j]))?;
        }
        if told.iter().any(|output| output.0 == 1) {
            let less = |k: usize| w[k].saturating_sub(1);
            let words = [w[0], w[4], w[2], less(5), w[7], w[6], less(10), w[9], less(13), w[12], less(16), w[15]];
            for (j, name) in NAMES.iter().enumerate() {
                // what no entry sets is as it was before
                let unset = j == 4 && w[6] == 0 || j == 5 && w[6] == 0 || j > 5 && j % 2 == 0 && words[j + 1] == 0;
                if !unset {
                    same(name, bank.words[15 * k + j], words[j])?;
                }
            }
            compared += 1;
        }
    }
    Ok(compared)
}
