//! Plans bench setting A of document 01 and prints its clocks: system 250 MHz from HSI, odd P forbidden, on a chip with three PLLs.
use clock_api::{entries, plan, Bank, Chip, Clock, Refusal, Request};

#[rustfmt::skip]
const CLOCKS: [(&str, Clock); 26] = [
    ("sys", Clock::System), ("hclk", Clock::Ahb), ("pclk1", Clock::Apb1), ("pclk2", Clock::Apb2), ("pclk3", Clock::Apb3),
    ("timx", Clock::TimerX), ("timy", Clock::TimerY), ("per", Clock::Peripheral), ("hsi", Clock::Hsi), ("csi", Clock::Csi),
    ("hsi48", Clock::Hsi48), ("lsi", Clock::Lsi), ("hse", Clock::Hse), ("lse", Clock::Lse), ("audio", Clock::Audio),
    ("mco1", Clock::Mco1), ("mco2", Clock::Mco2), ("pll1_p", Clock::Pll1P), ("pll1_q", Clock::Pll1Q), ("pll1_r", Clock::Pll1R),
    ("pll2_p", Clock::Pll2P), ("pll2_q", Clock::Pll2Q), ("pll2_r", Clock::Pll2R), ("pll3_p", Clock::Pll3P), ("pll3_q", Clock::Pll3Q),
    ("pll3_r", Clock::Pll3R),
];

/// Words of a bank.
const VCOSEL: usize = 0;
const M: usize = 2;
const N: usize = 3;
const P: usize = 6;
const WRHIGHFREQ: usize = 47;
const LATENCY: usize = 48;

fn main() -> Result<(), Refusal> {
    let chip = Chip { odd_p: [false; 3], ..Chip::three_plls() };
    let request = Request { system: Some(250_000_000), ..Request::default() };

    let plan = plan(&request, &chip)?;
    for (name, clock) in CLOCKS {
        if let Some(hertz) = plan.hertz(clock) {
            println!("{name} {hertz}");
        }
    }

    let mut bank = Bank::reset();
    bank.store(&request, &chip)?;
    let words = bank.words;
    let range = if words[VCOSEL] == 0 { "wide" } else { "medium" };
    println!("PLL1 {range}, M {}, N {}, P {}", words[M], words[N] + 1, words[P] + 1);
    println!("latency {}, delay {}", words[LATENCY], words[WRHIGHFREQ]);

    println!("{} entries", entries(&request, &chip)?.len());
    Ok(())
}
