//! The root of each variant's crate: the unchanged sources as modules, and calls that run them on plain numbers.
#![allow(dead_code)]

pub use standin::{stm32, time};

pub mod pwr;
pub mod rcc;

use pwr::{PowerConfiguration, PwrExt, VoltageScale};
use rcc::rec;
use rcc::{CoreClocks, PllConfigStrategy, Rcc, RccExt, ResetReason};
use stm32::rcc::cfgr1::{MCO1SEL, MCO2SEL};
use time::Hertz;

/// Hertz in the order of the byte form: HSE, LSE, audio, system, peripheral, AHB, APB1 to 3, MCO1, MCO2, then P, Q, R of each PLL.
type Hertzes = [Option<u32>; 20];
/// Codes in the order of the byte form: HSE bypass, MCO1 source, MCO2 source, then each PLL's strategy.
type Codes = [u8; 6];

const SCALES: [VoltageScale; 4] = [VoltageScale::Scale0, VoltageScale::Scale1, VoltageScale::Scale2, VoltageScale::Scale3];

macro_rules! ask {
    ($rcc:ident, $hertz:ident: $($at:expr => $setter:ident),+) => {
        $(if let Some(f) = $hertz[$at] { $rcc = $rcc.$setter(Hertz::from_raw(f)); })+
    };
}

/// The setters that the request needs.
#[inline(always)]
fn asked(hertz: &Hertzes, codes: &Codes) -> Rcc {
    let mut rcc = stm32::RCC.constrain();
    ask! { rcc, hertz: 0 => use_hse, 1 => lse_ck, 2 => audio_ck, 3 => sys_ck, 4 => per_ck, 5 => hclk, 6 => pclk1, 7 => pclk2, 8 => pclk3 }
    if codes[0] == 1 {
        rcc = rcc.bypass_hse();
    }
    rcc = outputs(rcc, hertz, codes);
    ask! { rcc, hertz: 11 => pll1_p_ck, 12 => pll1_q_ck, 13 => pll1_r_ck, 14 => pll2_p_ck, 15 => pll2_q_ck, 16 => pll2_r_ck }
    rcc = rcc.pll1_strategy(strategy(codes[3])).pll2_strategy(strategy(codes[4]));
    #[cfg(feature = "rm0481")]
    {
        ask! { rcc, hertz: 17 => pll3_p_ck, 18 => pll3_q_ck, 19 => pll3_r_ck }
        rcc = rcc.pll3_strategy(strategy(codes[5]));
    }
    rcc
}

fn strategy(code: u8) -> PllConfigStrategy {
    if code == 1 {
        PllConfigStrategy::Fractional
    } else {
        PllConfigStrategy::Integer
    }
}

/// The MCOs: by a setter where there is one.
#[inline(always)]
fn outputs(mut rcc: Rcc, hertz: &Hertzes, codes: &Codes) -> Rcc {
    match (codes[1], hertz[9]) {
        (0, Some(f)) => rcc = rcc.mco1_from_hsi(Hertz::from_raw(f)),
        (2, Some(f)) => rcc = rcc.mco1_from_hse(Hertz::from_raw(f)),
        (3, Some(f)) => rcc = rcc.mco1_from_pll1_q_ck(Hertz::from_raw(f)),
        (4, Some(f)) => rcc = rcc.mco1_from_hsi48(Hertz::from_raw(f)),
        (0, None) => {}
        (source, f) => rec::mco1(&mut rcc, MCO1SEL::of(source.into()), f),
    }
    match (codes[2], hertz[10]) {
        (0, Some(f)) => rcc = rcc.mco2_from_sys_ck(Hertz::from_raw(f)),
        (1, Some(f)) => rcc = rcc.mco2_from_pll2_p_ck(Hertz::from_raw(f)),
        (2, Some(f)) => rcc = rcc.mco2_from_hse(Hertz::from_raw(f)),
        (3, Some(f)) => rcc = rcc.mco2_from_pll1_p_ck(Hertz::from_raw(f)),
        (4, Some(f)) => rcc = rcc.mco2_from_csi(Hertz::from_raw(f)),
        (5, Some(f)) => rcc = rcc.mco2_from_lsi(Hertz::from_raw(f)),
        (0, None) => {}
        (source, _) => rec::mco2(&mut rcc, MCO2SEL::of(source.into())),
    }
    rcc
}

#[inline(always)]
fn frozen(hertz: &Hertzes, codes: &Codes, scale: u8) -> CoreClocks {
    let power = PowerConfiguration { vos: SCALES[scale as usize] };
    asked(hertz, codes).freeze(power, &stm32::SBS).clocks
}

/// Setters and `Rcc::freeze`: the clocks, as the 55 words of a report.
pub fn freeze(hertz: &Hertzes, codes: &Codes, scale: u8) -> [u32; 55] {
    report(&frozen(hertz, codes, scale))
}

/// The same, for measuring its time.
pub fn time_freeze(hertz: &Hertzes, codes: &Codes, scale: u8) {
    std::hint::black_box(frozen(hertz, codes, scale));
}

fn report(clocks: &CoreClocks) -> [u32; 55] {
    let (pll1, pll2) = (clocks.pll1(), clocks.pll2());
    #[cfg(feature = "rm0481")]
    let pll3 = (clocks.pll3().p_ck(), clocks.pll3().q_ck(), clocks.pll3().r_ck());
    #[cfg(not(feature = "rm0481"))]
    let pll3 = (None, None, None);
    let all: [Option<Hertz>; 26] = [
        Some(clocks.sys_ck()),
        Some(clocks.hclk()),
        Some(clocks.pclk1()),
        Some(clocks.pclk2()),
        Some(clocks.pclk3()),
        Some(clocks.timx_ker_ck()),
        Some(clocks.timy_ker_ck()),
        clocks.per_ck(),
        clocks.hsi_ck(),
        clocks.csi_ck(),
        clocks.hsi48_ck(),
        clocks.lsi_ck(),
        clocks.hse_ck(),
        clocks.lse_ck(),
        clocks.audio_ck(),
        clocks.mco1_ck(),
        clocks.mco2_ck(),
        pll1.p_ck(),
        pll1.q_ck(),
        pll1.r_ck(),
        pll2.p_ck(),
        pll2.q_ck(),
        pll2.r_ck(),
        pll3.0,
        pll3.1,
        pll3.2,
    ];
    let mut words = [0; 55];
    for (k, clock) in all.iter().enumerate() {
        if let Some(f) = clock {
            words[2 * k] = 1;
            words[2 * k + 1] = f.to_raw();
        }
    }
    words[52] = clocks.ppre1().into();
    words[53] = clocks.ppre2().into();
    words[54] = clocks.ppre3().into();
    words
}

/// `Pwr::freeze` to a target: the scale that it reports.
pub fn voltage(target: u8) -> u8 {
    let pwr = stm32::PWR.constrain();
    let pwr = match target {
        0 => pwr.vos0(),
        1 => pwr.vos1(),
        2 => pwr.vos2(),
        _ => pwr.vos3(),
    };
    let reported = pwr.freeze().vos();
    SCALES.iter().position(|scale| *scale == reported).map_or(4, |at| at as u8)
}

/// `get_reset_reason`: the reason's place in the enum, and the raw word where it is unknown.
pub fn reset_reason() -> (u32, Option<u32>) {
    match stm32::RCC.constrain().get_reset_reason() {
        ResetReason::PowerOnReset => (0, None),
        ResetReason::PinReset => (1, None),
        ResetReason::SystemReset => (2, None),
        ResetReason::WindowWatchdogReset => (3, None),
        ResetReason::IndependentWatchdogReset => (4, None),
        ResetReason::GenericWatchdogReset => (5, None),
        ResetReason::IllegalStopEntryReset => (6, None),
        ResetReason::Unknown { rcc_rsr } => (7, Some(rcc_rsr)),
    }
}
