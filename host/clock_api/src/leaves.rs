//! The leaves: one PLL, FRACN, VCO, wait states, prescalers, reset reason.
use crate::{raw, PllRequest, Plls, Refusal, Scale};

/// What is chosen for one PLL.
#[derive(Clone, Copy, Debug, PartialEq, Eq)]
pub struct Pll {
    /// VCOSEL: 1 for the medium range, 0 for the wide one.
    pub vcosel: u32,
    /// The VCO aimed at, in hertz.
    pub target: u32,
    /// M.
    pub m: u32,
    /// The reference, the source over M, in hertz.
    pub reference: u32,
    /// RGE, as the bank has it: 0, 1, 2, 3 for a reference of 1 to 2, 2 to 4, 4 to 8, 8 to 16 MHz.
    pub rge: u32,
    /// N.
    pub n: u32,
    /// FRACN, in Fractional.
    pub fracn: Option<u32>,
    /// The VCO, in hertz.
    pub vco: u32,
    /// P, Q and R: divider and hertz.
    pub outputs: [Option<(u32, u32)>; 3],
}

/// What is chosen for one PLL of a source of so many hertz; none where nothing is requested. `odd` says whether P may divide by an odd
/// number.
pub fn pll(odd: bool, source: u32, request: &PllRequest) -> Result<Option<Pll>, Refusal> {
    let mut w = [0; raw::PLL];
    Refusal::of(raw::pll(odd as u32, source, &request.to_bytes(), &mut w))?;
    if w[2] == 0 {
        return Ok(None);
    }
    let output = |k: usize| if w[k] == 1 { Some((w[k + 1], w[k + 2])) } else { None };
    Ok(Some(Pll {
        vcosel: w[0],
        target: w[1],
        m: w[2],
        reference: w[3],
        rge: w[4],
        n: w[5],
        fracn: if w[6] == 1 { Some(w[7]) } else { None },
        vco: w[8],
        outputs: [output(9), output(12), output(15)],
    }))
}

/// A divisor and the clock behind it, in hertz.
#[derive(Clone, Copy, Debug, PartialEq, Eq)]
pub struct Bus {
    /// The divisor.
    pub divisor: u32,
    /// The clock, in hertz.
    pub hertz: u32,
}

/// AHB for a system clock, with the clock asked for.
pub fn ahb(system: u32, hertz: Option<u32>) -> Result<Bus, Refusal> {
    let mut out = [0; 2];
    Refusal::of(raw::ahb(system, hertz.is_some() as u32, hertz.unwrap_or(0), &mut out))?;
    Ok(Bus { divisor: out[0], hertz: out[1] })
}

/// An APB for an AHB clock, with the clock asked for.
pub fn apb(hclk: u32, hertz: Option<u32>) -> Result<Bus, Refusal> {
    let mut out = [0; 2];
    Refusal::of(raw::apb(hclk, hertz.is_some() as u32, hertz.unwrap_or(0), &mut out))?;
    Ok(Bus { divisor: out[0], hertz: out[1] })
}

/// The timer clock for an AHB clock and an APB divisor, in hertz: AHB / 2, / 4, / 8 under 4, 8, 16, and AHB under any other number.
pub fn timer(hclk: u32, ppre: u32) -> u32 {
    raw::timer(hclk, ppre)
}

/// A clock output for the clock of its source, with the clock asked for: the prescaler, and the clock where it is on.
pub fn mco(clock: u32, hertz: Option<u32>) -> Result<(u32, Option<u32>), Refusal> {
    let mut out = [0; 3];
    Refusal::of(raw::mco(clock, hertz.is_some() as u32, hertz.unwrap_or(0), &mut out))?;
    Ok((out[0], if out[1] == 1 { Some(out[2]) } else { None }))
}

/// FRACN for an output behind a divider, from the reference's hertz and N; none where it is out of range.
pub fn fracn(reference: u32, n: u32, output: u32, divider: u32) -> Option<u16> {
    match raw::fracn(reference, n, output, divider) {
        fracn @ 0..=8191 => Some(fracn as u16),
        _ => None,
    }
}

/// The VCO's hertz in Fractional.
pub fn vco(reference: u32, n: u32, fracn: u16) -> u32 {
    raw::vco(reference, n, fracn.into())
}

/// Wait states.
#[derive(Clone, Copy, Debug, PartialEq, Eq)]
pub struct Flash {
    /// LATENCY.
    pub latency: u32,
    /// WRHIGHFREQ.
    pub delay: u32,
}

/// The wait states for AHB hertz; none for 0 Hz.
pub fn flash(ahb: u32, scale: Scale) -> Option<Flash> {
    match raw::flash(ahb, scale as u32) {
        255 => None,
        both => Some(Flash { latency: both % 8, delay: both / 8 }),
    }
}

/// Why the chip was reset.
#[derive(Clone, Copy, Debug, PartialEq, Eq)]
pub enum ResetReason {
    /// The power came up.
    PowerOn,
    /// The reset pin.
    Pin,
    /// Software.
    System,
    /// The window watchdog.
    WindowWatchdog,
    /// The independent watchdog.
    IndependentWatchdog,
    /// A watchdog, either one.
    GenericWatchdog,
    /// An illegal entry to stop mode.
    IllegalStopEntry,
    /// None of these; the word as read.
    Unknown(u32),
}

/// The reason by RCC_RSR as read, and the word to write back to clear the flags.
pub fn reset_reason(plls: Plls, word: u32) -> (ResetReason, u32) {
    let mut out = [7, word, word];
    raw::reset_reason(plls as u32, word, &mut out);
    let reason = match out[0] {
        0 => ResetReason::PowerOn,
        1 => ResetReason::Pin,
        2 => ResetReason::System,
        3 => ResetReason::WindowWatchdog,
        4 => ResetReason::IndependentWatchdog,
        5 => ResetReason::GenericWatchdog,
        6 => ResetReason::IllegalStopEntry,
        _ => ResetReason::Unknown(out[1]),
    };
    (reason, out[2])
}
