//! The PLLs' registers as words: CFGR, DIVR and FRACR of each.
use crate::{raw, Chip, Refusal, Request};
use core::ops::Deref;

/// The registers of one PLL, by RM0492; what is not listed is 0. A PLL with no output requested has its source bits alone.
#[derive(Clone, Copy, Debug, PartialEq, Eq)]
pub struct PllRegisters {
    /// RCC_PLLxCFGR: source in bits 0 to 1 (1 HSI, 3 HSE), RGE in 2 to 3, FRACEN 4, VCOSEL 5, M in 8 to 13, the enables of P, Q, R at 16, 17, 18.
    pub cfgr: u32,
    /// RCC_PLLxDIVR: N - 1 in bits 0 to 8, P - 1 in 9 to 15, Q - 1 in 16 to 22, R - 1 in 24 to 30.
    pub divr: u32,
    /// RCC_PLLxFRACR: FRACN in bits 3 to 15.
    pub fracr: u32,
}

/// The registers of each PLL of a chip, in PLL order: a slice of two or three.
#[derive(Clone, Copy, Debug, PartialEq, Eq)]
pub struct Registers {
    plls: [PllRegisters; 3],
    len: usize,
}

impl Deref for Registers {
    type Target = [PllRegisters];

    fn deref(&self) -> &[PllRegisters] {
        &self.plls[..self.len]
    }
}

/// Plans a request: the registers of the chip's PLLs.
///
/// ```
/// # use clock_api::{pll_registers, Chip, PllRegisters, Request};
/// let request = Request { system: Some(250_000_000), ..Request::default() };
/// let plls = pll_registers(&request, &Chip::two_plls())?;
/// assert_eq!(plls.len(), 2);
/// // HSI, M 8, N 125, P 2
/// assert_eq!(plls[0], PllRegisters { cfgr: 0x0001_0809, divr: 0x0000_027C, fracr: 0 });
/// // nothing is asked of PLL2
/// assert_eq!(plls[1], PllRegisters { cfgr: 1, divr: 0, fracr: 0 });
/// # Ok::<(), clock_api::Refusal>(())
/// ```
pub fn pll_registers(request: &Request, chip: &Chip) -> Result<Registers, Refusal> {
    let mut w = [0; raw::PLL_REGISTERS];
    Refusal::of(raw::pll_registers(&request.to_bytes(chip), &chip.to_bytes(), &mut w))?;
    let pll = |k: usize| PllRegisters { cfgr: w[3 * k], divr: w[3 * k + 1], fracr: w[3 * k + 2] };
    Ok(Registers { plls: [pll(0), pll(1), pll(2)], len: chip.plls as usize })
}
