//! Requests and their byte form: docs/CODES.md.
use crate::{raw, Chip, Plls};
use core::ops::Deref;

/// How a PLL is to be set.
#[derive(Clone, Copy, Debug, PartialEq, Eq)]
pub enum Strategy {
    /// Without a fraction.
    Integer = 0,
    /// With FRACN, for the first requested of P, Q, R.
    Fractional = 1,
}

/// Where MCO1 comes from.
#[derive(Clone, Copy, Debug, PartialEq, Eq)]
pub enum Mco1Source {
    /// HSI, 32 MHz.
    Hsi = 0,
    /// LSE: refused.
    Lse = 1,
    /// HSE.
    Hse = 2,
    /// PLL1 Q, which takes MCO1's hertz if it has none.
    Pll1Q = 3,
    /// HSI48, 48 MHz.
    Hsi48 = 4,
}

/// Where MCO2 comes from.
#[derive(Clone, Copy, Debug, PartialEq, Eq)]
pub enum Mco2Source {
    /// The system clock, which takes MCO2's hertz if it has none.
    Sysclk = 0,
    /// PLL2 P, likewise.
    Pll2P = 1,
    /// HSE.
    Hse = 2,
    /// PLL1 P, likewise.
    Pll1P = 3,
    /// CSI, 4 MHz.
    Csi = 4,
    /// LSI, 32 kHz.
    Lsi = 5,
}

/// What is asked of one PLL; with no output it stays off.
#[derive(Clone, Copy, Debug, PartialEq, Eq)]
pub struct PllRequest {
    /// How it is to be set.
    pub strategy: Strategy,
    /// Hertz at P.
    pub p: Option<u32>,
    /// Hertz at Q.
    pub q: Option<u32>,
    /// Hertz at R.
    pub r: Option<u32>,
}

/// Which clocks are wanted, in hertz; `None` leaves the choice to the planner.
#[derive(Clone, Copy, Debug, PartialEq, Eq)]
pub struct Request {
    /// The crystal or clock at HSE; without it HSI is the source.
    pub hse: Option<u32>,
    /// LSE: passed through.
    pub lse: Option<u32>,
    /// The external audio clock: passed through.
    pub audio: Option<u32>,
    /// The system clock.
    pub system: Option<u32>,
    /// The peripheral clock.
    pub peripheral: Option<u32>,
    /// AHB.
    pub ahb: Option<u32>,
    /// APB1, APB2, APB3.
    pub apb: [Option<u32>; 3],
    /// A clock signal at HSE, not a crystal.
    pub hse_bypass: bool,
    /// Where MCO1 comes from.
    pub mco1_source: Mco1Source,
    /// Hertz at MCO1; off if unset.
    pub mco1: Option<u32>,
    /// Where MCO2 comes from.
    pub mco2_source: Mco2Source,
    /// Hertz at MCO2; off if unset.
    pub mco2: Option<u32>,
    /// PLL1, PLL2, PLL3. On a chip with two PLLs nothing may be asked of the third.
    pub plls: [PllRequest; 3],
}

impl PllRequest {
    /// The 16 bytes of one PLL's part.
    pub fn to_bytes(&self) -> [u8; raw::PART] {
        let mut out = Bytes { bytes: [0; 106], len: raw::PART };
        out.pll(0, self);
        let mut part = [0; raw::PART];
        part.copy_from_slice(&out);
        part
    }
}

impl Default for PllRequest {
    fn default() -> PllRequest {
        PllRequest { strategy: Strategy::Integer, p: None, q: None, r: None }
    }
}

impl Default for Request {
    /// Nothing is asked for: HSI, both MCOs off.
    fn default() -> Request {
        Request {
            hse: None,
            lse: None,
            audio: None,
            system: None,
            peripheral: None,
            ahb: None,
            apb: [None; 3],
            hse_bypass: false,
            mco1_source: Mco1Source::Hsi,
            mco1: None,
            mco2_source: Mco2Source::Sysclk,
            mco2: None,
            plls: [PllRequest::default(); 3],
        }
    }
}

/// A request's bytes: 90, or 106 with a PLL3 part.
#[derive(Clone, Copy)]
pub struct Bytes {
    bytes: [u8; 106],
    len: usize,
}

impl Deref for Bytes {
    type Target = [u8];

    fn deref(&self) -> &[u8] {
        &self.bytes[..self.len]
    }
}

/// Each thing is written at its place, which is a number: nothing is counted on the way.
impl Bytes {
    #[inline]
    fn hertz(&mut self, at: usize, hertz: Option<u32>) {
        self.bytes[at] = hertz.is_some() as u8;
        self.bytes[at + 1..at + 5].copy_from_slice(&hertz.unwrap_or(0).to_le_bytes());
    }

    #[inline]
    fn pll(&mut self, at: usize, pll: &PllRequest) {
        self.bytes[at] = pll.strategy as u8;
        self.hertz(at + 1, pll.p);
        self.hertz(at + 6, pll.q);
        self.hertz(at + 11, pll.r);
    }
}

impl Request {
    /// The byte form for a chip: with a PLL3 part if the chip has three PLLs, or if something is asked of the third.
    pub fn to_bytes(&self, chip: &Chip) -> Bytes {
        let third = chip.plls == Plls::Three || self.plls[2] != PllRequest::default();
        let mut out = Bytes { bytes: [0; 106], len: if third { 106 } else { 90 } };
        out.hertz(0, self.hse);
        out.hertz(5, self.lse);
        out.hertz(10, self.audio);
        out.hertz(15, self.system);
        out.hertz(20, self.peripheral);
        out.hertz(25, self.ahb);
        out.hertz(30, self.apb[0]);
        out.hertz(35, self.apb[1]);
        out.hertz(40, self.apb[2]);
        out.bytes[45] = self.hse_bypass as u8;
        out.bytes[46] = self.mco1_source as u8;
        out.hertz(47, self.mco1);
        out.bytes[52] = self.mco2_source as u8;
        out.hertz(53, self.mco2);
        out.pll(58, &self.plls[0]);
        out.pll(74, &self.plls[1]);
        if third {
            out.pll(90, &self.plls[2]);
        }
        out
    }
}
