//! The chip beside a request: seven numbers.

/// How many PLLs the chip has.
#[derive(Clone, Copy, Debug, PartialEq, Eq)]
pub enum Plls {
    /// STM32H503 (RM0492).
    Two = 2,
    /// The larger ones (RM0481).
    Three = 3,
}

/// The voltage scale.
#[derive(Clone, Copy, Debug, PartialEq, Eq)]
pub enum Scale {
    /// Highest voltage, up to 250 MHz.
    Scale0 = 0,
    /// Up to 200 MHz.
    Scale1 = 1,
    /// Up to 150 MHz.
    Scale2 = 2,
    /// Lowest voltage, up to 100 MHz.
    Scale3 = 3,
}

/// HSIDIV as read, as a divisor of 64 MHz.
#[derive(Clone, Copy, Debug, PartialEq, Eq)]
pub enum HsiDiv {
    /// 64 MHz.
    Div1 = 1,
    /// 32 MHz: the one that can be planned with.
    Div2 = 2,
    /// 16 MHz.
    Div4 = 4,
    /// 8 MHz.
    Div8 = 8,
}

/// A chip and the state it is in.
#[derive(Clone, Copy, Debug, PartialEq, Eq)]
pub struct Chip {
    /// How many PLLs it has.
    pub plls: Plls,
    /// Whether P of PLL1, PLL2, PLL3 may have an odd divider.
    pub odd_p: [bool; 3],
    /// The voltage scale it runs at.
    pub scale: Scale,
    /// HSION as read.
    pub hsi_on: bool,
    /// HSIDIV as read.
    pub hsi_div: HsiDiv,
}

impl Chip {
    /// A chip with two PLLs, as it leaves reset, at the highest voltage; P of PLL1 must be even, as the HAL has it.
    pub const fn two_plls() -> Chip {
        Chip { plls: Plls::Two, odd_p: [false, true, true], scale: Scale::Scale0, hsi_on: true, hsi_div: HsiDiv::Div2 }
    }

    /// A chip with three PLLs, likewise.
    pub const fn three_plls() -> Chip {
        Chip { plls: Plls::Three, ..Chip::two_plls() }
    }

    /// The chip's bytes: PLL count, odd P of PLL1 to PLL3, scale, HSION, HSIDIV.
    pub const fn to_bytes(&self) -> [u8; 7] {
        let odd = self.odd_p;
        [self.plls as u8, odd[0] as u8, odd[1] as u8, odd[2] as u8, self.scale as u8, self.hsi_on as u8, self.hsi_div as u8]
    }
}
