//! Stands in for the HAL's `time`: hertz in 32 bits.

#[derive(Clone, Copy, Debug, PartialEq, Eq)]
pub struct Hertz(u32);

#[allow(non_snake_case)]
impl Hertz {
    pub const fn from_raw(hertz: u32) -> Self {
        Hertz(hertz)
    }

    pub const fn to_raw(self) -> u32 {
        self.0
    }

    /// Whole megahertz, rounded down.
    pub const fn to_MHz(self) -> u32 {
        self.0 / 1_000_000
    }
}
