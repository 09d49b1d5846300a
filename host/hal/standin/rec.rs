//! Stands in for rcc/rec.rs, which is not among the sources: names alone. It stands inside `rcc`, and so can also build
//! the requests that no setter builds.
use super::mco::{MCO1, MCO2};
use super::Rcc;

pub struct LowPowerMode;
pub struct ResetEnable;
pub struct PeripheralREC;

impl PeripheralREC {
    pub(super) unsafe fn new_singleton() -> Self {
        PeripheralREC
    }
}

/// An MCO1 source with or without hertz, LSE too.
pub fn mco1(rcc: &mut Rcc, source: MCO1, frequency: Option<u32>) {
    rcc.config.mco1.source = source;
    rcc.config.mco1.frequency = frequency;
}

/// An MCO2 source without hertz.
pub fn mco2(rcc: &mut Rcc, source: MCO2) {
    rcc.config.mco2.source = source;
}
