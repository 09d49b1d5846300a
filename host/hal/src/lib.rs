//! stm32h5xx-hal's clock sources, unchanged and with overflow checks, over a stand-in for their register crate; what they do is recorded.
//!
//! Found at build time: where `HAL_SRC` says, or beside the project. Without them [`VARIANTS`] is empty and [`SOURCES`] says why.
//!
//! ```
//! use hal::{Asked, Variant};
//! if let Some(variant) = Variant::find(2, [false, true, true]) {
//!     let mut asked = Asked::default();
//!     asked.hertz[3] = Some(250_000_000); // system
//!     let run = variant.run(&asked, &hal::State::default(), Default::default());
//!     assert_eq!(run.ended.unwrap()[1], 250_000_000);
//! }
//! ```
use std::panic::{catch_unwind, set_hook};

pub use standin::chip::{Nine, Record, State};

include!(concat!(env!("OUT_DIR"), "/variants.rs"));

/// Hertz in the order of the byte form: HSE, LSE, audio, system, peripheral, AHB, APB1 to 3, MCO1, MCO2, then P, Q, R of each PLL.
pub type Hertzes = [Option<u32>; 20];
/// Codes in the order of the byte form: HSE bypass, MCO1 source, MCO2 source, then each PLL's strategy.
pub type Codes = [u8; 6];

/// Places in [`Hertzes`]; a PLL's is that of its P, with Q and R behind it.
pub mod at {
    pub const HSE: usize = 0;
    pub const SYSTEM: usize = 3;
    pub const PERIPHERAL: usize = 4;
    pub const AHB: usize = 5;
    pub const APB1: usize = 6;
    pub const MCO1: usize = 9;
    pub const MCO2: usize = 10;
    pub const PLL: [usize; 3] = [11, 14, 17];
}

/// What is asked of the sources.
#[derive(Clone, Copy, Debug, Default, PartialEq, Eq)]
pub struct Asked {
    pub hertz: Hertzes,
    pub codes: Codes,
    /// The voltage scale.
    pub scale: u8,
}

impl Asked {
    /// Whether the setters can build it: MCO1 from LSE has none, and each other one takes hertz.
    pub fn by_setters(&self) -> bool {
        let default = |source: usize, hertz: usize| self.codes[source] == 0 || self.hertz[hertz].is_some();
        self.codes[1] != 1 && default(1, 9) && default(2, 10)
    }
}

/// The sources for a number of PLLs and a combination of odd P allowed.
pub struct Variant {
    pub plls: u8,
    pub odd: [bool; 3],
    freeze: fn(&Hertzes, &Codes, u8) -> [u32; 55],
    voltage: fn(u8) -> u8,
    reset_reason: fn() -> (u32, Option<u32>),
}

/// The sources as they are, over the stand-in that keeps no record.
pub struct Quiet {
    pub plls: u8,
    time_freeze: fn(&Hertzes, &Codes, u8),
}

/// A run: what it returned or the text it panicked with, and what it did to the fields until then.
pub struct Run<T> {
    pub ended: Result<T, String>,
    pub record: Record,
}

impl Variant {
    /// The variant for a chip; with two PLLs the third permission does not count.
    pub fn find(plls: u8, odd: [bool; 3]) -> Option<&'static Variant> {
        let counted = plls as usize;
        VARIANTS.iter().find(|variant| variant.plls == plls && variant.odd[..counted] == odd[..counted])
    }

    /// Setters, then `Rcc::freeze`: the clocks as the 55 words of a report. `used` is a record whose memory is taken over.
    pub fn run(&self, asked: &Asked, state: &State, used: Record) -> Run<[u32; 55]> {
        run(state, used, || (self.freeze)(&asked.hertz, &asked.codes, asked.scale))
    }

    /// `Pwr::freeze` to a target scale: the scale it reports.
    pub fn voltage(&self, target: u8, state: &State) -> Run<u8> {
        run(state, Record::default(), || (self.voltage)(target))
    }

    /// `get_reset_reason`: the reason's place in the enum, and the raw word where it is unknown.
    pub fn reset_reason(&self, state: &State) -> Run<(u32, Option<u32>)> {
        run(state, Record::default(), self.reset_reason)
    }
}

impl Quiet {
    /// Setters, then `Rcc::freeze`; a panic is the caller's.
    #[inline(always)]
    pub fn time_freeze(&self, asked: &Asked) {
        (self.time_freeze)(&asked.hertz, &asked.codes, asked.scale)
    }
}

fn run<T>(state: &State, used: Record, f: impl FnOnce() -> T + std::panic::UnwindSafe) -> Run<T> {
    standin::chip::start(state, used);
    let ended = catch_unwind(f).map_err(|panic| match panic.downcast::<String>() {
        Ok(text) => *text,
        Err(panic) => panic.downcast_ref::<&str>().unwrap_or(&"").to_string(),
    });
    Run { ended, record: standin::chip::finish() }
}

/// Panics print nothing from here on: they are answers.
pub fn silence_panics() {
    set_hook(Box::new(|_| {}));
}
