//! Stands in for the register crate: the registers, fields and values that the sources name. All registers share one reader
//! and one writer; a field is the number of its word in docs/CODES.md.
#![allow(non_snake_case)]
use crate::chip::{self, Op};
use std::marker::PhantomData;

/// What a field holds, as the code in docs/CODES.md.
pub trait Code: Copy {
    fn code(self) -> u32;
}

macro_rules! numbers {
    ($($number:ty)+) => { $(impl Code for $number { fn code(self) -> u32 { self as u32 } })+ };
}
numbers! { bool u8 u16 }

macro_rules! codes {
    ($($name:ident { $($value:ident = $code:expr),+ })+) => {
        $(
            #[derive(Clone, Copy, Debug, PartialEq, Eq)]
            pub enum $name { $($value = $code),+ }
            impl $name {
                pub fn of(code: u32) -> Self {
                    match code { $($code => $name::$value,)+ _ => panic!("the stand-in: no such code") }
                }
            }
            impl Code for $name { fn code(self) -> u32 { self as u32 } }
        )+
    };
}

pub mod rcc {
    pub mod pll1cfgr {
        use super::super::Code;
        codes! {
            PLL1VCOSEL { WideVco = 0, MediumVco = 1 }
            PLL1RGE { Range1 = 0, Range2 = 1, Range4 = 2, Range8 = 3 }
            PLL1SRC { None = 0, Hsi = 1, Csi = 2, Hse = 3 }
        }
    }
    pub mod pll2cfgr {
        pub use super::pll1cfgr::PLL1SRC as PLL2SRC;
    }
    pub mod pll3cfgr {
        pub use super::pll1cfgr::PLL1SRC as PLL3SRC;
    }
    pub mod cfgr1 {
        use super::super::Code;
        codes! {
            SW { Hsi = 0, Csi = 1, Hse = 2, Pll1 = 3 }
            TIMPRE { DefaultX2 = 0, DefaultX4 = 1 }
            MCO1SEL { Hsi = 0, Lse = 1, Hse = 2, Pll1Q = 3, Hsi48 = 4 }
            MCO2SEL { Sysclk = 0, Pll2P = 1, Hse = 2, Pll1P = 3, Csi = 4, Lsi = 5 }
        }
        impl From<SW> for u8 {
            fn from(sw: SW) -> u8 {
                sw as u8
            }
        }
    }
    pub mod cfgr2 {
        use super::super::Code;
        codes! {
            HPRE { Div1 = 1, Div2 = 2, Div4 = 4, Div8 = 8, Div16 = 16, Div64 = 64, Div128 = 128, Div256 = 256, Div512 = 512 }
            PPRE1 { Div1 = 1, Div2 = 2, Div4 = 4, Div8 = 8, Div16 = 16 }
        }
    }
    pub mod ccipr5 {
        use super::super::Code;
        codes! { CKPERSEL { HsiKer = 0, CsiKer = 1, Hse = 2 } }
    }
    pub mod cr {
        use super::super::Code;
        codes! { HSIDIV { Div1 = 1, Div2 = 2, Div4 = 4, Div8 = 8 } }
    }
}

pub mod pwr {
    pub mod voscr {
        use super::super::Code;
        codes! { VOS { Vos3 = 0, Vos2 = 1, Vos1 = 2, Vos0 = 3 } }
    }
    pub mod vossr {
        use super::super::Code;
        codes! { ACTVOSR { Vos3 = 0, Vos2 = 1, Vos1 = 2, Vos0 = 3 } }
    }
}

use pwr::{voscr::VOS, vossr::ACTVOSR};
use rcc::ccipr5::CKPERSEL;
use rcc::cfgr1::{MCO1SEL, MCO2SEL, SW, TIMPRE};
use rcc::cfgr2::{HPRE, PPRE1};
use rcc::cr::HSIDIV;
use rcc::pll1cfgr::{PLL1RGE, PLL1SRC, PLL1VCOSEL};

/// FRACEN's values, which have names of their own.
#[derive(Clone, Copy)]
pub struct FRACEN;

/// Any register but RSR.
pub struct Reg;
/// Its fields as read.
pub struct R;
/// Its fields as written.
pub struct W(Op);

impl Reg {
    #[inline(always)]
    pub fn read(&self) -> R {
        R
    }

    #[inline(always)]
    pub fn write<F>(&self, f: F)
    where
        F: FnOnce(&mut W) -> &mut W,
    {
        let mut w = W(Op::set());
        f(&mut w);
        w.0.done()
    }

    #[inline(always)]
    pub fn modify<F>(&self, f: F)
    where
        for<'w> F: FnOnce(&R, &'w mut W) -> &'w mut W,
    {
        self.write(|w| f(&R, w))
    }
}

/// A field that can be written.
pub struct Put<'w, T> {
    w: &'w mut W,
    field: u32,
    of: PhantomData<T>,
}

impl<'w, T> Put<'w, T> {
    #[inline(always)]
    fn put(self, code: u32) -> &'w mut W {
        self.w.0.add(self.field, code);
        self.w
    }
}

impl<'w, T: Code> Put<'w, T> {
    #[inline(always)]
    pub fn bits(self, value: T) -> &'w mut W {
        self.put(value.code())
    }

    #[inline(always)]
    pub fn set(self, value: T) -> &'w mut W {
        self.put(value.code())
    }

    #[inline(always)]
    pub fn variant(self, value: T) -> &'w mut W {
        self.put(value.code())
    }
}

macro_rules! named {
    ($($of:ty { $($name:ident = $code:expr),+ })+) => {
        $(impl<'w> Put<'w, $of> { $(#[inline(always)] pub fn $name(self) -> &'w mut W { self.put($code) })+ })+
    };
}
named! {
    bool { on = 1, enabled = 1, disabled = 0, set_bit = 1, clear_bit = 0 }
    PLL1VCOSEL { wide_vco = 0, medium_vco = 1 }
    PLL1RGE { range1 = 0, range2 = 1, range4 = 2, range8 = 3 }
    FRACEN { reset = 0, set_ = 1 }
}

impl<'w> Put<'w, bool> {
    #[inline(always)]
    pub fn bit(self, value: bool) -> &'w mut W {
        self.put(value as u32)
    }
}

/// A field that can be read.
pub struct Get<T> {
    field: u32,
    of: PhantomData<T>,
}

impl Get<bool> {
    /// The condition of a poll.
    #[inline(always)]
    pub fn is_not_ready(&self) -> bool {
        !chip::poll(self.field)
    }

    /// An assertion.
    #[inline(always)]
    pub fn is_ready(&self) -> bool {
        chip::check(self.field)
    }

    #[inline(always)]
    pub fn is_on(&self) -> bool {
        chip::hsion()
    }

    /// The condition of the one poll of two fields.
    #[inline(always)]
    pub fn bit_is_clear(&self) -> bool {
        if self.field == RDY1 {
            !chip::poll_first(self.field, RDY2)
        } else {
            !chip::poll_second(self.field)
        }
    }
}

impl Get<u8> {
    #[inline(always)]
    pub fn bits(&self) -> u8 {
        chip::poll_value(self.field, self.field) as u8
    }
}

impl Get<SW> {
    #[inline(always)]
    pub fn bits(&self) -> u8 {
        chip::poll_value(self.field, SW_WORD) as u8
    }
}

impl Get<HPRE> {
    #[inline(always)]
    pub fn variant(&self) -> HPRE {
        HPRE::of(chip::poll_value(self.field, self.field))
    }
}

impl Get<HSIDIV> {
    #[inline(always)]
    pub fn is_div2(&self) -> bool {
        chip::hsidiv() == 2
    }

    pub fn variant(&self) -> HSIDIV {
        HSIDIV::of(chip::hsidiv())
    }
}

impl Get<ACTVOSR> {
    #[inline(always)]
    pub fn variant(&self) -> ACTVOSR {
        ACTVOSR::of(chip::actvos(self.field))
    }
}

const SW_WORD: u32 = 67;
const RDY1: u32 = 74;
const RDY2: u32 = 75;

macro_rules! written {
    ($($name:ident $field:expr, $of:ty;)+) => {
        impl W {
            $(
                #[inline(always)]
                pub fn $name(&mut self) -> Put<'_, $of> {
                    Put { w: self, field: $field, of: PhantomData }
                }
            )+
        }
    };
}
written! {
    lsion 45, bool; wrhighfreq 47, u8; latency 48, u8; prften 49, bool; csion 50, bool; hsi48on 52, bool;
    mco1sel 54, MCO1SEL; mco1pre 55, u8; mco2sel 56, MCO2SEL; mco2pre 57, u8; hseon 58, bool; hsebyp 59, bool;
    hpre 61, HPRE; ppre1 62, PPRE1; ppre2 63, PPRE1; ppre3 64, PPRE1; ckpersel 65, CKPERSEL; timpre 66, TIMPRE; sw 67, SW;
    sbsen 69, bool; en1 70, bool; cs1 71, bool; en2 72, bool; cs2 73, bool; vos 78, VOS;
}

macro_rules! looked_at {
    ($($name:ident $field:expr, $of:ty;)+) => {
        impl R {
            $(
                #[inline(always)]
                pub fn $name(&self) -> Get<$of> {
                    Get { field: $field, of: PhantomData }
                }
            )+
        }
    };
}
looked_at! {
    lsirdy 46, bool; latency 48, u8; csirdy 51, bool; hsi48rdy 53, bool; hserdy 60, bool; hpre 61, HPRE; sws 68, SW;
    rdy1 RDY1, bool; rdy2 RDY2, bool; hsion 76, bool; hsidiv 77, HSIDIV; actvos 79, ACTVOSR; actvosrdy 80, bool; vosrdy 81, bool;
}

macro_rules! plls {
    ($($pll:ident $at:expr;)+) => { paste::item! { $(
        written! {
            [<$pll vcosel>] $at, PLL1VCOSEL; [<$pll rge>] $at + 1, PLL1RGE; [<$pll m>] $at + 2, u8; [<$pll n>] $at + 3, u16;
            [<$pll fracn>] $at + 4, u16; [<$pll fracen>] $at + 5, FRACEN;
            [<$pll p>] $at + 6, u8; [<$pll pen>] $at + 7, bool; [<$pll q>] $at + 8, u8; [<$pll qen>] $at + 9, bool;
            [<$pll r>] $at + 10, u8; [<$pll ren>] $at + 11, bool; [<$pll src>] $at + 12, PLL1SRC; [<$pll on>] $at + 13, bool;
        }
        looked_at! { [<$pll rdy>] $at + 14, bool; }
    )+ } };
}
plls! { pll1 0; pll2 15; pll3 30; }

macro_rules! peripherals {
    ($($name:ident { $($register:ident)+ })+) => {
        $(
            pub struct $name;
            impl $name { $(#[inline(always)] pub fn $register(&self) -> Reg { Reg })+ }
        )+
    };
}
peripherals! {
    RCC { cr bdcr cfgr1 cfgr2 ccipr5 apb3enr pll1cfgr pll1divr pll1fracr pll2cfgr pll2divr pll2fracr pll3cfgr pll3divr pll3fracr }
    SBS { cccsr }
    FLASH { acr }
    PWR { voscr vossr }
}

impl FLASH {
    pub fn ptr() -> *const FLASH {
        static FLASH_REGISTERS: FLASH = FLASH;
        &FLASH_REGISTERS
    }
}

impl RCC {
    pub fn rsr(&self) -> Rsr {
        Rsr
    }
}

/// The reset flags: a whole word, with the flags at their bits.
pub struct Rsr;
pub struct RsrWord(u32);
pub struct Flag(bool);
pub struct Rmvf<'w>(&'w mut RsrWord);

impl Rsr {
    pub fn read(&self) -> RsrWord {
        RsrWord(chip::reset_flags())
    }

    pub fn modify<F>(&self, f: F)
    where
        for<'w> F: FnOnce(&RsrWord, &'w mut RsrWord) -> &'w mut RsrWord,
    {
        let mut w = self.read();
        f(&self.read(), &mut w);
        chip::write_reset_flags(w.0)
    }
}

macro_rules! flags {
    ($($name:ident $bit:expr;)+) => { impl RsrWord { $(pub fn $name(&self) -> Flag { Flag(self.0 >> $bit & 1 == 1) })+ } };
}
flags! { pinrstf 26; borrstf 27; sftrstf 28; iwdgrstf 29; wwdgrstf 30; lpwrrstf 31; }

impl RsrWord {
    pub fn bits(&self) -> u32 {
        self.0
    }

    pub fn rmvf(&mut self) -> Rmvf<'_> {
        Rmvf(self)
    }
}

impl Flag {
    pub fn is_reset_occurred(&self) -> bool {
        self.0
    }
}

impl<'w> Rmvf<'w> {
    pub fn reset(self) -> &'w mut RsrWord {
        self.0 .0 |= 1 << 23;
        self.0
    }
}
