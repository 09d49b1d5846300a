//! The C functions on slices of bytes and words, as they are: 0 or the refusal's number, and a refused call changes no lent word.

mod c {
    extern "C" {
        pub fn clock_plan(request: *const u8, n: u64, chip: *const u8, m: u64, report: *mut u32, k: u64) -> u32;
        pub fn clock_entries(request: *const u8, n: u64, chip: *const u8, m: u64, list: *mut u32, k: u64) -> u32;
        pub fn clock_bank(request: *const u8, n: u64, chip: *const u8, m: u64, bank: *mut u32, k: u64) -> u32;
        pub fn clock_plan_bank(
            request: *const u8,
            n: u64,
            chip: *const u8,
            m: u64,
            report: *mut u32,
            k: u64,
            bank: *mut u32,
            l: u64,
        ) -> u32;
        pub fn clock_pll_registers(request: *const u8, n: u64, chip: *const u8, m: u64, words: *mut u32, k: u64) -> u32;
        pub fn clock_walk(request: *const u8, n: u64, chip: *const u8, m: u64, reads: *const u32, r: u64, shown: *mut u32, s: u64) -> u64;
        pub fn clock_voltage_walk(target: u32, reads: *const u32, r: u64, shown: *mut u32, s: u64) -> u64;
        pub fn clock_reset_reason(plls: u32, word: u32, out: *mut u32, k: u64) -> u32;
        pub fn clock_pll(odd: u32, source: u32, part: *const u8, n: u64, out: *mut u32, k: u64) -> u32;
        pub fn clock_fracn(reference: u32, n: u32, output: u32, divider: u32) -> u32;
        pub fn clock_vco(reference: u32, n: u32, fracn: u32) -> u32;
        pub fn clock_flash(ahb: u32, scale: u32) -> u32;
        pub fn clock_ahb(system: u32, set: u32, hertz: u32, out: *mut u32, k: u64) -> u32;
        pub fn clock_apb(hclk: u32, set: u32, hertz: u32, out: *mut u32, k: u64) -> u32;
        pub fn clock_timer(hclk: u32, ppre: u32) -> u32;
        pub fn clock_mco(clock: u32, set: u32, hertz: u32, out: *mut u32, k: u64) -> u32;
    }
}

/// Words of a report: 26 clocks as (0 or 1, hertz), then PPRE1 to PPRE3.
pub const REPORT: usize = 55;
/// Entries of a plan, at least.
pub const FEWEST: usize = 21;
/// Entries of a plan, at most.
pub const MOST: usize = 69;
/// Words of a list: the count, then nine words for each entry.
pub const LIST: usize = 1 + 9 * MOST;
/// Words of a bank.
pub const BANK: usize = 82;
/// Words of the PLLs' registers: CFGR, DIVR, FRACR of PLL1, of PLL2, of PLL3.
pub const PLL_REGISTERS: usize = 9;
/// Bytes of a chip.
pub const CHIP: usize = 7;
/// Bytes of one PLL's part of a request.
pub const PART: usize = 16;
/// Words of what is chosen for one PLL.
pub const PLL: usize = 18;

// Each call below lends whole slices: the library reads and writes inside them, and keeps none.

// The library's lengths have 64 bits on every target, as in include/clock_api.h.
fn length<T>(slice: &[T]) -> u64 {
    slice.len() as u64
}

/// Plans a request; the report is left in `report`, of [`REPORT`] words.
#[inline]
pub fn plan(request: &[u8], chip: &[u8], report: &mut [u32]) -> u32 {
    unsafe { c::clock_plan(request.as_ptr(), length(request), chip.as_ptr(), length(chip), report.as_mut_ptr(), length(report)) }
}

/// Plans a request; its entries are left in `list`, of [`LIST`] words.
#[inline]
pub fn entries(request: &[u8], chip: &[u8], list: &mut [u32]) -> u32 {
    unsafe { c::clock_entries(request.as_ptr(), length(request), chip.as_ptr(), length(chip), list.as_mut_ptr(), length(list)) }
}

/// Plans a request and applies its whole list to `bank`, of [`BANK`] words.
#[inline]
pub fn bank(request: &[u8], chip: &[u8], bank: &mut [u32]) -> u32 {
    unsafe { c::clock_bank(request.as_ptr(), length(request), chip.as_ptr(), length(chip), bank.as_mut_ptr(), length(bank)) }
}

/// Plans a request once: the report is left in `report`, of [`REPORT`] words, and the whole list is applied to `bank`, of [`BANK`] words.
#[inline]
pub fn plan_bank(request: &[u8], chip: &[u8], report: &mut [u32], bank: &mut [u32]) -> u32 {
    unsafe {
        c::clock_plan_bank(
            request.as_ptr(),
            length(request),
            chip.as_ptr(),
            length(chip),
            report.as_mut_ptr(),
            length(report),
            bank.as_mut_ptr(),
            length(bank),
        )
    }
}

/// Plans a request; the registers of its PLLs are left in `words`, of [`PLL_REGISTERS`] words. On two PLLs the last three stay as they were.
#[inline]
pub fn pll_registers(request: &[u8], chip: &[u8], words: &mut [u32]) -> u32 {
    unsafe { c::clock_pll_registers(request.as_ptr(), length(request), chip.as_ptr(), length(chip), words.as_mut_ptr(), length(words)) }
}

/// Walks a request's list over values that were read, two for each step. What is shown before the first step and after each is left in
/// `shown`, nine words each, as far as it holds them; the answer counts them, and is at most a ninth of its length.
#[inline]
pub fn walk(request: &[u8], chip: &[u8], reads: &[u32], shown: &mut [u32]) -> usize {
    unsafe {
        c::clock_walk(
            request.as_ptr(),
            length(request),
            chip.as_ptr(),
            length(chip),
            reads.as_ptr(),
            length(reads),
            shown.as_mut_ptr(),
            length(shown),
        ) as usize
    }
}

/// The voltage walk to a target scale, likewise.
#[inline]
pub fn voltage_walk(target: u32, reads: &[u32], shown: &mut [u32]) -> usize {
    unsafe { c::clock_voltage_walk(target, reads.as_ptr(), length(reads), shown.as_mut_ptr(), length(shown)) as usize }
}

/// Why the chip was reset, by RCC_RSR as read: the reason, the raw word and the word to write back are left in `out`, of three words.
#[inline]
pub fn reset_reason(plls: u32, word: u32, out: &mut [u32]) -> u32 {
    unsafe { c::clock_reset_reason(plls, word, out.as_mut_ptr(), length(out)) }
}

/// What is chosen for one PLL by its part of a request, in `out`, of [`PLL`] words.
#[inline]
pub fn pll(odd: u32, source: u32, part: &[u8], out: &mut [u32]) -> u32 {
    unsafe { c::clock_pll(odd, source, part.as_ptr(), length(part), out.as_mut_ptr(), length(out)) }
}

/// FRACN, 0 to 8191, or 8192 where it is out of range.
#[inline]
pub fn fracn(reference: u32, n: u32, output: u32, divider: u32) -> u32 {
    unsafe { c::clock_fracn(reference, n, output, divider) }
}

/// The VCO's hertz in Fractional.
#[inline]
pub fn vco(reference: u32, n: u32, fracn: u32) -> u32 {
    unsafe { c::clock_vco(reference, n, fracn) }
}

/// Latency + 8 × delay for AHB hertz and a voltage scale, or 255 where AHB is 0 or the scale none.
#[inline]
pub fn flash(ahb: u32, scale: u32) -> u32 {
    unsafe { c::clock_flash(ahb, scale) }
}

/// The AHB divisor and clock for a system clock, in `out`, of two words. `set` is 0 for unset, and then the
/// hertz are not looked at, or 1 for the hertz.
#[inline]
pub fn ahb(system: u32, set: u32, hertz: u32, out: &mut [u32]) -> u32 {
    unsafe { c::clock_ahb(system, set, hertz, out.as_mut_ptr(), length(out)) }
}

/// An APB divisor and clock for an AHB clock, likewise.
#[inline]
pub fn apb(hclk: u32, set: u32, hertz: u32, out: &mut [u32]) -> u32 {
    unsafe { c::clock_apb(hclk, set, hertz, out.as_mut_ptr(), length(out)) }
}

/// The timer clock for an AHB clock and an APB divisor: AHB / 2, / 4, / 8 under 4, 8, 16, and AHB under any other number.
#[inline]
pub fn timer(hclk: u32, ppre: u32) -> u32 {
    unsafe { c::clock_timer(hclk, ppre) }
}

/// A clock output's prescaler and clock for the clock of its source, likewise, in `out`, of three words: the prescaler, 0 or 1, the hertz.
#[inline]
pub fn mco(clock: u32, set: u32, hertz: u32, out: &mut [u32]) -> u32 {
    unsafe { c::clock_mco(clock, set, hertz, out.as_mut_ptr(), length(out)) }
}
