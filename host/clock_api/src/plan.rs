//! Plans: the hertz that come out.
use crate::{raw, Bank, Chip, Refusal, Request};

/// The clocks of a report, in its order.
#[derive(Clone, Copy, Debug, PartialEq, Eq)]
pub enum Clock {
    /// System clock.
    System,
    /// AHB.
    Ahb,
    /// APB1.
    Apb1,
    /// APB2.
    Apb2,
    /// APB3.
    Apb3,
    /// Timers on APB1.
    TimerX,
    /// Timers on APB2.
    TimerY,
    /// Peripheral clock.
    Peripheral,
    /// HSI.
    Hsi,
    /// CSI.
    Csi,
    /// HSI48.
    Hsi48,
    /// LSI.
    Lsi,
    /// HSE.
    Hse,
    /// LSE, passed through.
    Lse,
    /// External audio clock, passed through.
    Audio,
    /// MCO1.
    Mco1,
    /// MCO2.
    Mco2,
    /// PLL1 P.
    Pll1P,
    /// PLL1 Q.
    Pll1Q,
    /// PLL1 R.
    Pll1R,
    /// PLL2 P.
    Pll2P,
    /// PLL2 Q.
    Pll2Q,
    /// PLL2 R.
    Pll2R,
    /// PLL3 P.
    Pll3P,
    /// PLL3 Q.
    Pll3Q,
    /// PLL3 R.
    Pll3R,
}

/// What a request comes to.
#[derive(Clone, Copy, Debug, PartialEq, Eq)]
pub struct Plan {
    report: [u32; raw::REPORT],
}

impl Plan {
    /// A clock's hertz, if it is reported. Through no PLL they are what the chip's clock tree gives, or lower by less than 1 Hz; through a
    /// PLL in Integer, or lower by less than 1 + N / D Hz (N multiplies, D is the product of the later divisors): never above. In
    /// Fractional the steps are `f32` operations, and the hertz can be above what the tree gives:
    ///
    /// ```
    /// # use clock_api::{plan, pll, Chip, Clock, PllRequest, Request, Strategy};
    /// let audio = PllRequest { strategy: Strategy::Fractional, p: Some(320_438_000), ..PllRequest::default() };
    /// let request = Request { hse: Some(24_576_000), plls: [PllRequest::default(), audio, PllRequest::default()], ..Request::default() };
    /// assert_eq!(plan(&request, &Chip::two_plls())?.hertz(Clock::Pll2P), Some(320_438_016));
    ///
    /// // the tree gives HSE / M x (N + FRACN / 8192) / P
    /// let chosen = pll(true, 24_576_000, &audio)?.unwrap();
    /// let [n, fracn, m, p] = [chosen.n, chosen.fracn.unwrap(), chosen.m, chosen.outputs[0].unwrap().0].map(u64::from);
    /// assert_eq!(24_576_000 * (8192 * n + fracn), 320_438_000 * (8192 * m * p));
    /// # Ok::<(), clock_api::Refusal>(())
    /// ```
    ///
    /// A PLL is started for its P. One that has Q or R alone reports them as planned, and no entry starts it:
    ///
    /// ```
    /// # use clock_api::{entries, plan, Chip, Clock, Field, PllRequest, Request};
    /// let q = PllRequest { q: Some(48_000_000), ..PllRequest::default() };
    /// let request = Request { plls: [PllRequest::default(), q, PllRequest::default()], ..Request::default() };
    /// assert_eq!(plan(&request, &Chip::two_plls())?.hertz(Clock::Pll2Q), Some(48_000_000));
    /// let on = Field::at(28).unwrap(); // PLL2 ON
    /// assert!(!entries(&request, &Chip::two_plls())?.iter().any(|entry| entry.fields().any(|(field, _)| field == on)));
    /// # Ok::<(), clock_api::Refusal>(())
    /// ```
    pub fn hertz(&self, clock: Clock) -> Option<u32> {
        let at = 2 * clock as usize;
        if self.report[at] == 1 {
            Some(self.report[at + 1])
        } else {
            None
        }
    }

    /// The divisors of APB1, APB2, APB3.
    pub fn ppre(&self) -> [u32; 3] {
        [self.report[52], self.report[53], self.report[54]]
    }
}

/// Plans a request once, for its clocks and its registers: the whole list is applied to `bank`, which a refusal leaves as it was.
pub fn plan_bank(request: &Request, chip: &Chip, bank: &mut Bank) -> Result<Plan, Refusal> {
    let mut report = [0; raw::REPORT];
    Refusal::of(raw::plan_bank(&request.to_bytes(chip), &chip.to_bytes(), &mut report, &mut bank.words))?;
    Ok(Plan { report })
}

/// Plans a request.
pub fn plan(request: &Request, chip: &Chip) -> Result<Plan, Refusal> {
    let mut report = [0; raw::REPORT];
    Refusal::of(raw::plan(&request.to_bytes(chip), &chip.to_bytes(), &mut report))?;
    Ok(Plan { report })
}
