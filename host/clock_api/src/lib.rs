//! Plans the clocks of an STM32H5: a safe face on the verified planner's C functions (`libclock_api.a`).
//!
//! A [`Request`] says which clocks are wanted, a [`Chip`] what stands on the board. The answer is one complete plan or one numbered
//! [`Refusal`]; nothing has to be checked first, and nothing here panics or allocates.
//!
//! ```
//! use clock_api::{entries, plan, Bank, Chip, Clock, Request};
//!
//! let chip = Chip::two_plls();
//! let request = Request { hse: Some(25_000_000), system: Some(250_000_000), ..Request::default() };
//!
//! // the hertz that come out
//! let plan = plan(&request, &chip)?;
//! assert_eq!(plan.hertz(Clock::System), Some(250_000_000));
//!
//! // the register entries, in order
//! for entry in entries(&request, &chip)?.iter() {
//!     println!("{entry}");
//! }
//!
//! // the register words after all of them
//! let mut bank = Bank::reset();
//! bank.store(&request, &chip)?;
//!
//! // what can't be had is refused by number
//! let faster = Request { system: Some(250_000_001), ..request };
//! assert_eq!(clock_api::plan(&faster, &chip).unwrap_err().number(), 3);
//! # Ok::<(), clock_api::Refusal>(())
//! ```
//!
//! The library is looked for in the folder that `CLOCK_API_LIB` names, else in the project's target/staticlib, and for an Arm target in
//! target/firmware. Codes and field numbers are those of docs/CODES.md; [`raw`] has the C functions on slices, for whoever brings bytes of
//! their own.
#![no_std]
#![warn(missing_docs)]

mod bank;
mod chip;
mod entry;
mod leaves;
mod plan;
pub mod raw;
mod refusal;
mod registers;
mod request;
mod walk;

pub use bank::Bank;
pub use chip::{Chip, HsiDiv, Plls, Scale};
pub use entry::{entries, Entries, Entry, Field, Kind};
pub use leaves::{ahb, apb, flash, fracn, mco, pll, reset_reason, timer, vco, Bus, Flash, Pll, ResetReason};
pub use plan::{plan, plan_bank, Clock, Plan};
pub use refusal::{Refusal, REFUSALS};
pub use registers::{pll_registers, PllRegisters, Registers};
pub use request::{Bytes, Mco1Source, Mco2Source, PllRequest, Request, Strategy};
pub use walk::{voltage_walk, walk, Shown};
