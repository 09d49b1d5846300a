//! One request through the C functions and through the sources, word by word.
use crate::coverage::Coverage;
use crate::departures::{expected, Answer, Cause, Expected};
use crate::judge::{self, Chip};
use crate::{leaves, registers};
use clock_api::{raw, Bank, Entry};
use hal::{Asked, Nine, Record, State, Variant};
use requests::{Case, Kind, Random, KINDS};
use std::collections::BTreeMap;

/// What was compared.
#[derive(Default)]
pub struct Tally {
    /// By kind: requests, plans, refusals.
    pub kinds: [[u64; 3]; KINDS.len()],
    /// By number.
    pub refusals: BTreeMap<u32, u64>,
    /// Refused with 14 or 15, and the sources ran to an end.
    pub departures: [u64; 2],
    /// Requests inside their codes that no setter builds.
    pub by_no_setter: u64,
    pub entries: u64,
    /// PLLs that clock_pll was compared on.
    pub plls: u64,
    /// Words of PLL registers.
    pub registers: u64,
    pub walks: u64,
    /// Walks that a CSIRDY down ended with 24.
    pub ended: u64,
    /// Lent slices of another length.
    pub lengths: u64,
    /// What was met, and how often.
    pub coverage: Coverage,
}

pub struct Comparison {
    pub tally: Tally,
    pub random: Random,
    /// What is lent to the C functions.
    report: [u32; raw::REPORT],
    list: [u32; raw::LIST],
    registers: [u32; raw::PLL_REGISTERS],
    /// The last run's record, for its memory.
    used: Record,
}

/// A word that no call stores.
pub const UNTOUCHED: u32 = 0xA5A5_5A5A;
/// How many such words stand on either side of a lent slice.
const GUARD: usize = 8;

type Checked<T> = Result<T, String>;

fn check(holds: bool, what: impl FnOnce() -> String) -> Checked<()> {
    if holds {
        Ok(())
    } else {
        Err(what())
    }
}

impl Comparison {
    pub fn new(seed: u64) -> Comparison {
        Comparison {
            tally: Tally::default(),
            random: Random::new(seed),
            report: [UNTOUCHED; raw::REPORT],
            list: [UNTOUCHED; raw::LIST],
            registers: [UNTOUCHED; raw::PLL_REGISTERS],
            used: Record::default(),
        }
    }

    /// Compares one request; the error says what differs.
    pub fn case(&mut self, case: &Case) -> Checked<()> {
        self.report = [UNTOUCHED; raw::REPORT];
        self.list = [UNTOUCHED; raw::LIST];
        self.registers = [UNTOUCHED; raw::PLL_REGISTERS];
        let before = self.bank();
        let mut bank = before;
        let number = raw::plan(&case.request, &case.chip, &mut self.report);
        let of_entries = raw::entries(&case.request, &case.chip, &mut self.list);
        let of_bank = raw::bank(&case.request, &case.chip, &mut bank.words);
        let of_registers = raw::pll_registers(&case.request, &case.chip, &mut self.registers);
        check([of_entries, of_bank, of_registers] == [number; 3], || {
            format!("clock_plan answers {number}, clock_entries {of_entries}, clock_bank {of_bank}, clock_pll_registers {of_registers}")
        })?;
        self.in_one_call(case, number, &before, &bank)?;
        if number != 0 {
            self.untouched(&bank, &before)?;
        }
        self.count(case.kind, number);
        if case.kind == Kind::Damaged {
            self.lengths(case, number)?;
        }
        match judge::read(&case.request, &case.chip) {
            None => {
                check(number == 1, || format!("not well formed, which is 1; the planner answers {number}"))?;
                self.refused_walk(case, number)
            }
            Some((asked, chip)) => self.well_formed(case, &asked, &chip, number, &before, &bank),
        }
    }

    /// One call for clocks and bank leaves what the two calls leave.
    fn in_one_call(&self, case: &Case, number: u32, before: &Bank, after: &Bank) -> Checked<()> {
        let mut report = [UNTOUCHED; raw::REPORT];
        let mut bank = *before;
        let of_both = raw::plan_bank(&case.request, &case.chip, &mut report, &mut bank.words);
        check(of_both == number, || format!("clock_plan answers {number}, clock_plan_bank {of_both}"))?;
        check(report == self.report && bank.words == after.words, || "clock_plan_bank leaves other words".to_string())
    }

    /// At reset values, or with any words.
    fn bank(&mut self) -> Bank {
        let mut bank = Bank::reset();
        if self.random.one_in(4) {
            for word in &mut bank.words {
                *word = self.random.u32();
            }
        }
        bank
    }

    fn count(&mut self, kind: Kind, number: u32) {
        let row = &mut self.tally.kinds[kind as usize];
        row[0] += 1;
        row[if number == 0 { 1 } else { 2 }] += 1;
        if number != 0 {
            *self.tally.refusals.entry(number).or_default() += 1;
            self.tally.coverage.refusal(number);
        }
    }

    fn untouched(&self, bank: &Bank, before: &Bank) -> Checked<()> {
        let kept = |words: &[u32]| words.iter().all(|word| *word == UNTOUCHED);
        check(kept(&self.report), || "refused, and the report is changed".into())?;
        check(kept(&self.list), || "refused, and the list is changed".into())?;
        check(kept(&self.registers), || "refused, and the registers are changed".into())?;
        check(bank == before, || "refused, and the bank is changed".into())
    }

    /// Lent slices of another length, between words that are not lent: 1 for a report, a list or registers, 2 for a bank unless 1 comes first.
    fn lengths(&mut self, case: &Case, number: u32) -> Checked<()> {
        let len = self.random.below(700) as usize;
        let mut words = vec![UNTOUCHED; len + 2 * GUARD];
        let lent = GUARD..GUARD + len;
        self.tally.lengths += 1;
        let first = |other: u32| if number == 1 { 1 } else { other };
        if len != raw::REPORT {
            let answer = raw::plan(&case.request, &case.chip, &mut words[lent.clone()]);
            check(answer == 1, || format!("a report of {len} words: {answer}"))?;
        }
        if len != raw::LIST {
            let answer = raw::entries(&case.request, &case.chip, &mut words[lent.clone()]);
            check(answer == 1, || format!("a list of {len} words: {answer}"))?;
        }
        if len != raw::PLL_REGISTERS {
            let answer = raw::pll_registers(&case.request, &case.chip, &mut words[lent.clone()]);
            check(answer == 1, || format!("registers of {len} words: {answer}"))?;
        }
        if len != raw::BANK {
            let answer = raw::bank(&case.request, &case.chip, &mut words[lent]);
            check(answer == first(2), || format!("a bank of {len} words: {answer}"))?;
            self.tally.coverage.refusal(answer);
        }
        check(words.iter().all(|word| *word == UNTOUCHED), || format!("{len} words lent, and some are changed"))
    }

    fn well_formed(&mut self, case: &Case, asked: &Asked, chip: &Chip, number: u32, before: &Bank, bank: &Bank) -> Checked<()> {
        check(case.meant.map_or(true, |meant| meant.asked == *asked), || format!("the wrapper's bytes say {asked:?}"))?;
        if !asked.by_setters() {
            self.tally.by_no_setter += 1;
            self.tally.coverage.by_no_setter();
        }
        let variant = Variant::find(chip.plls, chip.odd).ok_or("no variant of the sources")?;
        let state = State { hsion: chip.hsion, hsidiv: chip.hsidiv, ..State::default() };
        let run = variant.run(asked, &state, std::mem::take(&mut self.used));
        let Expected { answer, record } = expected(run, asked, chip)?;
        match answer {
            Answer::Plan(report) => {
                check(number == 0, || format!("the Rust ends; the planner refuses with {number}"))?;
                self.plan(case, asked, &report, &record, before, bank)?;
                self.tally.coverage.plan(asked, chip, &report, bank, record.entries.len());
            }
            Answer::Refusal(wanted, Cause::Divider { divider, ended }) => {
                check(number == wanted, || format!("the Rust wrote P's divider against {wanted}; the planner answers {number}"))?;
                if ended {
                    self.tally.departures[wanted as usize - 14] += 1;
                    self.tally.coverage.departure(wanted, divider);
                }
            }
            Answer::Refusal(wanted, Cause::Panic(text)) => {
                check(number == wanted, || format!("the Rust panics ({text}), which is {wanted}; the planner answers {number}"))?
            }
        }
        if number != 0 {
            self.refused_walk(case, number)?;
        } else if self.random.one_in(16) {
            self.walk(case, asked, chip, &state, variant)?;
        }
        self.used = record;
        Ok(())
    }

    /// Every clock, every entry, every word of the bank and of the PLLs' registers; then the leaves.
    fn plan(&mut self, case: &Case, asked: &Asked, report: &[u32; 55], record: &Record, before: &Bank, bank: &Bank) -> Checked<()> {
        if let Some(k) = (0..raw::REPORT).find(|k| report[*k] != self.report[*k]) {
            return Err(format!("word {k} of the report: the Rust {}, the planner {}", report[k], self.report[k]));
        }
        let theirs = &record.entries;
        let ours: Vec<&[u32]> = self.list[1..].chunks_exact(9).take(self.list[0] as usize).collect();
        for k in 0..theirs.len().max(ours.len()) {
            let (rust, planner) = (theirs.get(k).map(|nine| &nine[..]), ours.get(k).copied());
            check(rust == planner, || format!("entry {k}: the Rust {}, the planner {}", shown(rust), shown(planner)))?;
        }
        check(self.list[1 + 9 * ours.len()..].iter().all(|word| *word == UNTOUCHED), || "words behind the last entry are changed".into())?;
        self.tally.entries += theirs.len() as u64;
        let applied = applied(*before, theirs)?;
        if let Some(k) = (0..raw::BANK).find(|k| applied.words[*k] != bank.words[*k]) {
            return Err(format!("word {k} of the bank: the Rust's entries {}, the planner {}", applied.words[k], bank.words[k]));
        }
        self.registers(case, theirs)?;
        let flash = theirs.iter().find(|nine| nine[1] == 48).map_or(0, |nine| nine[4] + 8 * nine[2]);
        let leaf = raw::flash(report[3], asked.scale.into());
        check(leaf == flash, || format!("wait states: the Rust {flash}, clock_flash {leaf}"))?;
        let plls = leaves::compare(&case.request, &case.chip, report, &applied)?;
        self.tally.plls += plls;
        (0..plls).for_each(|_| self.tally.coverage.pll());
        Ok(())
    }

    /// The registers of each PLL, by the sources' entries on reset values, and by the wrapper.
    fn registers(&mut self, case: &Case, theirs: &[Nine]) -> Checked<()> {
        let plls = case.chip[0] as usize;
        let bank = applied(Bank::reset(), theirs)?;
        self.tally.registers += registers::compare(plls, &self.report, &bank, &self.registers)?;
        bank.words.chunks(15).take(plls).enumerate().for_each(|(k, fields)| self.tally.coverage.registers(k + 1, fields));
        if let Some(meant) = case.meant {
            let told = clock_api::pll_registers(&meant.request, &meant.chip).map_err(|refusal| format!("the wrapper is {refusal}"))?;
            check(registers::same(&told, &self.registers[..3 * plls]), || format!("the wrapper's registers are {told:x?}"))?;
        }
        Ok(())
    }

    /// A walk of a refused request shows the refusal, whatever is read.
    fn refused_walk(&mut self, case: &Case, number: u32) -> Checked<()> {
        if !self.random.one_in(16) {
            return Ok(());
        }
        let reads = [self.random.u32(), 1, 1, self.random.u32(), 0];
        let mut shown = [UNTOUCHED; 30];
        let count = raw::walk(&case.request, &case.chip, &reads, &mut shown);
        let refused = [5, number, 0, 0, 0, 0, 0, 0, 0];
        self.tally.walks += 1;
        let as_it_should = count == 3 && shown[..27].chunks(9).all(|nine| nine == refused) && shown[27..] == [UNTOUCHED; 3];
        check(as_it_should, || format!("a refused walk shows {count} times: {shown:?}"))
    }

    /// The sources again on a chip whose flags come up late, and the walk over what they read.
    fn walk(&mut self, case: &Case, asked: &Asked, chip: &Chip, state: &State, variant: &Variant) -> Checked<()> {
        let random = &mut self.random;
        let misses = (0..14).map(|_| if random.one_in(2) { 0 } else { random.below(4) as u8 }).collect();
        let state = State { csirdy: !random.one_in(8), misses, ..state.clone() };
        let Expected { answer, record } = expected(variant.run(asked, &state, Record::default()), asked, chip)?;
        let last = match answer {
            Answer::Plan(_) => [0; 9],
            Answer::Refusal(number, _) => {
                check(!state.csirdy && number == 24, || format!("the Rust's run comes to {number} where it had not before"))?;
                self.tally.ended += 1;
                [5, number, 0, 0, 0, 0, 0, 0, 0]
            }
        };
        let after = 1 + random.below(3);
        let reads = values(&record, after, random);
        let by_c = |shown: &mut [u32]| raw::walk(&case.request, &case.chip, reads.concat().as_slice(), shown);
        let by_wrapper = case.meant.map(|meant| {
            let reads = &reads;
            move |shown: &mut [[u32; 9]]| clock_api::walk(&meant.request, &meant.chip, reads, shown)
        });
        walked(&record.entries, last, reads.len(), by_c, by_wrapper)?;
        self.tally.walks += 1;
        self.tally.coverage.walk(&record, last);
        Ok(())
    }
}

/// What entries of the sources leave in a bank.
fn applied(mut bank: Bank, entries: &[Nine]) -> Checked<Bank> {
    for nine in entries {
        bank.apply(&Entry::from_words(*nine).ok_or("an entry of the Rust that is none")?);
    }
    Ok(bank)
}

/// Two values for each step: those that the run read, and any others where it read none; so many more steps after its end.
pub fn values(record: &Record, after: u32, random: &mut Random) -> Vec<[u32; 2]> {
    let none = [None, None];
    let reads = record.reads.iter().chain((0..after).map(|_| &none));
    reads.map(|read| read.map(|value| value.unwrap_or_else(|| random.below(3)))).collect()
}

/// What a walk over so many steps has to show, by the C function and by the safe wrapper: the entries, then the last again and again.
pub fn walked(
    entries: &[hal::Nine],
    last: hal::Nine,
    steps: usize,
    by_c: impl FnOnce(&mut [u32]) -> usize,
    by_wrapper: Option<impl FnOnce(&mut [[u32; 9]]) -> usize>,
) -> Checked<()> {
    let places = steps + 1;
    let mut words = vec![UNTOUCHED; 9 * places + 2 * GUARD];
    let count = by_c(&mut words[GUARD..9 * places + GUARD + 4]);
    check(count == places, || format!("a walk of {steps} steps shows {count} times, and not {places}"))?;
    let stored = &words[GUARD..][..9 * places];
    for k in 0..places {
        let (want, got) = (entries.get(k).unwrap_or(&last), &stored[9 * k..][..9]);
        check(got == want, || format!("a walk shows {} at place {k}, the Rust has {}", shown(Some(got)), shown(Some(want))))?;
    }
    let kept = |words: &[u32]| words.iter().all(|word| *word == UNTOUCHED);
    check(kept(&words[..GUARD]) && kept(&words[GUARD + 9 * places..]), || "a walk stores beside what it shows".into())?;
    if let Some(walk) = by_wrapper {
        let mut again = vec![[UNTOUCHED; 9]; places + 1];
        let count = walk(&mut again);
        let same = count == places && again[..places].concat() == stored && kept(&again[places]);
        check(same, || format!("the wrapper's walk shows {count} times, {:?}", &again[..count.min(places)]))?;
    }
    Ok(())
}

/// Nine words in words.
pub fn shown(nine: Option<&[u32]>) -> String {
    let nine = match nine {
        None => return "nothing".into(),
        Some(nine) => nine,
    };
    let mut words = [0; 9];
    words.copy_from_slice(nine);
    clock_api::Shown::from_words(words).map_or_else(
        || format!("{nine:?}"),
        |shown| match shown {
            clock_api::Shown::Next(entry) => format!("'{entry}'"),
            other => format!("{other:?}"),
        },
    )
}
