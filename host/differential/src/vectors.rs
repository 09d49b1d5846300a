//! A sample of the Rust's answers as a file, for the program crates/vectors: docs/VECTORS.md. The planner is not called here.
use crate::departures::{self, Cause};
use crate::judge;
use hal::{Nine, Record, State, Variant};
use requests::{Case, Kind, Random, KINDS};
use std::collections::BTreeMap;
use std::fs;

/// Plans kept of each kind.
const PLANS: [usize; KINDS.len()] = [80, 60, 30, 12];
/// Refusals kept of each number, and as many again of 14 and 15 where the Rust ends.
const REFUSALS: usize = 6;
/// Refusal 1 has many causes.
const OUTSIDE: usize = 18;
/// Requests looked through.
const LOOKED: u64 = 200_000;

/// What the Rust did, by its code in the file.
#[derive(Clone, Copy, Debug, PartialEq, Eq)]
enum Did {
    Plan = 0,
    Panics = 1,
    /// It ends, and has written a divider of P that is forbidden.
    EndsForbidden = 2,
    /// The bytes are outside their codes, so there is nothing to run.
    NotRun = 3,
}

struct Answer {
    did: Did,
    number: u32,
    report: Option<[u32; 55]>,
    entries: Vec<Nine>,
}

/// What was kept: plans by kind, refusals by number, and 14 and 15 where the Rust ends.
#[derive(Default)]
struct Kept {
    plans: [usize; KINDS.len()],
    refusals: BTreeMap<u32, usize>,
    ends: BTreeMap<u32, usize>,
}

impl Kept {
    /// Counts an answer if more of its sort are wanted.
    fn takes(&mut self, kind: Kind, answer: &Answer) -> bool {
        let (count, most) = match answer.did {
            Did::Plan => (&mut self.plans[kind as usize], PLANS[kind as usize]),
            Did::EndsForbidden => (self.ends.entry(answer.number).or_default(), REFUSALS),
            Did::NotRun => (self.refusals.entry(answer.number).or_default(), OUTSIDE),
            Did::Panics => (self.refusals.entry(answer.number).or_default(), REFUSALS),
        };
        let takes = *count < most;
        *count += takes as usize;
        takes
    }
}

/// Writes the file and says what it holds.
pub fn write(file: &str, seed: u64, kind: fn(u64) -> Kind) -> Result<(), String> {
    let mut random = Random::new(seed);
    let mut kept = Kept::default();
    let mut records = Vec::new();
    let mut of_kind = [0; KINDS.len()];
    for k in 0..LOOKED {
        let case = Case::any(kind(k), &mut random);
        if case.chip.len() != 7 {
            continue; // the planner's call takes seven numbers
        }
        let answer = answer(&case)?;
        if kept.takes(case.kind, &answer) {
            records.push(record(&case, &answer)?);
            of_kind[case.kind as usize] += 1;
        }
    }
    let mut bytes = (records.len() as u32).to_le_bytes().to_vec();
    bytes.extend(records.concat());
    fs::write(file, &bytes).map_err(|error| format!("{file}: {error}"))?;
    println!("{} requests from seed {seed}, {} bytes", records.len(), bytes.len());
    for (k, kind) in KINDS.iter().enumerate() {
        println!("{kind:?}: {}, of which {} plans", of_kind[k], kept.plans[k]);
    }
    let numbered = |counts: &BTreeMap<u32, usize>| {
        let each = counts.iter().map(|(number, count)| format!("{number}: {count}"));
        each.collect::<Vec<_>>().join(", ")
    };
    println!("refusals by number: {}", numbered(&kept.refusals));
    println!("refusals where the Rust ends: {}", numbered(&kept.ends));
    Ok(())
}

/// The Rust's answer to a request.
fn answer(case: &Case) -> Result<Answer, String> {
    let refused = |did: Did, number: u32| Answer { did, number, report: None, entries: Vec::new() };
    let (asked, chip) = match judge::read(&case.request, &case.chip) {
        Some(read) => read,
        None => return Ok(refused(Did::NotRun, 1)),
    };
    let variant = Variant::find(chip.plls, chip.odd).ok_or("no variant of the sources")?;
    let state = State { hsion: chip.hsion, hsidiv: chip.hsidiv, ..State::default() };
    let run = variant.run(&asked, &state, Record::default());
    let expected = departures::expected(run, &asked, &chip)?;
    Ok(match expected.answer {
        departures::Answer::Plan(report) => Answer { did: Did::Plan, number: 0, report: Some(report), entries: expected.record.entries },
        departures::Answer::Refusal(number, Cause::Divider { ended: true, .. }) => refused(Did::EndsForbidden, number),
        departures::Answer::Refusal(number, _) => refused(Did::Panics, number),
    })
}

/// The bytes of a record: docs/VECTORS.md.
fn record(case: &Case, answer: &Answer) -> Result<Vec<u8>, String> {
    if case.request.len() > 128 || answer.entries.len() > 255 {
        return Err("a request or a list that no record holds".into());
    }
    let lens = [answer.entries.len() as u8, case.request.len() as u8];
    let mut bytes = vec![case.kind as u8, answer.did as u8, answer.number as u8, lens[0], lens[1]];
    bytes.extend(&case.chip);
    bytes.extend(&case.request);
    bytes.resize(12 + 128, 0);
    for word in answer.report.iter().flatten() {
        bytes.extend(word.to_le_bytes());
    }
    for word in answer.entries.iter().flatten() {
        let half = u16::try_from(*word).map_err(|_| format!("{word} in an entry is above 16 bits"))?;
        bytes.extend(half.to_le_bytes());
    }
    Ok(bytes)
}
