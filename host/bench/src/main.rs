//! Time per request: the planner's C functions and the unchanged sources on the same requests, in one run. `bench [rounds]`
use clock_api::{raw, Bank, Bytes, Chip, Request};
use hal::{Asked, Quiet};
use requests::Random;
use std::panic::{catch_unwind, AssertUnwindSafe};
use std::process::exit;
use std::time::Instant;

const REQUESTS: usize = 4_000;

/// A request in all the forms that are measured.
struct Sample {
    asked: Asked,
    request: Request,
    bytes: Bytes,
}

fn main() {
    if hal::QUIET.is_empty() {
        println!("bench: {}, {}", if hal::THERE { "failed" } else { "skipped" }, hal::SOURCES);
        exit(hal::THERE as i32);
    }
    let rounds = std::env::args().nth(1).and_then(|text| text.parse().ok()).unwrap_or(25);
    for chip in [Chip::two_plls(), Chip::three_plls()] {
        if let Some(quiet) = hal::QUIET.iter().find(|quiet| quiet.plls == chip.plls as u8) {
            table(&chip, quiet, rounds);
        }
    }
    hal::silence_panics();
    for chip in [Chip::two_plls(), Chip::three_plls()] {
        if let Some(quiet) = hal::QUIET.iter().find(|quiet| quiet.plls == chip.plls as u8) {
            refusals(&chip, quiet, rounds);
        }
    }
    leaf(rounds);
    println!("Realistic requests that get a plan, {REQUESTS} for each chip, the same ones in");
    println!("every row; the rows take turns, and each has the best of {rounds} rounds, measured");
    println!("twice. freeze is the Rust's setters and freeze, unchanged sources, overflow");
    println!("checks on, over a stand-in that stores each field in a word and answers every");
    println!("poll at once: no time of real registers is in it. The second row comes from the");
    println!("same request to the same clocks and registers, in one call; the rows below are");
    println!("one call each, on bytes made before. A refusal is set beside the panic of freeze");
    println!("on the same request, caught, with nothing printed.");
}

/// How far two measurements may differ, and how often they are made again.
const DISTURBED: f64 = 1.05;
const AGAIN: u32 = 5;

/// The best of the rounds for each piece of work, in ns a time. It is measured twice; two measurements that differ were disturbed, and
/// another is made.
fn best<const N: usize>(rounds: u32, times: usize, mut work: [&mut dyn FnMut(); N]) -> [f64; N] {
    let mut last = measured(rounds, times, &mut work);
    for _ in 0..AGAIN {
        let next = measured(rounds, times, &mut work);
        let calm = (0..N).all(|k| last[k].max(next[k]) < DISTURBED * last[k].min(next[k]));
        for k in 0..N {
            last[k] = last[k].min(next[k]);
        }
        if calm {
            return last;
        }
    }
    println!("disturbed: {AGAIN} measurements differ by more than {:.0} %", 100.0 * (DISTURBED - 1.0));
    last
}

/// One measurement: the pieces take turns.
fn measured<const N: usize>(rounds: u32, times: usize, work: &mut [&mut dyn FnMut(); N]) -> [f64; N] {
    let mut best = [f64::MAX; N];
    for _ in 0..rounds {
        for (k, piece) in work.iter_mut().enumerate() {
            let start = Instant::now();
            piece();
            best[k] = best[k].min(start.elapsed().as_nanos() as f64 / times as f64);
        }
    }
    best
}

/// Keeps a result from being optimised away.
fn keep<T>(value: &T) {
    unsafe { std::ptr::read_volatile(value as *const T as *const u8) };
}

fn table(chip: &Chip, quiet: &Quiet, rounds: u32) {
    let samples = samples(chip, |_, code| code == 0);
    let numbers = chip.to_bytes();
    let (mut report, mut bank) = ([0; raw::REPORT], Bank::reset());
    let (mut clocks, mut registers) = (report, bank);
    let (mut report_too, mut bank_too) = (report, bank);
    let (mut list, mut plls) = ([0; raw::LIST], [0; raw::PLL_REGISTERS]);
    let [freeze, both, alone, plan, store, entries, words, bytes] = best(
        rounds,
        REQUESTS,
        [
            &mut || samples.iter().for_each(|sample| quiet.time_freeze(&sample.asked)),
            &mut || {
                samples.iter().for_each(|sample| {
                    let bytes = sample.request.to_bytes(chip);
                    keep(&raw::plan_bank(&bytes, &numbers, &mut clocks, &mut registers.words))
                })
            },
            &mut || samples.iter().for_each(|sample| keep(&raw::plan_bank(&sample.bytes, &numbers, &mut report_too, &mut bank_too.words))),
            &mut || samples.iter().for_each(|sample| keep(&raw::plan(&sample.bytes, &numbers, &mut report))),
            &mut || samples.iter().for_each(|sample| keep(&raw::bank(&sample.bytes, &numbers, &mut bank.words))),
            &mut || samples.iter().for_each(|sample| keep(&raw::entries(&sample.bytes, &numbers, &mut list))),
            &mut || samples.iter().for_each(|sample| keep(&raw::pll_registers(&sample.bytes, &numbers, &mut plls))),
            &mut || samples.iter().for_each(|sample| keep(&sample.request.to_bytes(chip))),
        ],
    );
    println!("{} PLLs{:>52}{:>13}", chip.plls as u8, "ns a request", "of freeze");
    for (name, time) in [
        ("setters and freeze: clocks and registers", freeze),
        ("to_bytes, clock_plan_bank: the same", both),
        ("clock_plan_bank alone: both, on bytes", alone),
        ("clock_plan alone: clocks, in 55 words", plan),
        ("clock_bank alone: registers, in 82 words", store),
        ("clock_entries alone: the list, entry by entry", entries),
        ("clock_pll_registers alone: the PLLs, in 9 words", words),
        ("to_bytes alone: the bytes that a call takes", bytes),
    ] {
        println!("  {name:<54}{time:>10.1}{:>13.2}", time / freeze);
    }
    println!();
}

/// Requests that are refused, and on which freeze panics.
fn refusals(chip: &Chip, quiet: &Quiet, rounds: u32) {
    let caught = |asked: &Asked| catch_unwind(AssertUnwindSafe(|| quiet.time_freeze(asked))).is_err();
    let samples = samples(chip, |asked, code| code != 0 && caught(asked));
    let numbers = chip.to_bytes();
    let (mut report, mut bank) = ([0; raw::REPORT], Bank::reset());
    let [panic, refusal] = best(
        rounds.min(5),
        REQUESTS,
        [&mut || samples.iter().for_each(|sample| keep(&caught(&sample.asked))), &mut || {
            samples.iter().for_each(|sample| keep(&raw::plan_bank(&sample.bytes, &numbers, &mut report, &mut bank.words)))
        }],
    );
    println!("{} PLLs, refused{:>43}{:>13}", chip.plls as u8, "ns a request", "of a panic");
    println!("  {:<54}{panic:>10.1}{:>13.2}", "setters and freeze: a panic, caught", 1.0);
    println!("  {:<54}{refusal:>10.1}{:>13.2}\n", "clock_plan_bank: the refusal's number", refusal / panic);
}

/// FRACN alone: the sources' function is private, so its operations stand here.
fn leaf(rounds: u32) {
    let mut random = Random::new(2);
    let inputs: Vec<[u32; 4]> = (0..REQUESTS)
        .map(|_| {
            let (reference, n, divider) = (1_000_000 + random.below(1_000_000), 75 + random.below(300), 1 + random.below(128));
            [reference, n, (reference * n + random.below(reference)) / divider, divider]
        })
        .collect();
    let [native, planner] = best(
        rounds,
        REQUESTS,
        [&mut || inputs.iter().for_each(|[r, n, o, d]| keep(&fracn(*r, *n, *o, *d))), &mut || {
            inputs.iter().for_each(|[r, n, o, d]| keep(&raw::fracn(*r, *n, *o, *d)))
        }],
    );
    println!("FRACN{:>53}{:>13}", "ns a call", "of f32");
    println!("  {:<54}{native:>10.1}{:>13.2}", "its five f32 operations in Rust", 1.0);
    println!("  {:<54}{planner:>10.1}{:>13.2}\n", "clock_fracn", planner / native);
}

fn fracn(reference: u32, n: u32, output: u32, divider: u32) -> u32 {
    let fracn = 8192.0f32 * (((output as f32 * divider as f32) / reference as f32) - n as f32);
    if (0.0..=8191.0).contains(&fracn) {
        fracn as u32
    } else {
        8192
    }
}

/// Realistic requests for a chip that are wanted, by what is asked and what `clock_plan` answers.
fn samples(chip: &Chip, wanted: impl Fn(&Asked, u32) -> bool) -> Vec<Sample> {
    let mut random = Random::new(1);
    let mut samples = Vec::new();
    let mut report = [0; raw::REPORT];
    while samples.len() < REQUESTS {
        let mut asked = requests::realistic(&mut random);
        asked.scale = chip.scale as u8;
        let request = requests::typed(&asked);
        let bytes = request.to_bytes(chip);
        if wanted(&asked, raw::plan(&bytes, &chip.to_bytes(), &mut report)) {
            samples.push(Sample { asked, request, bytes });
        }
    }
    samples
}
