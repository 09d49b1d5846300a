//! The differential run: `differential [requests] [seed]`. Any difference is printed with its request, and the exit code is then 1.
//! `differential --vectors FILE [seed]` writes a sample of the Rust's answers instead: docs/VECTORS.md.
mod compare;
mod coverage;
mod departures;
mod judge;
mod leaves;
mod others;
mod registers;
mod vectors;

use clock_api::raw;
use compare::Comparison;
use requests::{Case, Kind, KINDS};
use std::env::args;
use std::process::exit;
use std::time::Instant;

fn main() {
    if hal::VARIANTS.is_empty() {
        println!("differential: {}, {}", if hal::THERE { "failed" } else { "skipped" }, hal::SOURCES);
        exit(hal::THERE as i32);
    }
    let number = |place: usize, default: u64| args().nth(place).map_or(default, |text| text.parse().unwrap_or_else(|_| usage()));
    hal::silence_panics();
    if args().nth(1).as_deref() == Some("--vectors") {
        let file = args().nth(2).unwrap_or_else(|| usage());
        return vectors::write(&file, number(3, 1), kind).unwrap_or_else(|what| {
            println!("vectors: {what}");
            exit(1)
        });
    }
    let (count, seed) = (number(1, 1_000_000), number(2, 1));
    let start = Instant::now();
    let mut all = Comparison::new(seed);
    for (k, case) in Case::fixed().iter().enumerate() {
        all.case(case).unwrap_or_else(|what| differs(k as u64, case, &what));
    }
    met(&all, 0);
    for k in 0..count {
        let case = Case::any(kind(k), &mut all.random);
        all.case(&case).unwrap_or_else(|what| differs(k, &case, &what));
    }
    let random = &mut all.random;
    let rest = [others::voltage(random), others::reset(random), others::flash(), others::leaves(random, count)].map(|done| {
        done.unwrap_or_else(|what| {
            println!("difference: {what}");
            exit(1)
        })
    });
    summary(&all, count, seed, rest);
    met(&all, count);
    println!("no difference, {:.1} s", start.elapsed().as_secs_f64());
}

/// Ends the run where something was met less often than it must be in so many requests, beside the fixed ones.
fn met(all: &Comparison, count: u64) {
    let lacking = all.tally.coverage.lacking(count);
    if !lacking.is_empty() {
        println!("met too seldom:\n  {}", lacking.join("\n  "));
        exit(1);
    }
}

fn usage() -> ! {
    eprintln!("differential [requests] [seed]\ndifferential --vectors FILE [seed]");
    exit(2)
}

/// Of twenty: eight realistic, seven at a boundary, three full range, two damaged.
fn kind(k: u64) -> Kind {
    match k % 20 {
        0..=7 => Kind::Realistic,
        8..=14 => Kind::Boundary,
        15..=17 => Kind::FullRange,
        _ => Kind::Damaged,
    }
}

fn summary(all: &Comparison, count: u64, seed: u64, rest: [u64; 4]) {
    println!("the Rust: {}, {} variants", hal::SOURCES, hal::VARIANTS.len());
    println!("{count} requests from seed {seed}\n");
    println!("{:<12}{:>10}{:>10}{:>10}", "kind", "requests", "plans", "refused");
    for (kind, row) in KINDS.iter().zip(all.tally.kinds) {
        println!("{:<12}{:>10}{:>10}{:>10}", format!("{kind:?}"), row[0], row[1], row[2]);
    }
    println!("\nplans: the same 26 clocks and 3 divisors, {} entries and 82 bank words each", all.tally.entries);
    println!("PLL registers: {} words, as the Rust's entries leave them on reset values", all.tally.registers);
    println!("leaves: AHB, APB, timer, MCO and wait states of each plan, and {} PLLs", all.tally.plls);
    println!("refusals, by number; the Rust panics, or the bytes are damaged (1):");
    let numbered: Vec<String> = all.tally.refusals.iter().map(|(number, count)| format!("{number:>6}: {count:<8}")).collect();
    for row in numbered.chunks(5) {
        println!("{}", row.concat());
    }
    let [fourteen, fifteen] = all.tally.departures;
    println!("14 and 15: the Rust ends, with the forbidden divider written: {fourteen} and {fifteen}");
    println!("requests that no setter builds, set directly: {}", all.tally.by_no_setter);
    println!("lent slices of another length, 1 or 2: {}", all.tally.lengths);
    println!("walks with flags that come up late: {}, of which 24 ended {}", all.tally.walks, all.tally.ended);
    println!("voltage walks {}, reset words {}, wait states {}, FRACN and VCO in f32 {}", rest[0], rest[1], rest[2], rest[3]);
}

fn differs(k: u64, case: &Case, what: &str) -> ! {
    let hex = |bytes: &[u8]| bytes.iter().map(|byte| format!("{byte:02x}")).collect::<String>();
    println!("difference at request {k} ({:?}): {what}", case.kind);
    println!("request {}\nchip    {}", hex(&case.request), hex(&case.chip));
    let mut list = [0; raw::LIST];
    let mut report = [0; raw::REPORT];
    let number = raw::plan(&case.request, &case.chip, &mut report);
    if let Some((asked, chip)) = judge::read(&case.request, &case.chip) {
        println!("{chip:?} scale {}\n{}", asked.scale, in_words(&asked));
        if let Some(variant) = hal::Variant::find(chip.plls, chip.odd) {
            let state = hal::State { hsion: chip.hsion, hsidiv: chip.hsidiv, ..hal::State::default() };
            let run = variant.run(&asked, &state, hal::Record::default());
            println!("the Rust: {}", run.ended.map_or_else(|text| format!("panics, {text}"), |report| format!("{report:?}")));
            run.record.entries.iter().for_each(|nine| println!("    {}", compare::shown(Some(nine))));
        }
    }
    println!("the planner: {}", if number == 0 { format!("{report:?}") } else { format!("refuses with {number}") });
    if number == 0 && raw::entries(&case.request, &case.chip, &mut list) == 0 {
        list[1..].chunks_exact(9).take(list[0] as usize).for_each(|nine| println!("    {}", compare::shown(Some(nine))));
    }
    exit(1)
}

/// What is set of a request, by name.
fn in_words(asked: &hal::Asked) -> String {
    #[rustfmt::skip]
    let names = [
        "HSE", "LSE", "audio", "system", "peripheral", "AHB", "APB1", "APB2", "APB3", "MCO1", "MCO2",
        "PLL1 P", "PLL1 Q", "PLL1 R", "PLL2 P", "PLL2 Q", "PLL2 R", "PLL3 P", "PLL3 Q", "PLL3 R",
    ];
    let hertz = names.iter().zip(asked.hertz).filter_map(|(name, f)| f.map(|f| format!("{name} {f}")));
    let codes = ["bypass", "MCO1 source", "MCO2 source", "PLL1 strategy", "PLL2 strategy", "PLL3 strategy"];
    let codes = codes.iter().zip(asked.codes).filter(|(_, code)| *code > 0).map(|(name, code)| format!("{name} {code}"));
    hertz.chain(codes).collect::<Vec<_>>().join(", ")
}
