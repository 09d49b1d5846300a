//! Document 01's bench settings A to O, by running the unchanged sources: fields, clocks, and a panic where it says refused.
use hal::{at, Asked, Record, Run, State, Variant};

const ODD: [bool; 3] = [true; 3];
const EVEN: [bool; 3] = [false; 3];
const P2: usize = at::PLL[1];
const Q2: usize = at::PLL[1] + 1;
/// A PLL2 in Fractional.
const FRACTIONAL: usize = 4;

// Words of the bank: fields of PLL1 (PLL2's are 15 further), then others.
const VCOSEL: u32 = 0;
const M: u32 = 2;
const N: u32 = 3;
const FRACN: u32 = 4;
const P: u32 = 6;
const Q: u32 = 8;
const LATENCY: u32 = 48;
const MCO1PRE: u32 = 55;
const HPRE: u32 = 61;
const PLL2: u32 = 15;

// Clocks of the report.
const SYS: usize = 0;
const HCLK: usize = 1;
const PLL2_P: usize = 20;

fn asked(hertz: &[(usize, u32)]) -> Asked {
    let mut asked = Asked::default();
    for (place, f) in hertz {
        asked.hertz[*place] = Some(*f);
    }
    asked
}

fn fractional(hertz: &[(usize, u32)]) -> Asked {
    let mut asked = asked(hertz);
    asked.codes[FRACTIONAL] = 1;
    asked
}

fn run(odd: [bool; 3], asked: &Asked) -> Run<[u32; 55]> {
    // two and three PLLs agree on what both have
    let of = |plls| Variant::find(plls, odd).map(|variant| variant.run(asked, &State::default(), Record::default()));
    let (two, three) = (of(2).expect("a variant"), of(3).expect("a variant"));
    assert_eq!(two.ended, three.ended);
    two
}

/// The value that a field is set to last.
fn field(record: &Record, field: u32) -> Option<u32> {
    let sets = record.entries.iter().filter(|entry| entry[0] == 1);
    sets.flat_map(|entry| entry[1..].chunks(2)).rfind(|pair| pair[0] == field + 1).map(|pair| pair[1])
}

fn planned(name: &str, odd: [bool; 3], asked: &Asked, fields: &[(u32, u32)], clocks: &[(usize, u32)]) {
    let run = run(odd, asked);
    let report = run.ended.unwrap_or_else(|text| panic!("{name}: {text}"));
    for (f, value) in fields {
        assert_eq!(field(&run.record, *f), Some(*value), "{name}: word {f}");
    }
    for (clock, hertz) in clocks {
        assert_eq!((report[2 * clock], report[2 * clock + 1]), (1, *hertz), "{name}: clock {clock}");
    }
}

fn refused(name: &str, asked: &Asked, text: &str) {
    let ended = run(ODD, asked).ended;
    assert!(ended.as_ref().err().map_or(false, |panic| panic.contains(text)), "{name}: {ended:?}");
}

/// Where there are sources, each variant of them is built.
#[test]
fn every_variant() {
    assert_eq!(hal::VARIANTS.len(), if hal::THERE { 12 } else { 0 }, "{}", hal::SOURCES);
}

#[test]
fn settings() {
    if hal::VARIANTS.is_empty() {
        println!("skipped: {}", hal::SOURCES);
        return;
    }
    let system = asked(&[(at::SYSTEM, 250_000_000)]);
    planned("A", EVEN, &system, &[(VCOSEL, 0), (M, 8), (N, 124), (P, 1), (LATENCY, 5)], &[(SYS, 250_000_000)]);
    planned("B", ODD, &system, &[(VCOSEL, 1), (M, 16), (N, 124), (P, 0)], &[(SYS, 250_000_000)]);
    let audio = [(P2, 12_288_000)];
    let fields = [(PLL2 + M, 18), (PLL2 + N, 234), (PLL2 + P, 33), (PLL2 + FRACN, 66)];
    planned("C", ODD, &fractional(&audio), &fields, &[(PLL2_P, 12_287_997)]);
    planned("D", ODD, &asked(&audio), &[], &[(PLL2_P, 12_287_576)]);
    let one = |f| asked(&[(P2, f)]);
    planned("E", ODD, &one(419_999_999), &[(PLL2 + VCOSEL, 1)], &[]);
    planned("E", ODD, &one(420_000_000), &[(PLL2 + VCOSEL, 0)], &[]);
    refused("E", &one(560_000_000), "higher than PLL max");
    planned("F", ODD, &one(1_634_242), &[(PLL2 + P, 127)], &[]);
    refused("F", &one(1_634_241), "output_range.contains");
    planned("G", ODD, &asked(&[(P2, 200_000_000), (Q2, 1_562_500)]), &[(PLL2 + Q, 127)], &[]);
    refused("G", &asked(&[(P2, 200_000_000), (Q2, 1_562_499)]), "VCO cannot be configured");
    planned("H, where the Rust goes on", EVEN, &one(1_000_000), &[(PLL2 + P, 209)], &[]);
    planned("H, where the Rust goes on", EVEN, &asked(&[(P2, 80_000_000), (Q2, 200_000_000)]), &[(PLL2 + P, 4)], &[]);
    let both = [(P2, 30_000_000), (Q2, 100_000_000)];
    planned("I", ODD, &asked(&both), &[], &[(PLL2_P, 30_769_230)]);
    refused("I", &fractional(&both), "pll_fracn");
    let bus = |system, ahb| asked(&[(at::SYSTEM, system), (at::AHB, ahb)]);
    planned("J", ODD, &bus(250_000_000, 50_000_000), &[], &[(HCLK, 62_500_000)]);
    planned("K", ODD, &bus(32_000_000, 820_513), &[(HPRE, 16)], &[]);
    planned("K", ODD, &bus(32_000_000, 820_512), &[(HPRE, 64)], &[]);
    planned("L", ODD, &asked(&[(at::MCO1, 2_133_334)]), &[(MCO1PRE, 15)], &[]);
    refused("L", &asked(&[(at::MCO1, 2_133_333)]), "Clock is too fast");
    for (hse, latency) in [(42_000_000, 0), (42_000_001, 1), (251_000_001, 7)] {
        planned("M", ODD, &asked(&[(at::HSE, hse)]), &[(LATENCY, latency)], &[(SYS, hse)]);
    }
    refused("N", &asked(&[(at::HSE, 100), (at::AHB, 1)]), "divide by zero");
    planned("O", ODD, &asked(&[(at::HSE, 126_000_000), (P2, 250_000_000)]), &[(PLL2 + M, 63)], &[]);
    refused("O", &asked(&[(at::HSE, 126_000_001), (P2, 250_000_000)]), "unwrap()");
}

/// An empty request's list, entry by entry, as document 01 has it.
#[test]
fn shortest_list() {
    let variant = match Variant::find(2, [false, true, true]) {
        Some(variant) => variant,
        None => return,
    };
    let set = |f: u32, v: u32| [1, f + 1, v, 0, 0, 0, 0, 0, 0];
    let wait = |f: u32, v: u32| [2, f + 1, v, 0, 0, 0, 0, 0, 0];
    let list = [
        set(45, 1),
        wait(46, 1),
        [1, 48, 0, 49, 0, 50, 0, 0, 0],
        wait(48, 0),
        set(50, 1),
        wait(51, 1),
        set(52, 1),
        wait(53, 1),
        [1, 55, 0, 56, 0, 57, 0, 58, 0],
        set(12, 1),
        set(27, 1),
        [1, 62, 1, 63, 1, 64, 1, 65, 1],
        wait(61, 1),
        set(65, 0),
        set(66, 0),
        set(67, 0),
        wait(68, 0),
        [3, 52, 1, 0, 0, 0, 0, 0, 0],
        set(69, 1),
        [1, 71, 1, 72, 0, 73, 1, 74, 0],
        [2, 75, 1, 76, 1, 0, 0, 0, 0],
    ];
    let run = variant.run(&Asked::default(), &State::default(), Record::default());
    assert_eq!(run.record.entries, list);
}

/// `Pwr::freeze` and the reset reason.
#[test]
fn power_and_reset() {
    for variant in hal::VARIANTS {
        for (target, active) in (0..16).map(|k| (k % 4, k / 4)) {
            let state = State { actvos: 3 - active, ..State::default() };
            let run = variant.voltage(target as u8, &state);
            assert_eq!(run.ended, Ok(target as u8));
            let walk = [
                [2, 81, 1, 0, 0, 0, 0, 0, 0],
                [4, 80, 0, 0, 0, 0, 0, 0, 0],
                [1, 79, 3 - target, 0, 0, 0, 0, 0, 0],
                [2, 82, 1, 0, 0, 0, 0, 0, 0],
            ];
            assert_eq!(run.record.entries, walk[..if target == active { 2 } else { 4 }]);
        }
        let state = State { reset_flags: 3 << 26 | 5, ..State::default() };
        let run = variant.reset_reason(&state);
        assert_eq!(run.ended, Ok(if variant.plls == 2 { (0, None) } else { (7, Some(3 << 26 | 5)) }));
        assert_eq!(run.record.reset_flags, Some(3 << 26 | 1 << 23 | 5));
    }
}
