//! Reads what is compared: whether bytes are well formed, and in a run of the sources a forbidden divider and which refusal fits a panic.
use hal::{at, Asked, Record, Variant};

/// The chip's numbers.
#[derive(Clone, Copy, Debug)]
pub struct Chip {
    pub plls: u8,
    pub odd: [bool; 3],
    pub hsion: bool,
    pub hsidiv: u32,
}

impl Chip {
    /// A chip at reset values for a variant of the sources.
    pub fn of(variant: &Variant) -> Chip {
        Chip { plls: variant.plls, odd: variant.odd, hsion: true, hsidiv: 2 }
    }
}

/// The bytes of a request and a chip, read as docs/CODES.md says; none where that is refusal 1.
pub fn read(request: &[u8], chip: &[u8]) -> Option<(Asked, Chip)> {
    if chip.len() != 7 || !matches!(chip[0], 2 | 3) || chip[1..4].iter().any(|odd| *odd > 1) {
        return None;
    }
    if chip[4] > 3 || chip[5] > 1 || !matches!(chip[6], 1 | 2 | 4 | 8) || request.len() != 58 + 16 * chip[0] as usize {
        return None;
    }
    let mut asked = Asked { scale: chip[4], ..Asked::default() };
    let mut from = 0;
    let mut byte = |most: u8| {
        from += 1;
        Some(request[from - 1]).filter(|code| *code <= most)
    };
    let hertz = |byte: &mut dyn FnMut(u8) -> Option<u8>| {
        let set = byte(1)?;
        let f = u32::from_le_bytes([byte(255)?, byte(255)?, byte(255)?, byte(255)?]);
        match (set, f) {
            (0, 0) => Some(None),
            (0, _) => None,
            _ => Some(Some(f)),
        }
    };
    for place in 0..9 {
        asked.hertz[place] = hertz(&mut byte)?;
    }
    asked.codes[0] = byte(1)?;
    asked.codes[1] = byte(4)?;
    asked.hertz[at::MCO1] = hertz(&mut byte)?;
    asked.codes[2] = byte(5)?;
    asked.hertz[at::MCO2] = hertz(&mut byte)?;
    for pll in 0..chip[0] as usize {
        asked.codes[3 + pll] = byte(1)?;
        for output in 0..3 {
            asked.hertz[at::PLL[pll] + output] = hertz(&mut byte)?;
        }
    }
    let odd = [chip[1] == 1, chip[2] == 1, chip[3] == 1];
    Some((asked, Chip { plls: chip[0], odd, hsion: chip[5] == 1, hsidiv: chip[6].into() }))
}

/// The hertz as the PLLs see them: filled by the MCOs, and PLL1 P by a system clock that needs it.
fn filled(asked: &Asked) -> hal::Hertzes {
    let mut f = asked.hertz;
    let fill = |place: &mut Option<u32>, from: Option<u32>| *place = place.or(from);
    let [p1, p2, _] = at::PLL;
    if asked.codes[1] == 3 {
        fill(&mut f[p1 + 1], asked.hertz[at::MCO1]);
    }
    match asked.codes[2] {
        0 => fill(&mut f[at::SYSTEM], asked.hertz[at::MCO2]),
        1 => fill(&mut f[p2], asked.hertz[at::MCO2]),
        3 => fill(&mut f[p1], asked.hertz[at::MCO2]),
        _ => {}
    }
    if let Some(system) = f[at::SYSTEM].filter(|system| *system != source(asked)) {
        fill(&mut f[p1], Some(system));
    }
    f
}

fn source(asked: &Asked) -> u32 {
    asked.hertz[at::HSE].unwrap_or(32_000_000)
}

/// The first value that an entry of one field sets it to.
fn set(record: &Record, field: usize) -> Option<u32> {
    record.entries.iter().find(|entry| entry[0] == 1 && entry[1] == field as u32 + 1).map(|entry| entry[2])
}

/// The least and the largest counted output of a PLL.
fn counted(outputs: &[Option<u32>], odd: bool) -> (u64, u64) {
    let count = |k: usize| outputs[k].map(|f| u64::from(f) * if k == 0 && !odd { 2 } else { 1 });
    let all = || (0..3).filter_map(count);
    (all().min().unwrap_or(0), all().max().unwrap_or(0))
}

/// P's divider for a PLL's outputs, none of them 0, by document 01's target.
fn p_divider(outputs: &[Option<u32>], odd: bool) -> u64 {
    let (least, largest) = counted(outputs, odd);
    let end = if largest < 420_000_000 { 420_000_000 } else { 560_000_000 };
    let target = largest * (end / largest);
    let cut = (target / least + 127) / 128;
    let target = if target / least > 128 { target / cut } else { target };
    target / u64::from(outputs[0].unwrap_or(1))
}

/// A divider of P that was written although the manual forbids it: 14 or 15 of the first such PLL, and the divider. An error where another
/// was written.
pub fn forbidden(asked: &Asked, chip: &Chip, record: &Record) -> Result<Option<(u32, u64)>, String> {
    let f = filled(asked);
    for pll in 0..chip.plls as usize {
        let written = match set(record, 15 * pll + 6) {
            Some(written) => written,
            None => continue,
        };
        let divider = p_divider(&f[at::PLL[pll]..][..3], chip.odd[pll]);
        if written != u32::from(divider.wrapping_sub(1) as u8) {
            return Err(format!("the Rust wrote {written} to P of PLL{}, whose divider is {divider}", pll + 1));
        }
        if divider > 128 {
            return Ok(Some((14, divider)));
        }
        if divider % 2 == 1 && !chip.odd[pll] {
            return Ok(Some((15, divider)));
        }
    }
    Ok(None)
}

/// Panics that stand for one refusal wherever they come.
const ANYWHERE: [(&str, u32); 12] = [
    ("Max frequency is", 3),
    ("HSE is required for MCO", 4),
    ("Cannot set pll1_p_ck", 5),
    ("pllsrc > 0", 6),
    ("pll_x_n", 12),
    ("pll_fracn", 13),
    ("HSI oscillator must be on", 16),
    ("HSI oscillator divider", 17),
    ("unreachable code", 19),
    ("not implemented", 20),
    ("Clock is too fast", 23),
    ("csirdy", 24),
];
/// Panics at a PLL's outputs.
const IN_PLL: [(&str, u32); 4] =
    [("VCO cannot be configured", 8), ("higher than PLL max", 9), ("output_range.contains", 10), ("`Option::unwrap()` on a `None`", 11)];

/// The refusal that goes with a panic: by its text, and by what was written until then.
pub fn refusal(asked: &Asked, chip: &Chip, record: &Record, text: &str) -> Result<u32, String> {
    let f = filled(asked);
    let told = |table: &[(&str, u32)]| table.iter().find(|(part, _)| text.contains(part)).map(|(_, number)| *number);
    let outputs = |pll: usize| &f[at::PLL[pll]..][..3];
    let number = told(&ANYWHERE).or_else(|| {
        // at the outputs of the first PLL that has some and has written nothing, or behind the PLLs
        let asked_of = |pll: &usize| outputs(*pll).iter().any(|f| f.is_some());
        let stopped = (0..chip.plls as usize).filter(asked_of).find(|pll| set(record, 15 * pll).is_none());
        match stopped {
            Some(pll) if outputs(pll).contains(&Some(0)) => Some(7),
            Some(pll) if text.contains("multiply with overflow") => {
                let (least, largest) = counted(outputs(pll), chip.odd[pll]);
                Some(if least < largest / 128 { 8 } else { 9 })
            }
            Some(_) => told(&IN_PLL),
            None => told(&[("divide by zero", zero_divided(asked, &f)), ("`Option::unwrap()` on a `None`", 21)]),
        }
    });
    number.ok_or_else(|| format!("no refusal is known for the Rust's panic: {text}"))
}

/// A division by 0 behind the PLLs: AHB requested 0, an AHB that comes to 0, an APB or an MCO requested 0.
fn zero_divided(asked: &Asked, f: &hal::Hertzes) -> u32 {
    let zero = |place: usize| f[place] == Some(0);
    if zero(at::AHB) {
        return 18;
    }
    // through PLL1 the system clock is far above 512 Hz
    let direct = f[at::SYSTEM].map_or(true, |system| system == source(asked));
    if direct && source(asked) < ahb_divisor(source(asked), f[at::AHB]) {
        return 19;
    }
    if (0..3).any(|apb| zero(at::APB1 + apb)) {
        18
    } else {
        22
    }
}

fn ahb_divisor(system: u32, ahb: Option<u32>) -> u32 {
    let ahb = ahb.unwrap_or(system);
    let ratio = system / ahb + (system % ahb != 0) as u32;
    let rows = [(384, 512), (192, 256), (96, 128), (40, 64), (12, 16), (6, 8), (3, 4), (2, 2)];
    rows.iter().find(|(from, _)| ratio >= *from).map_or(1, |(_, divisor)| *divisor)
}
