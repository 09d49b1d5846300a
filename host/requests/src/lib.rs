//! Requests to compare: realistic ones, ones at the edges of document 01's numbers, any numbers at all, and damaged bytes.
use clock_api::{Chip, HsiDiv, Mco1Source, Mco2Source, PllRequest, Plls, Request, Scale, Strategy};
use hal::{at, Asked};

mod random;
pub use random::Random;

#[derive(Clone, Copy, Debug, PartialEq, Eq)]
pub enum Kind {
    Realistic,
    Boundary,
    FullRange,
    Damaged,
}

pub const KINDS: [Kind; 4] = [Kind::Realistic, Kind::Boundary, Kind::FullRange, Kind::Damaged];

/// A request's bytes and a chip's, well formed or not, and what the wrapper wrote into them where they are not damaged.
pub struct Case {
    pub kind: Kind,
    pub meant: Option<Meant>,
    pub request: Vec<u8>,
    pub chip: Vec<u8>,
}

/// What is asked for, and the same by the wrapper's types.
#[derive(Clone, Copy)]
pub struct Meant {
    pub asked: Asked,
    pub request: Request,
    pub chip: Chip,
}

#[rustfmt::skip]
const CRYSTALS: [u32; 28] = [
    4_000_000, 6_000_000, 7_372_800, 8_000_000, 9_600_000, 10_000_000, 11_059_200, 11_289_600, 12_000_000, 12_288_000,
    13_560_000, 14_318_180, 14_745_600, 16_000_000, 18_432_000, 19_200_000, 20_000_000, 22_579_200, 24_000_000,
    24_576_000, 25_000_000, 26_000_000, 27_000_000, 30_000_000, 32_000_000, 40_000_000, 48_000_000, 50_000_000,
];
#[rustfmt::skip]
const SYSTEM: [u32; 18] = [
    16_000_000, 32_000_000, 48_000_000, 64_000_000, 72_000_000, 80_000_000, 96_000_000, 100_000_000, 120_000_000,
    128_000_000, 144_000_000, 160_000_000, 168_000_000, 180_000_000, 200_000_000, 216_000_000, 240_000_000,
    250_000_000,
];
#[rustfmt::skip]
const SIDE: [u32; 14] = [
    1_843_200, 6_000_000, 8_000_000, 10_000_000, 12_000_000, 24_000_000, 26_666_667, 33_333_334, 48_000_000,
    50_000_000, 60_000_000, 80_000_000, 100_000_000, 125_000_000,
];
/// The numbers of document 01, and what they lead to.
#[rustfmt::skip]
const NUMBERS: [u32; 64] = [
    0, 1, 4, 15, 63, 100, 128, 512, 8_191, 8_192, 32_000, 32_768, 820_512, 820_513, 1_000_000, 1_562_500, 1_634_242,
    2_000_000, 2_133_334, 2_822_400, 3_000_000, 4_000_000, 8_000_000, 12_288_000, 16_000_000, 16_777_216, 20_000_000,
    30_000_000, 32_000_000, 34_000_000, 40_000_000, 42_000_000, 48_000_000, 50_000_000, 60_000_000, 63_000_000,
    64_000_000, 68_000_000, 80_000_000, 84_000_000, 90_000_000, 100_000_000, 102_000_000, 120_000_000, 126_000_000,
    128_000_000, 136_000_000, 150_000_000, 168_000_000, 170_000_000, 200_000_000, 209_182_976, 210_000_000,
    250_000_000, 251_000_000, 280_000_000, 417_792_000, 420_000_000, 500_000_000, 560_000_000, 1_008_000_000,
    2_147_483_648, 3_000_000_000, 4_294_967_295,
];
/// Where a ratio's row, a divider or a range ends.
#[rustfmt::skip]
const RATIOS: [u32; 28] = [
    1, 2, 3, 4, 5, 6, 8, 11, 12, 14, 15, 16, 34, 39, 40, 63, 64, 95, 96, 127, 128, 129, 191, 192, 256, 257, 383, 512,
];

impl Case {
    pub fn any(kind: Kind, random: &mut Random) -> Case {
        let chip = chip(random);
        let mut asked = match kind {
            Kind::Realistic => realistic(random),
            Kind::Boundary => boundary(random),
            Kind::FullRange => full_range(random),
            Kind::Damaged if random.one_in(2) => realistic(random),
            Kind::Damaged => boundary(random),
        };
        asked.scale = chip.scale as u8;
        if chip.plls == Plls::Two && kind != Kind::Damaged {
            asked.hertz[at::PLL[2]..].fill(None);
            asked.codes[5] = 0;
        }
        let mut case = Case::of(kind, asked, chip);
        if kind == Kind::Damaged {
            case.meant = None;
            case.damage(random);
        }
        case
    }

    fn of(kind: Kind, asked: Asked, chip: Chip) -> Case {
        let request = typed(&asked);
        Case {
            kind,
            meant: Some(Meant { asked, request, chip }),
            request: request.to_bytes(&chip).to_vec(),
            chip: chip.to_bytes().to_vec(),
        }
    }

    /// Requests for what is rare: the shortest list, the longest, and a divider of P of 257, which the sources write as 0.
    pub fn fixed() -> [Case; 3] {
        let shortest = Asked::default();
        let mut longest = Asked { codes: [0, 0, 0, 1, 1, 1], ..shortest };
        longest.hertz[at::HSE] = Some(24_000_000);
        for pll in at::PLL {
            longest.hertz[pll..pll + 3].copy_from_slice(&[Some(12_288_000), Some(6_144_000), Some(3_072_000)]);
        }
        let mut divider = shortest;
        divider.hertz[at::PLL[1]] = Some(1_300_000);
        divider.hertz[at::PLL[1] + 1] = Some(167_180_000);
        let odd = Chip { odd_p: [true; 3], ..Chip::three_plls() };
        let even = Chip { odd_p: [false; 3], ..Chip::two_plls() };
        [(shortest, Chip::two_plls()), (longest, odd), (divider, even)].map(|(asked, chip)| Case::of(Kind::Boundary, asked, chip))
    }

    /// Another length, or some bytes changed; now and then nothing that matters.
    fn damage(&mut self, random: &mut Random) {
        match random.below(8) {
            0 => self.request.truncate(random.below(self.request.len() as u32 + 1) as usize),
            1 => self.request.extend((0..1 + random.below(20)).map(|_| 0)),
            2 => {
                let len = random.pick(&[0, 1, 5, 57, 58, 89, 90, 91, 105, 106, 107, 122]);
                self.request.resize(len, 0)
            }
            3 => self.chip.resize(random.below(12) as usize, 1),
            4 => one_byte(&mut self.chip, random),
            _ => (0..1 + random.below(3)).for_each(|_| one_byte(&mut self.request, random)),
        }
    }
}

fn one_byte(bytes: &mut [u8], random: &mut Random) {
    let place = random.below(bytes.len() as u32) as usize;
    bytes[place] = match random.below(4) {
        0 => random.u32() as u8,
        1 => bytes[place].wrapping_add(1),
        2 => bytes[place] ^ 1,
        _ => random.pick(&[0, 1, 2, 3, 4, 5, 6, 255]),
    };
}

/// A chip inside its codes; half of them have the permissions of the sources.
pub fn chip(random: &mut Random) -> Chip {
    let own = random.one_in(2);
    Chip {
        plls: random.pick(&[Plls::Two, Plls::Three]),
        odd_p: if own { Chip::two_plls().odd_p } else { [random.one_in(2), random.one_in(2), random.one_in(2)] },
        scale: random.pick(&[Scale::Scale0, Scale::Scale1, Scale::Scale2, Scale::Scale3]),
        hsi_on: !random.one_in(24),
        hsi_div: if random.one_in(24) { random.pick(&[HsiDiv::Div1, HsiDiv::Div4, HsiDiv::Div8]) } else { HsiDiv::Div2 },
    }
}

fn crystal(random: &mut Random) -> u32 {
    if random.one_in(3) {
        1_000_000 * (4 + random.below(47))
    } else {
        random.pick(&CRYSTALS)
    }
}

/// 44,100 or 48,000 Hz and its multiples, as a codec's master clock.
fn audio(random: &mut Random) -> u32 {
    random.pick(&[32_000, 44_100, 48_000]) * random.pick(&[64, 128, 256, 384, 512, 1024, 2048])
}

/// What players ask for.
pub fn realistic(random: &mut Random) -> Asked {
    let mut asked = Asked::default();
    let hertz = &mut asked.hertz;
    if !random.one_in(4) {
        hertz[at::HSE] = Some(crystal(random));
        asked.codes[0] = random.one_in(4) as u8;
    }
    hertz[1] = if random.one_in(3) { Some(32_768) } else { None };
    hertz[2] = if random.one_in(4) { Some(audio(random)) } else { None };
    let source = hertz[at::HSE].unwrap_or(32_000_000);
    let mut system = source;
    if !random.one_in(4) {
        system = if random.one_in(3) { 1_000_000 * (1 + random.below(250)) } else { random.pick(&SYSTEM) };
        hertz[at::SYSTEM] = Some(system);
    }
    if random.one_in(2) {
        hertz[at::PERIPHERAL] = Some(random.pick(&[source, 4_000_000, 32_000_000, 64_000_000]));
    }
    let mut bus = system;
    if random.one_in(2) {
        bus = system / random.pick(&[1, 1, 2, 3, 4, 5, 8, 16, 64, 100, 256, 512]);
        hertz[at::AHB] = Some(bus);
    }
    for apb in 0..3 {
        if random.one_in(2) {
            hertz[at::APB1 + apb] = Some(bus / random.pick(&[1, 2, 3, 4, 5, 7, 8, 12, 16]));
        }
    }
    for pll in 0..3 {
        asked.codes[3 + pll] = random.one_in(3) as u8;
        outputs(&mut asked.hertz[at::PLL[pll]..][..3], pll, system, random);
    }
    clock_outputs(&mut asked, source, system, random);
    asked
}

/// P, Q, R of one PLL: an audio rate or a usual one, and simple fractions of it.
fn outputs(pll: &mut [Option<u32>], number: usize, system: u32, random: &mut Random) {
    if random.one_in(3) {
        return;
    }
    let first = match random.below(3) {
        0 => audio(random),
        1 => random.pick(&SIDE),
        _ => random.pick(&SYSTEM),
    };
    if number > 0 {
        pll[0] = Some(first);
    } else if random.one_in(4) {
        pll[0] = Some(system);
    }
    let whole = if number == 0 { system } else { first };
    for output in &mut pll[1..] {
        if random.one_in(2) {
            let part = whole / random.pick(&[1, 2, 3, 4, 5, 6, 8, 10, 16, 20]);
            *output = Some(if random.one_in(4) || part < 3_300_000 { random.pick(&SIDE) } else { part });
        }
    }
    if pll.iter().all(|output| output.is_none()) && random.one_in(2) {
        pll[random.below(3) as usize] = Some(first);
    }
}

fn clock_outputs(asked: &mut Asked, source: u32, system: u32, random: &mut Random) {
    let part = |f: u32, random: &mut Random| Some(f / random.pick(&[1, 1, 2, 3, 4, 5, 8, 10, 14, 15]));
    if random.one_in(2) {
        let has_hse = asked.hertz[at::HSE].is_some();
        asked.codes[1] = random.pick(if has_hse { &[0, 2, 3, 4] } else { &[0, 0, 3, 4] });
        let f = match asked.codes[1] {
            0 => 32_000_000,
            2 => source,
            3 => asked.hertz[at::PLL[0] + 1].unwrap_or(random.pick(&SIDE)),
            _ => 48_000_000,
        };
        asked.hertz[at::MCO1] = part(f, random);
    }
    if random.one_in(2) {
        let has_hse = asked.hertz[at::HSE].is_some();
        asked.codes[2] = random.pick(if has_hse { &[0, 1, 2, 3, 4, 5] } else { &[0, 1, 1, 3, 4, 5] });
        let f = match asked.codes[2] {
            0 => system,
            1 => asked.hertz[at::PLL[1]].unwrap_or(random.pick(&SIDE)),
            2 => source,
            3 => system,
            4 => 4_000_000,
            _ => 32_000,
        };
        asked.hertz[at::MCO2] = part(f, random);
    }
}

/// A number of document 01 or a range's end over a divider, give or take 2.
fn near(random: &mut Random) -> u32 {
    let number = match random.below(4) {
        0 => random.pick(&[420_000_000, 560_000_000, 210_000_000, 280_000_000]) / (1 + random.below(300)),
        1 => random.pick(&[1_000_000, 2_000_000, 16_000_000]) * (1 + random.below(64)),
        2 => 1_000_000 * random.below(256),
        _ => random.pick(&NUMBERS),
    };
    about(number, random)
}

fn about(number: u32, random: &mut Random) -> u32 {
    number.wrapping_add(random.below(5)).wrapping_sub(2)
}

/// Some numbers of a request moved to an edge, or to an edge's ratio of another.
fn boundary(random: &mut Random) -> Asked {
    if random.one_in(12) {
        return tiny(random);
    }
    let mut asked = if random.one_in(3) { Asked::default() } else { realistic(random) };
    for _ in 0..1 + random.below(4) {
        let place = random.below(20) as usize;
        let set: Vec<u32> = asked.hertz.iter().flatten().copied().collect();
        let ratio = random.pick(&RATIOS);
        asked.hertz[place] = Some(match random.below(4) {
            0 if !set.is_empty() => about(random.pick(&set) / ratio, random),
            1 if !set.is_empty() => about(random.pick(&set).wrapping_mul(ratio), random),
            _ => near(random),
        });
    }
    if random.one_in(8) {
        asked.codes[1] = random.below(5) as u8;
        asked.codes[2] = random.below(6) as u8;
    }
    if random.one_in(4) {
        asked.hertz[random.below(20) as usize] = None;
    }
    for pll in 0..3 {
        asked.codes[3 + pll] ^= random.one_in(3) as u8;
    }
    asked
}

/// A few hertz at HSE, and buses and outputs of hardly any: divisors that leave nothing.
fn tiny(random: &mut Random) -> Asked {
    let mut asked = Asked::default();
    asked.hertz[at::HSE] = Some(random.below(1_200));
    for place in at::AHB..at::PLL[0] {
        let most = random.pick(&[2, 6, 40]);
        asked.hertz[place] = if random.one_in(3) { Some(random.below(most)) } else { None };
    }
    asked.codes[1] = random.pick(&[0, 2]);
    asked.codes[2] = if asked.hertz[at::MCO2].is_some() { 2 } else { 0 };
    asked
}

/// Any numbers; the source stays usable half of the time, so that the rest is looked at.
fn full_range(random: &mut Random) -> Asked {
    let mut asked = Asked::default();
    let set = 2 + random.below(8);
    for hertz in &mut asked.hertz {
        *hertz = if random.one_in(set) { Some(random.any_length()) } else { None };
    }
    if random.one_in(2) {
        asked.hertz[at::HSE] = Some(1_000_000 + random.below(126_000_000));
    }
    if random.one_in(2) {
        asked.hertz[at::PLL[0]] = None;
    }
    let mut code = |codes: u32, often: u32| if random.one_in(often) { random.below(codes) as u8 } else { 0 };
    asked.codes = [code(2, 1), code(5, 2), code(6, 2), code(2, 1), code(2, 1), code(2, 1)];
    asked
}

/// The wrapper's request.
pub fn typed(asked: &Asked) -> Request {
    use Mco1Source as S1;
    use Mco2Source as S2;
    let (f, codes) = (asked.hertz, asked.codes);
    let pll = |k: usize| PllRequest {
        strategy: if codes[3 + k] == 1 { Strategy::Fractional } else { Strategy::Integer },
        p: f[at::PLL[k]],
        q: f[at::PLL[k] + 1],
        r: f[at::PLL[k] + 2],
    };
    Request {
        hse: f[0],
        lse: f[1],
        audio: f[2],
        system: f[3],
        peripheral: f[4],
        ahb: f[5],
        apb: [f[6], f[7], f[8]],
        hse_bypass: codes[0] == 1,
        mco1_source: [S1::Hsi, S1::Lse, S1::Hse, S1::Pll1Q, S1::Hsi48][codes[1] as usize],
        mco1: f[9],
        mco2_source: [S2::Sysclk, S2::Pll2P, S2::Hse, S2::Pll1P, S2::Csi, S2::Lsi][codes[2] as usize],
        mco2: f[10],
        plls: [pll(0), pll(1), pll(2)],
    }
}
