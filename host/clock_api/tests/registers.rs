//! The PLLs' registers by the numbers of document 01's bench settings, and what a call leaves as it was.
use clock_api::{pll_registers, raw, Chip, PllRegisters, PllRequest, Request, Strategy};

const WORD: u32 = 0x5AA5_A55A;

/// The words that the C function leaves.
fn words(request: &Request, chip: &Chip) -> [u32; raw::PLL_REGISTERS] {
    let mut words = [WORD; raw::PLL_REGISTERS];
    assert_eq!(raw::pll_registers(&request.to_bytes(chip), &chip.to_bytes(), &mut words), 0);
    words
}

/// One PLL's three words, by the C function and by the typed one.
fn pll(number: usize, request: &Request, chip: &Chip) -> [u32; 3] {
    let PllRegisters { cfgr, divr, fracr } = pll_registers(request, chip).unwrap()[number - 1];
    assert_eq!(words(request, chip)[3 * number - 3..][..3], [cfgr, divr, fracr]);
    [cfgr, divr, fracr]
}

/// 250 MHz from HSI.
fn system() -> Request {
    Request { system: Some(250_000_000), ..Request::default() }
}

fn second(asked: PllRequest) -> Request {
    Request { plls: [PllRequest::default(), asked, PllRequest::default()], ..Request::default() }
}

#[test]
fn settings_a_b_and_c() {
    let audio = PllRequest { strategy: Strategy::Fractional, p: Some(12_288_000), ..PllRequest::default() };
    for chip in [Chip::two_plls(), Chip::three_plls()] {
        // wide, RGE 2, M 8, N 125, P 2
        assert_eq!(pll(1, &system(), &chip), [0x0001_0809, 0x0000_027C, 0]);
        // medium, RGE 1, M 16, N 125, P 1
        assert_eq!(pll(1, &system(), &Chip { odd_p: [true; 3], ..chip }), [0x0001_1025, 0x0000_007C, 0]);
        // medium, RGE 0, M 18, N 235, P 34, FRACN 66
        assert_eq!(pll(2, &second(audio), &chip), [0x0001_1231, 0x0000_42EA, 0x0000_0210]);
    }
}

/// From HSI over M 16; the VCO is 384 MHz, and 416 MHz for 32 MHz alone.
#[test]
fn each_output_has_its_enable_and_divider() {
    let (p, q, r) = (Some(128_000_000), Some(64_000_000), Some(32_000_000));
    let three = |p, q, r| pll(2, &second(PllRequest { p, q, r, ..PllRequest::default() }), &Chip::two_plls());
    assert_eq!(three(p, None, None), [0x0001_1025, 0x0000_04BF, 0]);
    assert_eq!(three(None, q, None), [0x0002_1025, 0x0005_00BF, 0]);
    assert_eq!(three(None, None, r), [0x0004_1025, 0x0C00_00CF, 0]);
    assert_eq!(three(p, q, r), [0x0007_1025, 0x0B05_04BF, 0]);
}

#[test]
fn a_pll_with_nothing_requested_has_its_source_alone() {
    for (hse, source) in [(None, 1), (Some(25_000_000), 3)] {
        let idle = Request { hse, ..Request::default() };
        assert_eq!(words(&idle, &Chip::three_plls()), [source, 0, 0, source, 0, 0, source, 0, 0]);
        assert_eq!(words(&idle, &Chip::two_plls()), [source, 0, 0, source, 0, 0, WORD, WORD, WORD]);
        let running = Request { hse, ..system() };
        assert_eq!(words(&running, &Chip::three_plls())[3..], [source, 0, 0, source, 0, 0]);
    }
}

#[test]
fn two_plls_leave_the_last_three_words() {
    assert_eq!(words(&system(), &Chip::two_plls())[6..], [WORD; 3]);
    assert_eq!(words(&system(), &Chip::three_plls())[6..], [1, 0, 0]);
    assert_eq!(pll_registers(&system(), &Chip::two_plls()).unwrap().len(), 2);
    assert_eq!(pll_registers(&system(), &Chip::three_plls()).unwrap().len(), 3);
}

#[test]
fn a_refused_call_leaves_every_word() {
    let zero = PllRequest { p: Some(0), ..PllRequest::default() };
    let third = Request { plls: [PllRequest::default(), PllRequest::default(), zero], ..system() };
    let (two, three) = (Chip::two_plls(), Chip::three_plls());
    let above = Request { system: Some(250_000_001), ..Request::default() };
    // the last one plans PLL1 before PLL3 is refused
    for (request, chip, number) in [(above, two, 3), (third, two, 1), (second(zero), three, 7), (third, three, 7)] {
        let mut words = [WORD; raw::PLL_REGISTERS];
        assert_eq!(raw::pll_registers(&request.to_bytes(&chip), &chip.to_bytes(), &mut words), number);
        assert_eq!(words, [WORD; raw::PLL_REGISTERS]);
        assert_eq!(pll_registers(&request, &chip).unwrap_err().number(), number);
    }
}
