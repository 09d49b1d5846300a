//! The leaves by the numbers of document 01's bench settings.
use clock_api::{ahb, apb, flash, fracn, mco, pll, raw, timer, vco, Bank, Bus, Chip, Field, Flash, PllRequest, Request, Scale, Strategy};

#[test]
fn one_pll_of_setting_a() {
    let request = PllRequest { p: Some(250_000_000), ..PllRequest::default() };
    let x = pll(false, 32_000_000, &request).unwrap().unwrap();
    assert_eq!((x.m, x.reference, x.n, x.vco, x.fracn), (8, 4_000_000, 125, 500_000_000, None));
    assert_eq!(x.outputs, [Some((2, 250_000_000)), None, None]);
}

#[test]
fn one_pll_of_setting_c() {
    let request = PllRequest { strategy: Strategy::Fractional, p: Some(12_288_000), ..PllRequest::default() };
    let x = pll(true, 32_000_000, &request).unwrap().unwrap();
    assert_eq!((x.m, x.n, x.fracn), (18, 235, Some(66)));
    assert_eq!(x.outputs[0], Some((34, 12_287_997)));
    assert_eq!(fracn(x.reference, x.n, 12_288_000, 34), Some(66));
    assert_eq!(vco(x.reference, x.n, 66), x.vco);
}

/// RGE is its code, as in the bank: 0 to 3 for a reference from 1, 2, 4 and 8 MHz.
#[test]
fn rge_is_its_code() {
    let p = |f| PllRequest { p: Some(f), ..PllRequest::default() };
    let rge = Field::at(16).unwrap();
    assert_eq!((rge.pll(), rge.name()), (Some(2), "RGE"));
    let (medium, wide) = (250_000_000, 500_000_000);
    for (hse, f, code) in [(25_000_000, medium, 0), (3_000_000, wide, 1), (4_000_000, wide, 2), (25_000_000, wide, 3)] {
        let x = pll(true, hse, &p(f)).unwrap().unwrap();
        let request = Request { hse: Some(hse), plls: [PllRequest::default(), p(f), PllRequest::default()], ..Request::default() };
        let mut bank = Bank::reset();
        bank.store(&request, &Chip::two_plls()).unwrap();
        assert_eq!((x.rge, bank.get(rge)), (code, code), "{x:?}");
        assert!((1_000_000 << code..2_000_000 << code).contains(&x.reference), "{x:?}");
    }
}

#[test]
fn a_pll_without_outputs_and_refusals() {
    assert_eq!(pll(true, 32_000_000, &PllRequest::default()), Ok(None));
    let zero = PllRequest { p: Some(0), ..PllRequest::default() };
    assert_eq!(pll(true, 32_000_000, &zero).unwrap_err().number(), 7);
    assert_eq!(pll(true, 0, &zero).unwrap_err().number(), 6);
}

#[test]
fn buses_and_outputs() {
    assert_eq!(ahb(250_000_000, None), Ok(Bus { divisor: 1, hertz: 250_000_000 }));
    assert_eq!(apb(250_000_000, Some(125_000_000)), Ok(Bus { divisor: 2, hertz: 125_000_000 }));
    assert_eq!(apb(250_000_000, Some(0)).unwrap_err().number(), 18);
    assert_eq!(timer(250_000_000, 2), 250_000_000);
    assert_eq!(timer(250_000_000, 4), 125_000_000);
    assert_eq!(mco(48_000_000, Some(3_200_000)), Ok((15, Some(3_200_000))));
    assert_eq!(mco(48_000_000, Some(3_000_000)).unwrap_err().number(), 23);
    assert_eq!(mco(48_000_000, None), Ok((0, None)));
    assert_eq!(flash(250_000_000, Scale::Scale0), Some(Flash { latency: 5, delay: 2 }));
}

/// A divisor that no register has divides nothing.
#[test]
fn timers_under_any_number() {
    for (divisor, by) in [(1, 1), (2, 1), (4, 2), (8, 4), (16, 8)] {
        assert_eq!(timer(240_000_000, divisor), 240_000_000 / by);
    }
    for none in [0, 3, 5, 6, 7, 9, 15, 17, 32, 64, u32::MAX] {
        assert_eq!(timer(240_000_000, none), 240_000_000);
    }
}

/// `set` 0 leaves the hertz aside, also such as would be refused.
#[test]
fn unset_hertz_are_not_looked_at() {
    for hertz in [0, 1, 250_000_001, u32::MAX] {
        let (mut bus, mut output) = ([9; 2], [9; 3]);
        assert_eq!((raw::ahb(240_000_000, 0, hertz, &mut bus), bus), (0, [1, 240_000_000]));
        assert_eq!((raw::apb(240_000_000, 0, hertz, &mut bus), bus), (0, [1, 240_000_000]));
        assert_eq!((raw::mco(240_000_000, 0, hertz, &mut output), output), (0, [0, 0, 0]));
    }
}

/// What the numbers without a slice answer at their ends.
#[test]
fn ends() {
    for fracn in [0, 1, 8191, 8192, 65_535] {
        assert_eq!(raw::vco(1_000_000, 100, fracn), (1e6 * (100.0 + fracn as f32 / 8192.0)) as u32);
    }
    assert_eq!([raw::vco(1_000_000, 100, 65_536), raw::vco(1_000_000, 100, u32::MAX)], [0, 0]);
    // 99,999,992 gives less than 0, 100,999,880 just 8191 and 100,999,888 more
    let outputs = [99_999_992, 100_000_000, 100_999_880, 100_999_888];
    assert_eq!(outputs.map(|output| raw::fracn(1_000_000, 100, output, 1)), [8192, 0, 8191, 8192]);
    assert_eq!([raw::flash(0, 0), raw::flash(32_000_000, 4)], [255, 255]);
    assert_eq!(flash(0, Scale::Scale3), None);
}
