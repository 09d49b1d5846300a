//! Slices of every other length: refused, and no word of them or beside them is changed.
use clock_api::{raw, Chip, Request};

const GUARD: usize = 16;
const WORD: u32 = 0x5AA5_A55A;

/// Lends so many words between others; what the call answers, and that no word is changed.
fn lent(length: usize, call: impl FnOnce(&mut [u32]) -> u32) -> u32 {
    let mut words = vec![WORD; length + 2 * GUARD];
    let answer = call(&mut words[GUARD..GUARD + length]);
    assert!(words.iter().all(|word| *word == WORD), "{length} words lent, and one in or beside them is changed");
    answer
}

/// None, one, one less and one more than the right number, and many more.
fn others(right: usize) -> [usize; 5] {
    [0, 1, right - 1, right + 1, 3 * right + 5]
}

fn asked() -> (Vec<u8>, [u8; raw::CHIP]) {
    let chip = Chip::two_plls();
    (Request { system: Some(250_000_000), ..Request::default() }.to_bytes(&chip).to_vec(), chip.to_bytes())
}

#[test]
fn what_is_lent_to_the_calls() {
    let (request, chip) = asked();
    for length in others(raw::REPORT) {
        assert_eq!(lent(length, |words| raw::plan(&request, &chip, words)), 1, "a report of {length}");
    }
    for length in others(raw::LIST) {
        assert_eq!(lent(length, |words| raw::entries(&request, &chip, words)), 1, "a list of {length}");
    }
    for length in others(raw::BANK) {
        assert_eq!(lent(length, |words| raw::bank(&request, &chip, words)), 2, "a bank of {length}");
    }
    for length in others(raw::REPORT) {
        let answer = lent(length, |report| lent(raw::BANK, |bank| raw::plan_bank(&request, &chip, report, bank)));
        assert_eq!(answer, 1, "a report of {length} beside a bank");
    }
    for length in others(raw::BANK) {
        let answer = lent(raw::REPORT, |report| lent(length, |bank| raw::plan_bank(&request, &chip, report, bank)));
        assert_eq!(answer, 2, "a bank of {length} beside a report");
    }
    for length in others(raw::PLL_REGISTERS) {
        assert_eq!(lent(length, |words| raw::pll_registers(&request, &chip, words)), 1, "registers of {length}");
    }
}

/// Slices of the right length: the words beside them stay, and so do those behind a list's last entry, the fields that no entry sets and the
/// registers of a third PLL.
#[test]
fn what_stays() {
    let (request, chip) = asked();
    let stored = |length: usize, call: &dyn Fn(&mut [u32]) -> u32| {
        let mut words = vec![WORD; length + 2 * GUARD];
        assert_eq!(call(&mut words[GUARD..GUARD + length]), 0);
        let (before, behind) = (&words[..GUARD], &words[GUARD + length..]);
        assert!(before.iter().chain(behind).all(|word| *word == WORD), "a word beside {length} is changed");
        words[GUARD..GUARD + length].to_vec()
    };
    let report = stored(raw::REPORT, &|words| raw::plan(&request, &chip, words));
    assert!(report.iter().all(|word| *word != WORD));
    let list = stored(raw::LIST, &|words| raw::entries(&request, &chip, words));
    let (entries, behind) = list[1..].split_at(9 * list[0] as usize);
    assert!(entries.iter().all(|word| *word != WORD) && behind.iter().all(|word| *word == WORD));
    let bank = stored(raw::BANK, &|words| raw::bank(&request, &chip, words));
    for (field, word) in bank.iter().enumerate() {
        let sets = |nine: &[u32]| nine[0] == 1 && nine[1..].chunks(2).any(|pair| pair[0] == field as u32 + 1);
        assert_eq!(*word != WORD, entries.chunks(9).any(sets), "field {field}");
    }
    let registers = stored(raw::PLL_REGISTERS, &|words| raw::pll_registers(&request, &chip, words));
    assert!(registers[..6].iter().all(|word| *word != WORD) && registers[6..] == [WORD; 3]);
}

#[test]
fn requests_and_chips() {
    let (request, chip) = asked();
    let long = [&request[..], &[0; 200]].concat();
    for length in others(request.len()) {
        for call in [raw::plan, raw::entries, raw::bank, raw::pll_registers] {
            for words in [raw::REPORT, raw::LIST, raw::BANK, raw::PLL_REGISTERS] {
                assert_eq!(lent(words, |words| call(&long[..length], &chip, words)), 1, "a request of {length}");
            }
        }
    }
    let long = [&chip[..], &[0; 64]].concat();
    for length in others(chip.len()) {
        let chip = &long[..length];
        assert_eq!(lent(raw::REPORT, |words| raw::plan(&request, chip, words)), 1, "a chip of {length}");
        assert_eq!(lent(raw::LIST, |words| raw::entries(&request, chip, words)), 1, "a chip of {length}");
        assert_eq!(lent(raw::BANK, |words| raw::bank(&request, chip, words)), 1, "a chip of {length}");
        assert_eq!(lent(raw::PLL_REGISTERS, |words| raw::pll_registers(&request, chip, words)), 1, "a chip of {length}");
    }
}

#[test]
fn what_is_lent_to_the_leaves() {
    let part = [0; raw::PART];
    for length in others(raw::PLL) {
        assert_eq!(lent(length, |words| raw::pll(1, 32_000_000, &part, words)), 1);
    }
    for length in others(raw::PART) {
        assert_eq!(lent(raw::PLL, |words| raw::pll(1, 32_000_000, &[0; 64][..length], words)), 1);
    }
    for length in others(2) {
        assert_eq!(lent(length, |words| raw::ahb(32_000_000, 0, 0, words)), 1);
        assert_eq!(lent(length, |words| raw::apb(32_000_000, 0, 0, words)), 1);
    }
    for length in others(3) {
        assert_eq!(lent(length, |words| raw::mco(32_000_000, 0, 0, words)), 1);
        assert_eq!(lent(length, |words| raw::reset_reason(2, 0, words)), 1);
    }
}

/// Numbers outside their codes, in slices of the right length: refused likewise.
#[test]
fn what_the_leaves_are_told() {
    for other in [2, 3, 256, u32::MAX] {
        assert_eq!(lent(raw::PLL, |words| raw::pll(other, 32_000_000, &[0; raw::PART], words)), 1);
        assert_eq!(lent(2, |words| raw::ahb(32_000_000, other, 32_000_000, words)), 1);
        assert_eq!(lent(2, |words| raw::apb(32_000_000, other, 32_000_000, words)), 1);
        assert_eq!(lent(3, |words| raw::mco(32_000_000, other, 32_000_000, words)), 1);
    }
    for plls in [0, 1, 4, u32::MAX] {
        assert_eq!(lent(3, |words| raw::reset_reason(plls, 0, words)), 1);
    }
    // refused by what was asked for
    assert_eq!(lent(2, |words| raw::ahb(32_000_000, 1, 0, words)), 18);
    assert_eq!(lent(2, |words| raw::ahb(100, 1, 1, words)), 19);
    assert_eq!(lent(2, |words| raw::apb(32_000_000, 1, 0, words)), 18);
    assert_eq!(lent(3, |words| raw::mco(32_000_000, 1, 0, words)), 22);
    assert_eq!(lent(3, |words| raw::mco(32_000_000, 1, 1, words)), 23);
}

/// A walk has no wrong length: it stores as much as there is room and values for, nine words each.
#[test]
fn what_is_lent_to_the_walks() {
    let (request, chip) = asked();
    let reads = [1; 40];
    let walks: [&dyn Fn(&[u32], &mut [u32]) -> usize; 2] =
        [&|reads, shown| raw::walk(&request, &chip, reads, shown), &|reads, shown| raw::voltage_walk(0, reads, shown)];
    for walk in walks {
        for room in [0, 1, 8, 9, 10, 17, 18, 100, 400] {
            for values in [0, 1, 2, 3, 39, 40] {
                let mut words = vec![WORD; room + 2 * GUARD];
                let stored = walk(&reads[..values], &mut words[GUARD..GUARD + room]);
                assert_eq!(stored, (room / 9).min(values / 2 + 1));
                let (before, behind) = (&words[..GUARD], &words[GUARD + 9 * stored..]);
                assert!(before.iter().chain(behind).all(|word| *word == WORD), "{room} words, {values} values");
            }
        }
    }
}
