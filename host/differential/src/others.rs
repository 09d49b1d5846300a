//! The voltage walk, the reset reason, and the leaves.
use crate::compare::{values, walked};
use crate::departures::{expected, Answer};
use crate::judge::Chip;
use clock_api::{raw, Scale};
use hal::{at, Asked, Record, State, VARIANTS};
use requests::Random;

type Checked<T> = Result<T, String>;

const SCALES: [Scale; 4] = [Scale::Scale0, Scale::Scale1, Scale::Scale2, Scale::Scale3];

/// Each target, each ACTVOS, flags late or not: how many walks.
pub fn voltage(random: &mut Random) -> Checked<u64> {
    let mut count = 0;
    for variant in VARIANTS {
        for (target, actvos) in (0..16u32).map(|k| (k / 4, k % 4)) {
            for late in 0..4 {
                let state = State { actvos, misses: vec![late, late / 2], ..State::default() };
                let run = variant.voltage(target as u8, &state);
                if run.ended != Ok(target as u8) {
                    return Err(format!("the Rust reports {:?} for the target {target}", run.ended));
                }
                let reads = values(&run.record, 2, random);
                let by_c = |shown: &mut [u32]| raw::voltage_walk(target, reads.concat().as_slice(), shown);
                let by_wrapper = |shown: &mut [[u32; 9]]| clock_api::voltage_walk(SCALES[target as usize], &reads, shown);
                walked(&run.record.entries, [0; 9], reads.len(), by_c, Some(by_wrapper))
                    .map_err(|what| format!("voltage walk to {target} from ACTVOS {actvos}: {what}"))?;
                count += 1;
            }
        }
    }
    for target in [4, 5, 255, u32::MAX] {
        let mut shown = [0; 18];
        let told = raw::voltage_walk(target, &[1, 0], &mut shown);
        if told != 2 || shown.chunks(9).any(|nine| nine != [5, 1, 0, 0, 0, 0, 0, 0, 0]) {
            return Err(format!("voltage walk to {target}: {told} {shown:?}"));
        }
    }
    Ok(count)
}

/// All sets of the six flags, with other bits, on both chips: how many words.
pub fn reset(random: &mut Random) -> Checked<u64> {
    let mut count = 0;
    for variant in VARIANTS {
        for flags in 0..64u32 {
            for k in 0..8 {
                let others = [0, 1 << 23, (1 << 26) - 1, random.u32() >> 6][k % 4];
                let word = flags << 26 | others;
                let run = variant.reset_reason(&State { reset_flags: word, ..State::default() });
                let (reason, raw_word) = run.ended?;
                let mut out = [0; 3];
                let told = raw::reset_reason(variant.plls.into(), word, &mut out);
                let same =
                    told == 0 && out[0] == reason && raw_word.map_or(true, |raw| raw == out[1]) && Some(out[2]) == run.record.reset_flags;
                if !same {
                    let rust = format!("reason {reason}, raw {raw_word:x?}, written {:x?}", run.record.reset_flags);
                    return Err(format!("reset flags {word:#x} on {} PLLs: the Rust {rust}; the planner {told} {out:x?}", variant.plls));
                }
                count += 1;
            }
        }
    }
    for plls in [0, 1, 4, u32::MAX] {
        let mut out = [9; 3];
        let told = raw::reset_reason(plls, random.u32(), &mut out);
        if told != 1 || out != [9; 3] {
            return Err(format!("reset flags on {plls} PLLs: {told} {out:?}"));
        }
    }
    Ok(count)
}

/// Wait states around every whole megahertz, by HSE alone, at each scale: how many.
pub fn flash() -> Checked<u64> {
    let variant = VARIANTS.first().ok_or("no variant")?;
    let mut count = 0;
    for scale in 0..4u8 {
        for ahb in (0..270).flat_map(|column| [1_000_000 * column, 1_000_000 * column + 1]).chain([u32::MAX - 1, u32::MAX]) {
            let mut asked = Asked { scale, ..Asked::default() };
            asked.hertz[at::HSE] = Some(ahb);
            let run = variant.run(&asked, &State::default(), Record::default());
            let expected = expected(run, &asked, &Chip::of(variant))?;
            let set = expected.record.entries.iter().find(|entry| entry[1] == 48);
            let wanted = match (expected.answer, set) {
                (Answer::Plan(_), Some(entry)) => entry[4] + 8 * entry[2],
                (Answer::Refusal(..), None) => 255,
                _ => return Err(format!("HSE {ahb} alone, scale {scale}: neither a plan with wait states nor a refusal without")),
            };
            let told = raw::flash(ahb, scale.into());
            if told != wanted {
                return Err(format!("clock_flash({ahb}, {scale}) is {told}, the Rust's {wanted}"));
            }
            count += 1;
        }
    }
    match [4, 5, 255, u32::MAX].iter().find(|scale| raw::flash(32_000_000, **scale) != 255) {
        None => Ok(count),
        Some(scale) => Err(format!("clock_flash(32000000, {scale}) is not 255")),
    }
}

/// FRACN and VCO against this machine's f32, each operation rounded once: how many.
pub fn leaves(random: &mut Random, count: u64) -> Checked<u64> {
    for _ in 0..count {
        let reference = if random.one_in(4) { random.any_length() } else { 1_000_000 + random.below(15_000_001) };
        let n = if random.one_in(4) { random.any_length() } else { 4 + random.below(509) };
        let divider = if random.one_in(4) { random.any_length() } else { 1 + random.below(128) };
        let near = (u64::from(reference) * u64::from(n) / u64::from(divider.max(1))) as u32;
        let output = if random.one_in(4) { random.any_length() } else { near.wrapping_add(random.below(reference / divider.max(1) + 2)) };
        let fracn = 8192.0f32 * (((output as f32 * divider as f32) / reference as f32) - n as f32);
        let wanted = if (0.0..=8191.0).contains(&fracn) { fracn as u32 } else { 8192 };
        let told = raw::fracn(reference, n, output, divider);
        if told != wanted {
            return Err(format!("clock_fracn({reference}, {n}, {output}, {divider}) is {told}; f32 gives {wanted} ({fracn})"));
        }
        let fracn = random.below(8192);
        let wanted = (reference as f32 * (n as f32 + (fracn as f32 / 8192.0))) as u32;
        let told = raw::vco(reference, n, fracn);
        if told != wanted {
            return Err(format!("clock_vco({reference}, {n}, {fracn}) is {told}; f32 gives {wanted}"));
        }
    }
    Ok(count)
}
