//! The place of the departures: what freeze did becomes what the planner has to answer. pwr.rs and reset_reason.rs have none.
use crate::judge::{self, Chip};
use hal::{Asked, Record, Run};

/// What the planner has to answer.
pub struct Expected {
    pub answer: Answer,
    /// The list's entries in order, a wait as often as it is shown, and the values read at each. Of a refusal those until then.
    pub record: Record,
}

pub enum Answer {
    /// A plan with these clocks, as the 55 words of a report.
    Plan([u32; 55]),
    /// A refusal with this number.
    Refusal(u32, Cause),
}

/// What the sources did where the planner has to refuse.
pub enum Cause {
    /// They panicked, with this text.
    Panic(String),
    /// They wrote this divider of P, which the manual forbids, and came to their end or not.
    Divider { divider: u64, ended: bool },
}

/// What the planner has to answer where `Rcc::freeze` did this. Whatever is compared with freeze comes from here: clocks, entries, bank
/// words, refusals, walks, leaves and the file of vectors. A request of the customer that departs from freeze changes this function and
/// nothing else.
///
/// Today: 14 or 15 where a forbidden divider of P was written, a refusal where freeze panicked, and else the run as it is. An error is a
/// run that fits none of these.
pub fn expected(run: Run<[u32; 55]>, asked: &Asked, chip: &Chip) -> Result<Expected, String> {
    let Run { ended, record } = run;
    let answer = match (judge::forbidden(asked, chip, &record)?, ended) {
        (Some((number, divider)), ended) => Answer::Refusal(number, Cause::Divider { divider, ended: ended.is_ok() }),
        (None, Err(text)) => Answer::Refusal(judge::refusal(asked, chip, &record, &text)?, Cause::Panic(text)),
        (None, Ok(report)) => Answer::Plan(report),
    };
    Ok(Expected { answer, record })
}

#[cfg(test)]
mod tests {
    use super::*;
    use hal::at;

    const EVEN: Chip = Chip { plls: 2, odd: [false; 3], hsion: true, hsidiv: 2 };

    /// PLL2 of HSI for P and Q; the run sets its P to a value.
    fn second(p: u32, q: u32, written: u32, ended: Result<[u32; 55], String>) -> Result<Expected, String> {
        let mut asked = Asked::default();
        asked.hertz[at::PLL[1]] = Some(p);
        asked.hertz[at::PLL[1] + 1] = Some(q);
        let record = Record { entries: vec![[1, 22, written, 0, 0, 0, 0, 0, 0]], reads: vec![[None, None]], reset_flags: None };
        expected(Run { ended, record }, &asked, &EVEN)
    }

    #[test]
    fn a_run_that_ends_is_kept() {
        let report: [u32; 55] = std::array::from_fn(|k| k as u32);
        let kept = second(100_000_000, 200_000_000, 3, Ok(report)).unwrap();
        assert!(matches!(kept.answer, Answer::Plan(words) if words == report));
        assert_eq!(kept.record.entries, [[1, 22, 3, 0, 0, 0, 0, 0, 0]]);
    }

    #[test]
    fn a_panic_is_a_refusal() {
        let refused = second(100_000_000, 200_000_000, 3, Err("Clock is too fast".into())).unwrap();
        assert!(matches!(refused.answer, Answer::Refusal(23, Cause::Panic(_))));
        assert!(second(100_000_000, 200_000_000, 3, Err("anything else".into())).is_err());
    }

    #[test]
    fn a_forbidden_divider_is_14_or_15() {
        let odd = second(80_000_000, 200_000_000, 4, Ok([0; 55])).unwrap();
        assert!(matches!(odd.answer, Answer::Refusal(15, Cause::Divider { divider: 5, ended: true })));
        let above = second(1_300_000, 167_180_000, 0, Err("Clock is too fast".into())).unwrap();
        assert!(matches!(above.answer, Answer::Refusal(14, Cause::Divider { divider: 257, ended: false })));
        assert!(second(1_300_000, 167_180_000, 1, Ok([0; 55])).is_err());
    }
}
