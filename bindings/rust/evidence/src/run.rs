//! Many cases from one seed. Each case draws from numbers of its own, so that one alone can be run
//! again.

use kovrelna_reference::generate::Random;
use std::any::Any;
use std::panic::{catch_unwind, AssertUnwindSafe};
use std::time::{Duration, Instant};

/// A case that failed.
#[derive(Debug, PartialEq, Eq)]
pub struct Disagreement {
    /// The case's number.
    pub case: u64,
    /// What differs, and on which input.
    pub what: String,
}

/// When to stop.
#[derive(Clone, Copy, Debug)]
pub enum Until {
    Cases(u64),
    Elapsed(Duration),
}

/// The numbers from which this case draws.
pub fn random(seed: u64, case: u64) -> Random {
    Random::new(Random::new(seed).bits() ^ case)
}

/// Runs case after case, beginning with case 0. After each, `after` is told how many have been run and
/// what differed in it, if anything. Returns how many were run.
pub fn run(
    seed: u64,
    until: Until,
    case: impl Fn(&mut Random),
    mut after: impl FnMut(u64, Option<Disagreement>),
) -> u64 {
    let begun = Instant::now();
    let mut cases = 0;
    while match until {
        Until::Cases(most) => cases < most,
        Until::Elapsed(most) => begun.elapsed() < most,
    } {
        let disagreement = one(seed, cases, &case);
        cases += 1;
        after(cases, disagreement);
    }
    cases
}

/// Runs one case: what differs in it, if anything.
pub fn one(seed: u64, number: u64, case: impl Fn(&mut Random)) -> Option<Disagreement> {
    let failed = catch_unwind(AssertUnwindSafe(|| case(&mut random(seed, number)))).err()?;
    Some(Disagreement {
        case: number,
        what: words(&*failed),
    })
}

/// What a check said when it failed.
fn words(failed: &(dyn Any + Send)) -> String {
    let words = failed.downcast_ref::<String>().cloned();
    words
        .or_else(|| failed.downcast_ref::<&str>().map(|words| words.to_string()))
        .unwrap_or_else(|| "a check failed".to_string())
}

#[cfg(test)]
mod tests {
    use super::*;

    /// A planted disagreement is found at its cases, and one of them alone fails again.
    #[test]
    fn planted() {
        let case = |random: &mut Random| {
            let number = random.below(100);
            assert!(number != 7, "the input is {number}");
        };
        let mut found = Vec::new();
        let cases = run(1, Until::Cases(1_000), case, |_, failed| {
            found.extend(failed)
        });
        assert_eq!(cases, 1_000);
        assert!((1..50).contains(&found.len()), "{found:?}");
        for failed in &found {
            assert_eq!(failed.what, "the input is 7");
            assert_eq!(one(1, failed.case, case).as_ref(), Some(failed));
        }
        let none = |_: u64, failed: Option<Disagreement>| assert_eq!(failed, None);
        run(1, Until::Cases(1_000), |_| (), none);
    }

    #[test]
    fn stops_in_time() {
        let mut told = 0;
        let cases = run(
            2,
            Until::Elapsed(Duration::from_millis(20)),
            |_| (),
            |n, _| told = n,
        );
        assert!(cases > 0 && told == cases);
        assert_eq!(run(2, Until::Cases(0), |_| (), |_, _| ()), 0);
    }
}
