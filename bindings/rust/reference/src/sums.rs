//! Two traces with kept lists, added: document 02, "Summed channels".

use crate::generate::Trace;
use crate::{list_refusal, trace_refusal, Fraction, Parts, Row};
use std::collections::BTreeSet;

/// A trace that is added to another, with a kept list of it.
#[derive(Clone, Debug)]
pub struct Summand {
    pub trace: Trace,
    pub list: Vec<u16>,
}

/// The values of the summed trace, and the joined list.
#[derive(Clone, Debug, PartialEq, Eq)]
pub struct Sum {
    pub values: Vec<i16>,
    pub list: Vec<u16>,
}

/// The first row that fits, or the sum. The two outputs have so many entries.
pub fn sum(first: &Summand, second: &Summand, rooms: (usize, usize)) -> Result<Sum, Row> {
    for Summand { trace, .. } in [first, second] {
        if let Some(row) = trace_refusal(&trace.ticks, &trace.values) {
            return Err(row);
        }
    }
    for Summand { trace, list } in [first, second] {
        if let Some(row) = list_refusal(trace.ticks.len(), list) {
            return Err(row);
        }
    }
    if let Some(sample) = mismatch(&first.trace.ticks, &second.trace.ticks) {
        return Err((17, sample as u64));
    }
    let samples = first.trace.ticks.len();
    let value = |trace: &Trace, k: usize| i128::from(trace.values[k]);
    let mut values = Vec::new();
    for k in 0..samples {
        let sum = value(&first.trace, k) + value(&second.trace, k);
        if !(-32_768..=32_767).contains(&sum) {
            return Err((18, k as u64));
        }
        values.push(sum as i16);
    }
    if rooms.0 < samples || rooms.1 < samples {
        return Err((10, samples as u64));
    }
    let either: BTreeSet<u16> = first.list.iter().chain(&second.list).copied().collect();
    Ok(Sum {
        values,
        list: either.into_iter().collect(),
    })
}

/// The first sample whose ticks differ, or that one of the two does not have.
fn mismatch(one: &[u32], two: &[u32]) -> Option<usize> {
    (0..one.len().max(two.len())).find(|&k| one.get(k) != two.get(k))
}

/// U1 + D1 + U2 + D2: the parts of both lists, together. With equal parts T1 and T2 that is 2 (T1 + T2).
pub fn bound(first: Parts, second: Parts) -> Fraction {
    first.sum().plus(second.sum())
}

#[cfg(test)]
mod tests {
    use super::*;
    use crate::generate::{summands, Random};
    use crate::{list_error, list_parts};

    /// A trace with ticks from 0 on.
    fn even(values: &[i16], list: &[u16]) -> Summand {
        let trace = Trace {
            ticks: (0..values.len() as u32).collect(),
            values: values.to_vec(),
        };
        Summand {
            trace,
            list: list.to_vec(),
        }
    }

    fn error(Summand { trace, list }: &Summand) -> Fraction {
        list_error(&trace.ticks, &trace.values, list)
    }

    fn parts(Summand { trace, list }: &Summand) -> Parts {
        list_parts(&trace.ticks, &trace.values, list)
    }

    fn fraction(p: i128, q: i128) -> Fraction {
        Fraction { p, q }
    }

    /// The errors of the first list, of the second and of the joined one; then 2 (T1 + T2), and the parts of
    /// both lists together. A joined list that is not within T1 + T2, one that is at both bounds, and one that
    /// is at the second alone.
    #[test]
    fn figures() {
        type Case<'a> = (Summand, Summand, &'a [i16], &'a [u16], [Fraction; 5]);
        let cases: [Case; 3] = [
            (
                even(&[0, 0, 1, 1], &[0, 3]),
                even(&[0, -1, 0, 1], &[0, 1, 3]),
                &[0, -1, 1, 2],
                &[0, 1, 3],
                [(1, 3), (0, 1), (1, 2), (2, 3), (2, 3)].map(|(p, q)| fraction(p, q)),
            ),
            (
                even(&[-6, -6, 0, 6, -6], &[0, 1, 3, 4]),
                even(&[3, 4, 2, 4, 3], &[0, 4]),
                &[-3, -2, 2, 10, -3],
                &[0, 1, 3, 4],
                [(0, 1), (1, 1), (2, 1), (2, 1), (2, 1)].map(|(p, q)| fraction(p, q)),
            ),
            (
                even(&[-6, -6, 0, 6, -6], &[0, 1, 3, 4]),
                even(&[3, 5, 2, 5, 3], &[0, 4]),
                &[-3, -1, 2, 11, -3],
                &[0, 1, 3, 4],
                [(0, 1), (2, 1), (3, 1), (4, 1), (3, 1)].map(|(p, q)| fraction(p, q)),
            ),
        ];
        for (first, second, values, list, [t1, t2, joined, twice, at_most]) in cases {
            assert_eq!([error(&first), error(&second)], [t1, t2]);
            assert_eq!(bound(t1.into(), t2.into()).lowest(), twice);
            assert_eq!(bound(parts(&first), parts(&second)).lowest(), at_most);
            let samples = values.len();
            let found = sum(&first, &second, (samples, samples)).unwrap();
            assert_eq!((&found.values[..], &found.list[..]), (values, list));
            assert_eq!(error(&even(&found.values, &found.list)), joined);
        }
    }

    /// Each row before the next.
    #[test]
    fn rows() {
        let mut pair = [(); 2].map(|_| even(&[0, 1, 2], &[1]));
        let row = |[first, second]: &[Summand; 2], rooms| sum(first, second, rooms).unwrap_err();
        pair[0].trace.values[2] = 32_767;
        pair[1].trace.ticks = vec![0, 2, 1];
        assert_eq!(row(&pair, (0, 0)), (2, 2));
        pair.swap(0, 1);
        assert_eq!(row(&pair, (0, 0)), (2, 2));
        pair.swap(0, 1);
        pair[1].trace.ticks = vec![0, 1];
        assert_eq!(row(&pair, (0, 0)), (1, 0));
        pair[1].trace.values.pop();
        assert_eq!(row(&pair, (0, 0)), (6, 0));
        pair[0].list = vec![0, 2];
        pair[1].list = vec![0, 2];
        assert_eq!(row(&pair, (0, 0)), (6, 1));
        pair[1].list = vec![0, 1];
        assert_eq!(row(&pair, (0, 0)), (17, 2));
        pair[1] = even(&[0, 1, 1], &[0, 2]);
        assert_eq!(row(&pair, (0, 0)), (18, 2));
        pair[1].trace.ticks = vec![0, 1, 3];
        assert_eq!(row(&pair, (0, 0)), (17, 2));
        pair[1] = even(&[0, 1, 0], &[0, 2]);
        assert_eq!(row(&pair, (2, 3)), (10, 3));
        assert_eq!(row(&pair, (3, 2)), (10, 3));
    }

    #[test]
    fn mismatches() {
        let ticks = [3, 5, 7, 9];
        assert_eq!(mismatch(&ticks, &ticks), None);
        for k in 0..4 {
            let mut other = ticks;
            other[k] += 1;
            for short in k + 1..=4 {
                assert_eq!(mismatch(&ticks, &other[..short]), Some(k));
                assert_eq!(mismatch(&other[..short], &ticks), Some(k));
            }
            assert_eq!(mismatch(&ticks[..k], &ticks), Some(k));
            assert_eq!(mismatch(&ticks, &ticks[..k]), Some(k));
        }
    }

    /// The joined list has exactly the samples in either list, in rising order, and each sum is that of its
    /// sample.
    #[test]
    fn sample_by_sample() {
        let random = &mut Random::new(17);
        let mut answered = 0;
        for _ in 0..4_000 {
            let samples = random.within(1, 20) as usize;
            let [first, second] = &summands(samples, random);
            let Ok(found) = sum(first, second, (samples, samples)) else {
                continue;
            };
            let either = |k: &u16| first.list.contains(k) || second.list.contains(k);
            let list: Vec<u16> = (0..samples as u16).filter(either).collect();
            assert_eq!(found.list, list);
            for k in 0..samples {
                let parts = [first, second].map(|summand| i32::from(summand.trace.values[k]));
                assert_eq!(i32::from(found.values[k]), parts[0] + parts[1]);
            }
            answered += 1;
        }
        assert!(answered > 2_000, "{answered}");
    }
}
