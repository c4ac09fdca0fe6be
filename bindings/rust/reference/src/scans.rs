//! The scan of a trace at several tolerances: document 02, "Sixteen tolerances in one reading".

use crate::{check_gap, held, reduce, trace_refusal, Form, Limits, Method, Row};

/// The most tolerances of a scan.
pub const TOLERANCES: usize = 16;

/// The first row that fits, or walk's list at each tolerance. The output has `room` entries.
pub fn scan(
    ticks: &[u32],
    values: &[i16],
    tolerances: &[Form],
    gap: Option<u32>,
    room: usize,
) -> Result<Vec<Vec<u16>>, Row> {
    if let Some(row) = trace_refusal(ticks, values) {
        return Err(row);
    }
    if tolerances.is_empty() || tolerances.len() > TOLERANCES {
        return Err((19, 0));
    }
    if let Some(position) = tolerances.iter().position(|&form| held(form).is_none()) {
        return Err((4, position as u64));
    }
    check_gap(gap)?;
    let samples = ticks.len();
    let needed = tolerances.len() * samples;
    if room < needed {
        return Err((10, needed as u64));
    }
    let list = |&tolerance: &Form| {
        let limits = Limits { tolerance, gap };
        let reduced = reduce(Method::Walk, ticks, values, limits, samples)?;
        Ok(reduced.list)
    };
    tolerances.iter().map(list).collect()
}

/// Walk's stops that are fixed once sample j has been taken in, closed with sample j: a stop is fixed by the
/// sample after it, to which the link is invalid. Sample 0 stands before them.
pub fn closed(list: &[u16], j: u16) -> Vec<u16> {
    let fixed = list.iter().copied().filter(|&sample| sample < j);
    fixed.chain([j]).collect()
}

#[cfg(test)]
mod tests {
    use super::*;

    const EVEN: [u32; 5] = [0, 1, 2, 3, 4];
    const ZIGZAG: [i16; 5] = [0, 3, 0, 3, 0];

    /// The first figures of document 01, at once and in either order.
    #[test]
    fn figures() {
        let (all, ends) = (vec![0, 1, 2, 3, 4], vec![0, 4]);
        let (two, three) = (Form::Ratio(2, 1), Form::Counts(3.0));
        let lists = |tolerances: &[Form]| scan(&EVEN, &ZIGZAG, tolerances, None, 10).unwrap();
        assert_eq!(lists(&[two, three]), [all.clone(), ends.clone()]);
        assert_eq!(lists(&[three, two]), [ends.clone(), all]);
        assert_eq!(lists(&[three]), [ends]);
        let unequal = |above, below| Form::Parts((above, 1), (below, 1));
        let parted = lists(&[unequal(3, 0), unequal(0, 3)]);
        assert_eq!(parted, [&[0, 2, 4][..], &[0, 1, 3, 4]]);
    }

    /// Each row before the next.
    #[test]
    fn rows() {
        let (good, bad) = (Form::Ratio(1, 1), Form::Noise(1.0, -1.0));
        let row = |ticks: &[u32], tolerances: &[Form], gap, room| {
            scan(ticks, &ZIGZAG, tolerances, gap, room).unwrap_err()
        };
        assert_eq!(row(&EVEN[1..], &[], Some(0), 0), (1, 0));
        assert_eq!(row(&[0, 1, 2, 2, 9], &[], Some(0), 0), (2, 3));
        assert_eq!(row(&[0, 1, 2, 3, 1 << 20], &[], Some(0), 0), (3, 4));
        assert_eq!(row(&EVEN, &[], Some(0), 0), (19, 0));
        assert_eq!(row(&EVEN, &[bad; 17], Some(0), 0), (19, 0));
        assert_eq!(row(&EVEN, &[bad; 16], Some(0), 0), (4, 0));
        assert_eq!(row(&EVEN, &[good, good, bad, bad], Some(0), 0), (4, 2));
        for bad in [Form::Parts((1, 0), (1, 1)), Form::Parts((1, 1), (1, 0))] {
            assert_eq!(row(&EVEN, &[good, bad, bad], Some(0), 0), (4, 1));
        }
        assert_eq!(row(&EVEN, &[good; 16], Some(0), 0), (15, 0));
        assert_eq!(row(&EVEN, &[good; 16], Some(1), 79), (10, 80));
        assert!(scan(&EVEN, &ZIGZAG, &[good; 16], Some(1), 80).is_ok());
    }

    /// The lists so far of values 0 0 0 5 10: the stop at sample 2 is fixed by sample 3.
    #[test]
    fn closed_lists() {
        let list = [0, 2, 4];
        assert_eq!(closed(&list, 1), [0, 1]);
        assert_eq!(closed(&list, 2), [0, 2]);
        assert_eq!(closed(&list, 3), [0, 2, 3]);
        assert_eq!(closed(&list, 4), list);
        let bend = [0, 0, 0, 5, 10];
        for j in 1..5 {
            let lists = scan(&EVEN[..=j], &bend[..=j], &[Form::Ratio(0, 1)], None, 5);
            assert_eq!(lists, Ok(vec![closed(&list, j as u16)]));
        }
    }
}
