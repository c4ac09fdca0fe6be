//! The live view of a trace that grows: document 02, "Live view".

use crate::{least_of, least_of_all, link_error, list_refusal, trace_refusal, Fraction, Row};

/// The greatest k.
pub const K: u32 = 32;
/// The entries of a state: both ends and 2 k inner samples at the greatest k.
pub const ENTRIES: usize = 66;

/// The state of a view. Its list is the first `count` entries.
#[derive(Clone, Debug, PartialEq, Eq)]
pub struct State {
    pub k: u32,
    pub count: u32,
    pub entries: [u16; ENTRIES],
}

impl State {
    /// The list, if the count is not above the entries.
    pub fn list(&self) -> Option<&[u16]> {
        self.entries.get(..self.count as usize)
    }

    /// The state with another list; entries behind it stay.
    pub fn with_list(&self, list: &[u16]) -> State {
        let mut state = self.clone();
        state.count = list.len() as u32;
        state.entries[..list.len()].copy_from_slice(list);
        state
    }

    /// The list, if k is in range and this is a kept list of a trace with so many samples that has at most
    /// 2 k inner samples.
    pub fn view_of(&self, samples: usize) -> Option<&[u16]> {
        let list = self.list()?;
        let last = samples.checked_sub(1)?;
        let inner = list.iter().filter(|&&k| k != 0 && usize::from(k) != last);
        let few = inner.count() as u64 <= 2 * u64::from(self.k);
        (self.k <= K && list_refusal(samples, list).is_none() && few).then_some(list)
    }
}

/// Row 20, or the view of the first sample with this k.
pub fn begin(k: u64) -> Result<State, Row> {
    if k > K.into() {
        return Err((20, 0));
    }
    let none = State {
        k: k as u32,
        count: 0,
        entries: [0; ENTRIES],
    };
    Ok(none.with_list(&[0]))
}

/// The first row that fits, or the state once the last sample of the trace has been added to it.
pub fn add(state: &State, ticks: &[u32], values: &[i16]) -> Result<State, Row> {
    if let Some(row) = trace_refusal(ticks, values) {
        return Err(row);
    }
    let last = ticks.len() - 1;
    let mut list = state.view_of(last).ok_or((20, 0))?.to_vec();
    list.push(last as u16);
    let inner = 1..list.len() - 1;
    if inner.len() == 2 * state.k as usize + 1 {
        let errors = inner.map(|at| {
            let neighbours = (list[at - 1].into(), list[at + 1].into());
            (at, link_error(ticks, values, neighbours.0, neighbours.1))
        });
        let errors: Vec<(usize, Fraction)> = errors.collect();
        let least =
            least_of(errors.iter().map(|&(_, error)| error)).expect("there is an inner sample");
        let earliest = errors.iter().find(|(_, error)| error.at_most(least));
        let &(dropped, _) = earliest.expect("some error is the least");
        list.remove(dropped);
    }
    Ok(state.with_list(&list))
}

/// The least error of all kept lists with at most so many inner samples. Tries each.
pub fn least_error(ticks: &[u32], values: &[i16], inner: usize) -> Fraction {
    least_of_all(ticks, values, None, inner + 2).expect("the ends are a kept list")
}

#[cfg(test)]
mod tests {
    use super::*;
    use crate::list_error;

    const EIGHT: [u32; 8] = [0, 1, 2, 3, 4, 5, 6, 7];

    fn fraction(p: i128, q: i128) -> Fraction {
        Fraction { p, q }
    }

    /// The lists after each sample.
    fn lists(k: u64, ticks: &[u32], values: &[i16]) -> Vec<Vec<u16>> {
        let mut state = begin(k).unwrap();
        let mut lists = vec![state.list().unwrap().to_vec()];
        for n in 2..=ticks.len() {
            state = add(&state, &ticks[..n], &values[..n]).unwrap();
            lists.push(state.list().unwrap().to_vec());
        }
        lists
    }

    /// The examples of document 02: an error that is twice the least, one that is more than twice the least
    /// with an inner sample more, and a state set by hand.
    #[test]
    fn figures() {
        let values = [-4, -4, 0, 4, -4, 4, -4, 0];
        let expected: [&[u16]; 8] = [
            &[0],
            &[0, 1],
            &[0, 1, 2],
            &[0, 1, 2, 3],
            &[0, 1, 3, 4],
            &[0, 3, 4, 5],
            &[0, 4, 5, 6],
            &[0, 4, 5, 7],
        ];
        assert_eq!(lists(1, &EIGHT, &values), expected);
        assert_eq!(list_error(&EIGHT, &values, expected[7]), fraction(8, 1));
        assert_eq!(least_error(&EIGHT, &values, 1), fraction(4, 1));

        let (ticks, values) = ([0, 3, 6, 8, 9, 11, 13, 14], [-7, 4, 11, 15, 27, 31, 23, 16]);
        let list = &lists(1, &ticks, &values)[7];
        assert_eq!(list_error(&ticks, &values, list), fraction(74, 9));
        assert_eq!(least_error(&ticks, &values, 1), fraction(62, 11));
        assert_eq!(least_error(&ticks, &values, 2), fraction(4, 1));

        let values = [0, 1, 0, -1];
        let set = begin(1).unwrap().with_list(&[0, 2]);
        let state = add(&set, &EIGHT[..4], &values).unwrap();
        assert_eq!(state, set.with_list(&[0, 2, 3]));
        assert_eq!(list_error(&EIGHT[..4], &values, &[0, 2, 3]), fraction(1, 1));
        assert_eq!(least_error(&EIGHT[..4], &values, 1), fraction(0, 1));
    }

    /// Both ends alone, every sample, and the earliest of equals.
    #[test]
    fn which_are_kept() {
        let zigzag = [0, 3, 0, 3, 0, 3, 0, 3];
        assert_eq!(lists(0, &EIGHT, &zigzag)[7], [0, 7]);
        assert_eq!(lists(3, &EIGHT, &zigzag)[7], [0, 1, 2, 3, 4, 5, 6, 7]);
        assert_eq!(lists(1, &EIGHT, &zigzag)[4], [0, 2, 3, 4]);
        assert_eq!(lists(1, &EIGHT, &[0; 8])[7], [0, 5, 6, 7]);
    }

    /// Each row before the next; entries behind the list stay.
    #[test]
    fn rows() {
        assert_eq!(begin(33), Err((20, 0)));
        assert_eq!(begin(1 << 32), Err((20, 0)));
        assert!(begin(32).is_ok());
        let mut state = begin(1).unwrap();
        state.entries[5..].fill(9);
        let state = state.with_list(&[0, 1, 2]);
        let row = |state: &State, ticks: &[u32]| add(state, ticks, &[0; 4]).unwrap_err();
        let none = State {
            k: 33,
            ..state.clone()
        };
        assert_eq!(row(&none, &[0, 1, 1 << 20]), (1, 0));
        assert_eq!(row(&none, &[0, 1 << 20, 1 << 21, 1 << 21]), (2, 3));
        assert_eq!(row(&none, &[0, 1, 2, 1 << 20]), (3, 3));
        assert_eq!(row(&none, &EIGHT[..4]), (20, 0));
        for list in [
            &[][..],
            &[0],
            &[0, 1],
            &[1, 2],
            &[0, 2, 2],
            &[0, 3],
            &[0, 1, 2, 3],
        ] {
            assert_eq!(row(&state.with_list(list), &EIGHT[..4]), (20, 0));
        }
        let ends = State {
            k: 0,
            ..state.clone()
        };
        assert_eq!(row(&ends, &EIGHT[..4]), (20, 0));
        let beyond = State {
            count: 67,
            ..state.clone()
        };
        assert_eq!(row(&beyond, &EIGHT[..4]), (20, 0));
        assert_eq!(add(&begin(1).unwrap(), &[7], &[7]), Err((20, 0)));
        let added = add(&state, &EIGHT[..4], &[0; 4]).unwrap();
        assert_eq!(added, state.with_list(&[0, 1, 2, 3]));
        assert_eq!(added.entries[4..6], [0, 9]);
    }
}
