//! What holds of views beyond their definition. A check that fails panics, with its input.

use crate::compare::{view_add, view_begin};
use kovrelna::GAP_MAX;
use kovrelna_reference::generate::Trace;
use kovrelna_reference::views::{least_error, State};
use kovrelna_reference::{list_error, Fraction, LEAST_SAMPLES, TRIED};

/// The samples from 0 to n - 1.
fn first(Trace { ticks, values }: &Trace, n: usize) -> Trace {
    Trace {
        ticks: ticks[..n].to_vec(),
        values: values[..n].to_vec(),
    }
}

/// Adds the samples of the trace to the state, from the one after its last on, and tells `after` of the trace
/// so far and of the state, after each. Returns the last state.
pub fn grow(trace: &Trace, state: &State, mut after: impl FnMut(&Trace, &State)) -> State {
    let mut state = state.clone();
    let last = state.list().and_then(|list| list.last());
    let from = usize::from(*last.expect("the list of a view has a sample")) + 2;
    for n in from..=trace.ticks.len() {
        let so_far = first(trace, n);
        let added = view_add(&state, &so_far.ticks, &so_far.values);
        state = added.unwrap_or_else(|row| panic!("refused {row:?} {state:?} {so_far:?}"));
        after(&so_far, &state);
    }
    state
}

/// The view of a trace that has grown from its first sample on: it has both ends, and after each sample as
/// many samples as there may be. Returns its state.
pub fn grown(trace: &Trace, k: u32, mut after: impl FnMut(&Trace, &State)) -> State {
    let begun = view_begin(k.into()).unwrap();
    grow(trace, &begun, |so_far, state| {
        let samples = so_far.ticks.len();
        let list = state.view_of(samples);
        let kept = list.map(<[u16]>::len);
        let most = 2 * k as usize + 2;
        assert_eq!(kept, Some(samples.min(most)), "{state:?} {so_far:?}");
        after(so_far, state);
    })
}

/// The error of a view that has grown with this trace is at most twice the least error with at most k inner
/// samples: that of least, and for a short trace that of all such lists. Returns both.
pub fn within_twice(trace: &Trace, state: &State) -> (Fraction, Fraction) {
    let Trace { ticks, values } = trace;
    let samples = ticks.len();
    assert!(samples <= LEAST_SAMPLES);
    let list = state.list().expect("a view has a list");
    let error = list_error(ticks, values, list);
    let mut out = vec![0; samples];
    let allowance = u64::from(state.k) + 2;
    let least = kovrelna::least(ticks, values, GAP_MAX, allowance, &mut out).unwrap();
    let least = Fraction {
        p: least.error.p.into(),
        q: least.error.q.into(),
    };
    if samples <= TRIED {
        let tried = least_error(ticks, values, state.k as usize);
        assert_eq!(tried, least, "{state:?} {trace:?}");
    }
    assert!(error.half().at_most(least), "{state:?} {trace:?}");
    (error, least)
}
