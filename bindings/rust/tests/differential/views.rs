//! Views of traces that grow: the examples, random traces, every small one, those of every kind and shape, the
//! longest, ties, and states set by hand; and the bound of the error of a view that was begun.

use kovrelna::{View, VIEW_K_MAX, VIEW_SAMPLES_MAX};
use kovrelna_evidence::calls::Call;
use kovrelna_evidence::cases::traces_viewed;
use kovrelna_evidence::compare::{view_add, view_begin};
use kovrelna_evidence::views::{grow, grown, within_twice};
use kovrelna_reference::generate::{
    adversarial, growing, repeated, tied, trace, view_k, view_state, Kind, Random, Shape, Trace,
    KINDS, SHAPES,
};
use kovrelna_reference::views::{least_error, ENTRIES, K};
use kovrelna_reference::{list_error, Fraction, LEAST_SAMPLES, SAMPLES, SPAN, TRIED};

use crate::small_traces;

/// A trace at ticks 0, 1, ..
fn even(values: &[i16]) -> Trace {
    Trace {
        ticks: (0..values.len() as u32).collect(),
        values: values.to_vec(),
    }
}

/// How often the error of a view was 0, less than the least with k inner samples, at most one and a half
/// times that, and at most twice.
type Nearness = [usize; 4];

/// Grows the trace, and sees after each sample that the error is within its bound.
fn bounded(trace: &Trace, k: u32, seen: &mut Nearness) {
    grown(trace, k, |so_far, state| {
        let (error, least) = within_twice(so_far, state);
        let half_more = Fraction {
            p: 3 * least.p,
            q: 2 * least.q,
        };
        let near = match error {
            Fraction { p: 0, .. } => 0,
            _ if !least.at_most(error) => 1,
            _ if error.at_most(half_more) => 2,
            _ => 3,
        };
        seen[near] += 1;
    });
}

#[test]
fn random_views() {
    let random = &mut Random::new(61);
    (0..10_000).for_each(|_| traces_viewed(40, random));
    for call in [Call::ViewBegin, Call::ViewAdd] {
        let counts = call.counts();
        let seen = |row: u32| counts[row as usize] > 200;
        let rows = call.rows();
        assert!(seen(0) && rows.iter().all(|&row| seen(row)), "{counts:?}");
    }
}

/// The example of document 02 whose error is exactly twice the least.
#[test]
fn exactly_twice() {
    let trace = even(&[-4, -4, 0, 4, -4, 4, -4, 0]);
    let mut lists = vec![vec![0]];
    let state = grown(&trace, 1, |_, state| {
        lists.push(state.list().unwrap().to_vec());
    });
    let expected: [&[u16]; 8] = [
        &[0],
        &[0, 1],
        &[0, 1, 2],
        &[0, 1, 2, 3],
        &[0, 1, 3, 4],
        &[0, 3, 4, 5],
        &[0, 4, 5, 6],
        &[0, 4, 5, 7],
    ];
    assert_eq!(lists, expected);
    let (eight, four) = (Fraction { p: 8, q: 1 }, Fraction { p: 4, q: 1 });
    assert_eq!(within_twice(&trace, &state), (eight, four));
}

/// The example whose error is more than twice the least with k + 1 inner samples.
#[test]
fn no_bound_with_a_sample_more() {
    let trace = Trace {
        ticks: vec![0, 3, 6, 8, 9, 11, 13, 14],
        values: vec![-7, 4, 11, 15, 27, 31, 23, 16],
    };
    let Trace { ticks, values } = &trace;
    let state = grown(&trace, 1, |_, _| ());
    assert_eq!(state.list(), Some(&[0, 4, 6, 7][..]));
    let (error, least) = within_twice(&trace, &state);
    let more = least_error(ticks, values, 2);
    assert_eq!((error.p, error.q), (74, 9));
    assert_eq!((least.p, least.q), (62, 11));
    assert_eq!((more.p, more.q), (4, 1));
    assert!(!error.half().at_most(more));
}

/// The example of a state set by hand, whose error has no bound.
#[test]
fn no_bound_for_a_state_set_by_hand() {
    let Trace { ticks, values } = even(&[0, 1, 0, -1]);
    let set = view_begin(1).unwrap().with_list(&[0, 2]);
    let state = view_add(&set, &ticks, &values).unwrap();
    assert_eq!(state.list(), Some(&[0, 2, 3][..]));
    let error = list_error(&ticks, &values, &[0, 2, 3]);
    assert_eq!((error.p, error.q), (1, 1));
    assert_eq!(least_error(&ticks, &values, 1).p, 0);
}

/// Every small trace, at every k that drops samples and at one that drops none.
#[test]
fn every_small_trace() {
    let mut seen = Nearness::default();
    for trace in small_traces() {
        (0..=2).for_each(|k| bounded(&trace, k, &mut seen));
    }
    // In traces so short no error is that far above the least.
    assert_eq!(seen[3], 0);
    assert!(seen[..3].iter().all(|&count| count > 200), "{seen:?}");
}

/// Short traces, with ties and without: the bound by every list after each sample.
#[test]
fn bound_by_every_list() {
    let random = &mut Random::new(62);
    let mut seen = Nearness::default();
    for _ in 0..1_500 {
        let samples = random.within(6, TRIED as i64) as usize;
        let trace = growing(samples, random);
        (0..=4).for_each(|k| bounded(&trace, k, &mut seen));
    }
    assert!(seen.iter().all(|&count| count > 100), "{seen:?}");
}

/// Traces of every kind and shape, and with ties, at every k: the bound after each sample.
#[test]
fn bound_by_least() {
    let random = &mut Random::new(63);
    let mut seen = Nearness::default();
    for k in 0..=K {
        let samples = 2 * k as usize + 2 + random.within(10, 30) as usize;
        let kinds = KINDS.map(|kind| trace(kind, samples, random));
        let shapes = SHAPES.map(|shape| adversarial(shape, samples, random));
        let ties = [tied(samples, random), repeated(samples, random)];
        for trace in kinds.iter().chain(&shapes).chain(&ties) {
            bounded(trace, k, &mut seen);
        }
    }
    assert!(seen.iter().all(|&count| count > 100), "{seen:?}");
}

/// As many samples as least takes, at every k.
#[test]
fn bound_by_least_of_the_longest() {
    let random = &mut Random::new(64);
    for k in 0..=K {
        let samples = LEAST_SAMPLES - random.below(2) as usize;
        let trace = growing(samples, random);
        let state = grown(&trace, k, |_, _| ());
        within_twice(&trace, &state);
    }
}

/// Up and down by one height, and equal values: all errors are equal, and the earliest inner sample is
/// dropped.
#[test]
fn ties() {
    for k in 1..=K {
        let most = 2 * k as usize + 2;
        let zigzag: Vec<i16> = (0..=most as i16).map(|sample| 9 * (sample % 2)).collect();
        let state = grown(&even(&zigzag), k, |_, _| ());
        let expected: Vec<u16> = (0..=most as u16).filter(|&sample| sample != 1).collect();
        assert_eq!(state.list(), Some(&expected[..]));
        let state = grown(&even(&[7; 100]), k, |_, _| ());
        let expected: Vec<u16> = [0].into_iter().chain(101 - most as u16..100).collect();
        assert_eq!(state.list(), Some(&expected[..]));
    }
}

/// The ends of the range, over the longest span too: the greatest products.
#[test]
fn greatest_products() {
    let random = &mut Random::new(65);
    let mut longest = 0;
    for _ in 0..400 {
        let samples = random.within(3, 20) as usize;
        let k = view_k(samples, random);
        let saturated = trace(Kind::Saturated, samples, random);
        for trace in [saturated, adversarial(Shape::Ends, samples, random)] {
            longest += usize::from(trace.ticks[samples - 1] - trace.ticks[0] == SPAN);
            grown(&trace, k, |_, _| ());
        }
    }
    assert!(longest > 100, "{longest}");
}

/// Whole runs of the longest traces, without a new sample, and with a sample too many.
#[test]
fn longest_traces() {
    let random = &mut Random::new(66);
    for k in [1, K] {
        let trace = growing(SAMPLES, random);
        let state = grown(&trace, k, |_, _| ());
        let Trace { ticks, values } = trace;
        assert_eq!(view_add(&state, &ticks, &values), Err((20, 0)));
        let ticks: Vec<u32> = (0..=SAMPLES as u32).collect();
        let values = [&values[..], &[0]].concat();
        assert_eq!(view_add(&state, &ticks, &values), Err((1, 0)));
    }
}

/// States set by hand, with anything behind their lists, go on to the end of a trace.
#[test]
fn states_set_by_hand() {
    let random = &mut Random::new(67);
    for _ in 0..2_000 {
        let samples = random.within(2, 90) as usize;
        let trace = growing(samples, random);
        let earlier = random.within(1, samples as i64) as usize;
        let state = view_state(view_k(earlier, random), earlier, random);
        let last = grow(&trace, &state, |so_far, state| {
            assert!(state.view_of(so_far.ticks.len()).is_some(), "{state:?}");
        });
        let behind = last.count.max(state.count) as usize;
        assert_eq!(last.entries[behind..], state.entries[behind..]);
    }
}

/// A copy goes on as the view itself does, and the view stays as it is.
#[test]
fn copies() {
    let random = &mut Random::new(68);
    for k in 0..=u64::from(VIEW_K_MAX) {
        let Trace { ticks, values } = growing(90, random);
        let mut view = View::begin(k).unwrap();
        let add = |view: &mut View, n: usize| view.add(&ticks[..n], &values[..n]).unwrap();
        (2..=40).for_each(|n| add(&mut view, n));
        let (mut copy, before) = (view, view);
        (41..=90).for_each(|n| add(&mut copy, n));
        assert_eq!(view, before);
        (41..=90).for_each(|n| add(&mut view, n));
        assert_eq!(view, copy);
        assert_eq!(view.list().len(), view.count as usize);
    }
}

/// The list of any state, one with a count above the room too; the layout is that of C.
#[test]
fn any_state() {
    assert_eq!((VIEW_K_MAX, VIEW_SAMPLES_MAX), (K, ENTRIES));
    assert_eq!(size_of::<View>(), 140);
    let mut view = View::begin(3).unwrap();
    for count in [0, 1, 2, 65, 66, 67, 1 << 16, u32::MAX] {
        view.count = count;
        assert_eq!(view.list().len(), ENTRIES.min(count as usize));
    }
}
