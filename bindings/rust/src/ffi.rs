//! The C interface, call by call, as safe functions. `kovrelna.h` describes the structs.

use crate::{ReducedTrace, Run, Summary, View, TOLERANCES_MAX};

#[repr(C)]
pub struct Answer {
    pub number: u32,
    pub value: u64,
}

#[repr(C)]
#[derive(Clone, Copy, Default)]
pub struct Tolerance {
    pub form: u64,
    pub p: u64,
    pub q: u64,
    pub x: f64,
    pub y: f64,
    pub below_p: u64,
    pub below_q: u64,
}

#[repr(C)]
pub struct Limits {
    pub tolerance: Tolerance,
    pub gap: u32,
}

#[repr(C)]
pub struct Tolerances {
    pub count: u64,
    pub list: [Tolerance; TOLERANCES_MAX],
}

#[repr(C)]
pub struct Held {
    pub number: u32,
    pub value: u64,
    pub p: u64,
    pub q: u64,
    pub below_p: u64,
    pub below_q: u64,
}

#[repr(C)]
pub struct Measured {
    pub number: u32,
    pub side: u32,
    pub value: u64,
    pub p: u64,
    pub q: u64,
    pub sample: u64,
}

#[repr(C)]
pub struct Judged {
    pub number: u32,
    pub passed: u32,
    pub value: u64,
    pub p: u64,
    pub q: u64,
    pub sample: u64,
    pub side: u32,
}

#[repr(C)]
pub struct JudgedGreedy {
    pub number: u32,
    pub passed: u32,
    pub value: u64,
    pub fault: u32,
}

#[repr(C)]
pub struct Galloped {
    pub number: u32,
    pub value: u64,
    pub probes: u64,
}

#[repr(C)]
pub struct Scanned {
    pub number: u32,
    pub value: u64,
    pub kept: [u64; TOLERANCES_MAX],
}

#[repr(C)]
pub struct Begun {
    pub number: u32,
    pub value: u64,
    pub view: View,
}

#[repr(C)]
pub struct Least {
    pub number: u32,
    pub value: u64,
    pub p: u64,
    pub q: u64,
}

#[repr(C)]
pub struct Content {
    pub number: u32,
    pub value: u64,
    pub p: u64,
    pub q: u64,
    pub below_p: u64,
    pub below_q: u64,
}

#[repr(C)]
pub struct Verdict {
    pub number: u32,
    pub passed: u32,
    pub value: u64,
}

#[repr(C)]
pub struct Report {
    pub number: u32,
    pub value: u64,
    pub samples: u64,
    pub kept: u64,
    pub p: u64,
    pub q: u64,
}

#[repr(C)]
pub struct Compared {
    pub number: u32,
    pub value: u64,
    pub moved: u64,
    pub noisy: u64,
}

extern "C" {
    fn kovrelna_hold(tolerance: Tolerance) -> Held;
    fn kovrelna_measure(
        ticks: *const u32,
        ticks_len: usize,
        values: *const i16,
        values_len: usize,
        i: usize,
        j: usize,
    ) -> Measured;
    fn kovrelna_judge(
        ticks: *const u32,
        ticks_len: usize,
        values: *const i16,
        values_len: usize,
        list: *const u16,
        list_len: usize,
        limits: Limits,
    ) -> Judged;
    fn kovrelna_judge_greedy(
        ticks: *const u32,
        ticks_len: usize,
        values: *const i16,
        values_len: usize,
        list: *const u16,
        list_len: usize,
        limits: Limits,
    ) -> JudgedGreedy;
    fn kovrelna_walk(
        ticks: *const u32,
        ticks_len: usize,
        values: *const i16,
        values_len: usize,
        limits: Limits,
        out: *mut u16,
        out_len: usize,
    ) -> Answer;
    fn kovrelna_gallop(
        ticks: *const u32,
        ticks_len: usize,
        values: *const i16,
        values_len: usize,
        limits: Limits,
        out: *mut u16,
        out_len: usize,
    ) -> Galloped;
    fn kovrelna_minimum(
        ticks: *const u32,
        ticks_len: usize,
        values: *const i16,
        values_len: usize,
        limits: Limits,
        out: *mut u16,
        out_len: usize,
    ) -> Answer;
    fn kovrelna_least(
        ticks: *const u32,
        ticks_len: usize,
        values: *const i16,
        values_len: usize,
        gap: u32,
        allowance: u64,
        out: *mut u16,
        out_len: usize,
    ) -> Least;
    fn kovrelna_scan(
        ticks: *const u32,
        ticks_len: usize,
        values: *const i16,
        values_len: usize,
        tolerances: Tolerances,
        gap: u32,
        out: *mut u16,
        out_len: usize,
    ) -> Scanned;
    fn kovrelna_view_begin(k: u64) -> Begun;
    fn kovrelna_view_add(
        view: *mut View,
        ticks: *const u32,
        ticks_len: usize,
        values: *const i16,
        values_len: usize,
    ) -> Answer;
    fn kovrelna_sum(
        ticks1: *const u32,
        ticks1_len: usize,
        values1: *const i16,
        values1_len: usize,
        ticks2: *const u32,
        ticks2_len: usize,
        values2: *const i16,
        values2_len: usize,
        list1: *const u16,
        list1_len: usize,
        list2: *const u16,
        list2_len: usize,
        sums: *mut i16,
        sums_len: usize,
        joined: *mut u16,
        joined_len: usize,
    ) -> Answer;
    fn kovrelna_expand(codes: *const u8, codes_len: usize, out: *mut i16, out_len: usize)
        -> Answer;
    fn kovrelna_expand_with(
        codes: *const u8,
        codes_len: usize,
        table: *const i16,
        table_len: usize,
        out: *mut i16,
        out_len: usize,
    ) -> Answer;
    fn kovrelna_write(
        ticks: *const u32,
        ticks_len: usize,
        values: *const i16,
        values_len: usize,
        list: *const u16,
        list_len: usize,
        limits: Limits,
        buffer: *mut u8,
        buffer_len: usize,
        place: usize,
    ) -> Answer;
    fn kovrelna_read(
        record: *const u8,
        record_len: usize,
        ticks: *mut u32,
        ticks_len: usize,
        values: *mut i16,
        values_len: usize,
    ) -> Content;
    fn kovrelna_same(
        first: *const u8,
        first_len: usize,
        second: *const u8,
        second_len: usize,
    ) -> Verdict;
    fn kovrelna_report(
        ticks: *const u32,
        ticks_len: usize,
        values: *const i16,
        values_len: usize,
        lengths: *const usize,
        lengths_len: usize,
        limits: Limits,
        out: *mut Summary,
        out_len: usize,
    ) -> Report;
    fn kovrelna_pedestals(
        ticks1: *const u32,
        ticks1_len: usize,
        values1: *const i16,
        values1_len: usize,
        lengths1: *const usize,
        lengths1_len: usize,
        ticks2: *const u32,
        ticks2_len: usize,
        values2: *const i16,
        values2_len: usize,
        lengths2: *const usize,
        lengths2_len: usize,
        tolerance: Tolerance,
        k: u64,
        moved: *mut u16,
        moved_len: usize,
        noisy: *mut u16,
        noisy_len: usize,
    ) -> Compared;
}

// Each pointer and length passed below are those of one slice, which is aligned, valid for reads and
// borrowed for the whole call. An output is borrowed mutably, so it is valid for writes and overlaps
// no other slice. The calls write only to outputs and accept every content.

pub fn hold(tolerance: Tolerance) -> Held {
    // SAFETY: the call takes a number struct by value and accepts every content.
    unsafe { kovrelna_hold(tolerance) }
}

pub fn measure(ticks: &[u32], values: &[i16], i: usize, j: usize) -> Measured {
    // SAFETY: as above; there is no output.
    unsafe {
        kovrelna_measure(
            ticks.as_ptr(),
            ticks.len(),
            values.as_ptr(),
            values.len(),
            i,
            j,
        )
    }
}

pub fn judge(ticks: &[u32], values: &[i16], list: &[u16], limits: Limits) -> Judged {
    // SAFETY: as above; there is no output.
    unsafe {
        kovrelna_judge(
            ticks.as_ptr(),
            ticks.len(),
            values.as_ptr(),
            values.len(),
            list.as_ptr(),
            list.len(),
            limits,
        )
    }
}

pub fn judge_greedy(ticks: &[u32], values: &[i16], list: &[u16], limits: Limits) -> JudgedGreedy {
    // SAFETY: as above; there is no output.
    unsafe {
        kovrelna_judge_greedy(
            ticks.as_ptr(),
            ticks.len(),
            values.as_ptr(),
            values.len(),
            list.as_ptr(),
            list.len(),
            limits,
        )
    }
}

/// A reduction as it is declared above, with its answer.
type Reduction<A> =
    unsafe extern "C" fn(*const u32, usize, *const i16, usize, Limits, *mut u16, usize) -> A;

/// Lends the slices to a reduction. `reduction` is one of those declared above.
fn reduce<A>(
    reduction: Reduction<A>,
    ticks: &[u32],
    values: &[i16],
    limits: Limits,
    out: &mut [u16],
) -> A {
    // SAFETY: as above; the output is `out`.
    unsafe {
        reduction(
            ticks.as_ptr(),
            ticks.len(),
            values.as_ptr(),
            values.len(),
            limits,
            out.as_mut_ptr(),
            out.len(),
        )
    }
}

pub fn walk(ticks: &[u32], values: &[i16], limits: Limits, out: &mut [u16]) -> Answer {
    reduce(kovrelna_walk, ticks, values, limits, out)
}

pub fn gallop(ticks: &[u32], values: &[i16], limits: Limits, out: &mut [u16]) -> Galloped {
    reduce(kovrelna_gallop, ticks, values, limits, out)
}

pub fn minimum(ticks: &[u32], values: &[i16], limits: Limits, out: &mut [u16]) -> Answer {
    reduce(kovrelna_minimum, ticks, values, limits, out)
}

pub fn least(ticks: &[u32], values: &[i16], gap: u32, allowance: u64, out: &mut [u16]) -> Least {
    // SAFETY: as above; the output is `out`.
    unsafe {
        kovrelna_least(
            ticks.as_ptr(),
            ticks.len(),
            values.as_ptr(),
            values.len(),
            gap,
            allowance,
            out.as_mut_ptr(),
            out.len(),
        )
    }
}

pub fn scan(
    ticks: &[u32],
    values: &[i16],
    tolerances: Tolerances,
    gap: u32,
    out: &mut [u16],
) -> Scanned {
    // SAFETY: as above; the output is `out`.
    unsafe {
        kovrelna_scan(
            ticks.as_ptr(),
            ticks.len(),
            values.as_ptr(),
            values.len(),
            tolerances,
            gap,
            out.as_mut_ptr(),
            out.len(),
        )
    }
}

pub fn view_begin(k: u64) -> Begun {
    // SAFETY: the call takes a number by value and accepts every one.
    unsafe { kovrelna_view_begin(k) }
}

pub fn view_add(view: &mut View, ticks: &[u32], values: &[i16]) -> Answer {
    // SAFETY: as above; the output is `view`, which is laid out as C's.
    unsafe {
        kovrelna_view_add(
            view,
            ticks.as_ptr(),
            ticks.len(),
            values.as_ptr(),
            values.len(),
        )
    }
}

pub fn sum(
    first: ReducedTrace,
    second: ReducedTrace,
    sums: &mut [i16],
    joined: &mut [u16],
) -> Answer {
    // SAFETY: as above; the outputs are `sums` and `joined`.
    unsafe {
        kovrelna_sum(
            first.ticks.as_ptr(),
            first.ticks.len(),
            first.values.as_ptr(),
            first.values.len(),
            second.ticks.as_ptr(),
            second.ticks.len(),
            second.values.as_ptr(),
            second.values.len(),
            first.list.as_ptr(),
            first.list.len(),
            second.list.as_ptr(),
            second.list.len(),
            sums.as_mut_ptr(),
            sums.len(),
            joined.as_mut_ptr(),
            joined.len(),
        )
    }
}

pub fn expand(codes: &[u8], out: &mut [i16]) -> Answer {
    // SAFETY: as above; the output is `out`.
    unsafe { kovrelna_expand(codes.as_ptr(), codes.len(), out.as_mut_ptr(), out.len()) }
}

pub fn expand_with(codes: &[u8], table: &[i16], out: &mut [i16]) -> Answer {
    // SAFETY: as above; the output is `out`.
    unsafe {
        kovrelna_expand_with(
            codes.as_ptr(),
            codes.len(),
            table.as_ptr(),
            table.len(),
            out.as_mut_ptr(),
            out.len(),
        )
    }
}

pub fn write(
    ticks: &[u32],
    values: &[i16],
    list: &[u16],
    limits: Limits,
    buffer: &mut [u8],
    place: usize,
) -> Answer {
    // SAFETY: as above; the output is `buffer`.
    unsafe {
        kovrelna_write(
            ticks.as_ptr(),
            ticks.len(),
            values.as_ptr(),
            values.len(),
            list.as_ptr(),
            list.len(),
            limits,
            buffer.as_mut_ptr(),
            buffer.len(),
            place,
        )
    }
}

pub fn read(record: &[u8], ticks: &mut [u32], values: &mut [i16]) -> Content {
    // SAFETY: as above; the outputs are `ticks` and `values`.
    unsafe {
        kovrelna_read(
            record.as_ptr(),
            record.len(),
            ticks.as_mut_ptr(),
            ticks.len(),
            values.as_mut_ptr(),
            values.len(),
        )
    }
}

pub fn same(first: &[u8], second: &[u8]) -> Verdict {
    // SAFETY: as above; there is no output.
    unsafe { kovrelna_same(first.as_ptr(), first.len(), second.as_ptr(), second.len()) }
}

pub fn report(
    ticks: &[u32],
    values: &[i16],
    lengths: &[usize],
    limits: Limits,
    out: &mut [Summary],
) -> Report {
    // SAFETY: as above; the output is `out`, whose entries are laid out as C's.
    unsafe {
        kovrelna_report(
            ticks.as_ptr(),
            ticks.len(),
            values.as_ptr(),
            values.len(),
            lengths.as_ptr(),
            lengths.len(),
            limits,
            out.as_mut_ptr(),
            out.len(),
        )
    }
}

pub fn pedestals(
    today: Run,
    before: Run,
    tolerance: Tolerance,
    k: u64,
    moved: &mut [u16],
    noisy: &mut [u16],
) -> Compared {
    // SAFETY: as above; the outputs are `moved` and `noisy`.
    unsafe {
        kovrelna_pedestals(
            today.ticks.as_ptr(),
            today.ticks.len(),
            today.values.as_ptr(),
            today.values.len(),
            today.lengths.as_ptr(),
            today.lengths.len(),
            before.ticks.as_ptr(),
            before.ticks.len(),
            before.values.as_ptr(),
            before.values.len(),
            before.lengths.as_ptr(),
            before.lengths.len(),
            tolerance,
            k,
            moved.as_mut_ptr(),
            moved.len(),
            noisy.as_mut_ptr(),
            noisy.len(),
        )
    }
}
