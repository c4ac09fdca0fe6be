//! The calls, the rows of the table of refusals that each has, and how often each call was compared on
//! this thread, by what was answered, and at tolerances with unequal parts.

use kovrelna_reference::{Parts, Row};
use std::cell::RefCell;

/// A public call.
#[derive(Clone, Copy, Debug, PartialEq, Eq)]
pub enum Call {
    Hold,
    Measure,
    Judge,
    JudgeGreedy,
    Walk,
    Gallop,
    Minimum,
    Least,
    Scan,
    ViewBegin,
    ViewAdd,
    Sum,
    Expand,
    ExpandWith,
    Write,
    Read,
    Same,
    Report,
    Pedestals,
}

/// Every call.
pub const CALLS: [Call; 19] = [
    Call::Hold,
    Call::Measure,
    Call::Judge,
    Call::JudgeGreedy,
    Call::Walk,
    Call::Gallop,
    Call::Minimum,
    Call::Least,
    Call::Scan,
    Call::ViewBegin,
    Call::ViewAdd,
    Call::Sum,
    Call::Expand,
    Call::ExpandWith,
    Call::Write,
    Call::Read,
    Call::Same,
    Call::Report,
    Call::Pedestals,
];

/// How many rows the table has.
pub const ROWS: usize = 20;

/// How often a call was compared: first with an answer, then with each row of the table.
pub type Counts = [u64; ROWS + 1];

impl Call {
    pub fn name(self) -> &'static str {
        match self {
            Call::Hold => "hold",
            Call::Measure => "measure",
            Call::Judge => "judge",
            Call::JudgeGreedy => "judge_greedy",
            Call::Walk => "walk",
            Call::Gallop => "gallop",
            Call::Minimum => "minimum",
            Call::Least => "least",
            Call::Scan => "scan",
            Call::ViewBegin => "view_begin",
            Call::ViewAdd => "view_add",
            Call::Sum => "sum",
            Call::Expand => "expand",
            Call::ExpandWith => "expand_with",
            Call::Write => "write",
            Call::Read => "read",
            Call::Same => "same",
            Call::Report => "report",
            Call::Pedestals => "pedestals",
        }
    }

    /// The numbers of the rows with which it may refuse, in the order in which it checks them; those of
    /// a channel in the order of one channel, those of two traces and two lists once for each.
    pub fn rows(self) -> &'static [u32] {
        match self {
            Call::Hold => &[4],
            Call::Measure => &[1, 2, 3, 6],
            Call::Judge | Call::JudgeGreedy => &[1, 2, 3, 4, 15, 6],
            Call::Walk | Call::Gallop | Call::Minimum => &[1, 2, 3, 4, 15, 10],
            Call::Least => &[1, 2, 3, 15, 5, 16, 10],
            Call::Scan => &[1, 2, 3, 19, 4, 15, 10],
            Call::ViewBegin => &[20],
            Call::ViewAdd => &[1, 2, 3, 20],
            Call::Sum => &[1, 2, 3, 1, 2, 3, 6, 6, 17, 18, 10],
            Call::Expand => &[1, 10],
            Call::ExpandWith => &[1, 12, 10],
            Call::Write => &[1, 2, 3, 4, 15, 6, 7, 10],
            Call::Read => &[8, 10],
            Call::Same => &[8, 9],
            Call::Report => &[11, 4, 15, 10],
            Call::Pedestals => &[14, 11, 4, 1, 2, 3, 13, 10],
        }
    }

    /// Whether it takes a tolerance, or a record with one.
    pub fn has_tolerance(self) -> bool {
        !matches!(
            self,
            Call::Measure
                | Call::Least
                | Call::ViewBegin
                | Call::ViewAdd
                | Call::Sum
                | Call::Expand
                | Call::ExpandWith
        )
    }

    /// Counts a comparison with this expected answer.
    pub(crate) fn count<T>(self, expected: &Result<T, Row>) {
        let row = match expected {
            Ok(_) => 0,
            Err((number, _)) => *number as usize,
        };
        COUNTED.with_borrow_mut(|counted| counted[self as usize][row] += 1);
    }

    /// Counts a comparison at these tolerances, if one of them is allowed and has unequal parts.
    pub(crate) fn count_parts(self, tolerances: impl IntoIterator<Item = Option<Parts>>) {
        let mut allowed = tolerances.into_iter().flatten();
        if allowed.any(|parts| parts.one().is_none()) {
            UNEQUAL.with_borrow_mut(|unequal| unequal[self as usize] += 1);
        }
    }

    /// How often it was compared on this thread.
    pub fn counts(self) -> Counts {
        COUNTED.with_borrow(|counted| counted[self as usize])
    }

    /// How often of these at a tolerance with unequal parts.
    pub fn unequal(self) -> u64 {
        UNEQUAL.with_borrow(|unequal| unequal[self as usize])
    }
}

thread_local! {
    static UNEQUAL: RefCell<[u64; CALLS.len()]> = const { RefCell::new([0; CALLS.len()]) };
    static COUNTED: RefCell<[Counts; CALLS.len()]> = const { RefCell::new([[0; ROWS + 1]; CALLS.len()]) };
}
