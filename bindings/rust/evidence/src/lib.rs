//! The library compared with the slow reference, case by case, for the tests and for the program
//! `evidence`.
//!
//! - [`calls`]: the calls, their refusals, and how often each was compared.
//! - [`compare`]: each call, compared with the reference.
//! - [`measures`]: what holds of the measures of links, and of judge's no.
//! - [`greedy`]: what holds of lists that are judged as greedy ones.
//! - [`reductions`]: what holds of the lists of the reductions.
//! - [`scans`]: what holds of scans.
//! - [`views`]: what holds of views.
//! - [`sums`]: what holds of sums.
//! - [`cases`]: random cases of every sort.
//! - [`run`]: many cases from one seed.
#![deny(unsafe_code)]

pub mod calls;
pub mod cases;
pub mod compare;
pub mod greedy;
pub mod measures;
pub mod reductions;
pub mod run;
pub mod scans;
pub mod sums;
pub mod views;
