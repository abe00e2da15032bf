//! The fixed corpus of the assembler.

use crate::cases::{Case, RUN};
use crate::known_runs::runs;
use crate::known_steps::steps;
use crate::run::{payload, Step};

pub fn run_cases() -> Vec<Case> {
    runs().into_iter().map(|(case, _)| case).chain(longest()).collect()
}

pub fn step_cases() -> Vec<Case> {
    steps().into_iter().map(|(case, _)| case).collect()
}

/// Payloads at the limits: 24 steps of no bytes, and one step of all bytes.
fn longest() -> Vec<Case> {
    let frames = [vec![Step::Frame(vec![]); 24], vec![Step::Frame(vec![0x5A; 24_574])]];
    frames.iter().map(|steps| Case::new(RUN, &[5]).p(&payload(steps))).collect()
}
