//! For tests: how often each reason for LINK came up by itself, which the
//! lines do not tell.

use crate::answer::assembler_of;
use crate::assembler::{Assembler, Reason};
use crate::cases::{Case, RUN, STEP};
use crate::follower::follow;
use crate::frame::read;
use crate::run::{steps, Step};
use std::collections::BTreeMap;

const REASONS: [Reason; 9] = [
    Reason::NoDataFrame,
    Reason::OtherCard,
    Reason::Lost,
    Reason::NoContinue,
    Reason::OtherNumber,
    Reason::Falling,
    Reason::WrongSize,
    Reason::PastLimit,
    Reason::NotOpen,
];

/// Counts of the frames that broke one rule between frames and no other.
#[derive(Default)]
pub struct Alone {
    counts: BTreeMap<(u8, Reason), u64>,
}

impl Alone {
    pub fn count(&mut self, case: &Case) {
        if case.op == STEP {
            return self.frame(STEP, &assembler_of(&case.a), &case.p);
        }
        let mut assembler = Assembler::new(case.a[0]);
        for step in steps(&case.p).unwrap() {
            match step {
                Step::GiveUp => assembler.give_up(),
                Step::Frame(bytes) => {
                    self.frame(RUN, &assembler, &bytes);
                    let _ = assembler.step(&bytes);
                }
            }
        }
    }

    fn frame(&mut self, op: u8, assembler: &Assembler, bytes: &[u8]) {
        let Ok(frame) = read(bytes) else { return };
        let Ok((lost, _)) = follow(assembler.follower, frame.sequence) else { return };
        if let [reason] = assembler.broken(&frame, lost)[..] {
            *self.counts.entry((op, reason)).or_default() += 1;
        }
    }

    /// The reasons of either op that came up less often than that. No run of
    /// 24 frames gets past 32 bits.
    pub fn under(&self, least: u64) -> Vec<(u8, Reason)> {
        let both = [RUN, STEP].into_iter().flat_map(|op| REASONS.map(|reason| (op, reason)));
        let count = |key: &(u8, Reason)| self.counts.get(key).copied().unwrap_or(0);
        let reachable = both.filter(|key| *key != (RUN, Reason::PastLimit));
        reachable.filter(|key| count(key) < least).collect()
    }
}
