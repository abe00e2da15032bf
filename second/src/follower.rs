//! The follower of frame sequence numbers.

use crate::rules::*;

#[derive(Clone, Copy, PartialEq, Eq, Debug)]
pub enum Follower {
    Idle,
    /// The number expected next.
    Expects(u8),
}

/// How many frames were lost before this one, and the follower after it.
pub fn follow(state: Follower, word: u16) -> Result<(u64, Follower), Refusal> {
    let [number, high] = word.to_le_bytes();
    match (high, state) {
        (1, _) if number == 0 => Ok((0, Follower::Expects(1))),
        (0, Follower::Idle) if number == 0 => Ok((0, Follower::Idle)),
        (0, Follower::Idle) => refuse(NO_START),
        (0, Follower::Expects(expected)) => {
            let lost = number.wrapping_sub(expected);
            Ok((lost as u64, Follower::Expects(number.wrapping_add(1))))
        }
        _ => refuse(SEQUENCE),
    }
}
