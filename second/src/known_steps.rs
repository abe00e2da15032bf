//! Single steps of an assembler, from a state in numbers, whose lines are known
//! from request 1 alone: written down here and not computed.

use crate::cases::{Case, STEP};
use crate::corpus::refused_known;
use crate::known::*;
use crate::known_parts::part;
use crate::known_runs::*;

/// A step from a state in numbers, and its line.
fn step(state: &[u64], frame: Vec<u8>, line: &str) -> KnownLine {
    (Case::new(STEP, state).p(&frame), line.to_string())
}

pub fn steps() -> Vec<KnownLine> {
    [limits(), last_headers(), followers(), states(), step_faults()].concat()
}

const LINK: &str = "refused 15 at 0";

/// Sizes so far at 2^32 - 1 and just below, with parts of 6, 8 and 12 bytes.
fn limits() -> Vec<KnownLine> {
    let mut known = Vec::new();
    let six = |size, line: &str| step(&[5, 0, 1, 7, size, 0], goes_on(0), line);
    let hit = |size, line: &str| step(&[5, 0, 1, 7, size, 0], data(0, &part(&[0x4A05])), line);
    let block = |size, line: &str| step(&[5, 0, 1, 7, size, 0], channel(0, 0xCA05), line);
    known.push(six(4_294_967_288, "ok 0 0 1 7 4294967294 0"));
    known.push(six(4_294_967_289, "ok 0 0 1 7 4294967295 0"));
    known.extend([90, 91, 94, 95].map(|size| six(4_294_967_200 + size, LINK)));
    known.push(hit(4_294_967_286, "ok 0 0 1 7 4294967294 0"));
    known.push(hit(4_294_967_287, "ok 0 0 1 7 4294967295 0"));
    known.extend([88, 89, 90, 95].map(|size| hit(4_294_967_200 + size, LINK)));
    known.push(block(4_294_967_282, "ok 0 0 1 7 4294967294 6"));
    known.push(block(4_294_967_283, "ok 0 0 1 7 4294967295 6"));
    known.extend([84, 85, 90, 95].map(|size| block(4_294_967_200 + size, LINK)));
    // One that ends here, with its size as 32 bits would show it.
    let ended = |size, low, high, line: &str| {
        step(&[5, 0, 1, 7, size, 0], data(0, &part(&[0x00E0, low, high])), line)
    };
    known.push(ended(4_294_967_282, 0xFFFE, 0xFFFF, "ok 0 0 0 0 0 0"));
    known.push(ended(4_294_967_283, 0xFFFF, 0xFFFF, "ok 0 0 0 0 0 0"));
    known.push(ended(4_294_967_284, 0, 0, LINK));
    known.push(ended(4_294_967_284, 0xFFFF, 0xFFFF, LINK));
    known.push(ended(4_294_967_286, 2, 0, LINK));
    known.push(ended(4_294_967_295, 11, 0, LINK));
    known.push(ended(4_294_967_295, 0xFFFF, 0xFFFF, LINK));
    // Low words and high words of a size count: 65,524 + 12, 0 + 12.
    known.push(ended(65_524, 0, 1, "ok 0 0 0 0 0 0"));
    known.push(ended(65_524, 0, 0, LINK));
    known.push(ended(0, 12, 0, "ok 0 0 0 0 0 0"));
    known.push(ended(0, 12, 1, LINK));
    known
}

/// The last header beside the part's first one. Codes are 1 more than 128
/// times the chip plus the channel.
fn last_headers() -> Vec<KnownLine> {
    let next = |code, word, line: &str| step(&[5, 0, 1, 7, 20, code], channel(0, word), line);
    let above = "ok 0 0 1 7 32 6";
    let mut known = vec![next(0, 0xCA05, above), next(1, 0xCA05, above), next(5, 0xCA05, above)];
    known.extend([6, 7, 80, 128, 129, 512].map(|code| next(code, 0xCA05, LINK)));
    known.push(next(0, 0xCA00, "ok 0 0 1 7 32 1"));
    known.push(next(1, 0xCA00, LINK));
    // Chip 3, channel 78 is 462; channel 127 of a chip, which no frame has,
    // still lies under the next chip.
    known.push(next(462, 0xCBCE, "ok 0 0 1 7 32 463"));
    known.extend([463, 464, 512].map(|code| next(code, 0xCBCE, LINK)));
    known.push(next(128, 0xCA80, "ok 0 0 1 7 32 129"));
    known.push(next(129, 0xCA80, LINK));
    // Two Channels in the part; none in it.
    let two = part(&[0xCA05, 0x0E00, 0x3001, 0xCA80, 0x0E00, 0x3001]);
    known.push(step(&[5, 0, 1, 7, 20, 5], data(0, &two), "ok 0 0 1 7 38 129"));
    known.push(step(&[5, 0, 1, 7, 20, 6], data(0, &two), LINK));
    // Headers that fall within the part are the frame's own fault, whatever the
    // last header is.
    let falling = part(&[0xCA05, 0x0E00, 0x3001, 0xCA04, 0x0E00, 0x3001]);
    let fault = |code| step(&[5, 0, 1, 7, 20, code], data(0, &falling), "refused 10 at 9");
    known.extend([0, 5, 6, 512].map(fault));
    for (code, line) in [(0, "ok 0 0 1 7 26 0"), (512, "ok 0 0 1 7 26 512")] {
        known.push(step(&[5, 0, 1, 7, 20, code], goes_on(0), line));
    }
    // The headers of an event that starts behind the rest are its own.
    let rest = [&part(&[0x00E0, 32, 0])[..], &START, &[0xCA05, 0x0E00, 0x3001]].concat();
    known.push(step(&[5, 0, 1, 7, 20, 512], data(0, &rest), "ok 0 0 1 7 18 6"));
    known
}

/// The follower's states by the sequence words, with no event open and with
/// one: there what loses something is refused.
fn followers() -> Vec<KnownLine> {
    let rows: [(u64, u16, &str); 16] = [
        (0, 0, "0 0"),
        (0, 1, ""),
        (0, 0x00FF, ""),
        (0, 0x0100, "0 2"),
        (1, 0, "0 2"),
        (1, 1, "1 3"),
        (1, 0x00FF, "255 1"),
        (1, 0x0100, "0 2"),
        (2, 0, "255 2"),
        (2, 1, "0 3"),
        (2, 5, "4 7"),
        (255, 0x00FE, "0 256"),
        (256, 0x00FF, "0 1"),
        (256, 0, "1 2"),
        (256, 0x00FE, "255 256"),
        (256, 0x0100, "0 2"),
    ];
    let mut known = Vec::new();
    for (state, word, after) in rows {
        let (none, open) = match after {
            "" => ("refused 14 at 0".to_string(), "refused 14 at 0".to_string()),
            _ if after.starts_with("0 ") => {
                (format!("ok {after} 0 0 0 0"), format!("ok {after} 1 7 26 9"))
            }
            _ => (format!("ok {after} 0 0 0 0"), LINK.to_string()),
        };
        known.push(step(&[5, state], empty(word), &none));
        known.push(step(&[5, state, 1, 7, 20, 9], goes_on(word), &open));
    }
    known
}

/// States that no run leaves, and what is open behind a frame.
fn states() -> Vec<KnownLine> {
    let turns = [&part(&[0x00E0, 32, 0])[..], &event(&[]), &[0x00F2, 0, 0, 0, 8, 1]].concat();
    let full = [0x0A00, 0xFFFF, 0xFFFF];
    vec![
        step(&[5], empty(0), "ok 0 0 0 0 0 0"),
        step(&[5], whole(0), "ok 0 0 0 0 0 0"),
        step(&[5], first(0), "ok 0 0 1 7 18 6"),
        step(&[5], data(0, &START), "ok 0 0 1 7 12 0"),
        step(&[5, 0, 1, 0, 0, 0], data(0, &[0x0A00, 0, 0]), "ok 0 0 1 0 6 0"),
        step(&[5, 0, 1, 0xFFFF_FFFF, 1, 512], data(0, &full), "ok 0 0 1 4294967295 7 512"),
        step(&[5, 0, 1, 7, 20, 0], data(0, &turns), "ok 0 0 1 65544 12 0"),
        step(&[5, 0, 1, 7, 21, 0], data(0, &turns), LINK),
        step(&[31, 0, 1, 7, 20, 0], framed_with(0, 0x081F, &CONTINUE), "ok 0 0 1 7 26 0"),
        step(&[0, 0, 1, 7, 20, 0], framed_with(0, 0x0800, &CONTINUE), "ok 0 0 1 7 26 0"),
    ]
}

/// Each other reason to refuse, with an event open and with none.
fn step_faults() -> Vec<KnownLine> {
    let open = [5, 2, 1, 7, 20, 9];
    let mut known = Vec::new();
    for known_frame in refused_known(1) {
        let (number, place) = known_frame.refusal.unwrap_or((0, 0));
        let line = format!("refused {number} at {place}");
        known.push(step(&[5], known_frame.bytes.clone(), &line));
        known.push(step(&open, known_frame.bytes, &line));
    }
    for frame in others(1) {
        known.push(step(&[5], frame.clone(), "refused 14 at 0"));
        known.push(step(&[5, 2], frame.clone(), LINK));
        known.push(step(&open, frame, LINK));
    }
    let number = |low, high| data(1, &[0x0A00, low, high]);
    for frame in [empty(1), whole(1), first(1), number(6, 0), number(8, 0), number(7, 1)] {
        known.push(step(&open, frame, LINK));
    }
    for card in [0, 4, 21, 31] {
        known.push(step(&[card, 2, 1, 7, 20, 9], goes_on(1), LINK));
        known.push(step(&[card, 2], empty(1), LINK));
    }
    known.push(step(&[5, 2], goes_on(1), LINK));
    known.push(step(&[5, 2], ends(1, 12), LINK));
    known.push(step(&[5], goes_on(1), "refused 14 at 0"));
    known
}

#[cfg(test)]
mod tests {
    use super::*;
    use crate::answer::answer;
    use crate::reasons::Alone;

    #[test]
    fn lines_are_as_written_down() {
        for (case, line) in runs().into_iter().chain(steps()) {
            assert_eq!(answer(&mut case.clone()), line, "{case:?}");
            assert!(line.len() < 512);
        }
    }

    #[test]
    fn every_reason_is_met_alone() {
        let mut alone = Alone::default();
        runs().iter().chain(&steps()).for_each(|(case, _)| alone.count(case));
        assert_eq!(alone.under(1), []);
    }
}
