//! Buffers for `list`: fixed ones at the edges, of both versions, and fresh
//! ones, sound and damaged.

use crate::cases::{Case, Cases, LIST, MAX_PAYLOAD, RECORD};
use crate::corpus::{seventh, third, three_parts};
use crate::corpus_record::{sample_edit, three_edits, WHEN};
use crate::damage::put_word;
use crate::known::{figures, filled, framed, long_frames, MONITOR};
use crate::listing::{listing, READ};
use crate::make;
use crate::make_record::{lay_out, targets};
use crate::record::{Entry, Target, Version, MAX_TIME};

/// When the edit at a place of a history was made: short and long numbers, and
/// a clock that goes back. Version 1 does not keep it.
fn time_at(at: usize) -> u64 {
    let day = WHEN + at as u64;
    let digits = [99_999_999_999_999, 100_000_000_000_000, 9, 10];
    let times =
        [day, 0, 0xFFFF_FFFF, 1 << 32, MAX_TIME, digits[0], digits[1], digits[2], digits[3]];
    times[at % times.len()]
}

/// A record of a frame after so many edits, each of another target in turn, in
/// a buffer of exactly its length.
fn edited(version: Version, frame: &[u8], edits: usize) -> Vec<u8> {
    let mut frame = frame.to_vec();
    let targets = targets(&frame);
    let mut entries = Vec::new();
    for at in 0..edits {
        let (index, target) = targets[at % targets.len()];
        let old = target.value(&frame, index as usize);
        let new = if target == Target::Sample { 4095 } else { u32::MAX } - at as u32;
        target.put(&mut frame, index as usize, new);
        let (kind, operator, reason) = (target.number(), 1 + at as u16, 1 + at as u16 % 5);
        let (index, time) = (index as u16, time_at(at));
        entries.push(Entry { index, kind, old, new, operator, reason, time, desk: 0 });
    }
    lay_out(version, &frame, &entries)
}

/// Case 10 of document 01 after its edit.
fn tenth(version: Version) -> Vec<u8> {
    let mut frame = third();
    put_word(&mut frame, 11, 0x3104);
    lay_out(version, &frame, &[sample_edit(11, 250, 260)])
}

/// The largest record there is: 8,192 bytes of frame and 512 entries.
pub fn largest(version: Version) -> Vec<u8> {
    edited(version, &framed(MONITOR, &filled(MONITOR, 4092)), 512)
}

fn with_byte(mut record: Vec<u8>, at: usize, byte: u8) -> Vec<u8> {
    record[at] = byte;
    record
}

/// A record and more bytes behind it.
fn and_more(mut record: Vec<u8>, more: usize) -> Vec<u8> {
    record.extend((0..more).map(|at| at as u8));
    record
}

/// A right header of 512 entries over a frame so long that the record has
/// `total` bytes, and 62 more. Where so many are read, the frame is judged,
/// which is over 8,192 bytes; else the buffer is under the total.
fn too_long(version: Version, total: usize) -> Vec<u8> {
    let mut record = largest(version);
    record.resize(total + 62, 0);
    let history = total - 512 * version.entry_bytes();
    for (at, word) in [(3, history - 16), (4, history), (6, total)] {
        put_word(&mut record, at, word as u16);
    }
    record
}

/// The fixed buffers of a version, by name.
fn of_version(version: Version) -> Vec<(&'static str, Vec<u8>)> {
    let (tenth, full) = (tenth(version), edited(version, &third(), 512));
    let about = |frame: &[u8]| lay_out(version, frame, &[]);
    let last_but_one = full.len() - 2 * version.entry_bytes();
    let more = if version == Version::First { 17_000 } else { 21_000 };
    vec![
        ("case-10", tenth.clone()),
        ("no-entries", about(&third())),
        ("bins", edited(version, &seventh(), 3)),
        ("command-frame", about(&framed(0x041F, &[0x0103, 0x4241, 0x0000]))),
        ("512-entries", full.clone()),
        ("largest", largest(version)),
        ("case-10-and-more", and_more(tenth.clone(), more)),
        ("more-than-is-read", too_long(version, READ + 2)),
        ("cut", tenth[..tenth.len() - 1].to_vec()),
        ("header-word-7", with_byte(tenth.clone(), 14, 1)),
        ("frame-refused-1", about(&third()[..7])),
        ("frame-refused-2", about(&figures()[1].bytes)),
        ("frame-refused-9", about(&figures()[3].bytes)),
        ("frame-refused-8", about(&figures()[4].bytes)),
        ("frame-refused-10", about(&figures()[5].bytes)),
        ("entry-refused", with_byte(tenth, 16 + 34 + 14, 6)),
        ("entry-refused-511", with_byte(full.clone(), last_but_one + 14, 0)),
        ("first-entry-refused", with_byte(full, 16 + 34 + 14, 0)),
        ("longest-frame", about(&long_frames()[0].bytes)),
    ]
}

/// What there is once: no whole header, and what only one version has.
fn of_neither() -> Vec<(&'static str, Vec<u8>)> {
    let [first, second] = Version::BOTH.map(tenth);
    let (frame, entries) = three_edits();
    let full = edited(Version::Second, &third(), 512);
    let last_but_one = full.len() - 2 * 24;
    vec![
        ("empty", vec![]),
        ("15-bytes", first[..15].to_vec()),
        ("version-0", with_byte(first.clone(), 0, 0)),
        ("version-3", with_byte(second.clone(), 0, 3)),
        // Each with the other's version word over its own total.
        ("version-1-by-24", with_byte(second.clone(), 0, 1)),
        ("version-2-by-16", with_byte(first, 0, 2)),
        // All of it was not read while 16,400 bytes were the limit.
        ("past-16400", too_long(Version::First, 16_402)),
        ("clock-goes-back-v2", lay_out(Version::Second, &frame, &entries)),
        ("desk-1-v2", with_byte(second.clone(), 16 + 34 + 22, 1)),
        ("desk-256-v2", with_byte(second, 16 + 34 + 23, 1)),
        ("desk-511-v2", with_byte(full, last_but_one + 22, 1)),
    ]
}

/// The fixed buffers, by name. Those of version 2 have it in their names.
pub fn fixed() -> Vec<(String, Vec<u8>)> {
    let named = |version: Version, ending: &str| -> Vec<(String, Vec<u8>)> {
        let buffers = of_version(version).into_iter();
        buffers.map(|(name, record)| (format!("{name}{ending}"), record)).collect()
    };
    let once = of_neither().into_iter().map(|(name, record)| (name.to_string(), record));
    [named(Version::First, ""), named(Version::Second, "-v2"), once.collect()].concat()
}

/// The fixed buffers listed into room that is short, exact and more.
pub fn list_cases() -> Vec<Case> {
    let mut cases = Vec::new();
    let case = |record: &[u8], room: usize| {
        Case::new(LIST, &[]).p(record).q(&vec![0x5A; room.min(MAX_PAYLOAD)])
    };
    for (_, record) in fixed() {
        let need = listing(&record).len();
        let short = need < 1000 && record.len() < 1000;
        let rooms = if short { vec![0, need - 1, need, need + 3] } else { vec![need] };
        cases.extend(rooms.into_iter().map(|room| case(&record, room)));
    }
    // A frame with parts of events, and as many entries as a payload can list.
    for version in Version::BOTH {
        for record in [edited(version, &three_parts(), 4), edited(version, &third(), 300)] {
            cases.push(case(&record, listing(&record).len()));
        }
    }
    cases
}

/// Fresh buffers as they are made for the record question.
pub fn fresh(seed: u64, count: usize) -> Vec<Vec<u8>> {
    let cases = make::make(seed, count, &[RECORD]);
    Cases::of(&cases).flatten().map(|case| case.p).collect()
}

/// What is printed of an input.
pub fn printed(input: &[u8]) -> String {
    listing(&input[..input.len().min(READ)])
}

#[cfg(test)]
mod tests {
    use super::*;
    use crate::record::{edit, open};

    fn buffer(name: &str) -> Vec<u8> {
        fixed().into_iter().find(|(found, _)| found == name).expect("a name").1
    }

    /// Opening and editing make the buffers of version 2.
    #[test]
    fn calls_make_version_2() {
        for (frame, edits) in [(third(), 512), (seventh(), 3), (three_parts(), 4)] {
            let wanted = edited(Version::Second, &frame, edits);
            let mut record = vec![0; wanted.len()];
            open(&mut record, &frame).unwrap();
            let targets = targets(&frame);
            for at in 0..edits {
                let (index, target) = targets[at % targets.len()];
                let most = if target == Target::Sample { 4095 } else { u32::MAX as u64 };
                let (value, operator) = (most - at as u64, 1 + at as u64);
                let reason = 1 + at as u64 % 5;
                edit(&mut record, index, value, operator, reason, time_at(at)).unwrap();
            }
            assert_eq!(record, wanted);
        }
    }

    /// Case 7's bin of 70,000 after three edits, worked out by hand.
    #[test]
    fn bins_of_both_versions() {
        let first = "frame M card 5 seq 0000 bytes 16 items 2\n\
                     edit 1 word 4 bin 70000 -> 4294967295 by 1 reason 1\n\
                     edit 2 word 4 bin 4294967295 -> 4294967294 by 2 reason 2\n\
                     edit 3 word 4 bin 4294967294 -> 4294967293 by 3 reason 3\n\
                     end 3\n";
        let second = "frame M card 5 seq 0000 bytes 16 items 2\n\
                      edit 1 word 4 bin 70000 -> 4294967295 by 1 reason 1 at 1731400000\n\
                      edit 2 word 4 bin 4294967295 -> 4294967294 by 2 reason 2 at 0\n\
                      edit 3 word 4 bin 4294967294 -> 4294967293 by 3 reason 3 at 4294967295\n\
                      end 3\n";
        assert_eq!(printed(&buffer("bins")), first);
        assert_eq!(printed(&buffer("bins-v2")), second);
        let back = "frame D card 5 seq 0100 bytes 34 items 6\n\
                    edit 1 word 11 sample 250 -> 0 by 9 reason 2 at 281474976710655\n\
                    edit 2 word 12 sample 251 -> 4095 by 9 reason 2 at 0\n\
                    edit 3 word 11 sample 0 -> 260 by 9 reason 2 at 1731400000\n\
                    end 3\n";
        assert_eq!(printed(&buffer("clock-goes-back-v2")), back);
    }

    #[test]
    fn so_many_bytes_are_read() {
        let last = buffer("largest-v2");
        assert_eq!(last.len(), READ);
        assert!(printed(&last).ends_with("\nend 512\n"));
        assert_eq!(printed(&last[..READ - 1]), "refused 20 at 0\n");
        for name in ["more-than-is-read", "more-than-is-read-v2"] {
            let record = buffer(name);
            // Right but for the limit: read whole, its frame would be judged.
            assert_eq!(listing(&record[..READ + 2]), "refused 1 at 0\n");
            assert_eq!(printed(&record), "refused 20 at 0\n", "{name}");
        }
        assert_eq!(printed(&buffer("past-16400")), "refused 1 at 0\n");
        let longer = buffer("case-10-and-more-v2");
        assert!(longer.len() > READ);
        assert_eq!(printed(&longer), printed(&buffer("case-10-v2")));
    }

    /// The refusals that only version 2 has, and headers of neither.
    #[test]
    fn refusals_by_name() {
        for (name, line) in [
            ("desk-1-v2", "refused 21 at 1\n"),
            ("desk-256-v2", "refused 21 at 1\n"),
            ("desk-511-v2", "refused 21 at 511\n"),
            ("entry-refused-511-v2", "refused 21 at 511\n"),
            ("first-entry-refused-v2", "refused 21 at 1\n"),
            ("version-3", "refused 20 at 0\n"),
            ("version-1-by-24", "refused 20 at 0\n"),
            ("version-2-by-16", "refused 20 at 0\n"),
            ("cut-v2", "refused 20 at 0\n"),
            ("frame-refused-9-v2", "refused 9 at 13\n"),
        ] {
            assert_eq!(printed(&buffer(name)), line, "{name}");
        }
    }
}
