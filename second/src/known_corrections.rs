//! Lists of corrections whose answers are known from documents 01 and 02. What
//! a line says in front of the check sum is written down here and not computed.

use crate::cases::{Case, EDIT_ALL};
use crate::corpus::*;
use crate::corpus_record::*;
use crate::corrections::payload;
use crate::known::*;
use crate::known_runs::KnownLine;
use crate::make_record::lay_out;
use crate::record::{Correction, Entry, Version, ENTRY_BYTES, MAX_TIME};

pub fn list(record: &[u8], list: &[Correction]) -> Case {
    Case::new(EDIT_ALL, &[]).p(record).q(&payload(list))
}

/// Every correction is made.
fn done(record: &[u8], corrections: &[Correction]) -> KnownLine {
    (list(record, corrections), "ok".to_string())
}

/// The correction at that position is refused by that number at place 0.
fn stopped(record: &[u8], corrections: &[Correction], number: u8, position: usize) -> KnownLine {
    stopped_at(record, corrections, (number, 0), position)
}

fn stopped_at(
    record: &[u8],
    corrections: &[Correction],
    (number, place): (u8, u64),
    position: usize,
) -> KnownLine {
    let said = format!("refused {number} at {place} position {position}");
    (list(record, corrections), said)
}

/// A correction by operator 9 for reason 2.
pub fn to(index: u32, value: u32) -> Correction {
    signed(index, value, 9, 2)
}

fn signed(index: u32, value: u32, operator: u32, reason: u32) -> Correction {
    Correction { index, value, operator, reason, time: WHEN }
}

pub fn timed(index: u32, value: u32, time: u64) -> Correction {
    Correction { time, ..to(index, value) }
}

/// A record of version 2.
fn record_of(frame: &[u8], entries: &[Entry]) -> Vec<u8> {
    lay_out(Version::Second, frame, entries)
}

/// Case 3 after so many edits, of version 2.
fn edits(count: u16) -> Vec<u8> {
    many_edits(Version::Second, count)
}

/// The record in a buffer with room for so many entries and some bytes more.
fn roomy(record: &[u8], entries: usize, more: usize) -> Vec<u8> {
    extended(record, ENTRY_BYTES * entries + more)
}

/// Case 3 as a record: samples of 250 and 251 in words 11 and 12.
fn fresh() -> Vec<u8> {
    record_of(&third(), &[])
}

/// Case 7 as a record: a bin of 70,000 in word 4.
fn bins() -> Vec<u8> {
    record_of(&seventh(), &[])
}

pub fn lists() -> Vec<KnownLine> {
    let whole = [figure_lists(), empty_lists(), forty(), put_back(), longest()];
    let faults = [places(), bin_places(), twice(), rooms(), full(), orders()];
    [whole.concat(), faults.concat(), own_refusals(), other_frames()].concat()
}

/// Document 01's cases 10 and 11 as lists.
pub fn figure_lists() -> Vec<KnownLine> {
    let record = roomy(&fresh(), 3, 0);
    vec![
        done(&record, &[to(11, 260), to(12, 4095)]),
        stopped(&record, &[to(11, 260), to(11, 260), to(12, 7)], 23, 1),
        stopped(&record, &[to(11, 260), to(10, 260), to(12, 7)], 22, 1),
        stopped(&record, &[to(11, 260), to(12, 4095), to(12, 4096)], 23, 2),
    ]
}

/// An empty list is accepted whatever the buffer holds.
fn empty_lists() -> Vec<KnownLine> {
    let kinds = Version::BOTH.map(|version| [good_records(version), some_faulty(version)].concat());
    let mut buffers = kinds.concat();
    buffers.extend([511, 512, 513].map(edits));
    buffers.extend([0, 1, 15, 16, 34, 600].map(|length| extended(&[], length)));
    buffers.extend([vec![0; 16], vec![0xFF; 82], roomy(&fresh(), 2, 5)]);
    buffers.iter().map(|buffer| done(buffer, &[])).collect()
}

/// Forty bins of one histogram, 1 to 40 in them, the first in word 4.
fn forty_bins() -> Vec<u8> {
    let bins = (0..40).flat_map(|bin| [0x2100 + bin, 1 + bin, 0]);
    record_of(&framed(MONITOR, &[0x8A05].into_iter().chain(bins).collect::<Vec<u16>>()), &[])
}

/// Forty samples of one channel, 0 to 39, the first in word 11.
fn forty_samples() -> Vec<u8> {
    let samples = (0..40).map(|at| 0x3000 + at);
    let inner: Vec<u16> = [0xCA05, 0x0E00].into_iter().chain(samples).collect();
    record_of(&framed(DATA, &event(&inner)), &[])
}

/// Forty corrections, all good, where there is room for all, for all but the
/// last, for some and for none; then one bad one at each end and in the middle.
fn forty() -> Vec<KnownLine> {
    let (bins, samples) = (forty_bins(), forty_samples());
    let in_bins: Vec<Correction> = (0..40).map(|at| to(4 + 3 * at, 100_000 + at)).collect();
    let in_samples: Vec<Correction> = (0..40).map(|at| to(11 + at, 4095 - at)).collect();
    let mut known = Vec::new();
    for (record, good) in [(&bins, &in_bins), (&samples, &in_samples)] {
        known.extend([0, 7, 24].map(|more| done(&roomy(record, 40, more), good)));
        known.push(done(&roomy(record, 40, 0), &good.iter().rev().copied().collect::<Vec<_>>()));
        for (entries, more) in [(39, 0), (39, 23), (20, 1), (1, 0), (0, 23), (0, 0)] {
            known.push(stopped(&roomy(record, entries, more), good, 12, entries));
        }
        for at in [0, 19, 39] {
            let mut spoilt = good.clone();
            spoilt[at].reason = 6;
            known.push(stopped(&roomy(record, 40, 0), &spoilt, 24, at));
        }
    }
    known
}

/// Putting a value back is a new edit, in a list too.
fn put_back() -> Vec<KnownLine> {
    let (frame, entries) = three_edits();
    let edited = record_of(&frame, &entries);
    let to_and_fro: Vec<Correction> =
        (0..40).map(|at| to(11, if at % 2 == 0 { 1000 } else { 250 })).collect();
    vec![
        done(&roomy(&fresh(), 40, 0), &to_and_fro),
        done(&roomy(&fresh(), 3, 0), &[to(11, 1), to(11, 250), to(11, 1)]),
        done(&roomy(&bins(), 3, 0), &[to(4, 1), to(4, 70_000), to(4, 1)]),
        // The old values of its entries, from the newest back.
        done(&roomy(&edited, 3, 0), &[to(11, 0), to(12, 251), to(11, 250)]),
    ]
}

/// Two samples by turns, twice each, by a clock that goes back.
const GOOD: [Correction; 4] = [
    Correction { index: 11, value: 1, operator: 1, reason: 1, time: MAX_TIME },
    Correction { index: 12, value: 4095, operator: 0xFFFF, reason: 5, time: 0 },
    Correction { index: 11, value: 3, operator: 9, reason: 2, time: 1 << 32 },
    Correction { index: 12, value: 0, operator: 256, reason: 4, time: 0xFFFF_FFFF },
];

/// The good ones with another in front of them, in the middle or behind them.
fn at_each_place(good: &[Correction], other: Correction) -> Vec<(usize, Vec<Correction>)> {
    let with_it = |place: usize| {
        let mut list = good.to_vec();
        list.insert(place, other);
        (place, list)
    };
    [0, good.len() / 2, good.len()].map(with_it).to_vec()
}

/// What is refused in a sample's correction, first, in the middle and last, in
/// a record without entries and in one with three.
fn places() -> Vec<KnownLine> {
    let no_target = [0, 3, 9, 10, 13, 14, 16, 17, 0x1_000B, u32::MAX];
    let no_value = [4096, 0x3001, 0x1_0002, u32::MAX];
    let no_operator = [0, 0x1_0000, 0x1_0009, u32::MAX];
    let no_reason = [0, 6, 0x1_0002, u32::MAX];
    let no_time = [1 << 48, (1 << 48) + 5, 1 << 63, u64::MAX];
    let faults = [
        no_target.map(|index| (22, to(index, 77))).to_vec(),
        no_value.map(|value| (23, to(12, value))).to_vec(),
        no_operator.map(|operator| (24, signed(12, 77, operator, 2))).to_vec(),
        no_reason.map(|reason| (24, signed(12, 77, 9, reason))).to_vec(),
        no_time.map(|time| (24, timed(12, 77, time))).to_vec(),
    ];
    let (frame, entries) = three_edits();
    // These edits left 4,095 in word 12, where it would be no new value.
    let edited = record_of(&frame, &entries);
    let mut other = GOOD;
    other[1].value = 4094;
    let records = [(roomy(&fresh(), 5, 0), GOOD), (roomy(&edited, 5, 3), other)];
    let mut known: Vec<KnownLine> =
        records.iter().map(|(record, good)| done(record, good)).collect();
    for (at, (number, fault)) in faults.concat().into_iter().enumerate() {
        let (record, good) = &records[at % 2];
        for (place, list) in at_each_place(good, fault) {
            known.push(stopped(record, &list, number, place));
        }
    }
    known
}

/// What is refused in a bin's correction.
fn bin_places() -> Vec<KnownLine> {
    let record = roomy(&bins(), 5, 0);
    let good = [to(4, 1), to(4, 0xFFFF), to(4, u32::MAX), to(4, 0x1_0000)];
    let faults = [(23, to(4, 0)), (22, to(3, 1)), (22, to(5, 1)), (22, to(6, 1)), (22, to(7, 1))];
    let mut known = vec![done(&record, &good)];
    for (number, fault) in faults {
        for (place, list) in at_each_place(&good, fault) {
            known.push(stopped(&record, &list, number, place));
        }
    }
    known
}

/// The same correction twice, and the value that stands by then.
fn twice() -> Vec<KnownLine> {
    let record = roomy(&fresh(), 5, 0);
    let mut known = Vec::new();
    for (at, again) in GOOD.into_iter().enumerate() {
        let mut list = GOOD.to_vec();
        list.insert(at, again);
        known.push(stopped(&record, &list, 23, at + 1));
    }
    known.push(stopped(&record, &[to(11, 7), to(11, 7)], 23, 1));
    // Another signer makes it no other value; another word's does not matter.
    known.push(stopped(&record, &[to(11, 7), signed(11, 7, 1, 5), to(12, 1)], 23, 1));
    known.push(done(&record, &[to(11, 7), to(12, 7), to(11, 251), to(12, 250)]));
    // The value that stands before the list, and again when it is put back.
    known.push(stopped(&record, &[to(11, 250), to(12, 7)], 23, 0));
    known.push(stopped(&record, &[to(11, 7), to(11, 250), to(11, 250)], 23, 2));
    known.push(stopped(&roomy(&bins(), 3, 0), &[to(4, 70_000)], 23, 0));
    known.push(stopped(&roomy(&bins(), 3, 0), &[to(4, 7), to(4, 7), to(4, 8)], 23, 1));
    known
}

/// Room for none of five, for some, for all but the last, for all; short of it
/// by one byte and by all.
fn rooms() -> Vec<KnownLine> {
    let good = [&GOOD[..], &[to(11, 5)]].concat();
    let mut known = Vec::new();
    for entries in 0..5 {
        for more in [0, 1, 16, 23] {
            known.push(stopped(&roomy(&fresh(), entries, more), &good, 12, entries));
        }
    }
    known.extend([0, 1, 24].map(|more| done(&roomy(&fresh(), 5, more), &good)));
    known.push(stopped(&fresh(), &[to(11, 1)], 12, 0));
    known
}

/// Entries up to 512 and past it: there is no room beyond, or there is.
fn full() -> Vec<KnownLine> {
    let three = [to(12, 1), to(12, 2), to(12, 3)];
    let mut known = vec![done(&roomy(&edits(509), 4, 0), &three)];
    for (entries, position) in [(510, 2), (511, 1), (512, 0)] {
        known.push(stopped(&roomy(&edits(entries), 4, 0), &three, 25, position));
    }
    // Full comes before room: of two the first takes what there is.
    known.push(stopped(&roomy(&edits(511), 1, 0), &three, 25, 1));
    known.push(stopped(&roomy(&edits(511), 0, 23), &three, 12, 0));
    known.push(stopped(&edits(512), &three, 25, 0));
    known.push(done(&roomy(&edits(511), 1, 0), &three[..1]));
    // The other refusals come before it.
    for (number, fault) in [(22, to(10, 5)), (23, to(12, 1)), (24, signed(12, 5, 0, 1))] {
        known.push(stopped(&roomy(&edits(511), 1, 0), &[to(12, 1), fault], number, 1));
    }
    known
}

/// From no entry to 512: by a list that ends there, and by the longest list.
fn longest() -> Vec<KnownLine> {
    let list: Vec<Correction> = (0..1024).map(|at| to(11 + at % 2, 1 + at)).collect();
    vec![
        done(&roomy(&fresh(), 512, 0), &list[..512]),
        stopped(&roomy(&fresh(), 512, 40), &list, 25, 512),
    ]
}

/// Several faults at once, where there is room for the first correction only:
/// the first is given.
fn orders() -> Vec<KnownLine> {
    let record = roomy(&fresh(), 1, 0);
    let faults = [
        (22, signed(10, 4096, 0, 0)),
        (22, signed(0x1_000C, 1, 0, 6)),
        (23, signed(12, 4096, 0, 0)),
        (23, signed(12, 251, 9, 6)),
        (24, signed(12, 1, 0, 0)),
        (24, signed(12, 1, 1, 6)),
        (23, timed(12, 251, MAX_TIME + 1)),
        (24, timed(12, 1, MAX_TIME + 1)),
        (12, timed(12, 1, MAX_TIME)),
    ];
    let mut known = Vec::new();
    for (number, fault) in faults {
        known.push(stopped(&record, &[to(11, 1), fault, to(11, 2)], number, 1));
        known.push(stopped(&fresh(), &[fault, to(11, 1)], number, 0));
    }
    // A later fault is not looked for.
    known.push(stopped(&record, &[to(11, 1), to(12, 251), to(10, 1)], 23, 1));
    known.push(stopped(&record, &[to(11, 1), to(12, 1), to(10, 1)], 12, 1));
    known
}

/// What is wrong with the record itself is told of the first correction, also
/// of a bad one. No other can meet it: an accepted edit leaves a sound record.
fn own_refusals() -> Vec<KnownLine> {
    let mut records: Vec<(Vec<u8>, (u8, u64))> = Vec::new();
    for known in refused_known(1) {
        records.push((record_of(&known.bytes, &[]), known.refusal.expect("a refused frame")));
    }
    let headers = faulty_headers(Version::Second).into_iter().step_by(4);
    records.extend(headers.map(|record| (record, (20, 0))));
    records.extend([0, 1, 15].map(|length| (extended(&[], length), (20, 0))));
    for (at, place) in [(0, 1), (1, 2), (2, 3)] {
        let (frame, mut entries) = three_edits();
        entries[at].reason = 6;
        records.push((record_of(&frame, &entries), (21, place)));
    }
    // The newest entry that does not fit is told.
    let (frame, mut entries) = three_edits();
    (entries[0].operator, entries[1].kind) = (0, 2);
    records.push((record_of(&frame, &entries), (21, 2)));
    let mut known = Vec::new();
    for (record, refusal) in records {
        known.push(stopped_at(&record, &[to(11, 5)], refusal, 0));
        let more = if refusal.0 == 20 { record } else { roomy(&record, 3, 0) };
        known.push(stopped_at(&more, &[to(11, 5), to(12, 6), to(11, 7)], refusal, 0));
        known.push(stopped_at(&more, &[signed(10, 4096, 0, 0), to(11, 5)], refusal, 0));
    }
    known
}

/// Parts of events, the longest frame, and frames with nothing to correct.
fn other_frames() -> Vec<KnownLine> {
    let parts = roomy(&record_of(&three_parts(), &[]), 3, 0);
    let long = record_of(&framed(MONITOR, &filled(MONITOR, 4092)), &[]);
    // Its bins stand in words 4 to 4,090; two Histograms are behind them.
    let mut ends: Vec<Correction> = (0..5).map(|at| to(4 + 3 * at, 70_000)).collect();
    ends.extend((0..5).map(|at| to(4090 - 3 * at, 1)));
    let past = [&ends[..], &[to(4093, 1)]].concat();
    let mut known = vec![
        done(&parts, &[to(9, 100), to(39, 4095), to(9, 1)]),
        stopped(&parts, &[to(9, 100), to(3, 1), to(39, 5)], 22, 1),
        stopped(&parts, &[to(9, 100), to(39, 5), to(4, 1)], 22, 2),
        done(&roomy(&long, 10, 0), &ends),
        stopped(&roomy(&long, 11, 0), &past, 22, 10),
    ];
    for frame in [five_texts(), figures()[0].bytes.clone(), framed(DATA, &START)] {
        let record = roomy(&record_of(&frame, &[]), 2, 0);
        known.push(stopped(&record, &[to(3, 1), to(11, 5)], 22, 0));
    }
    known
}

#[cfg(test)]
mod tests {
    use super::*;
    use crate::answer::answer;
    use crate::corrections;
    use crate::item::word;

    /// How many corrections are made, by what is said of the list.
    fn made(said: &str, list: &[Correction]) -> usize {
        match said.split(" position ").nth(1) {
            Some(position) => position.parse().unwrap(),
            None => list.len(),
        }
    }

    #[test]
    fn answers_are_as_written_down() {
        for (case, said) in lists() {
            let list = corrections::read(&case.q).unwrap();
            let mut after = case.clone();
            let line = answer(&mut after);
            assert_eq!(line.split(" |").next(), Some(said.as_str()), "{list:?}");
            let made = made(&said, &list);
            if made == 0 {
                assert_eq!(after, case);
                continue;
            }
            // Each that is made is one entry more, and nothing is behind it.
            let entries = word(&case.p, 5) as usize + made;
            assert_eq!(word(&after.p, 5) as usize, entries);
            let end = word(&after.p, 6) as usize;
            assert_eq!(end, 16 + word(&case.p, 3) as usize + 24 * entries);
            assert_eq!(after.p[end..], case.p[end..]);
            for (at, c) in list[..made].iter().enumerate() {
                let entry = crate::record::entry(&after.p, (entries - made + at + 1) as u64);
                let entry = entry.unwrap().1;
                assert_eq!((entry.index as u32, entry.new, entry.time), (c.index, c.value, c.time));
                assert_eq!((entry.operator as u32, entry.reason as u32), (c.operator, c.reason));
            }
        }
    }
}
