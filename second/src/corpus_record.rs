//! The fixed corpus of the plane record.

use crate::cases::*;
use crate::corpus::*;
use crate::damage::put_word;
use crate::item::to_bytes;
use crate::known::*;
use crate::make_record::lay_out;
use crate::record::{Entry, Target, Version, ENTRY_BYTES, MAX_TIME};

/// When the edits of the examples were made, where nothing else is said.
pub const WHEN: u64 = 1_731_400_000;

pub fn sample_edit(index: u16, old: u32, new: u32) -> Entry {
    let (kind, operator, reason) = (Target::Sample.number(), 9, 2);
    Entry { index, kind, old, new, operator, reason, time: WHEN, desk: 0 }
}

fn bin_edit(index: u16, old: u32, new: u32) -> Entry {
    let (kind, operator, reason) = (Target::Bin.number(), 0xFFFF, 5);
    Entry { index, kind, old, new, operator, reason, time: 0x1234_5678_9ABC, desk: 0 }
}

/// Case 3 after three edits, two of them of one word. Its clock goes back.
pub fn three_edits() -> (Vec<u8>, Vec<Entry>) {
    let mut frame = third();
    put_word(&mut frame, 11, 0x3104);
    put_word(&mut frame, 12, 0x3FFF);
    let mut edits = [sample_edit(11, 250, 0), sample_edit(12, 251, 4095), sample_edit(11, 0, 260)];
    (edits[0].time, edits[1].time) = (MAX_TIME, 0);
    (frame, edits.to_vec())
}

/// Case 7 after two edits of its bin.
fn two_edits() -> (Vec<u8>, Vec<Entry>) {
    let mut frame = seventh();
    put_word(&mut frame, 5, 0x2345);
    put_word(&mut frame, 6, 0x0001);
    (frame, vec![bin_edit(4, 70_000, 0xFFFF_FFFF), bin_edit(4, 0xFFFF_FFFF, 0x1_2345)])
}

/// A frame with parts of events after two edits: one in the rest of an event,
/// one in the beginning of another.
fn part_edits() -> (Vec<u8>, Vec<Entry>) {
    let mut frame = three_parts();
    put_word(&mut frame, 9, 0x3064);
    put_word(&mut frame, 39, 0x3FFF);
    (frame, vec![sample_edit(9, 1, 100), sample_edit(39, 0x222, 4095)])
}

/// Case 3 after so many edits of word 11, to and fro, by a clock that goes back
/// each time.
pub fn many_edits(version: Version, count: u16) -> Vec<u8> {
    let value = |at: u16| if at % 2 == 0 { 250 } else { 1000 };
    let edit = |at| {
        let time = WHEN - at as u64;
        Entry { time, ..sample_edit(11, value(at), value(at + 1)) }
    };
    let edits: Vec<Entry> = (0..count).map(edit).collect();
    let mut frame = third();
    put_word(&mut frame, 11, 0x3000 | value(count) as u16);
    lay_out(version, &frame, &edits)
}

pub fn extended(record: &[u8], more: usize) -> Vec<u8> {
    let mut longer = record.to_vec();
    longer.extend((0..more).map(|at| 0x5A ^ at as u8));
    longer
}

/// Every fault of an entry: of the oldest and the newest sample edit, and of
/// the newest bin edit.
fn faulty_entries(version: Version) -> Vec<Vec<u8>> {
    let mut records = Vec::new();
    for ((frame, entries), places) in [(three_edits(), &[0, 2][..]), (two_edits(), &[1])] {
        for at in places.iter().copied() {
            let good = entries[at];
            let field = |change: &dyn Fn(&mut Entry)| {
                let mut entries = entries.clone();
                change(&mut entries[at]);
                lay_out(version, &frame, &entries)
            };
            for index in [0, 3, good.index - 1, good.index + 1, good.index + 2, 0xFFFF] {
                records.push(field(&|entry| entry.index = index));
            }
            for kind in [0, 1, 2, 3, 0x0101] {
                records.push(field(&|entry| entry.kind = kind));
            }
            for old in [0, 4095, 4096, 0x1_0001, good.new] {
                records.push(field(&|entry| entry.old = old));
            }
            for new in [good.old, good.new ^ 1, good.new ^ 0x1000, good.new ^ 0x1_0000] {
                records.push(field(&|entry| entry.new = new));
            }
            for (operator, reason) in [(0, 1), (1, 0), (1, 6), (0xFFFF, 5), (1, 0x0101)] {
                records.push(field(&|entry| (entry.operator, entry.reason) = (operator, reason)));
            }
        }
    }
    records
}

/// Two faults in one history, and entries that left their order.
fn disordered_entries(version: Version) -> Vec<Vec<u8>> {
    let (frame, entries) = three_edits();
    let mut two_faults = entries.clone();
    two_faults[0].reason = 0;
    two_faults[1].operator = 0;
    let mut swapped = entries.clone();
    swapped.swap(1, 2);
    let mut reversed = entries.clone();
    reversed.reverse();
    let lists = [two_faults, swapped, reversed, entries[1..].to_vec(), entries[..2].to_vec()];
    lists.iter().map(|entries| lay_out(version, &frame, entries)).collect()
}

/// Headers with one word off, sums that agree on a wrong length, and buffers
/// about the lengths that count.
pub fn faulty_headers(version: Version) -> Vec<Vec<u8>> {
    let mut records = Vec::new();
    let (frame, entries) = three_edits();
    let good = lay_out(version, &frame, &entries);
    for at in 0..8 {
        for off in [1, 0xFFFF, 16] {
            let mut record = extended(&good, 64);
            let word = crate::item::word(&record, at);
            put_word(&mut record, at, word.wrapping_add(off));
            records.push(record);
        }
    }
    for length in [0, 1, 15, 16, 17, 50, good.len() - 1] {
        records.push(good[..length].to_vec());
    }
    // Sums that agree only modulo 65,536.
    let mut wrapped = extended(&good, 64);
    for (at, word) in [(3, 0xFFF8), (4, 8), (5, 0), (6, 8)] {
        put_word(&mut wrapped, at, word);
    }
    records.push(wrapped);
    records
}

/// Records round such frames, the headers right.
fn tried_records(version: Version, of_each: usize) -> Vec<Vec<u8>> {
    tried_frames(of_each).iter().map(|frame| lay_out(version, frame, &[])).collect()
}

pub fn good_records(version: Version) -> Vec<Vec<u8>> {
    let texts = (five_texts(), vec![]);
    let edited = [three_edits(), two_edits(), (third(), vec![]), texts, part_edits()];
    edited.iter().map(|(frame, entries)| lay_out(version, frame, entries)).collect()
}

/// Records with their faults, each kind at least once.
pub fn some_faulty(version: Version) -> Vec<Vec<u8>> {
    let each_tenth = faulty_entries(version).into_iter().step_by(10);
    let each_fifth = faulty_headers(version).into_iter().step_by(5);
    let faulty = each_tenth.chain(each_fifth).chain(disordered_entries(version));
    faulty.chain(tried_records(version, 1)).collect()
}

/// Document 01's case 10 before and after its edit, of a version by its header
/// words and its entry, in buffers with room for two more entries.
fn tenth(version: u16, total: u16, entry: &[u8]) -> [Vec<u8>; 2] {
    let header = |count, total| to_bytes(&[version, 1, 0x10, 0x22, 0x32, count, total, 0]);
    let mut frame = third();
    put_word(&mut frame, 11, 0x3104);
    let fresh = [header(0, 0x32), third()].concat();
    let edited = [header(1, total), frame, entry.to_vec()].concat();
    [extended(&fresh, 48), extended(&edited, 48)]
}

/// Case 10's edit and the four of case 11, singly and as lists; an empty list.
fn figure_edits(before: &[u8], after: &[u8]) -> Vec<Case> {
    let again = |index, value| edit(after, [index, value, 9, 2, WHEN]);
    let list =
        |corrections: &[[u8; 24]]| Case::new(EDIT_ALL, &[]).p(before).q(&corrections.concat());
    let first =
        [11, 0, 0, 0, 4, 1, 0, 0, 9, 0, 0, 0, 2, 0, 0, 0, 0x40, 0x11, 0x33, 0x67, 0, 0, 0, 0];
    let second = [12, 0, 0, 0, 255, 15, 0, 0, 9, 0, 0, 0, 2, 0, 0, 0, 0, 0, 0, 0, 0, 0, 0, 0];
    vec![
        edit(before, [11, 260, 9, 2, WHEN]),
        again(11, 260),
        again(10, 260),
        again(12, 4095),
        again(12, 4096),
        list(&[first, second]),
        list(&[first, first]),
        list(&[]),
    ]
}

/// Document 01's cases 10 and 11. First on the bytes that it prints, a record of
/// version 1, which is judged, restored and listed and no longer edited; then
/// case 3 opened, which gives version 2, and the same questions and edits of it.
pub fn figure_cases() -> Vec<Case> {
    let entry = [0x0B, 0, 1, 0, 0xFA, 0, 0, 0, 0x04, 0x01, 0, 0, 9, 0, 2, 0];
    // The time is 1,731,400,000, which is 0x67331140; then desk 0.
    let timed = [&entry[..], &[0x40, 0x11, 0x33, 0x67, 0, 0, 0, 0]].concat();
    let restore = |after: &[u8], k| Case::new(RESTORE, &[k]).p(after).q(&extended(&[], 36));
    let of_one = |[before, after]: [Vec<u8>; 2]| {
        let questions = vec![
            Case::new(RECORD, &[]).p(&before),
            Case::new(RECORD, &[]).p(&after),
            Case::new(ENTRY, &[1]).p(&after),
            restore(&after, 0),
            restore(&after, 1),
            Case::new(LIST, &[]).p(&after).q(&extended(&[], 110)),
        ];
        [questions, figure_edits(&before, &after)].concat()
    };
    let open = Case::new(OPEN, &[]).p(&extended(&[], 98)).q(&third());
    [of_one(tenth(1, 0x42, &entry)), vec![open], of_one(tenth(2, 0x4A, &timed))].concat()
}

/// The questions about each version.
fn of_both(cases: impl Fn(Version) -> Vec<Case>) -> Vec<Case> {
    Version::BOTH.into_iter().flat_map(cases).collect()
}

pub fn judge_cases() -> Vec<Case> {
    of_both(|version| {
        let mut records = good_records(version);
        records.extend(good_records(version).iter().map(|record| extended(record, 17)));
        records.extend([511, 512, 513].map(|count| many_edits(version, count)));
        records.extend(faulty_headers(version));
        records.extend(faulty_entries(version));
        records.extend(disordered_entries(version));
        records.extend(tried_records(version, 2));
        // Long frames take many bytes: of version 1 there is one.
        let long = long_frames().into_iter().step_by(4);
        let some = if version == Version::First { 1 } else { usize::MAX };
        records.extend(long.take(some).map(|known| lay_out(version, &known.bytes, &[])));
        records.iter().map(|record| Case::new(RECORD, &[]).p(record)).collect()
    })
}

pub fn entry_cases() -> Vec<Case> {
    let ask = |record: &[u8], number| Case::new(ENTRY, &[number]).p(record);
    of_both(|version| {
        let mut cases = Vec::new();
        for record in good_records(version) {
            cases.extend((0..=4).map(|number| ask(&record, number)));
        }
        cases.extend(FAR.map(|number| ask(&good_records(version)[0], number)));
        cases.extend([0, 1, 512, 513].map(|number| ask(&many_edits(version, 512), number)));
        cases.extend(some_faulty(version).iter().map(|record| ask(record, 1)));
        cases.extend(some_faulty(version).iter().step_by(8).map(|record| ask(record, 0)));
        cases
    })
}

pub fn open_cases() -> Vec<Case> {
    let mut cases = Vec::new();
    let ask = |frame: &[u8], room: usize| Case::new(OPEN, &[]).p(&extended(&[], room)).q(frame);
    let empty = figures()[0].bytes.clone();
    let alone = framed(DATA, &CONTINUE);
    for frame in [third(), seventh(), five_texts(), empty, three_parts(), alone] {
        let need = 16 + frame.len();
        cases.extend([0, 16, need - 1, need, need + 1].map(|room| ask(&frame, room)));
    }
    // Refused frames with room and without: the frame comes first.
    cases.extend(tried_frames(2).iter().map(|frame| ask(frame, 16 + frame.len())));
    cases.extend(tried_frames(1).iter().map(|frame| ask(frame, 3)));
    for known in long_frames().iter().skip(3) {
        cases.push(ask(&known.bytes, 16 + known.bytes.len()));
    }
    cases.push(ask(&framed(DATA, &filled(DATA, 4092)), 8207));
    cases
}

/// Records of version 2 edited; of version 1 there is more in known_versions.
pub fn edit_cases() -> Vec<Case> {
    let mut cases = Vec::new();
    let fresh = with_room(&third());
    // A value put back, then every word of both frames.
    let edited = many_edits(Version::Second, 1);
    cases.push(edit(&extended(&edited, ENTRY_BYTES), [11, 250, 1, 1, WHEN]));
    let bins = with_room(&seventh());
    cases.extend(
        (0..=18).chain([0xFFFF, 0x1_000B, 0xFFFF_FFFF]).map(|at| edit(&fresh, [at, 1, 9, 2, 5])),
    );
    cases.extend((0..=9).chain([0x1_0004]).map(|at| edit(&bins, [at, 1, 9, 2, 5])));
    for value in [0, 1, 249, 250, 251, 4094, 4095, 4096, 0x10FA, 0x1_00FA, 0xFFFF_FFFF] {
        cases.push(edit(&fresh, [11, value, 1, 1, WHEN]));
    }
    for value in [0, 1, 70_000, 70_001, 0x1170, 0xFFFF_FFFF] {
        cases.push(edit(&bins, [4, value, 0xFFFF, 5, MAX_TIME]));
    }
    for (operator, reason) in
        [(0, 1), (1, 1), (0xFFFF, 5), (0x1_0000, 5), (0x1_0001, 1), (1, 0), (1, 6), (1, 0x1_0001)]
    {
        cases.push(edit(&fresh, [11, 1, operator, reason, 0]));
    }
    // Continue event's words, and samples of parts.
    let parts = with_room(&three_parts());
    cases.extend([3, 4, 9, 13, 24, 36, 39, 40].map(|at| edit(&parts, [at, 77, 9, 2, 1])));
    cases.extend(edit_order());
    let faulty = some_faulty(Version::Second);
    let roomy = faulty.iter().map(|record| extended(record, ENTRY_BYTES));
    cases.extend(roomy.map(|record| edit(&record, [11, 5, 1, 1, WHEN])));
    cases
}

pub fn edit(record: &[u8], a: [u64; 5]) -> Case {
    Case::new(EDIT, &a).p(record)
}

/// A record of version 2 without entries, and room for one.
fn with_room(frame: &[u8]) -> Vec<u8> {
    extended(&lay_out(Version::Second, frame, &[]), ENTRY_BYTES)
}

/// Room and a full history, and several faults at once: the first is given.
fn edit_order() -> Vec<Case> {
    let mut cases = Vec::new();
    let exact = lay_out(Version::Second, &third(), &[]);
    for more in [0, 1, 15, 16, 17, 22, 23, 24, 25] {
        cases.push(edit(&extended(&exact, more), [11, 1, 1, 1, WHEN]));
    }
    let late = MAX_TIME + 1;
    for a in [
        [10, 4096, 0, 0, late],
        [11, 4096, 0, 0, late],
        [11, 250, 0, 1, 0],
        [11, 250, 1, 1, late],
        [11, 1, 0, 6, 0],
        [11, 1, 1, 1, late],
        [11, 1, 1, 1, 0],
    ] {
        cases.push(edit(&exact, a));
    }
    let almost = many_edits(Version::Second, 511);
    cases.push(edit(&extended(&almost, 24), [11, 1, 1, 1, WHEN]));
    cases.push(edit(&extended(&almost, 23), [11, 1, 1, 1, WHEN]));
    let full = many_edits(Version::Second, 512);
    for (more, a) in
        [(0, [11, 1, 1, 1, 0]), (24, [12, 1, 1, 1, MAX_TIME]), (24, [11, 1, 1, 1, late])]
    {
        cases.push(edit(&extended(&full, more), a));
    }
    cases
}

pub fn restore_cases() -> Vec<Case> {
    let ask =
        |record: &[u8], k, room: usize| Case::new(RESTORE, &[k]).p(record).q(&extended(&[], room));
    of_both(|version| {
        let mut cases = Vec::new();
        let lengths = [34, 16, 34, five_texts().len(), three_parts().len()];
        for (record, length) in good_records(version).iter().zip(lengths) {
            cases.extend((0..=4).map(|k| ask(record, k, length)));
            cases.extend([length - 1, length + 1].map(|room| ask(record, 0, room)));
            // No such entry comes before room.
            cases.push(ask(record, 4, 0));
        }
        cases.extend(FAR.map(|k| ask(&good_records(version)[0], k, 34)));
        cases.extend([0, 511, 513].map(|k| ask(&many_edits(version, 512), k, 34)));
        cases.extend(some_faulty(version).iter().map(|record| ask(record, 0, 34)));
        cases.extend(some_faulty(version).iter().step_by(8).map(|record| ask(record, 99, 0)));
        let long = lay_out(version, &framed(MONITOR, &filled(MONITOR, 4092)), &[]);
        cases.push(ask(&long, 0, 8192));
        if version == Version::Second {
            cases.push(ask(&long, 0, 8191));
        }
        cases
    })
}
