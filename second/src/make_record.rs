//! Cases for the plane record: sound and damaged records with histories.

use crate::book::MAX_VALUE;
use crate::cases::*;
use crate::damage::{damaged_frame, flip_bit, put_word};
use crate::draft::{small_size, sound, Draft};
use crate::frame;
use crate::item::word;
use crate::listing::listing;
use crate::make::ordinal;
use crate::make_writer::{lend, room};
use crate::record::*;
use crate::rng::Rng;
use crate::rules::Kind;

/// A frame for a record: mostly one that has something to edit.
pub fn recorded_draft(rng: &mut Rng) -> Draft {
    // A command frame has nothing to edit, so there are few of them.
    let kind = if rng.percent(7) { Kind::Command } else { rng.pick(&[Kind::Data, Kind::Monitor]) };
    let words = match rng.below(50) {
        0 => small_size(rng),
        1..=3 => 0,
        _ => 4 + rng.below(40),
    };
    let draft = sound(rng, kind, words);
    let editable = words == 0 || kind == Kind::Command || !targets(&draft.frame()).is_empty();
    if editable || rng.percent(10) {
        draft
    } else {
        recorded_draft(rng)
    }
}

/// The word indices and kinds of what can be edited in a frame.
pub fn targets(bytes: &[u8]) -> Vec<(u64, Target)> {
    let Ok(frame) = frame::read(bytes) else {
        return Vec::new();
    };
    let indices = frame.items.iter().map(|found| found.index as u64);
    indices.filter_map(|index| Some((index, target_at(&frame, index)?))).collect()
}

/// A value that may stand in such an item.
pub fn legal_value(rng: &mut Rng, target: Target) -> u32 {
    let any = rng.next() as u32;
    match target {
        Target::Sample => rng.pick(&[any, any, 0, 1, 4094, 4095]) & MAX_VALUE as u32,
        Target::Bin => rng.pick(&[any, any, 1, 2, 0xFFFF, 0x10000, u32::MAX]).max(1),
    }
}

/// A time that an entry can keep. Nothing orders one behind another.
pub fn kept_time(rng: &mut Rng) -> u64 {
    let any = rng.next() & MAX_TIME;
    let edge = rng.pick(&[0, 1, 0xFFFF, 1 << 16, 0xFFFF_FFFF, 1 << 32, 1 << 47, MAX_TIME]);
    let day = 1_731_400_000 + rng.within(0, 86_400);
    rng.pick(&[any, edge, day, day])
}

/// A time for an edit: now and then one that no entry can keep, among them
/// such that look kept when cut short.
fn edit_time(rng: &mut Rng) -> u64 {
    let good = kept_time(rng);
    match rng.below(10) {
        0 => rng.pick(&[1 << 48, (1 << 48) + 1, good | 1 << 48, good | 1 << 63, u64::MAX]),
        _ => good,
    }
}

/// Makes up to so many edits on a frame and answers their entries.
pub fn history(rng: &mut Rng, frame: &mut [u8], count: usize) -> Vec<Entry> {
    let targets = targets(frame);
    let mut entries = Vec::new();
    while entries.len() < count && !targets.is_empty() {
        // Few words and many edits, so that one word is edited again.
        let among = if rng.percent(60) { targets.len().min(2) } else { targets.len() };
        let (index, target) = targets[rng.below(among)];
        let old = target.value(frame, index as usize);
        let new = legal_value(rng, target);
        if new != old {
            target.put(frame, index as usize, new);
            let operator = rng.pick(&[1, 9, 255, 256, 0xFFFF]);
            let reason = rng.within(1, 5) as u16;
            let (index, kind, time) = (index as u16, target.number(), kept_time(rng));
            entries.push(Entry { index, kind, old, new, operator, reason, time, desk: 0 });
        }
    }
    entries
}

/// Header, frame and entries, laid out without any judging.
pub fn lay_out(version: Version, frame: &[u8], entries: &[Entry]) -> Vec<u8> {
    let mut record = header_bytes(version, frame.len(), entries.len());
    record.extend(frame);
    entries.iter().for_each(|entry| record.extend(entry.bytes(version)));
    record
}

/// Version 1 in so many of a hundred draws.
fn any_version(rng: &mut Rng, firsts: u64) -> Version {
    if rng.percent(firsts) {
        Version::First
    } else {
        Version::Second
    }
}

fn entry_count(rng: &mut Rng) -> usize {
    match rng.below(400) {
        0 | 1 => 512,
        2 => 511,
        3 => 513,
        4..=30 => rng.below(40),
        _ => rng.below(6),
    }
}

/// A record, sound or damaged, of version 1 in so many of a hundred draws.
pub fn any_record(rng: &mut Rng, firsts: u64) -> Vec<u8> {
    let version = any_version(rng, firsts);
    let draft = recorded_draft(rng);
    let mut frame = draft.frame();
    let count = if frame.len() > 1000 { rng.below(4) } else { entry_count(rng) };
    let mut entries = history(rng, &mut frame, count);
    match rng.below(100) {
        0..=48 => lay_out(version, &frame, &entries),
        49..=56 => {
            let mut record = lay_out(version, &frame, &entries);
            header_damage(rng, &mut record);
            record
        }
        57..=61 => version_damage(rng, version, &frame, &entries),
        62..=77 => {
            entry_damage(rng, &mut entries);
            lay_out(version, &frame, &entries)
        }
        78..=94 => {
            if rng.percent(70) {
                entries.clear();
            }
            lay_out(version, &damaged_frame(rng, &draft), &entries)
        }
        95 | 96 => {
            let length = rng.below(40);
            rng.bytes(length)
        }
        _ => {
            let mut record = lay_out(version, &frame, &entries);
            flip_bit(rng, &mut record);
            record
        }
    }
}

/// The other version's word, its total, or both, where the bytes behind the
/// header stay; or a word that is no version. The buffer holds either total.
fn version_damage(rng: &mut Rng, version: Version, frame: &[u8], entries: &[Entry]) -> Vec<u8> {
    let mut record = lay_out(version, frame, entries);
    let other = if version == Version::First { Version::Second } else { Version::First };
    let header = header_bytes(other, frame.len(), entries.len());
    let behind = rng.bytes(8 * entries.len());
    record.extend(behind);
    match rng.below(6) {
        0 | 1 => put_word(&mut record, 0, word(&header, 0)),
        2 | 3 => put_word(&mut record, 6, word(&header, 6)),
        4 => record[..HEADER_BYTES].copy_from_slice(&header),
        _ => put_word(&mut record, 0, rng.pick(&[0, 3, 4, 0x0100, 0x0101, 0x0200, 0x0202])),
    }
    record
}

/// Another value in one or two header words.
fn header_damage(rng: &mut Rng, record: &mut [u8]) {
    for _ in 0..1 + rng.below(2) {
        let at = rng.below(8);
        let off = [1, 0xFFFF, 2, 0xFFFE, 8, 0xFFF8, 16, 0xFFF0, 24, 0xFFE8, 0x8000];
        let near = word(record, at).wrapping_add(rng.pick(&off));
        let any = rng.next() as u16;
        put_word(record, at, rng.pick(&[near, near, near, any, 0, 0xFFFF]));
    }
}

/// One field of one entry wrong, or the entries themselves out of order. With
/// another time an entry fits as before; version 1 has neither time nor desk.
fn entry_damage(rng: &mut Rng, entries: &mut Vec<Entry>) {
    if entries.is_empty() {
        let index = rng.within(0, 40) as u16;
        let time = kept_time(rng);
        let (old, new, operator, reason) = (1, 2, 1, 1);
        entries.push(Entry { index, kind: 1, old, new, operator, reason, time, desk: 0 });
        return;
    }
    let count = entries.len();
    let at = rng.below(count);
    let entry = &mut entries[at];
    match rng.below(18) {
        0 => entry.index = entry.index.wrapping_add(rng.pick(&[1, 2, 0xFFFF, 0xFFFE])),
        1 => entry.index = rng.pick(&[0, 1, 2, 3, 4096, 0x8000, 0xFFFF]),
        2 => entry.kind = rng.pick(&[0, 1, 2, 3, 0x101, 0x102, 0xFFFF]),
        3 => entry.old = entry.new,
        4 => entry.old = rng.pick(&[0, 4094, 4095, 4096, 0x1_0001, u32::MAX]),
        5 => entry.old ^= 1 << rng.below(32),
        6 => entry.new = entry.new.wrapping_add(rng.pick(&[1, u32::MAX, 4096, 0x3000, 0x1_0000])),
        7 => entry.new ^= 1 << rng.below(32),
        8 => entry.operator = rng.pick(&[0, 0, 1, 0xFFFF]),
        9 => entry.reason = rng.pick(&[0, 1, 5, 6, 6, 0x100, 0xFFFF]),
        10 => entry.time ^= 1 << rng.below(48),
        11 | 12 => entry.desk = rng.pick(&[1, 2, 0xFF, 0x100, 0xFFFF]),
        13 => entry.desk = 1 << rng.below(16),
        14 => entries.swap(at, rng.below(count)),
        15 => drop(entries.remove(at)),
        16 => entries.insert(at, entries[at]),
        _ => entries.reverse(),
    }
}

/// One case of a record op.
pub fn record_case(rng: &mut Rng, op: u8) -> Case {
    if op == OPEN {
        return open_case(rng);
    }
    // An edit of version 1 is refused at once, so there are few of them.
    let record = any_record(rng, if op == EDIT { 10 } else { 30 });
    let count = if record.len() >= 16 { word(&record, 5) as usize } else { 0 };
    let tail = if op == EDIT { ENTRY_BYTES } else { 0 };
    let length = record_room(rng, record.len(), tail);
    let p = lend(rng, &record, length);
    match op {
        EDIT => Case::new(EDIT, &edit_arguments(rng, &record)).p(&p),
        ENTRY => {
            let number = if rng.percent(80) { rng.within(1, count.max(1) as u64) } else { 0 };
            let far = ordinal(rng, count + 1);
            Case::new(ENTRY, &[if rng.percent(80) { number } else { far }]).p(&p)
        }
        RESTORE => {
            let need = frame_part(&record).len();
            let length = room(rng, need, need.max(2));
            let q = rng.bytes(length);
            Case::new(RESTORE, &[ordinal(rng, count + 1)]).p(&p).q(&q)
        }
        LIST => {
            let need = listing(&p).len();
            let length = room(rng, need, need).min(MAX_PAYLOAD);
            Case::new(LIST, &[]).p(&p).q(&rng.bytes(length))
        }
        _ => Case::new(op, &[]).p(&p),
    }
}

/// Buffer length for a record that may grow by `tail` bytes.
pub fn record_room(rng: &mut Rng, total: usize, tail: usize) -> usize {
    match rng.below(24) {
        0..=9 => total + tail,
        10..=17 => total + tail + rng.below(40),
        18 => total + tail.saturating_sub(1),
        19 => total + tail.saturating_sub(rng.pick(&[2, 8])),
        20 | 21 => total,
        22 => total.saturating_sub(1),
        _ => total.saturating_sub(1 + rng.below(40)),
    }
}

fn open_case(rng: &mut Rng) -> Case {
    let draft = recorded_draft(rng);
    let frame = if rng.percent(60) { draft.frame() } else { damaged_frame(rng, &draft) };
    let need = HEADER_BYTES + frame.len();
    let length = match rng.below(12) {
        0 => need - 1,
        1 => need - 2,
        2 => rng.below(need),
        3..=7 => need,
        _ => need + rng.below(40),
    };
    Case::new(OPEN, &[]).p(&rng.bytes(length)).q(&frame)
}

/// The frame in a record, as far as the header and the buffer go.
pub fn frame_part(record: &[u8]) -> &[u8] {
    if record.len() < HEADER_BYTES {
        return &[];
    }
    let end = HEADER_BYTES + word(record, 3) as usize;
    &record[HEADER_BYTES..end.min(record.len())]
}

/// Word index, value, operator, reason and time of an edit: mostly sound, each
/// one faulty now and then, so that the order of the tests shows.
pub fn edit_arguments(rng: &mut Rng, record: &[u8]) -> [u64; 5] {
    let frame = frame_part(record);
    let targets = targets(frame);
    let words = frame.len() as u64 / 2;
    let mut index = rng.within(0, words + 1);
    let mut target = Target::Sample;
    if !targets.is_empty() {
        (index, target) = rng.pick(&targets);
    }
    let standing = if targets.is_empty() { 0 } else { target.value(frame, index as usize) as u64 };
    let value = match rng.below(10) {
        0 => standing,
        1 => rng.pick(&[0, 4095, 4096, 0xFFFF, 0x1_0000, 0xFFFF_FFFF]),
        2 => (standing ^ rng.pick(&[0x1000, 0x3000, 0x1_0000])) & 0xFFFF_FFFF,
        _ => legal_value(rng, target) as u64,
    };
    if rng.percent(12) {
        let off = rng.pick(&[1, 2, 3, 0x1_0000]);
        index = rng.pick(&[index + off, index.saturating_sub(1), 0, words, 0xFFFF_FFFF]);
    }
    let operator = match rng.below(10) {
        0 => rng.pick(&[0, 0x1_0000, 0x1_0001, 0xFFFF_FFFF]),
        1 => rng.pick(&[1, 0xFFFF]),
        _ => rng.within(1, 0xFFFF),
    };
    let reason = match rng.below(10) {
        0 => rng.pick(&[0, 6, 0x1_0001, 0xFFFF_FFFF]),
        _ => rng.within(1, 5),
    };
    [index, value, operator, reason, edit_time(rng)]
}

#[cfg(test)]
mod tests {
    use super::*;
    use crate::rules::{ENTRY, HEADER};

    /// Is the record accepted with other words in some places?
    fn heals(record: &[u8], changes: impl IntoIterator<Item = (usize, u16)>) -> bool {
        let mut changed = record.to_vec();
        changes.into_iter().for_each(|(at, word)| put_word(&mut changed, at, word));
        judge(&changed).is_ok()
    }

    /// Does the clock of an accepted record go back?
    fn goes_back(record: &[u8], judged: &Record) -> bool {
        let entries = entries(record, judged);
        entries.windows(2).any(|pair| pair[1].time < pair[0].time)
    }

    /// Both versions come up sound, with entries and without; more of version 2.
    #[test]
    fn records_are_of_both_versions() {
        let mut rng = Rng::new(14);
        let (mut met, mut back) = ([[0; 2]; 2], 0);
        for _ in 0..2000 {
            let record = any_record(&mut rng, 30);
            if let Ok(judged) = judge(&record) {
                met[judged.version as usize][(judged.entries > 0) as usize] += 1;
                back += goes_back(&record, &judged) as usize;
            }
        }
        let [[first, first_edited], [second, second_edited]] = met;
        assert!(first > 50 && first_edited > 100 && back > 100, "{met:?} {back}");
        assert!(second > first && second_edited > first_edited, "{met:?}");
    }

    /// Some records are refused for a desk and nothing else, some for the
    /// version word or the total alone.
    #[test]
    fn what_version_2_brings_is_met_alone() {
        let mut rng = Rng::new(15);
        let (mut desk, mut version, mut total) = (0, 0, 0);
        for _ in 0..4000 {
            let record = any_record(&mut rng, 30);
            let at = |index| word(&record, index);
            match judge(&record).err().map(|refusal| refusal.number) {
                Some(ENTRY) if at(0) == 2 => {
                    let desks = (1..=at(5)).map(|number| ((at(4) / 2 + 12 * number - 1).into(), 0));
                    desk += heals(&record, desks) as usize;
                }
                Some(HEADER) if record.len() >= HEADER_BYTES => {
                    version += heals(&record, [(0, at(0) ^ 3)]) as usize;
                    let apart = at(5).wrapping_mul(8);
                    let totals = [at(6).wrapping_add(apart), at(6).wrapping_sub(apart)];
                    total += totals.iter().any(|total| heals(&record, [(6, *total)])) as usize;
                }
                _ => {}
            }
        }
        assert!(desk > 40 && version > 15 && total > 15, "{desk} {version} {total}");
    }
}
