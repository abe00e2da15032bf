//! Records of both versions whose answers are known from request 3 of document
//! 02 and from document 01. What a line says in front of the check sum is
//! written down here and not computed.

use crate::cases::*;
use crate::corpus::*;
use crate::corpus_list::largest;
use crate::corpus_record::*;
use crate::damage::put_word;
use crate::known_corrections::{list, timed, to};
use crate::known_runs::KnownLine;
use crate::make_record::lay_out;
use crate::record::{Entry, Version};

const HEADER: &str = "refused 20 at 0";

pub fn versions() -> Vec<KnownLine> {
    let one = [times(), clocks(), desks(), rooms()];
    let both = [totals(), other_headers(), version_words(), both_questions()];
    [one.concat(), both.concat(), first_edits(), first_lists()].concat()
}

fn known(case: Case, said: &str) -> KnownLine {
    (case, said.to_string())
}

fn judge(record: &[u8]) -> Case {
    Case::new(RECORD, &[]).p(record)
}

fn entry(record: &[u8], number: u64) -> Case {
    Case::new(ENTRY, &[number]).p(record)
}

fn restore(record: &[u8], k: u64) -> Case {
    Case::new(RESTORE, &[k]).p(record).q(&extended(&[], 34))
}

/// An edit that each sound record here takes, and room for it.
fn good_edit(record: &[u8]) -> Case {
    edit(&extended(record, 24), [12, 77, 9, 2, WHEN])
}

/// Case 3 after three edits, with other entries.
fn three(version: Version, change: impl Fn(&mut Vec<Entry>)) -> Vec<u8> {
    let (frame, mut entries) = three_edits();
    change(&mut entries);
    lay_out(version, &frame, &entries)
}

/// Times that a correction may have and such that it may not, the edge of 32
/// bits among them; what is kept is told as it was given.
fn times() -> Vec<KnownLine> {
    let fresh = extended(&lay_out(Version::Second, &third(), &[]), 24);
    let mut lines = Vec::new();
    for time in [0, 1, 0xFFFF_FFFE, 0xFFFF_FFFF, 1 << 32, (1 << 32) + 1, (1 << 48) - 1] {
        lines.push(known(edit(&fresh, [11, 260, 9, 2, time]), "ok"));
        lines.push(known(list(&fresh, &[timed(11, 260, time)]), "ok"));
        let kept = three(Version::Second, |entries| entries[1].time = time);
        lines.push(known(entry(&kept, 2), &format!("ok 12 1 251 4095 9 2 {time}")));
        lines.push(known(judge(&kept), "ok 34 3 122"));
    }
    for time in [1 << 48, (1 << 48) + 1, 1 << 52, 1 << 63, u64::MAX - 1, u64::MAX] {
        lines.push(known(edit(&fresh, [11, 260, 9, 2, time]), "refused 24 at 0"));
        let refused = "refused 24 at 0 position 0";
        lines.push(known(list(&fresh, &[timed(11, 260, time), to(12, 1)]), refused));
    }
    lines
}

/// A clock may go back, stand still and go on, between entries and in a list.
fn clocks() -> Vec<KnownLine> {
    let mut lines = Vec::new();
    for times in [[9, 8, 7], [5, 5, 5], [0, 0xFFFF_FFFF_FFFF, 0], [1 << 32, 0xFFFF_FFFF, 1 << 32]] {
        let record = three(Version::Second, |entries| {
            entries.iter_mut().zip(times).for_each(|(entry, time)| entry.time = time);
        });
        lines.push(known(judge(&record), "ok 34 3 122"));
        lines.push(known(restore(&record, 0), "ok"));
        lines.push(known(edit(&extended(&record, 24), [12, 1, 9, 2, times[0]]), "ok"));
        let falling = [timed(12, 1, times[0]), timed(12, 2, times[1]), timed(12, 3, times[2])];
        lines.push(known(list(&extended(&record, 72), &falling), "ok"));
    }
    lines
}

/// A desk other than 0: the newest entry that has one is told.
fn desks() -> Vec<KnownLine> {
    let mut lines = Vec::new();
    for desk in [1, 256, 65_535] {
        let places = ["refused 21 at 1", "refused 21 at 2", "refused 21 at 3"];
        for (at, refused) in places.into_iter().enumerate() {
            let record = three(Version::Second, |entries| entries[at].desk = desk);
            lines.push(known(judge(&record), refused));
            lines.push(known(good_edit(&record), refused));
            // Version 1 has no such field.
            let first = three(Version::First, |entries| entries[at].desk = desk);
            lines.push(known(judge(&first), "ok 34 3 98"));
        }
        let two = three(Version::Second, |entries| (entries[0].desk, entries[1].desk) = (desk, 1));
        lines.push(known(entry(&two, 1), "refused 21 at 2"));
        lines.push(known(restore(&two, 3), "refused 21 at 2"));
        let position = "refused 21 at 2 position 0";
        lines.push(known(list(&extended(&two, 24), &[to(12, 77)]), position));
    }
    // Of 512 entries the first, one inside, and the last ones.
    for number in [1, 300, 511, 512] {
        let mut full = many_edits(Version::Second, 512);
        full[50 + 24 * (number - 1) + 22] = 1;
        lines.push(known(judge(&full), &format!("refused 21 at {number}")));
    }
    lines
}

/// An edit of version 2 takes 24 bytes: the fourth entry, the last of 512, and
/// one that is too many with room and without.
fn rooms() -> Vec<KnownLine> {
    let ask = |record: &[u8], more| edit(&extended(record, more), [12, 77, 9, 2, WHEN]);
    let (three, almost) = (three(Version::Second, |_| ()), many_edits(Version::Second, 511));
    let mut lines = Vec::new();
    lines.extend(
        [0, 1, 8, 15, 16, 17, 22, 23].map(|more| known(ask(&three, more), "refused 12 at 0")),
    );
    lines.extend([24, 25, 40].map(|more| known(ask(&three, more), "ok")));
    lines.extend([0, 23].map(|more| known(ask(&almost, more), "refused 12 at 0")));
    lines.push(known(ask(&almost, 24), "ok"));
    let full = many_edits(Version::Second, 512);
    lines.extend([0, 23, 24].map(|more| known(ask(&full, more), "refused 25 at 0")));
    let refused = "refused 25 at 0 position 0";
    lines.push(known(list(&extended(&full, 24), &[to(12, 77)]), refused));
    lines
}

/// The other version's total, where there are bytes enough for either. Without
/// entries the two agree.
fn totals() -> Vec<KnownLine> {
    let mut lines = Vec::new();
    for (version, other) in [(Version::First, 24), (Version::Second, 16)] {
        for count in [0, 1, 2, 3, 40, 512] {
            let mut record = extended(&many_edits(version, count), 8 * count as usize);
            put_word(&mut record, 6, 50 + other * count);
            let none = count == 0;
            let (judged, restored) = if none { ("ok 34 0 50", "ok") } else { (HEADER, HEADER) };
            lines.push(known(judge(&record), judged));
            if count < 4 {
                lines.push(known(restore(&record, 0), restored));
            }
        }
    }
    lines
}

/// The other version's word and total over entries that stay as they are: they
/// are not where the header has them. Only the first is, and what version 2
/// writes of it first is a whole entry of version 1.
fn other_headers() -> Vec<KnownLine> {
    let mut lines = Vec::new();
    for (version, other, size) in [(Version::First, 2, 24), (Version::Second, 1, 16)] {
        for (count, said) in [(1, ""), (2, "refused 21 at 2"), (40, "refused 21 at 40")] {
            let mut record = extended(&many_edits(version, count), 8 * count as usize);
            put_word(&mut record, 0, other);
            put_word(&mut record, 6, 50 + size * count);
            let said = match (count, version) {
                // Eight bytes that are no entry's stand as its time and desk.
                (1, Version::First) => "refused 21 at 1",
                (1, Version::Second) => "ok 34 1 66",
                _ => said,
            };
            lines.push(known(judge(&record), said));
        }
    }
    lines
}

/// What is a version and what is not, over a record without entries, where no
/// other word depends on it, and over one with three.
fn version_words() -> Vec<KnownLine> {
    let mut lines = Vec::new();
    for word in [0, 1, 2, 3, 0x0100, 0x0101, 0x0102, 0x0200, 0x0201, 0xFFFF] {
        let mut fresh = extended(&lay_out(Version::Second, &third(), &[]), 24);
        put_word(&mut fresh, 0, word);
        let (judged, restored) = match word {
            1 | 2 => ("ok 34 0 50", "ok"),
            _ => (HEADER, HEADER),
        };
        lines.push(known(judge(&fresh), judged));
        lines.push(known(restore(&fresh, 0), restored));
        let edited = if word == 2 { "ok" } else { HEADER };
        lines.push(known(edit(&fresh, [11, 260, 9, 2, WHEN]), edited));
        for (version, own) in [(Version::First, 1), (Version::Second, 2)] {
            if word != own {
                let mut record = extended(&three(version, |_| ()), 24);
                put_word(&mut record, 0, word);
                lines.push(known(judge(&record), HEADER));
                lines.push(known(good_edit(&record), HEADER));
            }
        }
    }
    lines
}

/// Version 1 is judged, told entry by entry and restored as ever; of version 2
/// each entry tells its time.
fn both_questions() -> Vec<KnownLine> {
    let record = three(Version::First, |_| ());
    let mut lines = vec![
        known(judge(&record), "ok 34 3 98"),
        known(entry(&record, 1), "ok 11 1 250 0 9 2"),
        known(entry(&record, 3), "ok 11 1 0 260 9 2"),
        known(entry(&record, 4), "refused 26 at 0"),
        known(restore(&record, 4), "refused 26 at 0"),
        known(judge(&many_edits(Version::First, 512)), "ok 34 512 8242"),
        known(judge(&many_edits(Version::First, 513)), HEADER),
        known(judge(&many_edits(Version::Second, 512)), "ok 34 512 12338"),
        known(judge(&many_edits(Version::Second, 513)), HEADER),
        known(judge(&largest(Version::Second)), "ok 8192 512 20496"),
        known(judge(&largest(Version::Second)[..20_495]), HEADER),
        known(entry(&many_edits(Version::Second, 512), 512), "ok 11 1 1000 250 9 2 1731399489"),
        known(entry(&many_edits(Version::First, 512), 512), "ok 11 1 1000 250 9 2"),
    ];
    lines.extend((0..=3).map(|k| known(restore(&record, k), "ok")));
    let cut = |record: &[u8]| judge(&record[..record.len() - 1]);
    lines.extend(Version::BOTH.map(|version| known(cut(&three(version, |_| ())), HEADER)));
    let second = three(Version::Second, |_| ());
    lines.push(known(judge(&second), "ok 34 3 122"));
    lines.push(known(entry(&second, 1), "ok 11 1 250 0 9 2 281474976710655"));
    lines.push(known(entry(&second, 2), "ok 12 1 251 4095 9 2 0"));
    lines.push(known(entry(&second, 3), "ok 11 1 0 260 9 2 1731400000"));
    lines
}

/// No edit of version 1, whatever else is wrong with it or with the edit: of a
/// refused frame this is told before the frame's own refusal, and only there.
fn first_edits() -> Vec<KnownLine> {
    let mut lines = Vec::new();
    for broken in refused_known(1) {
        let (number, place) = broken.refusal.expect("a refused frame");
        let refused = format!("refused {number} at {place}");
        for (version, edited) in [(Version::First, HEADER), (Version::Second, &refused)] {
            let record = lay_out(version, &broken.bytes, &[]);
            lines.push(known(judge(&record), &refused));
            lines.push(known(good_edit(&record), edited));
        }
    }
    let sound = three(Version::First, |_| ());
    let worse = three(Version::First, |entries| entries[2].reason = 6);
    lines.push(known(judge(&worse), "refused 21 at 3"));
    let mut count = sound.clone();
    put_word(&mut count, 1, 2);
    let full = many_edits(Version::First, 512);
    let fresh = lay_out(Version::First, &third(), &[]);
    for record in [&sound, &worse, &count, &full, &fresh, &sound[..97].to_vec()] {
        lines.push(known(good_edit(record), HEADER));
        lines.push(known(edit(record, [10, 4096, 0, 6, u64::MAX]), HEADER));
    }
    // Less than a header, less than a version word.
    for length in [0, 1, 2, 15] {
        let (first, second) = (&fresh[..length], lay_out(Version::Second, &third(), &[]));
        lines.push(known(edit(first, [11, 260, 9, 2, WHEN]), HEADER));
        lines.push(known(edit(&second[..length], [11, 260, 9, 2, WHEN]), HEADER));
    }
    lines
}

/// No list of version 1 but an empty one.
fn first_lists() -> Vec<KnownLine> {
    let mut records: Vec<Vec<u8>> = good_records(Version::First);
    records.extend(refused_known(1).iter().map(|known| lay_out(Version::First, &known.bytes, &[])));
    records.push(three(Version::First, |entries| entries[0].operator = 0));
    let mut lines = Vec::new();
    for record in &records {
        let record = extended(record, 48);
        let refused = "refused 20 at 0 position 0";
        lines.push(known(list(&record, &[to(11, 5), to(12, 6)]), refused));
        lines.push(known(list(&record, &[]), "ok"));
    }
    lines
}

#[cfg(test)]
mod tests {
    use super::*;
    use crate::answer::answer;

    #[test]
    fn answers_are_as_written_down() {
        for (case, said) in versions() {
            let mut after = case.clone();
            let line = answer(&mut after);
            assert_eq!(line.split(" |").next(), Some(said.as_str()), "{case:?}");
            if said != "ok" {
                assert_eq!(after, case);
            }
        }
    }
}
