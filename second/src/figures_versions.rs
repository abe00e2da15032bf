//! Figures for request 3 of document 02, worked out by hand from its text: the
//! version 2 twins of document 01's cases 10 and 11. The bytes are written out.

use crate::answer::answer;
use crate::cases::*;
use crate::record::{self, Version};
use crate::rules::Refusal;

/// Case 3 as a record: eight header words, 34 bytes of frame, no entry.
const OPENED: [u8; 50] = [
    0x02, 0x00, 0x01, 0x00, 0x10, 0x00, 0x22, 0x00, 0x32, 0x00, 0x00, 0x00, 0x32, 0x00, 0x00, 0x00,
    0x05, 0x08, 0x22, 0x00, 0x00, 0x01, 0xF1, 0x00, 0xE8, 0x03, 0x00, 0x00, 0x00, 0x00, 0x07, 0x00,
    0x00, 0x00, 0x0A, 0xCB, 0x03, 0x0E, 0xFA, 0x30, 0xFB, 0x30, 0xE0, 0x00, 0x1A, 0x00, 0x00, 0x00,
    0x0F, 0x00,
];

/// After word 11 was set to 260 by operator 9 for reason 2 at 1,731,400,000,
/// which is 0x67331140: one entry, 0x4A bytes, 3104 in word 11.
const EDITED: [u8; 74] = [
    0x02, 0x00, 0x01, 0x00, 0x10, 0x00, 0x22, 0x00, 0x32, 0x00, 0x01, 0x00, 0x4A, 0x00, 0x00, 0x00,
    0x05, 0x08, 0x22, 0x00, 0x00, 0x01, 0xF1, 0x00, 0xE8, 0x03, 0x00, 0x00, 0x00, 0x00, 0x07, 0x00,
    0x00, 0x00, 0x0A, 0xCB, 0x03, 0x0E, 0x04, 0x31, 0xFB, 0x30, 0xE0, 0x00, 0x1A, 0x00, 0x00, 0x00,
    0x0F, 0x00, 0x0B, 0x00, 0x01, 0x00, 0xFA, 0x00, 0x00, 0x00, 0x04, 0x01, 0x00, 0x00, 0x09, 0x00,
    0x02, 0x00, 0x40, 0x11, 0x33, 0x67, 0x00, 0x00, 0x00, 0x00,
];

/// The same, then word 12 set to 4,095 one second earlier: two entries, 0x62
/// bytes, 3FFF in word 12.
const TWICE: [u8; 98] = [
    0x02, 0x00, 0x01, 0x00, 0x10, 0x00, 0x22, 0x00, 0x32, 0x00, 0x02, 0x00, 0x62, 0x00, 0x00, 0x00,
    0x05, 0x08, 0x22, 0x00, 0x00, 0x01, 0xF1, 0x00, 0xE8, 0x03, 0x00, 0x00, 0x00, 0x00, 0x07, 0x00,
    0x00, 0x00, 0x0A, 0xCB, 0x03, 0x0E, 0x04, 0x31, 0xFF, 0x3F, 0xE0, 0x00, 0x1A, 0x00, 0x00, 0x00,
    0x0F, 0x00, 0x0B, 0x00, 0x01, 0x00, 0xFA, 0x00, 0x00, 0x00, 0x04, 0x01, 0x00, 0x00, 0x09, 0x00,
    0x02, 0x00, 0x40, 0x11, 0x33, 0x67, 0x00, 0x00, 0x00, 0x00, 0x0C, 0x00, 0x01, 0x00, 0xFB, 0x00,
    0x00, 0x00, 0xFF, 0x0F, 0x00, 0x00, 0x09, 0x00, 0x02, 0x00, 0x3F, 0x11, 0x33, 0x67, 0x00, 0x00,
    0x00, 0x00,
];

const WHEN: u64 = 1_731_400_000;
const TWO_TO_48: u64 = 281_474_976_710_656;

fn refused(number: u8, place: u64) -> Result<(), Refusal> {
    Err(Refusal { number, place })
}

/// The bytes in a buffer of so many, the rest EE.
fn lent(bytes: &[u8], length: usize) -> Vec<u8> {
    let mut buffer = bytes.to_vec();
    buffer.resize(length, 0xEE);
    buffer
}

/// What an edit says, and the buffer that it leaves.
fn edit(mut buffer: Vec<u8>, a: [u64; 5]) -> (Result<(), Refusal>, Vec<u8>) {
    let said = record::edit(&mut buffer, a[0], a[1], a[2], a[3], a[4]);
    (said, buffer)
}

/// Refused by that number, and nothing is changed.
fn refuses(bytes: &[u8], length: usize, a: [u64; 5], number: u8, place: u64) {
    let buffer = lent(bytes, length);
    assert_eq!(edit(buffer.clone(), a), (refused(number, place), buffer), "{a:?}");
}

#[test]
fn figure_10_is_opened_as_version_2() {
    for length in [50, 51, 98] {
        let mut buffer = vec![0xEE; length];
        record::open(&mut buffer, &OPENED[16..]).unwrap();
        assert_eq!(buffer, lent(&OPENED, length));
    }
    let mut short = [0xEE; 49];
    assert_eq!(record::open(&mut short, &OPENED[16..]), refused(12, 0));
    assert_eq!(short, [0xEE; 49]);
}

#[test]
fn figure_10_is_edited() {
    for length in [74, 75, 98, 200] {
        let after = edit(lent(&OPENED, length), [11, 260, 9, 2, WHEN]);
        assert_eq!(after, (Ok(()), lent(&EDITED, length)));
    }
    // 23 bytes behind the total, 16 as version 1 would take, none.
    for length in [73, 66, 51, 50] {
        refuses(&OPENED, length, [11, 260, 9, 2, WHEN], 12, 0);
    }
}

#[test]
fn figure_11_edits_again() {
    for (index, value, number) in [(11, 260, 23), (10, 260, 22), (12, 4096, 23)] {
        refuses(&EDITED, 122, [index, value, 9, 2, WHEN], number, 0);
    }
    // The clock has gone back by a second.
    let after = edit(lent(&EDITED, 98), [12, 4095, 9, 2, WHEN - 1]);
    assert_eq!(after, (Ok(()), TWICE.to_vec()));
}

#[test]
fn its_lines() {
    let line = |op, a: &[u64], record: &[u8]| answer(&mut Case::new(op, a).p(record));
    assert_eq!(line(RECORD, &[], &OPENED), "ok 34 0 50");
    assert_eq!(line(RECORD, &[], &EDITED), "ok 34 1 74");
    assert_eq!(line(RECORD, &[], &lent(&TWICE, 130)), "ok 34 2 98");
    assert_eq!(line(ENTRY, &[1], &TWICE), "ok 11 1 250 260 9 2 1731400000");
    assert_eq!(line(ENTRY, &[2], &TWICE), "ok 12 1 251 4095 9 2 1731399999");
    assert_eq!(line(ENTRY, &[3], &TWICE), "refused 26 at 0");
    assert_eq!(line(RECORD, &[], &TWICE[..97]), "refused 20 at 0");
}

#[test]
fn its_listing() {
    let lines = "frame D card 5 seq 0100 bytes 34 items 6\n\
                 edit 1 word 11 sample 250 -> 260 by 9 reason 2 at 1731400000\n\
                 edit 2 word 12 sample 251 -> 4095 by 9 reason 2 at 1731399999\n\
                 end 2\n";
    assert_eq!(crate::listing::listing(&TWICE), lines);
}

#[test]
fn it_is_restored() {
    let mut out = vec![0xEE; 36];
    for (k, record) in [&OPENED[..], &EDITED, &TWICE].into_iter().enumerate() {
        record::restore(&TWICE, k as u64, &mut out).unwrap();
        assert_eq!(out, lent(&record[16..50], 36));
    }
    assert_eq!(record::restore(&TWICE, 3, &mut out), refused(26, 0));
}

/// Six bytes of time, low byte first, kept as they are given.
#[test]
fn times_are_kept() {
    for (time, bytes) in [
        (0, [0, 0, 0, 0, 0, 0]),
        (0xFFFF_FFFF, [0xFF, 0xFF, 0xFF, 0xFF, 0, 0]),
        (4_294_967_296, [0, 0, 0, 0, 1, 0]),
        (0x0605_0403_0201, [1, 2, 3, 4, 5, 6]),
        (TWO_TO_48 - 1, [0xFF; 6]),
    ] {
        let mut wanted = EDITED;
        wanted[66..72].copy_from_slice(&bytes);
        let after = edit(lent(&OPENED, 74), [11, 260, 9, 2, time]);
        assert_eq!(after, (Ok(()), wanted.to_vec()), "{time}");
        assert_eq!(record::entry(&wanted, 1).unwrap().1.time, time);
    }
    for time in [TWO_TO_48, TWO_TO_48 + WHEN, u64::MAX] {
        refuses(&OPENED, 74, [11, 260, 9, 2, time], 24, 0);
        // Behind 22 and 23, before 12.
        refuses(&OPENED, 50, [10, 260, 9, 2, time], 22, 0);
        refuses(&OPENED, 50, [11, 250, 9, 2, time], 23, 0);
        refuses(&OPENED, 50, [11, 260, 9, 2, time], 24, 0);
    }
}

/// The last two bytes of each entry are zero.
#[test]
fn desks_are_0() {
    for (at, number) in [(72, 1), (73, 1), (96, 2), (97, 2)] {
        for byte in [1, 0x80, 0xFF] {
            let mut record = TWICE;
            record[at] = byte;
            assert_eq!(record::judge(&record).err(), refused(21, number).err());
            refuses(&record, 122, [11, 1, 9, 2, WHEN], 21, number);
        }
    }
    let mut both = TWICE;
    (both[72], both[96]) = (1, 1);
    assert_eq!(record::judge(&both).err(), refused(21, 2).err());
}

/// Words 0 and 6 alone: the other version, the other total.
#[test]
fn versions_and_totals() {
    let with = |record: &[u8], version, total| {
        let mut changed = lent(record, 130);
        (changed[0], changed[12]) = (version, total);
        record::judge(&changed).map(|judged| judged.version).map_err(|refusal| refusal.number)
    };
    // Without entries both totals are 0x32.
    assert_eq!(with(&OPENED, 1, 0x32), Ok(Version::First));
    assert_eq!(with(&OPENED, 2, 0x32), Ok(Version::Second));
    assert_eq!((with(&OPENED, 0, 0x32), with(&OPENED, 3, 0x32)), (Err(20), Err(20)));
    // With one they are 0x42 and 0x4A, with two 0x52 and 0x62.
    assert_eq!((with(&EDITED, 2, 0x4A), with(&EDITED, 2, 0x42)), (Ok(Version::Second), Err(20)));
    assert_eq!(with(&EDITED, 1, 0x4A), Err(20));
    assert_eq!((with(&TWICE, 2, 0x52), with(&TWICE, 1, 0x62)), (Err(20), Err(20)));
    // The first 16 bytes of an entry are an entry of version 1; what the second
    // of these would be begins in the first one's time.
    assert_eq!((with(&EDITED, 1, 0x42), with(&TWICE, 1, 0x52)), (Ok(Version::First), Err(21)));
}

/// A record of version 1 whose frame is damaged: an edit is refused by 20, and
/// the frame's refusal is told where the record is judged.
#[test]
fn version_1_comes_before_its_frame() {
    let mut record = OPENED;
    record[16 + 28] = 0x1C;
    refuses(&record, 98, [11, 260, 9, 2, WHEN], 9, 13);
    record[0] = 1;
    refuses(&record, 98, [11, 260, 9, 2, WHEN], 20, 0);
    assert_eq!(record::judge(&record).err(), refused(9, 13).err());
    let mut out = [0xEE; 34];
    assert_eq!(record::restore(&record, 0, &mut out), refused(9, 13));
    assert_eq!(out, [0xEE; 34]);
}
