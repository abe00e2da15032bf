//! Figures for request 2 of document 02, worked out by hand from its text and
//! from document 01's cases 10 and 11, on records of version 2.

use crate::answer::answer;
use crate::cases::*;
use crate::item::to_bytes;

/// Case 3 of document 01.
const THIRD: [u16; 17] = [
    0x0805, 0x0022, 0x0100, 0x00F1, 0x03E8, 0x0000, 0x0000, 0x0007, 0x0000, 0xCB0A, 0x0E03, 0x30FA,
    0x30FB, 0x00E0, 0x001A, 0x0000, 0x000F,
];

/// The edit of case 10, word 11 to 260 by operator 9 for reason 2, at 0x67331140,
/// as a list carries it and as the record keeps it.
const ELEVEN: [u8; 24] =
    [11, 0, 0, 0, 4, 1, 0, 0, 9, 0, 0, 0, 2, 0, 0, 0, 0x40, 0x11, 0x33, 0x67, 0, 0, 0, 0];
const ELEVEN_ENTRY: [u8; 24] =
    [11, 0, 1, 0, 0xFA, 0, 0, 0, 4, 1, 0, 0, 9, 0, 2, 0, 0x40, 0x11, 0x33, 0x67, 0, 0, 0, 0];

/// Word 12 to 4,095, by the same, at 0.
const TWELVE: [u8; 24] =
    [12, 0, 0, 0, 0xFF, 0x0F, 0, 0, 9, 0, 0, 0, 2, 0, 0, 0, 0, 0, 0, 0, 0, 0, 0, 0];
const TWELVE_ENTRY: [u8; 24] =
    [12, 0, 1, 0, 0xFB, 0, 0, 0, 0xFF, 0x0F, 0, 0, 9, 0, 2, 0, 0, 0, 0, 0, 0, 0, 0, 0];

/// Word 11 from 260 back to 250, as the record keeps it.
const BACK_ENTRY: [u8; 24] =
    [11, 0, 1, 0, 4, 1, 0, 0, 0xFA, 0, 0, 0, 9, 0, 2, 0, 0x40, 0x11, 0x33, 0x67, 0, 0, 0, 0];

/// A correction with one of its bytes changed.
fn with(correction: [u8; 24], at: usize, byte: u8) -> [u8; 24] {
    let mut changed = correction;
    changed[at] = byte;
    changed
}

/// The record of case 3 with words 11 and 12, so many entries and their bytes,
/// in a buffer of `length` bytes.
fn record(words: [u16; 2], entries: &[[u8; 24]], length: usize) -> Vec<u8> {
    let total = 0x32 + 24 * entries.len() as u16;
    let mut frame = THIRD;
    frame[11..13].copy_from_slice(&words);
    let header = to_bytes(&[2, 1, 0x10, 0x22, 0x32, entries.len() as u16, total, 0]);
    let mut record = [header, to_bytes(&frame), entries.concat()].concat();
    record.resize(length, 0xEE);
    record
}

/// The record of case 3 without entries.
fn fresh(length: usize) -> Vec<u8> {
    record([0x30FA, 0x30FB], &[], length)
}

/// What a list says in front of the check sum, and the buffer that it leaves.
fn edit_all(buffer: Vec<u8>, corrections: &[[u8; 24]]) -> (String, Vec<u8>) {
    let mut case = Case::new(EDIT_ALL, &[]).p(&buffer).q(&corrections.concat());
    let line = answer(&mut case);
    (line.split(" |").next().unwrap().to_string(), case.p)
}

fn said(words: &str, buffer: Vec<u8>) -> (String, Vec<u8>) {
    (words.to_string(), buffer)
}

#[test]
fn both_are_made() {
    // Two entries end at 0x62, which is 98.
    let both = record([0x3104, 0x3FFF], &[ELEVEN_ENTRY, TWELVE_ENTRY], 98);
    assert_eq!(both[8..16], [0x32, 0, 2, 0, 0x62, 0, 0, 0]);
    assert_eq!(edit_all(fresh(98), &[ELEVEN, TWELVE]), said("ok", both));
    // In the other order the entries change places.
    let other = record([0x3104, 0x3FFF], &[TWELVE_ENTRY, ELEVEN_ENTRY], 115);
    assert_eq!(edit_all(fresh(115), &[TWELVE, ELEVEN]), said("ok", other));
}

#[test]
fn a_list_stops_at_the_first_refusal() {
    let first = |length| record([0x3104, 0x30FB], &[ELEVEN_ENTRY], length);
    let seven = with(with(TWELVE, 4, 7), 5, 0);
    let list = [ELEVEN, ELEVEN, seven];
    assert_eq!(edit_all(fresh(122), &list), said("refused 23 at 0 position 1", first(122)));
    // Word 10 is no sample; 4,096 is no value; operator 0; reason 6; a time of
    // 2^48 and of 2^63.
    for (fault, number) in [
        (with(ELEVEN, 0, 10), 22),
        (with(with(TWELVE, 4, 0), 5, 0x10), 23),
        (with(TWELVE, 8, 0), 24),
        (with(TWELVE, 12, 6), 24),
        (with(TWELVE, 22, 1), 24),
        (with(TWELVE, 23, 0x80), 24),
    ] {
        let second = format!("refused {number} at 0 position 1");
        assert_eq!(edit_all(fresh(122), &[ELEVEN, fault, seven]), said(&second, first(122)));
        let at_once = format!("refused {number} at 0 position 0");
        assert_eq!(edit_all(fresh(122), &[fault, ELEVEN, seven]), said(&at_once, fresh(122)));
    }
}

#[test]
fn room_ends_inside_a_list() {
    let list = [ELEVEN, TWELVE];
    let first = record([0x3104, 0x30FB], &[ELEVEN_ENTRY], 97);
    assert_eq!(edit_all(fresh(97), &list), said("refused 12 at 0 position 1", first));
    assert_eq!(edit_all(fresh(73), &list), said("refused 12 at 0 position 0", fresh(73)));
}

/// The value that stood is put back by a new edit: three entries to 0x7A.
#[test]
fn a_value_is_put_back() {
    let back = with(with(ELEVEN, 4, 0xFA), 5, 0);
    let entries = [ELEVEN_ENTRY, BACK_ENTRY, ELEVEN_ENTRY];
    let after = record([0x3104, 0x30FB], &entries, 0x7A);
    assert_eq!(edit_all(fresh(0x7A), &[ELEVEN, back, ELEVEN]), said("ok", after));
}

#[test]
fn an_empty_list_is_accepted_on_anything() {
    let line = |buffer: &[u8]| answer(&mut Case::new(EDIT_ALL, &[]).p(buffer));
    assert_eq!(line(&[]), "ok | 0 1");
    // a = 1, 3, 6; b = 0, 3, 9.
    assert_eq!(line(&[2, 3]), format!("ok | 2 {}", (9u64 << 32) + 6));
    let mut version = fresh(82);
    version[0] = 9;
    let mut first = fresh(82);
    first[0] = 1;
    for buffer in [fresh(50), fresh(82), fresh(49), version, first, vec![0xEE; 40]] {
        assert_eq!(edit_all(buffer.clone(), &[]), said("ok", buffer));
    }
}

/// What is wrong with the record is told of the first correction; its place is
/// not the position.
#[test]
fn a_record_is_refused_at_the_first_correction() {
    let refused = |buffer: Vec<u8>, words: &str| {
        assert_eq!(edit_all(buffer.clone(), &[ELEVEN, TWELVE]), said(words, buffer));
    };
    refused(vec![], "refused 20 at 0 position 0");
    refused(fresh(49), "refused 20 at 0 position 0");
    // Case 4: 001C for 001A in word 14.
    let mut size = fresh(98);
    size[16 + 28] = 0x1C;
    refused(size.clone(), "refused 9 at 13 position 0");
    // Version 1 comes before it.
    size[0] = 1;
    refused(size, "refused 20 at 0 position 0");
    let wrong = with_reason(TWELVE_ENTRY, 0);
    refused(record([0x3104, 0x3FFF], &[ELEVEN_ENTRY, wrong], 122), "refused 21 at 2 position 0");
}

fn with_reason(mut entry: [u8; 24], reason: u8) -> [u8; 24] {
    entry[14] = reason;
    entry
}

/// 510 entries stand, to and fro between 250 and 260; two more are taken.
#[test]
fn a_history_gets_full_inside_a_list() {
    let stood: Vec<[u8; 24]> = (0..255).flat_map(|_| [ELEVEN_ENTRY, BACK_ENTRY]).collect();
    let before = record([0x30FA, 0x30FB], &stood, 0x32 + 24 * 513);
    let more = [&stood[..], &[ELEVEN_ENTRY, TWELVE_ENTRY]].concat();
    let after = record([0x3104, 0x3FFF], &more, 0x32 + 24 * 513);
    assert_eq!(after[10..14], [0x00, 0x02, 0x32, 0x30]);
    let third = with(with(TWELVE, 4, 7), 5, 0);
    let list = [ELEVEN, TWELVE, third];
    assert_eq!(edit_all(before.clone(), &list), said("refused 25 at 0 position 2", after.clone()));
    assert_eq!(edit_all(before, &list[..2]), said("ok", after));
}

/// The fixed corpus has these lists.
#[test]
fn they_are_in_the_corpus() {
    let lists = [vec![ELEVEN, TWELVE], vec![ELEVEN, ELEVEN]];
    let cases = crate::corpus_record::figure_cases();
    for list in lists {
        let list = list.concat();
        assert!(cases.iter().any(|case| case.p.starts_with(&fresh(50)) && case.q == list));
    }
}
