//! Document 01's figures, 1 to 12, checked against its own words and bytes.

use crate::cases::*;
use crate::follower::{follow, Follower};
use crate::frame::*;
use crate::item::{to_bytes, word, Item};
use crate::record::{self, Version};
use crate::rules::{Kind, Refusal};

const THIRD: [u16; 17] = [
    0x0805, 0x0022, 0x0100, 0x00F1, 0x03E8, 0x0000, 0x0000, 0x0007, 0x0000, 0xCB0A, 0x0E03, 0x30FA,
    0x30FB, 0x00E0, 0x001A, 0x0000, 0x000F,
];
const SEVENTH: [u16; 8] = [0x0605, 0x0010, 0x0000, 0x8A4E, 0x2100, 0x1170, 0x0001, 0x000F];

fn refused(number: u8, place: u64) -> Refusal {
    Refusal { number, place }
}

fn changed(words: &[u16], at: usize, word: u16) -> Vec<u8> {
    let mut words = words.to_vec();
    words[at] = word;
    to_bytes(&words)
}

#[test]
fn figure_1_is_accepted_without_items() {
    let frame = read(&to_bytes(&[0x0805, 0x0008, 0x0000, 0x000F])).unwrap();
    assert_eq!((frame.kind, frame.card, frame.sequence), (Kind::Data, 5, 0));
    assert!(frame.items.is_empty());
}

#[test]
fn figure_2_is_refused_2() {
    let frame = to_bytes(&[0x0825, 0x0008, 0x0000, 0x000F]);
    assert_eq!(read(&frame).unwrap_err(), refused(2, 0));
}

#[test]
fn figure_3_is_read() {
    let bytes = to_bytes(&THIRD);
    let frame = read(&bytes).unwrap();
    assert_eq!((frame.kind, frame.card, frame.sequence), (Kind::Data, 5, 0x0100));
    assert_eq!(frame.items.len(), 6);
    let event = event(&bytes, 0).unwrap();
    assert_eq!((event.kind, event.timestamp, event.number), (Some(1), Some(1000), 7));
    assert_eq!((event.size, event.index), (Some(26), 3));
    let channel = item(&bytes, 1).unwrap();
    assert_eq!(channel.item, Item::Channel { card: 5, chip: 2, channel: 10 });
    let mut out = [7; 513];
    samples(&bytes, 0, 2, 10, &mut out).unwrap();
    let mut expected = [0xFFFF; 513];
    (expected[3], expected[4], expected[512]) = (250, 251, 7);
    assert_eq!(out, expected);
}

#[test]
fn figures_4_to_6_are_refused() {
    assert_eq!(read(&changed(&THIRD, 14, 0x001C)).unwrap_err(), refused(9, 13));
    assert_eq!(read(&changed(&THIRD, 10, 0x30FA)).unwrap_err(), refused(8, 10));
    assert_eq!(read(&changed(&THIRD, 10, 0x0FFF)).unwrap_err(), refused(10, 12));
}

#[test]
fn figure_7_is_read() {
    let bytes = to_bytes(&SEVENTH);
    assert_eq!(read(&bytes).unwrap().kind, Kind::Monitor);
    let header = item(&bytes, 0).unwrap().item;
    assert_eq!(header, Item::Histogram { card: 5, chip: 0, channel: 78 });
    let bin = item(&bytes, 1).unwrap();
    assert_eq!((bin.item, bin.next), (Item::Bin { bin: 256, count: 70_000 }, 7));
    let mut out = vec![9; 4097];
    counts(&bytes, 0, 78, &mut out).unwrap();
    let mut expected = vec![0; 4097];
    (expected[256], expected[4096]) = (70_000, 9);
    assert_eq!(out, expected);
}

#[test]
fn figures_8_and_9_are_refused() {
    assert_eq!(read(&changed(&SEVENTH, 3, 0x8A4F)).unwrap_err(), refused(9, 3));
    let mut zeros = SEVENTH;
    (zeros[5], zeros[6]) = (0, 0);
    assert_eq!(read(&to_bytes(&zeros)).unwrap_err(), refused(9, 4));
}

const ENTRY_BYTES: [u8; 16] = [
    0x0B, 0x00, 0x01, 0x00, 0xFA, 0x00, 0x00, 0x00, 0x04, 0x01, 0x00, 0x00, 0x09, 0x00, 0x02, 0x00,
];

/// Case 10 before its edit: 0x32 bytes. Nothing makes such a record any more;
/// request 3 has it read, restored and listed.
fn fresh_bytes() -> Vec<u8> {
    [to_bytes(&[1, 1, 0x10, 0x22, 0x32, 0, 0x32, 0]), to_bytes(&THIRD)].concat()
}

/// What the record of case 10 has after its edit: 0x42 bytes.
fn edited_bytes() -> Vec<u8> {
    let header = [1, 1, 0x10, 0x22, 0x32, 1, 0x42, 0];
    [to_bytes(&header), changed(&THIRD, 11, 0x3104), ENTRY_BYTES.to_vec()].concat()
}

#[test]
fn figure_10_is_read() {
    let fresh = record::judge(&fresh_bytes()).unwrap();
    assert_eq!((fresh.frame_length, fresh.entries, fresh.total), (34, 0, 0x32));
    let bytes = edited_bytes();
    assert_eq!(word(&bytes[16..], 11), 0x3104);
    let judged = record::judge(&bytes).unwrap();
    assert_eq!((judged.frame.kind.letter(), judged.frame.card), ('D', 5));
    assert_eq!((judged.frame.sequence, judged.frame_length), (0x0100, 34));
    assert_eq!((judged.frame.items.len(), judged.entries, judged.total), (6, 1, 0x42));
    let (version, entry) = record::entry(&bytes, 1).unwrap();
    assert_eq!(version, Version::First);
    assert_eq!((entry.index, entry.kind, entry.old, entry.new), (11, 1, 250, 260));
    assert_eq!((entry.operator, entry.reason), (9, 2));
    // An entry that does not fit: `refused 21 at 1`.
    let mut wrong = bytes.clone();
    wrong[0x32 + 8] ^= 1;
    assert_eq!(record::judge(&wrong).err(), Some(refused(21, 1)));
    // Restoring gives each frame that stood.
    let mut out = vec![0xEE; 36];
    for (k, frame) in [to_bytes(&THIRD), changed(&THIRD, 11, 0x3104)].iter().enumerate() {
        record::restore(&bytes, k as u64, &mut out).unwrap();
        assert_eq!(out[..34], frame[..]);
        assert_eq!(out[34..], [0xEE, 0xEE]);
    }
    assert_eq!(record::restore(&bytes, 2, &mut out), Err(refused(26, 0)));
}

/// What the document has `list` print for case 10 after its edit.
#[test]
fn figure_10_is_listed() {
    let lines = "frame D card 5 seq 0100 bytes 34 items 6\n\
                 edit 1 word 11 sample 250 -> 260 by 9 reason 2\n\
                 end 1\n";
    assert_eq!(crate::listing::listing(&edited_bytes()), lines);
}

/// Request 3: the edits of cases 10 and 11 are all refused by 20.
#[test]
fn figures_10_and_11_are_not_edited() {
    let mut fresh = [fresh_bytes(), vec![0xEE; 48]].concat();
    let before = fresh.clone();
    assert_eq!(record::edit(&mut fresh, 11, 260, 9, 2, 0), Err(refused(20, 0)));
    assert_eq!(fresh, before);
    let mut edited = [edited_bytes(), vec![0xEE; 48]].concat();
    let before = edited.clone();
    for (index, value) in [(11, 260), (10, 260), (12, 4095), (12, 4096)] {
        assert_eq!(record::edit(&mut edited, index, value, 9, 2, 0), Err(refused(20, 0)));
    }
    assert_eq!(edited, before);
}

/// The fixed corpus asks cases 10 and 11 on the document's bytes, and then of
/// version 2. The answers are the two documents'.
#[test]
fn figures_10_and_11_are_in_the_corpus() {
    let mut cases = crate::corpus_record::figure_cases();
    let asked = cases.clone();
    let lines: Vec<String> = cases.iter_mut().map(crate::answer::answer).collect();
    let answers: Vec<&str> = lines.iter().map(|line| line.split(" |").next().unwrap()).collect();
    let (none, list) = ("refused 20 at 0", "refused 20 at 0 position 0");
    // The three listed lines have 41, 47 and 6 bytes, or 61 for the second.
    let first = ["ok 34 0 50", "ok 34 1 66", "ok 11 1 250 260 9 2", "ok", "ok", "ok 94"];
    assert_eq!(answers[..6], first);
    assert_eq!(answers[6..14], [none, none, none, none, none, list, list, "ok"]);
    let timed = "ok 11 1 250 260 9 2 1731400000";
    assert_eq!(answers[14..21], ["ok", "ok 34 0 50", "ok 34 1 74", timed, "ok", "ok", "ok 108"]);
    let edits = ["ok", "refused 23 at 0", "refused 22 at 0", "ok", "refused 23 at 0"];
    assert_eq!(answers[21..26], edits);
    assert_eq!(answers[26..], ["ok", "refused 23 at 0 position 1", "ok"]);
    // Version 1 is asked on the document's bytes, and none of them is written.
    assert_eq!(asked[0].p[..0x32], fresh_bytes());
    assert_eq!(asked[1].p[..0x42], edited_bytes());
    assert!(cases[..14].iter().zip(&asked).all(|(after, before)| after.p == before.p));
    assert_eq!(cases[3].q[..34], to_bytes(&THIRD));
    assert_eq!(cases[4].q[..34], changed(&THIRD, 11, 0x3104));
}

#[test]
fn figure_12_is_followed() {
    let (lost, after) = follow(Follower::Expects(255), 0x00FF).unwrap();
    assert_eq!((lost, after), (0, Follower::Expects(0)));
    assert_eq!(follow(after, 0x0000), Ok((0, Follower::Expects(1))));
}

/// The lines that the comparison's format gives for the figures.
#[test]
fn figures_as_lines() {
    let line = |case: Case| crate::answer::answer(&mut case.clone());
    let (third, seventh) = (to_bytes(&THIRD), to_bytes(&SEVENTH));
    assert_eq!(line(Case::new(READ, &[]).p(&third)), "ok D 5 256 6");
    assert_eq!(line(Case::new(ITEM, &[3]).p(&third)), "ok 4 250 next 12");
    assert_eq!(line(Case::new(ITEM, &[0]).p(&third)), "ok 12 1 1000 7 next 9");
    assert_eq!(line(Case::new(ITEM, &[1]).p(&third)), "ok 1 5 2 10 next 10");
    assert_eq!(line(Case::new(ITEM, &[5]).p(&third)), "ok 13 26 next 16");
    assert_eq!(line(Case::new(ITEM, &[6]).p(&third)), "refused 13 at 0");
    assert_eq!(line(Case::new(ITEM, &[1]).p(&seventh)), "ok 5 256 70000 next 7");
    assert_eq!(line(Case::new(EVENT, &[0]).p(&third)), "ok 1 1000 7 26 3");
    assert_eq!(line(Case::new(TEXT, &[0]).p(&third)), "ok 0 1");
    assert_eq!(line(Case::new(FOLLOW, &[256, 0xFF])), "ok 0 1");
    assert_eq!(line(Case::new(FOLLOW, &[1, 0])), "ok 0 2");
    assert_eq!(line(Case::new(FOLLOW, &[0, 0])), "ok 0 0");
    assert_eq!(line(Case::new(RECORD, &[]).p(&edited_bytes())), "ok 34 1 66");
    assert_eq!(line(Case::new(ENTRY, &[1]).p(&edited_bytes())), "ok 11 1 250 260 9 2");
}
