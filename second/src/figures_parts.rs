//! Figures for request 1 of document 02, worked out by hand from its text.

use crate::answer::answer;
use crate::cases::*;
use crate::item::to_bytes;
use crate::run::{payload, Step};

fn line(mut case: Case) -> String {
    answer(&mut case)
}

/// The line of a question about a frame, given in its words.
fn ask(op: u8, arguments: &[u64], words: &[u16]) -> String {
    line(Case::new(op, arguments).p(&to_bytes(words)))
}

fn read(words: &[u16]) -> String {
    ask(READ, &[], words)
}

/// The line of a run of card 5; no words stand for giving up.
fn run(frames: &[&[u16]]) -> String {
    let steps = frames.iter().map(|words| match words.is_empty() {
        true => Step::GiveUp,
        false => Step::Frame(to_bytes(words)),
    });
    line(Case::new(RUN, &[5]).p(&payload(&steps.collect::<Vec<_>>())))
}

fn with(words: &[u16], at: usize, word: u16) -> Vec<u16> {
    let mut words = words.to_vec();
    words[at] = word;
    words
}

/// Continue event 7 alone.
const ALONE: [u16; 7] = [0x0805, 0x000E, 0x0000, 0x0A00, 0x0007, 0x0000, 0x000F];

#[test]
fn the_book_has_continue_events() {
    let words = [0x09FF, 0x0A00, 0x0A01, 0x0B55, 0x0BFF, 0x0C00, 0x0DFF, 0x0E00];
    let classes = words.map(|word| line(Case::new(CLASSIFY, &[word])));
    assert_eq!(classes, ["ok 8", "ok 15", "ok 15", "ok 15", "ok 15", "ok 0", "ok 0", "ok 7"]);
}

#[test]
fn a_continue_event_alone_is_a_frame() {
    assert_eq!(read(&ALONE), "ok D 5 0 1");
    assert_eq!(ask(ITEM, &[0], &ALONE), "ok 15 7 next 6");
    assert_eq!(ask(EVENT, &[0], &ALONE), "ok - - 7 - 3");
    assert_eq!(ask(EVENT, &[1], &ALONE), "refused 13 at 0");
    // Low word first: 7 + 3 * 65,536.
    assert_eq!(ask(ITEM, &[0], &with(&ALONE, 5, 3)), "ok 15 196615 next 6");
}

#[test]
fn its_content_is_zero() {
    assert_eq!(read(&with(&ALONE, 3, 0x0A01)), "refused 9 at 3");
    assert_eq!(read(&with(&ALONE, 3, 0x0BFF)), "refused 9 at 3");
}

#[test]
fn it_is_the_first_item_of_a_data_frame() {
    let twice = [0x0805, 0x0014, 0, 0x0A00, 7, 0, 0x0A00, 7, 0, 0x000F];
    assert_eq!(read(&twice), "refused 8 at 6");
    let event = [0x00F1, 0x03E8, 0, 0, 7, 0, 0x00E0, 0x0012, 0];
    let behind = [&[0x0805, 0x0020, 0], &event[..], &[0x0A00, 7, 0, 0x000F]].concat();
    assert_eq!(read(&behind), "refused 8 at 12");
    assert_eq!(read(&with(&ALONE, 0, 0x0605)), "refused 8 at 3");
    assert_eq!(read(&with(&ALONE, 0, 0x0405)), "refused 8 at 3");
    assert_eq!(read(&[0x0805, 0x000C, 0, 0x0A00, 7, 0x000F]), "refused 7 at 3");
}

/// What stands in the frame when its items end: 11 only after Channel and Time
/// bin, at the last word.
#[test]
fn a_frame_may_end_in_an_open_event() {
    let start = [0x00F1, 0x03E8, 0, 0, 7, 0];
    let own =
        |size, inner: &[u16]| [&[0x0805, size, 0x0100], &start[..], inner, &[0x000F]].concat();
    assert_eq!(read(&own(0x14, &[])), "ok D 5 256 1");
    assert_eq!(ask(EVENT, &[0], &own(0x14, &[])), "ok 1 1000 7 - 3");
    assert_eq!(read(&own(0x16, &[0x4A01])), "ok D 5 256 2");
    assert_eq!(read(&own(0x16, &[0x1801])), "ok D 5 256 2");
    assert_eq!(read(&own(0x16, &[0xCB0A])), "refused 11 at 10");
    assert_eq!(read(&own(0x18, &[0xCB0A, 0x0E03])), "refused 11 at 11");
    assert_eq!(read(&own(0x1A, &[0xCB0A, 0x0E03, 0x30FA])), "ok D 5 256 4");
    let part = |size, inner: &[u16]| [&[0x0805, size, 0, 0x0A00, 7, 0], inner, &[0x000F]].concat();
    assert_eq!(read(&part(0x10, &[0x4A01])), "ok D 5 0 2");
    assert_eq!(read(&part(0x10, &[0xCB0A])), "refused 11 at 7");
    assert_eq!(read(&part(0x12, &[0xCB0A, 0x0E03])), "refused 11 at 8");
    assert_eq!(read(&part(0x14, &[0xCB0A, 0x0E03, 0x30FA])), "ok D 5 0 4");
}

/// A continued event's size is not judged by the frame, its low four bits are.
#[test]
fn the_size_of_a_continued_event_is_free() {
    let ended = |word, low, high| [0x0805, 0x14, 0, 0x0A00, 7, 0, word, low, high, 0x000F];
    assert_eq!(ask(EVENT, &[0], &ended(0x00E0, 0, 0)), "ok - - 7 0 3");
    assert_eq!(ask(EVENT, &[0], &ended(0x00E0, 12, 0)), "ok - - 7 12 3");
    assert_eq!(ask(EVENT, &[0], &ended(0x00E0, 0xFFFF, 0xFFFF)), "ok - - 7 4294967295 3");
    assert_eq!(read(&ended(0x00E1, 12, 0)), "refused 9 at 6");
    // An event that starts behind it is judged as ever: it has 18 bytes.
    let then = |size| {
        let head = [0x0805, 0x26, 0, 0x0A00, 7, 0, 0x00E0, 99, 0];
        [&head[..], &[0x00F1, 0, 0, 0, 8, 0, 0x00E0, size, 0, 0x000F]].concat()
    };
    assert_eq!(read(&then(18)), "ok D 5 0 4");
    assert_eq!(read(&then(30)), "refused 9 at 15");
}

#[test]
fn channels_rise_since_the_continue_event() {
    let two = |second| {
        let first = [0x0805, 0x1A, 0, 0x0A00, 7, 0, 0xCB0A, 0x0E03, 0x30FA];
        [&first[..], &[second, 0x0E03, 0x30FA, 0x000F]].concat()
    };
    assert_eq!(read(&two(0xCB0B)), "ok D 5 0 7");
    assert_eq!(read(&two(0xCB0A)), "refused 10 at 9");
    assert_eq!(read(&two(0xCB09)), "refused 10 at 9");
}

/// The end of event 7, all of event 8, the beginning of event 9.
const THREE: [u16; 32] = [
    0x0805, 0x0040, 0x0003, 0x0A00, 0x0007, 0x0000, 0xCB0B, 0x0E04, 0x30FC, 0x00E0, 0x0026, 0x0000,
    0x00F2, 0x0001, 0x0000, 0x0000, 0x0008, 0x0000, 0x00E0, 0x0012, 0x0000, 0x00F3, 0x0000, 0x0001,
    0x0000, 0x0009, 0x0000, 0xCA00, 0x0E00, 0x3001, 0x3002, 0x000F,
];

#[test]
fn a_leading_part_counts_as_event_0() {
    assert_eq!(read(&THREE), "ok D 5 3 12");
    assert_eq!(ask(EVENT, &[0], &THREE), "ok - - 7 38 3");
    assert_eq!(ask(EVENT, &[1], &THREE), "ok 2 1 8 18 12");
    assert_eq!(ask(EVENT, &[2], &THREE), "ok 3 65536 9 - 21");
    assert_eq!(ask(EVENT, &[3], &THREE), "refused 13 at 0");
}

#[test]
fn samples_of_parts_are_found() {
    let bytes = to_bytes(&THREE);
    let mut out = [7; 512];
    let mut expected = [0xFFFF; 512];
    crate::frame::samples(&bytes, 0, 2, 11, &mut out).unwrap();
    expected[4] = 252;
    assert_eq!(out, expected);
    crate::frame::samples(&bytes, 2, 0, 0, &mut out).unwrap();
    (expected[4], expected[0], expected[1]) = (0xFFFF, 1, 2);
    assert_eq!(out, expected);
    assert_eq!(ask(SAMPLE_WORD, &[0, 2, 11, 4], &THREE), "ok 8");
    assert_eq!(ask(SAMPLE_WORD, &[2, 0, 0, 1], &THREE), "ok 30");
    // Channel 10 of event 7 stands in another frame; event 8 has none.
    assert_eq!(ask(SAMPLE_WORD, &[0, 2, 10, 3], &THREE), "refused 13 at 0");
    assert_eq!(ask(SAMPLE_WORD, &[1, 2, 11, 4], &THREE), "refused 13 at 0");
}

#[test]
fn the_writer_adds_continue_events() {
    let mut buffer = to_bytes(&[0x0805, 0, 1, 0xEEEE, 0xEEEE, 0xEEEE, 0xEEEE, 0xEEEE]);
    let call = |buffer: &mut Vec<u8>, op: u8, arguments: &[u64]| {
        let mut case = Case::new(op, arguments).p(buffer);
        let line = answer(&mut case);
        *buffer = case.p;
        line.split(" |").next().unwrap().to_string()
    };
    assert_eq!(call(&mut buffer, ADD, &[6, 15, 0x0003_0007]), "ok 12");
    assert_eq!(buffer, to_bytes(&[0x0805, 0, 1, 0x0A00, 7, 3, 0xEEEE, 0xEEEE]));
    assert_eq!(call(&mut buffer, ADD, &[12, 15, 7]), "refused 8 at 6");
    assert_eq!(call(&mut buffer, ADD, &[12, 1, 5, 2, 10]), "ok 14");
    assert_eq!(call(&mut buffer, CLOSE, &[14]), "refused 11 at 7");
    assert_eq!(call(&mut buffer, CLOSE, &[12]), "ok 14");
    assert_eq!(buffer, to_bytes(&[0x0805, 14, 1, 0x0A00, 7, 3, 0x000F, 0xEEEE]));
    // The end word has to fit too: 6 + 6 + 2.
    let mut short = to_bytes(&[0x0805, 0, 1, 0, 0, 0, 0]);
    short.pop();
    assert_eq!(call(&mut short, ADD, &[6, 15, 7]), "refused 12 at 0");
    let mut monitor = to_bytes(&[0x0605, 0, 1, 0, 0, 0, 0]);
    assert_eq!(call(&mut monitor, ADD, &[6, 15, 7]), "refused 8 at 3");
}

#[test]
fn the_writer_ends_and_leaves_events_open() {
    let close = |words: &[u16], length| {
        let line = ask(CLOSE, &[length], words);
        line.split(" |").next().unwrap().to_string()
    };
    let start = [0x0805, 0, 0x0100, 0x00F1, 0x03E8, 0, 0, 7, 0, 0xCB0A, 0x0E03, 0x30FA, 0];
    assert_eq!(close(&start, 18), "ok 20");
    assert_eq!(close(&start, 20), "refused 11 at 10");
    assert_eq!(close(&start, 22), "refused 11 at 11");
    assert_eq!(close(&start, 24), "ok 26");
    // The end of an event that began elsewhere takes any size.
    let part = [0x0805, 0, 1, 0x0A00, 7, 0, 0, 0, 0, 0];
    for size in [0, 12, 13, 0xFFFF_FFFF] {
        assert!(ask(ADD, &[12, 13, size], &part).starts_with("ok 18 |"));
    }
}

/// Event 7 in three frames of card 5: 18, 12 and 12 bytes, 42 in all.
const FIRST: [u16; 13] =
    [0x0805, 0x001A, 0x0100, 0x00F1, 0x03E8, 0, 0, 7, 0, 0xCB0A, 0x0E03, 0x30FA, 0x000F];
const SECOND: [u16; 10] = [0x0805, 0x0014, 0x0001, 0x0A00, 7, 0, 0xCB0B, 0x0E04, 0x30FC, 0x000F];
const THIRD: [u16; 10] = [0x0805, 0x0014, 0x0002, 0x0A00, 7, 0, 0x00E0, 0x002A, 0, 0x000F];
/// The start of event 8 alone, where 2 is expected.
const OTHER: [u16; 10] = [0x0805, 0x0014, 0x0002, 0x00F1, 0, 0, 0, 8, 0, 0x000F];

#[test]
fn an_event_runs_over_three_frames() {
    assert_eq!(run(&[]), "ok none");
    assert_eq!(run(&[&FIRST]), "ok lost 0 open 7 18");
    assert_eq!(run(&[&FIRST, &SECOND]), "ok lost 0 lost 0 open 7 30");
    assert_eq!(run(&[&FIRST, &SECOND, &THIRD]), "ok lost 0 lost 0 lost 0 none");
}

/// The same steps from states in numbers. The headers are 1 + 2 * 128 + 10 and
/// one more.
#[test]
fn the_steps_in_numbers() {
    assert_eq!(ask(STEP, &[5], &FIRST), "ok 0 2 1 7 18 267");
    assert_eq!(ask(STEP, &[5, 2, 1, 7, 18, 267], &SECOND), "ok 0 3 1 7 30 268");
    assert_eq!(ask(STEP, &[5, 3, 1, 7, 30, 268], &THIRD), "ok 0 4 0 0 0 0");
    // A part without a Channel keeps the header, none stays none.
    assert_eq!(ask(STEP, &[5, 0, 1, 7, 18, 267], &ALONE), "ok 0 0 1 7 24 267");
    assert_eq!(ask(STEP, &[5, 0, 1, 7, 18, 0], &ALONE), "ok 0 0 1 7 24 0");
    // One event ends, another whole one follows, a third is left open.
    assert_eq!(ask(STEP, &[5, 4, 1, 7, 20, 267], &THREE), "ok 0 5 1 9 20 1");
}

#[test]
fn sizes_count_all_parts_and_their_continue_events() {
    let sized = |size| run(&[&FIRST, &SECOND, &with(&THIRD, 7, size)]);
    let wrong = "ok lost 0 lost 0 refused 15 at 0 open 7 30";
    // Without the Continue items, the last part, two parts, one off, and with
    // the head and end words of the three frames.
    for size in [30, 12, 24, 40, 41, 43, 44, 42 + 24, 0] {
        assert_eq!(sized(size), wrong, "{size}");
    }
    assert_eq!(run(&[&FIRST, &SECOND, &with(&THIRD, 8, 1)]), wrong);
}

#[test]
fn the_number_goes_on() {
    let other = "ok lost 0 refused 15 at 0 open 7 18";
    assert_eq!(run(&[&FIRST, &with(&SECOND, 4, 8)]), other);
    assert_eq!(run(&[&FIRST, &with(&SECOND, 5, 1)]), other);
    // A new event, or no item at all, does not go on with the open one.
    assert_eq!(run(&[&FIRST, &with(&OTHER, 2, 1)]), other);
    assert_eq!(run(&[&FIRST, &[0x0805, 8, 1, 0x000F]]), other);
}

#[test]
fn headers_go_on_rising() {
    let same = "ok lost 0 refused 15 at 0 open 7 18";
    assert_eq!(run(&[&FIRST, &with(&SECOND, 6, 0xCB0A)]), same);
    assert_eq!(run(&[&FIRST, &with(&SECOND, 6, 0xCB09)]), same);
    // A part without a Channel stands between the two.
    let between = [0x0805, 0x0010, 0x0001, 0x0A00, 7, 0, 0x4A01, 0x000F];
    let again = |word| with(&with(&SECOND, 2, 2), 6, word);
    let first = "ok lost 0 lost 0";
    assert_eq!(
        run(&[&FIRST, &between, &again(0xCB0A)]),
        format!("{first} refused 15 at 0 open 7 26")
    );
    assert_eq!(run(&[&FIRST, &between, &again(0xCB0B)]), format!("{first} lost 0 open 7 38"));
}

#[test]
fn nothing_may_be_lost_inside_an_event() {
    // 2 where 1 is expected: refused, and nothing moves. Then the right one.
    let late = with(&SECOND, 2, 2);
    assert_eq!(run(&[&FIRST, &late, &SECOND]), "ok lost 0 refused 15 at 0 lost 0 open 7 30");
    // Numbers not in use, and a new start inside the event.
    let idle = |words: &[u16]| with(words, 2, 0);
    let unnumbered = [idle(&FIRST), idle(&SECOND), idle(&THIRD)];
    let unnumbered: Vec<&[u16]> = unnumbered.iter().map(Vec::as_slice).collect();
    assert_eq!(run(&unnumbered), "ok lost 0 lost 0 lost 0 none");
    let anew = [with(&SECOND, 2, 0x0100), with(&THIRD, 2, 1)];
    assert_eq!(run(&[&FIRST, &anew[0], &anew[1]]), "ok lost 0 lost 0 lost 0 none");
    // 0000 where 1 is expected is a loss of 255.
    assert_eq!(run(&[&FIRST, &idle(&SECOND)]), "ok lost 0 refused 15 at 0 open 7 18");
}

#[test]
fn outside_an_event_a_loss_is_reported() {
    let empty = |sequence| [0x0805, 8, sequence, 0x000F];
    let frames: [&[u16]; 3] = [&empty(0x0100), &empty(5), &with(&OTHER, 2, 5)];
    assert_eq!(run(&frames), "ok lost 0 lost 4 lost 255 open 8 12");
}

/// Frame refusals first, then 14, then 15; a refusal moves nothing.
#[test]
fn refusals_come_in_order() {
    let monitor = |sequence| [0x0605, 8, sequence, 0x000F];
    let card = |sequence| [0x0804, 8, sequence, 0x000F];
    assert_eq!(run(&[&monitor(5), &monitor(0)]), "ok refused 14 at 0 refused 15 at 0 none");
    assert_eq!(run(&[&card(5), &card(0)]), "ok refused 14 at 0 refused 15 at 0 none");
    assert_eq!(run(&[&[0x0405, 8, 0, 0x000F]]), "ok refused 15 at 0 none");
    assert_eq!(run(&[&with(&ALONE, 2, 5), &ALONE]), "ok refused 14 at 0 refused 15 at 0 none");
    // Sequence word 0005 and a content of 1: the frame's own fault comes first.
    let faulty = with(&with(&ALONE, 2, 5), 3, 0x0A01);
    assert_eq!(run(&[&faulty, &[0x0805]]), "ok refused 9 at 3 refused 1 at 0 none");
    // Another card's 0100 does not start this card's numbers.
    assert_eq!(run(&[&card(0x0100), &OTHER]), "ok refused 15 at 0 refused 14 at 0 none");
}

#[test]
fn an_open_event_is_given_up() {
    let up: &[u16] = &[];
    // Its next part is 15 then, and 2 is still expected.
    let frames: [&[u16]; 5] = [&FIRST, &SECOND, up, &THIRD, &OTHER];
    let line = "ok lost 0 lost 0 given up refused 15 at 0 lost 0 open 8 12";
    assert_eq!(run(&frames), line);
    assert_eq!(run(&[up, &FIRST, up, up]), "ok given up lost 0 given up given up none");
    // What was lost before the event was given up is told with the next frame:
    // 1 was expected, 2 comes.
    let late = with(&SECOND, 2, 2);
    let frames: [&[u16]; 4] = [&FIRST, &late, up, &OTHER];
    assert_eq!(run(&frames), "ok lost 0 refused 15 at 0 given up lost 1 open 8 12");
}

/// Sizes end at 4,294,967,295, for an event that goes on and one that ends.
#[test]
fn sizes_stay_in_32_bits() {
    let goes_on = |size| ask(STEP, &[5, 0, 1, 7, size, 0], &ALONE);
    assert_eq!(goes_on(4_294_967_289), "ok 0 0 1 7 4294967295 0");
    assert_eq!(goes_on(4_294_967_290), "refused 15 at 0");
    assert_eq!(goes_on(4_294_967_295), "refused 15 at 0");
    let ends = |size, low, high| {
        let part = [0x0805, 0x14, 0, 0x0A00, 7, 0, 0x00E0, low, high, 0x000F];
        ask(STEP, &[5, 0, 1, 7, size, 0], &part)
    };
    assert_eq!(ends(4_294_967_283, 0xFFFF, 0xFFFF), "ok 0 0 0 0 0 0");
    // 4,294,967,284 + 12 is 2^32, which 32 bits would show as 0.
    assert_eq!(ends(4_294_967_284, 0, 0), "refused 15 at 0");
    assert_eq!(ends(4_294_967_295, 11, 0), "refused 15 at 0");
}

/// A card above 31 matches no frame, also not the one that its low bits name.
#[test]
fn a_card_above_31_matches_none() {
    let steps = [Step::Frame(to_bytes(&FIRST))];
    let card = |card| line(Case::new(RUN, &[card]).p(&payload(&steps)));
    assert_eq!(card(5), "ok lost 0 open 7 18");
    for other in [4, 6, 32, 37, 0x0105, 0xFFFF] {
        assert_eq!(card(other), "ok refused 15 at 0 none");
    }
}
