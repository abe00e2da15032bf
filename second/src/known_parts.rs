//! Frames of request 1 whose verdict is known from the rules alone: those that
//! begin with Continue event, and those that end in an open event.

use crate::known::*;

pub fn parts() -> Vec<Known> {
    [continues(), ends(), open_ends(), orders()].concat()
}

/// The items of a part: Continue event and what follows it.
pub fn part(inner: &[u16]) -> Vec<u16> {
    [&CONTINUE, inner].concat()
}

/// Continue event by place, content and the words after it.
fn continues() -> Vec<Known> {
    let data = |items: &[u16]| framed(DATA, items);
    let mut known = vec![good(data(&CONTINUE)), good(data(&[0x0A00, 0, 0]))];
    known.push(good(data(&[0x0A00, 0xFFFF, 0xFFFF])));
    // The words after it are data, whatever they look like.
    known.push(good(data(&[0x0A00, 0x000F, 0x00F1])));
    known.push(good(data(&[0x0A00, 0x0A01, 0x0A00])));
    for content in [1, 0x0010, 0x0100, 511] {
        known.push(bad(data(&[0x0A00 | content, 7, 0]), 9, 3));
    }
    for start in [MONITOR, COMMAND] {
        known.push(bad(framed(start, &CONTINUE), 8, 3));
        known.push(bad(framed(start, &[0x0BFF, 7, 0]), 8, 3));
    }
    for start in [DATA, MONITOR, COMMAND] {
        known.push(bad(framed(start, &[0x0A00]), 7, 3));
        known.push(bad(framed(start, &[0x0A00, 7]), 7, 3));
        known.push(bad(framed(start, &[0x0BFF, 7]), 7, 3));
    }
    // Only the first item of the frame: not after itself, not inside an event,
    // not behind one. Place comes before the content, a cut before both.
    for word in [0x0A00, 0x0A01] {
        let again = [word, 7, 0];
        known.push(bad(data(&part(&again)), 8, 6));
        known.push(bad(data(&[&START[..], &again].concat()), 8, 9));
        known.push(bad(data(&[event(&[]), again.to_vec()].concat()), 8, 12));
        known.push(bad(data(&part(&[&[0x00E0, 12, 0], &again[..]].concat())), 8, 9));
        known.push(bad(data(&[event(&[]), vec![word, 7]].concat()), 7, 12));
    }
    known.push(bad(framed(MONITOR, &[&[0x8A05], &CONTINUE[..]].concat()), 8, 4));
    known.push(bad(framed(COMMAND, &[&[0x0101, 0], &CONTINUE[..]].concat()), 8, 5));
    known
}

/// End event behind Continue event: any size passes, low bits do not; of an
/// event that starts here the size is judged as ever.
fn ends() -> Vec<Known> {
    let mut known = Vec::new();
    let ended = |word: u16, low: u16, high: u16| framed(DATA, &part(&[word, low, high]));
    for (low, high) in [(0, 0), (12, 0), (13, 0), (18, 0), (0xFFFF, 0xFFFF), (0, 0x8000)] {
        known.push(good(ended(0x00E0, low, high)));
    }
    for word in [0x00E1, 0x00E8, 0x00EF] {
        known.push(bad(ended(word, 12, 0), 9, 6));
    }
    let cut = [&[0x00E0][..], &[0x00E0, 12]];
    known.extend(cut.map(|end| bad(framed(DATA, &part(end)), 7, 6)));
    let then = |items: &[u16]| framed(DATA, &[&part(&[0x00E0, 12, 0]), items].concat());
    known.push(good(then(&event(&[]))));
    known.push(good(then(&START)));
    known.push(bad(then(&[&START[..], &[0x00E0, 12, 0]].concat()), 9, 15));
    known.push(bad(then(&[&START[..], &[0x00E0, 30, 0]].concat()), 9, 15));
    known.push(bad(then(&[0x00E0, 0, 0]), 8, 9));
    known
}

/// Frames that end after each class that an event has, in an event of their
/// own, behind a whole one and inside a part.
fn open_ends() -> Vec<Known> {
    let mut known = Vec::new();
    let block = [0xCA05, 0x0E03, 0x30FA];
    let openers = [START.to_vec(), [event(&[]), START.to_vec()].concat(), CONTINUE.to_vec()];
    for opener in openers {
        let frame = |inner: &[u16]| framed(DATA, &[&opener[..], inner].concat());
        let last = |inner: &[u16]| 3 + (opener.len() + inner.len()) as u64;
        let fine: [&[u16]; 6] = [
            &[],
            &[0x4A05],
            &[0x1805],
            &block,
            &[0xCA05, 0x0E03, 0x30FA, 0x4A05],
            &[0x4A4F, 0x1FFF],
        ];
        known.extend(fine.map(|inner| good(frame(inner))));
        let cut: [&[u16]; 4] = [
            &block[..1],
            &block[..2],
            &[0xCA05, 0x0E03, 0x30FA, 0xCA06],
            &[0xCA05, 0x0E03, 0x30FA, 0x0E05],
        ];
        known.extend(cut.map(|inner| bad(frame(inner), 11, last(inner))));
        // A faulty item comes before the cut.
        let faulty = [0x4A50, 0xCA05];
        known.push(bad(frame(&faulty), 9, last(&[])));
    }
    known
}

/// Channels rise since the frame's Start or Continue event, and begin anew
/// with the next Start event.
fn orders() -> Vec<Known> {
    let block = |channel: u16| vec![channel, 0x0E00, 0x3001];
    let two = |second| framed(DATA, &part(&[block(0xCA4E), block(second)].concat()));
    let mut known: Vec<Known> = [0xCA80, 0xCBCE].map(|second| good(two(second))).to_vec();
    known.extend([0xCA4E, 0xCA4D, 0xCA00].map(|second| bad(two(second), 10, 9)));
    known.extend([0xCA4F, 0xC800].map(|second| bad(two(second), 9, 9)));
    // Order holds across loose items too.
    let loose = part(&[&block(0xCA05)[..], &[0x4A05, 0x1805], &block(0xCA05)].concat());
    known.push(bad(framed(DATA, &loose), 10, 11));
    let ended = part(&[&block(0xCA4E)[..], &[0x00E0, 99, 0]].concat());
    known.push(good(framed(DATA, &[&ended[..], &event(&block(0xCA00))].concat())));
    known.push(good(framed(DATA, &[&ended[..], &START, &block(0xCA4E)].concat())));
    // Times inside a part follow the same rules.
    let sampled = |time: u16| part(&[0xCA05, 0x0E03, 0x30FA, 0x30FB, 0x0E00 | time, 0x3001]);
    known.push(good(framed(DATA, &sampled(6))));
    known.push(bad(framed(DATA, &sampled(5)), 10, 10));
    known.push(bad(framed(DATA, &part(&[0xCA05, 0x0FFF, 0x3001, 0x3001])), 10, 9));
    known
}

/// Frames of 8,192 bytes: an event without its end, a part with the end of a
/// longer event, and one that a Channel cuts.
pub fn long_parts() -> Vec<Known> {
    let open = [&START[..], &vec![0x4A01; 4086]].concat();
    let ended = [&CONTINUE[..], &vec![0x1801; 4086], &[0x00E0, 0x5678, 0x0001]].concat();
    let cut = [&CONTINUE[..], &vec![0x1801; 4088], &[0xCA05]].concat();
    vec![good(framed(DATA, &open)), good(framed(DATA, &ended)), bad(framed(DATA, &cut), 11, 4095)]
}
