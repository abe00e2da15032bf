//! Frames whose verdict is known from the rules alone, at the edges of each
//! rule. The verdicts are written down here and not computed.

use crate::item::to_bytes;
use crate::known_parts::{long_parts, parts};

/// A frame and its refusal, number and place; none where it is accepted.
#[derive(Clone, Debug)]
pub struct Known {
    pub bytes: Vec<u8>,
    pub refusal: Option<(u8, u64)>,
}

pub const DATA: u16 = 0x0805;
pub const MONITOR: u16 = 0x0605;
pub const COMMAND: u16 = 0x0405;
/// A Start event and five words after it.
pub const START: [u16; 6] = [0x00F1, 0x03E8, 0, 0, 7, 0];

/// A Continue event of the same number and the two words after it.
pub const CONTINUE: [u16; 3] = [0x0A00, 7, 0];

/// The frame of the items, with right head and end.
pub fn framed(start: u16, items: &[u16]) -> Vec<u8> {
    framed_with(0x0100, start, items)
}

/// The same with a sequence word.
pub fn framed_with(sequence: u16, start: u16, items: &[u16]) -> Vec<u8> {
    let size = 2 * items.len() as u16 + 8;
    to_bytes(&[&[start, size, sequence], items, &[0x000F]].concat())
}

/// An event round the items, with its right size.
pub fn event(inner: &[u16]) -> Vec<u16> {
    let size = 2 * (9 + inner.len()) as u16;
    [&START, inner, &[0x00E0, size, 0]].concat()
}

pub fn good(bytes: Vec<u8>) -> Known {
    Known { bytes, refusal: None }
}

pub fn bad(bytes: Vec<u8>, number: u8, place: u64) -> Known {
    Known { bytes, refusal: Some((number, place)) }
}

/// All frames of the corpus but the long ones.
pub fn frames() -> Vec<Known> {
    let alone = [figures(), heads(), classes_and_cuts(), places(), values(), texts(), orders()];
    [alone.concat(), parts()].concat()
}

/// Document 01's cases 1 to 9.
pub fn figures() -> Vec<Known> {
    let third = |at: usize, word: u16| {
        let mut words = [&[DATA, 0x0022, 0x0100], &event(&SIX)[..], &[0x000F]].concat();
        words[at] = word;
        to_bytes(&words)
    };
    let seventh = |header, low, high| framed_with(0, MONITOR, &[header, 0x2100, low, high]);
    vec![
        good(framed_with(0, DATA, &[])),
        bad(to_bytes(&[0x0825, 8, 0, 0x000F]), 2, 0),
        good(third(0, DATA)),
        bad(third(14, 0x001C), 9, 13),
        bad(third(10, 0x30FA), 8, 10),
        bad(third(10, 0x0FFF), 10, 12),
        good(seventh(0x8A4E, 0x1170, 1)),
        bad(seventh(0x8A4F, 0x1170, 1), 9, 3),
        bad(seventh(0x8A4E, 0, 0), 9, 4),
    ]
}

/// What stands in the event of case 3.
pub const SIX: [u16; 4] = [0xCB0A, 0x0E03, 0x30FA, 0x30FB];

/// Rules 1 to 5 on frames of eight bytes or about.
fn heads() -> Vec<Known> {
    let mut known = Vec::new();
    for length in [0, 1, 2, 6, 7, 9] {
        let mut bytes = to_bytes(&[DATA, length as u16, 0, 0x000F, 0x000F]);
        bytes.truncate(length);
        known.push(bad(bytes, 1, 0));
    }
    for start in [0x0400, 0x041F, 0x0600, 0x061F, 0x0800, 0x081F] {
        known.push(good(to_bytes(&[start, 8, 0, 0x000F])));
    }
    for start in [0x03FF, 0x0420, 0x05FF, 0x0620, 0x07FF, 0x0820, 0x09FF, 0x0A00, 0, 0x000F] {
        known.push(bad(to_bytes(&[start, 8, 0, 0x000F]), 2, 0));
    }
    for size in [0, 6, 7, 9, 10, 0x0108] {
        known.push(bad(to_bytes(&[DATA, size, 0, 0x000F]), 3, 0));
    }
    for sequence in [0, 1, 0x00FF, 0x0100] {
        known.push(good(to_bytes(&[COMMAND, 8, sequence, 0x000F])));
    }
    for sequence in [0x0101, 0x0200, 0x8000, 0xFFFF] {
        known.push(bad(to_bytes(&[MONITOR, 8, sequence, 0x000F]), 4, 0));
    }
    for end in [0, 0x000E, 0x0010, 0x0F00, 0x010F] {
        known.push(bad(to_bytes(&[DATA, 8, 0x0100, end]), 5, 0));
    }
    // Two faults: the lower number is given.
    known.push(bad(to_bytes(&[0x0825, 9, 0x0101, 0]), 2, 0));
    known.push(bad(to_bytes(&[DATA, 9, 0x0101, 0]), 3, 0));
    known.push(bad(to_bytes(&[DATA, 8, 0x0101, 0]), 4, 0));
    known.push(bad(to_bytes(&[DATA, 10, 0, 0x0000, 0]), 5, 0));
    known
}

/// Unassigned words, and items cut by one word or by all.
fn classes_and_cuts() -> Vec<Known> {
    let mut known = Vec::new();
    let unassigned = [0, 0x000E, 0x0010, 0x00DF, 0x0200, 0x03FF, 0x0C00, 0x0DFF, 0x1000, 0x17FF];
    for (at, word) in unassigned.into_iter().enumerate() {
        known.push(bad(framed([DATA, MONITOR, COMMAND][at % 3], &[word]), 6, 3));
    }
    known.push(bad(framed(DATA, &[&START[..], &[0x0000]].concat()), 6, 9));
    for start in [DATA, MONITOR, COMMAND] {
        known.push(bad(framed(start, &START[..5]), 7, 3));
        known.push(bad(framed(start, &[0x00E0, 18]), 7, 3));
        known.push(bad(framed(start, &[0x2FFF, 1]), 7, 3));
        known.push(bad(framed(start, &[0x0103, 0x4141]), 7, 3));
        known.push(bad(framed(start, &[0x0101]), 7, 3));
    }
    known.push(bad(framed(DATA, &[&START[..], &[0x00E0, 18]].concat()), 7, 9));
    known.push(bad(framed(DATA, &[&START[..], &[0x00E0]].concat()), 7, 9));
    known.push(bad(framed(MONITOR, &[0x8A05, 0x2000, 1]), 7, 4));
    known.push(bad(framed(COMMAND, &[&[0x01FF][..], &[0x4141; 127]].concat()), 7, 3));
    // A text without words after it is never cut.
    known.push(bad(framed(COMMAND, &[0x0100]), 9, 3));
    known.push(bad(framed(MONITOR, &[0x0100]), 8, 3));
    known
}

/// What may stand before an item: the start word, the items so far, where the
/// open event starts, and the rows that are allowed next.
pub struct Before {
    pub start: u16,
    pub items: Vec<u16>,
    pub event: Option<usize>,
    pub allowed: &'static [u64],
}

impl Before {
    /// All rows are tried at the places that differ most; after the rest only
    /// the allowed ones and those that a lax reader would take.
    pub fn is_worth(&self, row: u64) -> bool {
        let last = self.items.last().copied();
        let inside = matches!(last, None | Some(0xCA05 | 0x0E03 | 0x30FA));
        let differs = match self.items.starts_with(&CONTINUE) {
            true => self.items == CONTINUE,
            false => inside || self.items == START,
        };
        let frame_start = (8..=10).contains(&row);
        let lax = [4, 7, 15].contains(&row);
        self.allowed.contains(&row) || lax || (differs && (!frame_start || last.is_none()))
    }
}

pub fn befores() -> Vec<Before> {
    let inside: &[u64] = &[1, 3, 6, 13];
    let outside = |start, items: &[u16], allowed| Before {
        start,
        items: items.to_vec(),
        event: None,
        allowed,
    };
    let within = |items: &[u16], allowed| {
        let items = [&START[..], items].concat();
        Before { start: DATA, items, event: Some(3), allowed }
    };
    // The event that is open began in an earlier frame.
    let part = |items: &[u16], allowed| outside(DATA, &[&CONTINUE, items].concat(), allowed);
    vec![
        outside(DATA, &[], &[12, 15]),
        outside(DATA, &event(&[]), &[12]),
        within(&[], inside),
        within(&[0x4A05], inside),
        within(&[0x1805], inside),
        within(&[0xCA05], &[7]),
        within(&[0xCA05, 0x0E03], &[4]),
        within(&[0xCA05, 0x0E03, 0x30FA], &[1, 3, 4, 6, 7, 13]),
        within(&[0xCA05, 0x0E03, 0x30FA, 0x4A05], inside),
        within(&[0xCA05, 0x0E03, 0x30FA, 0x1805], inside),
        part(&[], inside),
        part(&[0x4A05], inside),
        part(&[0x1805], inside),
        part(&[0xCA05], &[7]),
        part(&[0xCA05, 0x0E03], &[4]),
        part(&[0xCA05, 0x0E03, 0x30FA], &[1, 3, 4, 6, 7, 13]),
        part(&[0x00E0, 0, 0], &[12]),
        outside(MONITOR, &[], &[2]),
        outside(MONITOR, &[0x8A05], &[2, 5]),
        outside(MONITOR, &[0x8A05, 0x2100, 1, 0], &[2, 5]),
        outside(COMMAND, &[], &[11]),
        outside(COMMAND, &[0x0101, 0], &[11]),
    ]
}

/// An item of the row that breaks no rule where its class is allowed.
pub fn next_item(before: &Before, row: u64) -> Vec<u16> {
    let index = 3 + before.items.len();
    let size = before.event.map_or(18, |start| 2 * (index + 3 - start)) as u16;
    match row {
        1 => vec![0xCA06],
        2 => vec![0x8A06],
        3 => vec![0x4A01],
        4 => vec![0x3001],
        5 => vec![0x2101, 1, 0],
        6 => vec![0x1801],
        7 => vec![0x0E09],
        8 => vec![0x0805],
        9 => vec![0x0605],
        10 => vec![0x0405],
        11 => vec![0x0102, 0x0041],
        12 => START.to_vec(),
        13 => vec![0x00E0, size, 0],
        15 => CONTINUE.to_vec(),
        _ => vec![0x000F],
    }
}

/// The classes after everything that may stand.
fn places() -> Vec<Known> {
    let mut known = Vec::new();
    for before in befores() {
        for row in (1..=15).filter(|row| before.is_worth(*row)) {
            let item = next_item(&before, row);
            let items = [&before.items[..], &item].concat();
            let (index, last) = (3 + before.items.len() as u64, 3 + items.len() as u64);
            let bytes = framed(before.start, &items);
            // A frame may end in an open event, but not after Channel or Time bin.
            let cut = [1, 7].contains(&row);
            known.push(match before.allowed.contains(&row) {
                false => bad(bytes, 8, index),
                true if cut => bad(bytes, 11, last),
                true => good(bytes),
            });
        }
    }
    known
}

/// Cards, channels, counts and sizes at their limits.
fn values() -> Vec<Known> {
    let mut known = Vec::new();
    let block = |channel: u16| framed(DATA, &event(&[channel, 0x0E00, 0x3FFF]));
    known.extend([0xCA00, 0xCA4E, 0xCBCE].map(|word| good(block(word))));
    known.extend([0xCA4F, 0xCA7F, 0xCBCF, 0xC84E, 0xCC4E].map(|word| bad(block(word), 9, 9)));
    let loose = |word: u16| framed(DATA, &event(&[word]));
    known.extend([0x4A00, 0x4A4F, 0x4BCF, 0x1800, 0x1FFF].map(|word| good(loose(word))));
    known.extend([0x4A50, 0x4A7F, 0x484F, 0x4C4F].map(|word| bad(loose(word), 9, 9)));
    let ended =
        |word: u16, low: u16, high: u16| framed(DATA, &[&START[..], &[word, low, high]].concat());
    known.push(good(ended(0x00E0, 18, 0)));
    known.extend([16, 17, 19, 20, 0].map(|low| bad(ended(0x00E0, low, 0), 9, 9)));
    known.extend([0x00E1, 0x00E8, 0x00EF].map(|word| bad(ended(word, 18, 0), 9, 9)));
    known.push(bad(ended(0x00E0, 18, 1), 9, 9));
    known.extend([0x8A00, 0x8A4E, 0x8BCE].map(|word| good(framed(MONITOR, &[word]))));
    for word in [0x8A4F, 0x8BCF, 0x8A7F, 0x884E, 0x8C4E] {
        known.push(bad(framed(MONITOR, &[word]), 9, 3));
    }
    let bin = |bin: u16, low: u16, high: u16| framed(MONITOR, &[0x8A05, bin, low, high]);
    known.extend(
        [(1, 0), (0, 1), (0xFFFF, 0xFFFF), (0x00F1, 0)].map(|c| good(bin(0x2000, c.0, c.1))),
    );
    known.push(good(bin(0x2FFF, 0x30FA, 0x000F)));
    known.extend([0x2000, 0x2FFF].map(|word| bad(bin(word, 0, 0), 9, 4)));
    // An event with every field full, and one with none.
    for word in [0x00FF, 0x00F0] {
        let fill = if word == 0x00FF { 0xFFFF } else { 0 };
        let start = [word, fill, fill, fill, fill, fill];
        known.push(good(framed(DATA, &[&start[..], &[0x00E0, 18, 0]].concat())));
    }
    known
}

/// Texts by length, final zero, earlier zeros and padding.
fn texts() -> Vec<Known> {
    let text = |words: &[u16]| framed(COMMAND, words);
    let long = |n: u16, last: u16| {
        let full = (n as usize).div_ceil(2) - 1;
        text(&[&[0x0100 | n][..], &vec![0x4142; full], &[last]].concat())
    };
    let mut known: Vec<Known> =
        [&[0x0101, 0][..], &[0x0102, 0x00FF], &[0x0103, 0x4142, 0], &[0x0104, 0x4142, 0x0043]]
            .map(|words| good(text(words)))
            .to_vec();
    known.extend([(253, 0), (254, 0x0041), (255, 0)].map(|(n, last)| good(long(n, last))));
    let broken: [&[u16]; 11] = [
        &[0x0101, 0x0001],
        &[0x0101, 0x0100],
        &[0x0102, 0x4100],
        &[0x0102, 0x0000],
        &[0x0102, 0x4141],
        &[0x0103, 0x4142, 0x0001],
        &[0x0103, 0x4142, 0x0100],
        &[0x0103, 0x4100, 0],
        &[0x0103, 0x0041, 0],
        &[0x0104, 0x4142, 0],
        &[0x0104, 0x4142, 0x4100],
    ];
    known.extend(broken.map(|words| bad(text(words), 9, 3)));
    let broken = [(253, 1), (254, 0x4141), (254, 0), (255, 0x0041), (255, 0x4100)];
    known.extend(broken.map(|(n, last)| bad(long(n, last), 9, 3)));
    known.push(good(text(&[0x0102, 0x0041, 0x0101, 0, 0x0103, 0x4142, 0])));
    known.push(bad(text(&[0x0102, 0x0041, 0x0101, 1, 0x0103, 0x4142, 0]), 9, 5));
    known
}

/// Times, headers and bins: rising, equal and falling.
fn orders() -> Vec<Known> {
    let mut known = Vec::new();
    let data = |inner: &[u16]| framed(DATA, &event(inner));
    let later = |time: u16| data(&[0xCA05, 0x0E03, 0x30FA, 0x30FB, 0x0E00 | time, 0x3001]);
    known.extend([6, 7, 511].map(|time| good(later(time))));
    known.extend([0, 3, 4, 5].map(|time| bad(later(time), 10, 13)));
    known.push(good(data(&[0xCA05, 0x0FFF, 0x3001])));
    known.push(bad(data(&[0xCA05, 0x0FFF, 0x3001, 0x3001]), 10, 12));
    known.push(good(data(&[0xCA05, 0x0FFE, 0x3001, 0x3001])));
    known.push(bad(data(&[0xCA05, 0x0FFE, 0x3001, 0x3001, 0x3001]), 10, 13));
    known.push(bad(data(&[0xCA05, 0x0FFE, 0x3001, 0x0FFF, 0x3001]), 10, 12));
    known.push(good(data(&[0xCA05, 0x0FFD, 0x3001, 0x0FFF, 0x3001])));
    // Times start anew with each channel.
    known.push(good(data(&[0xCA05, 0x0FFF, 0x3001, 0xCA06, 0x0E00, 0x3001])));
    let second = |channel: u16| data(&[0xCA4E, 0x0E00, 0x3001, channel, 0x0E00, 0x3001]);
    known.extend([0xCA80, 0xCBCE].map(|channel| good(second(channel))));
    known.extend([0xCA4E, 0xCA4D, 0xCA00].map(|channel| bad(second(channel), 10, 12)));
    known.extend([0xCA4F, 0xC800].map(|channel| bad(second(channel), 9, 12)));
    let both = [event(&[0xCA05, 0x0E00, 0x3001]), event(&[0xCA05, 0x0E00, 0x3002])].concat();
    known.push(good(framed(DATA, &both)));
    let headers = |second: u16| framed(MONITOR, &[0x8A4E, second]);
    known.extend([0x8A80, 0x8BCE].map(|header| good(headers(header))));
    known.extend([0x8A4E, 0x8A4D, 0x8A00].map(|header| bad(headers(header), 10, 4)));
    let bins = |second: u16| framed(MONITOR, &[0x8A05, 0x2100, 1, 0, second, 1, 0]);
    known.extend([0x2101, 0x2FFF].map(|bin| good(bins(bin))));
    known.extend([0x2100, 0x20FF, 0x2000].map(|bin| bad(bins(bin), 10, 7)));
    known.push(good(framed(MONITOR, &[0x8A05, 0x2100, 1, 0, 0x8A06, 0x2100, 1, 0])));
    // The first faulty item counts, whatever its number.
    known.push(bad(framed(MONITOR, &[0x8A05, 0x8A05, 0x0000]), 10, 4));
    known.push(bad(framed(MONITOR, &[0x8A05, 0x0000, 0x8A05]), 6, 4));
    known.push(bad(framed(DATA, &[&START[..], &[0x4A50, 0x8A05]].concat()), 9, 9));
    known
}

/// Frames at the limit of 8,192 bytes, by kind: a step of words under it, at
/// it, and over it.
pub fn long_frames() -> Vec<Known> {
    let mut known = Vec::new();
    for words in [4091, 4092, 4093] {
        for start in [DATA, MONITOR, COMMAND] {
            let bytes = framed(start, &filled(start, words));
            known.push(if words > 4092 { bad(bytes, 1, 0) } else { good(bytes) });
        }
    }
    let mut odd = framed(COMMAND, &filled(COMMAND, 4091));
    odd.push(0);
    known.push(bad(odd, 1, 0));
    known.extend(long_parts());
    known
}

/// Items of the kind that have exactly so many words, at least some thousand.
pub fn filled(start: u16, words: usize) -> Vec<u16> {
    match start {
        DATA => {
            let mut inner = Vec::new();
            for channel in 0..7 {
                inner.extend([0xCA00 + channel, 0x0E00]);
                inner.extend((0..512).map(|time| 0x3000 + time));
            }
            inner.resize(words - 9, 0x4A01);
            event(&inner)
        }
        MONITOR => {
            let mut items = vec![0x8A00];
            let bins = (words - 1) / 3;
            items.extend((0..bins as u16).flat_map(|bin| [0x2000 + bin, bin + 1, 0]));
            items.extend((0x8A01..).take(words - items.len()));
            items
        }
        _ => {
            let mut items = if words % 2 == 1 { vec![0x0103, 0x4142, 0] } else { vec![] };
            items.extend([0x0102, 0x0043].repeat((words - items.len()) / 2));
            items
        }
    }
}

#[cfg(test)]
mod tests {
    use super::*;
    use crate::frame::read;
    use crate::writer;

    fn verdict(bytes: &[u8]) -> Option<(u8, u64)> {
        read(bytes).err().map(|refusal| (refusal.number, refusal.place))
    }

    #[test]
    fn verdicts_are_as_written_down() {
        for known in frames().into_iter().chain(long_frames()) {
            let head: Vec<String> =
                known.bytes.iter().take(60).map(|b| format!("{b:02x}")).collect();
            assert_eq!(verdict(&known.bytes), known.refusal, "{}", head.concat());
        }
    }

    #[test]
    fn every_number_is_met() {
        for number in 1..=11 {
            let met = frames().iter().any(|known| known.refusal.is_some_and(|r| r.0 == number));
            assert!(met, "{number}");
        }
    }

    /// Closing the partial frame of an accepted frame gives its bytes again;
    /// of a frame with a fault in the items it gives the same refusal.
    #[test]
    fn partial_frames_have_the_same_verdicts() {
        for known in frames().into_iter().chain(long_frames()) {
            let length = known.bytes.len();
            let in_items = known.refusal.is_none_or(|(number, _)| number >= 6);
            if length < 8 || !in_items {
                continue;
            }
            let mut buffer = known.bytes.clone();
            buffer[2..4].fill(0);
            buffer[length - 2..].fill(0xEE);
            let answer = writer::close(&mut buffer, length as u64 - 2);
            let refusal = answer.err().map(|refusal| (refusal.number, refusal.place));
            assert_eq!(refusal, known.refusal);
            assert_eq!(answer.is_ok(), buffer == known.bytes);
        }
    }
}
