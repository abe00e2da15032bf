//! The items of a frame: taken out of words and put into words.

use crate::book::{classify, content, words_after, Class};

/// An item with its fields in the book's order. The fields are wide, so that
/// the writer can be handed values that do not fit and refuse them.
#[derive(Clone, Copy, PartialEq, Eq, Debug)]
pub enum Item {
    Channel {
        card: u64,
        chip: u64,
        channel: u64,
    },
    Histogram {
        card: u64,
        chip: u64,
        channel: u64,
    },
    HitCount {
        card: u64,
        chip: u64,
        count: u64,
    },
    Sample {
        value: u64,
    },
    Bin {
        bin: u64,
        count: u64,
    },
    LastCell {
        chip: u64,
        cell: u64,
    },
    TimeBin {
        time: u64,
    },
    /// `length` is n, which counts the final zero.
    Text {
        length: u64,
    },
    StartEvent {
        kind: u64,
        timestamp: u64,
        number: u64,
    },
    /// `zero` is the word's low four bits, which a value rule asks to be zero.
    EndEvent {
        zero: u64,
        size: u64,
    },
    /// `zero` is the word's low nine bits, which a value rule asks to be zero.
    ContinueEvent {
        zero: u64,
        number: u64,
    },
}

/// The word at an index, low byte first.
pub fn word(bytes: &[u8], index: usize) -> u16 {
    u16::from_le_bytes([bytes[2 * index], bytes[2 * index + 1]])
}

/// The number in `words` words from an index on, low word first.
fn number(bytes: &[u8], index: usize, words: usize) -> u64 {
    (0..words).map(|i| (word(bytes, index + i) as u64) << (16 * i)).sum()
}

pub fn to_bytes(words: &[u16]) -> Vec<u8> {
    words.iter().flat_map(|word| word.to_le_bytes()).collect()
}

/// The item whose first word stands at an index; none where that word begins
/// no item. The words after it must be there.
pub fn item_at(bytes: &[u8], index: usize) -> Option<Item> {
    let first = word(bytes, index);
    let cut = |shift: u32, bits: u32| (first as u64 >> shift) & ((1 << bits) - 1);
    let (card, chip, low) = (cut(9, 5), cut(7, 2), cut(0, 7));
    Some(match classify(first) {
        Class::Channel => Item::Channel { card, chip, channel: low },
        Class::Histogram => Item::Histogram { card, chip, channel: low },
        Class::HitCount => Item::HitCount { card, chip, count: low },
        Class::Sample => Item::Sample { value: cut(0, 12) },
        Class::Bin => Item::Bin { bin: cut(0, 12), count: number(bytes, index + 1, 2) },
        Class::LastCell => Item::LastCell { chip: cut(9, 2), cell: cut(0, 9) },
        Class::TimeBin => Item::TimeBin { time: cut(0, 9) },
        Class::Text => Item::Text { length: cut(0, 8) },
        Class::StartEvent => Item::StartEvent {
            kind: cut(0, 4),
            timestamp: number(bytes, index + 1, 3),
            number: number(bytes, index + 4, 2),
        },
        Class::EndEvent => Item::EndEvent { zero: cut(0, 4), size: number(bytes, index + 1, 2) },
        Class::ContinueEvent => {
            Item::ContinueEvent { zero: cut(0, 9), number: number(bytes, index + 1, 2) }
        }
        _ => return None,
    })
}

/// The n bytes of a text whose head stands at an index, and its padding byte.
pub fn text_body(bytes: &[u8], index: usize) -> (&[u8], &[u8]) {
    let from = 2 * index + 2;
    let n = word(bytes, index) as usize & 0xFF;
    let end = from + 2 * words_after(word(bytes, index));
    (&bytes[from..from + n], &bytes[from + n..end])
}

/// A text item's words: head, content, final zero, padding.
pub fn text_words(text: &[u8]) -> Vec<u16> {
    let mut body = text.to_vec();
    body.push(0);
    let head = 0x0100 | body.len() as u16;
    body.resize(body.len().div_ceil(2) * 2, 0);
    std::iter::once(head).chain((0..body.len() / 2).map(|i| word(&body, i))).collect()
}

impl Item {
    pub fn class(&self) -> Class {
        match self {
            Item::Channel { .. } => Class::Channel,
            Item::Histogram { .. } => Class::Histogram,
            Item::HitCount { .. } => Class::HitCount,
            Item::Sample { .. } => Class::Sample,
            Item::Bin { .. } => Class::Bin,
            Item::LastCell { .. } => Class::LastCell,
            Item::TimeBin { .. } => Class::TimeBin,
            Item::Text { .. } => Class::Text,
            Item::StartEvent { .. } => Class::StartEvent,
            Item::EndEvent { .. } => Class::EndEvent,
            Item::ContinueEvent { .. } => Class::ContinueEvent,
        }
    }

    /// The fields in the book's order.
    pub fn fields(&self) -> Vec<u64> {
        match *self {
            Item::Channel { card, chip, channel } => vec![card, chip, channel],
            Item::Histogram { card, chip, channel } => vec![card, chip, channel],
            Item::HitCount { card, chip, count } => vec![card, chip, count],
            Item::Sample { value } => vec![value],
            Item::Bin { bin, count } => vec![bin, count],
            Item::LastCell { chip, cell } => vec![chip, cell],
            Item::TimeBin { time } => vec![time],
            Item::Text { length } => vec![length],
            Item::StartEvent { kind, timestamp, number } => vec![kind, timestamp, number],
            Item::EndEvent { size, .. } => vec![size],
            Item::ContinueEvent { number, .. } => vec![number],
        }
    }

    /// The item that a class and its fields name; none for a class that is no
    /// item, or a text, whose bytes are no field.
    pub fn from_fields(class: Class, [a, b, c]: [u64; 3]) -> Option<Item> {
        Some(match class {
            Class::Channel => Item::Channel { card: a, chip: b, channel: c },
            Class::Histogram => Item::Histogram { card: a, chip: b, channel: c },
            Class::HitCount => Item::HitCount { card: a, chip: b, count: c },
            Class::Sample => Item::Sample { value: a },
            Class::Bin => Item::Bin { bin: a, count: b },
            Class::LastCell => Item::LastCell { chip: a, cell: b },
            Class::TimeBin => Item::TimeBin { time: a },
            Class::StartEvent => Item::StartEvent { kind: a, timestamp: b, number: c },
            Class::EndEvent => Item::EndEvent { zero: 0, size: a },
            Class::ContinueEvent => Item::ContinueEvent { zero: 0, number: a },
            _ => return None,
        })
    }

    /// The item's words. Only for items whose fields fit, and not for texts.
    pub fn words(&self) -> Vec<u16> {
        let low = |value: u64, i: u32| (value >> (16 * i)) as u16;
        match *self {
            Item::Channel { card, chip, channel } => {
                vec![0xC000 | content(card, chip, channel) as u16]
            }
            Item::Histogram { card, chip, channel } => {
                vec![0x8000 | content(card, chip, channel) as u16]
            }
            Item::HitCount { card, chip, count } => {
                vec![0x4000 | content(card, chip, count) as u16]
            }
            Item::Sample { value } => vec![0x3000 | value as u16],
            Item::Bin { bin, count } => vec![0x2000 | bin as u16, low(count, 0), low(count, 1)],
            Item::LastCell { chip, cell } => vec![0x1800 | ((chip << 9) | cell) as u16],
            Item::TimeBin { time } => vec![0x0E00 | time as u16],
            Item::Text { length } => vec![0x0100 | length as u16],
            Item::StartEvent { kind, timestamp: t, number: n } => {
                vec![0x00F0 | kind as u16, low(t, 0), low(t, 1), low(t, 2), low(n, 0), low(n, 1)]
            }
            Item::EndEvent { zero, size } => vec![0x00E0 | zero as u16, low(size, 0), low(size, 1)],
            Item::ContinueEvent { zero, number: n } => {
                vec![0x0A00 | zero as u16, low(n, 0), low(n, 1)]
            }
        }
    }
}
