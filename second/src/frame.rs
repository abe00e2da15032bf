//! The frame reader: judging a whole frame, and the questions about it.

use crate::book::*;
use crate::item::{item_at, text_body, word, Item};
use crate::rules::*;

pub const MIN_FRAME: usize = 8;
pub const MAX_FRAME: usize = 8192;

/// An item where it stands, and the index of the next item or end word.
#[derive(Clone, Copy, PartialEq, Eq, Debug)]
pub struct Found {
    pub index: usize,
    pub item: Item,
    pub next: usize,
}

/// An accepted frame.
#[derive(Clone, Debug)]
pub struct Frame {
    pub kind: Kind,
    pub card: u64,
    pub sequence: u16,
    pub items: Vec<Found>,
}

/// The first of 6 to 10 that the item at an index breaks, if any. `limit` is
/// the index that the item's words must stay under.
fn judge_item(bytes: &[u8], at: usize, limit: usize, standing: &Standing) -> Result<Item, u8> {
    let first = word(bytes, at);
    let class = classify(first);
    if class == Class::Unassigned {
        return Err(CLASS);
    }
    // With no words after it an item is never cut, as it stands under the limit.
    if at + words_after(first) >= limit {
        return Err(CUT);
    }
    if !standing.allows(class) {
        return Err(PLACE);
    }
    let item = item_at(bytes, at).ok_or(PLACE)?;
    if !standing.value_holds(&item, at) || (class == Class::Text && !text_holds(bytes, at)) {
        return Err(VALUE);
    }
    if !standing.order_holds(&item) {
        return Err(ORDER);
    }
    Ok(item)
}

/// Byte n is zero and no earlier one is; a padding byte is zero.
fn text_holds(bytes: &[u8], index: usize) -> bool {
    let (body, padding) = text_body(bytes, index);
    let first_zero = body.iter().position(|byte| *byte == 0);
    first_zero == body.len().checked_sub(1) && padding.iter().all(|byte| *byte == 0)
}

/// Goes through the items from word 3 to `limit`, the first index after them.
pub fn walk(
    bytes: &[u8],
    mut standing: Standing,
    limit: usize,
) -> Result<(Vec<Found>, Standing), Refusal> {
    let mut items = Vec::new();
    let mut index = 3;
    while index < limit {
        match judge_item(bytes, index, limit, &standing) {
            Err(number) => return refuse_at(number, index),
            Ok(item) => {
                let next = index + 1 + words_after(word(bytes, index));
                standing.take(&item, index);
                items.push(Found { index, item, next });
                index = next;
            }
        }
    }
    Ok((items, standing))
}

/// Judges a frame by the rules 1 to 11 and reads it.
pub fn read(bytes: &[u8]) -> Result<Frame, Refusal> {
    let length = bytes.len();
    if length % 2 != 0 || length < MIN_FRAME || length > MAX_FRAME {
        return refuse(LENGTH);
    }
    let Some((kind, card)) = Kind::of_start(word(bytes, 0)) else {
        return refuse(KIND);
    };
    if word(bytes, 1) as usize != length {
        return refuse(SIZE);
    }
    let sequence = word(bytes, 2);
    if sequence > MAX_SEQUENCE {
        return refuse(SEQUENCE);
    }
    let last = length / 2 - 1;
    if word(bytes, last) != FRAME_END {
        return refuse(END);
    }
    let (items, standing) = walk(bytes, Standing::new(kind, card), last)?;
    if standing.is_cut() {
        return refuse_at(OPEN, last);
    }
    Ok(Frame { kind, card, sequence, items })
}

/// The item at an ordinal.
pub fn item(bytes: &[u8], ordinal: u64) -> Result<Found, Refusal> {
    let items = read(bytes)?.items;
    match items.iter().enumerate().find(|(at, _)| *at as u64 == ordinal) {
        Some((_, found)) => Ok(*found),
        None => refuse(ABSENT),
    }
}

/// The part of the frame that is the text at an ordinal, without its final
/// zero; empty on any refusal and for another class.
pub fn text(bytes: &[u8], ordinal: u64) -> &[u8] {
    match item(bytes, ordinal) {
        Ok(Found { index, item: Item::Text { .. }, .. }) => {
            let (body, _) = text_body(bytes, index);
            &body[..body.len() - 1]
        }
        _ => &[],
    }
}

/// An event, or the part of one that stands in a frame. What stands in another
/// frame is missing: type and timestamp with the Start, the size with the End.
#[derive(Clone, Copy, PartialEq, Eq, Debug)]
pub struct Event {
    pub kind: Option<u64>,
    pub timestamp: Option<u64>,
    pub number: u64,
    pub size: Option<u64>,
    /// Of its Start or Continue word.
    pub index: usize,
}

/// The events of an accepted frame, each from its Start or Continue event to
/// its End event or the last item.
pub fn events(frame: &Frame) -> impl Iterator<Item = &[Found]> {
    let ends = |found: &Found| matches!(found.item, Item::EndEvent { .. });
    // In a data frame every item belongs to an event, in others none does.
    let items: &[Found] = if frame.kind == Kind::Data { &frame.items } else { &[] };
    items.split_inclusive(ends)
}

/// The items of event `ordinal` in an accepted frame.
fn event_items(frame: &Frame, ordinal: u64) -> Option<&[Found]> {
    events(frame).enumerate().find(|(at, _)| *at as u64 == ordinal).map(|(_, items)| items)
}

pub fn event(bytes: &[u8], ordinal: u64) -> Result<Event, Refusal> {
    let frame = read(bytes)?;
    let Some([first, rest @ ..]) = event_items(&frame, ordinal) else {
        return refuse(ABSENT);
    };
    let size = match rest.last().map(|last| last.item) {
        Some(Item::EndEvent { size, .. }) => Some(size),
        _ => None,
    };
    let index = first.index;
    match first.item {
        Item::StartEvent { kind, timestamp, number } => {
            Ok(Event { kind: Some(kind), timestamp: Some(timestamp), number, size, index })
        }
        Item::ContinueEvent { number, .. } => {
            Ok(Event { kind: None, timestamp: None, number, size, index })
        }
        _ => refuse(ABSENT),
    }
}

/// Samples of one channel of event `ordinal` go into the first 512 words.
pub fn samples(
    bytes: &[u8],
    ordinal: u64,
    chip: u64,
    channel: u64,
    out: &mut [u16],
) -> Result<(), Refusal> {
    const TIMES: usize = MAX_TIME as usize + 1;
    let frame = read(bytes)?;
    if out.len() < TIMES {
        return refuse(ROOM);
    }
    let header = Item::Channel { card: frame.card, chip, channel };
    let items = event_items(&frame, ordinal).unwrap_or(&[]);
    let Some(at) = items.iter().position(|found| found.item == header) else {
        return refuse(ABSENT);
    };
    out[..TIMES].fill(0xFFFF);
    let mut time = 0;
    for found in &items[at + 1..] {
        match found.item {
            Item::TimeBin { time: start } => time = start as usize,
            Item::Sample { value } => {
                out[time] = value as u16;
                time += 1;
            }
            _ => break,
        }
    }
    Ok(())
}

/// Counts of one histogram go into the first 4,096 words of 32 bits.
pub fn counts(bytes: &[u8], chip: u64, channel: u64, out: &mut [u32]) -> Result<(), Refusal> {
    const BINS: usize = MAX_BIN as usize + 1;
    let frame = read(bytes)?;
    if out.len() < BINS {
        return refuse(ROOM);
    }
    let header = Item::Histogram { card: frame.card, chip, channel };
    let Some(at) = frame.items.iter().position(|found| found.item == header) else {
        return refuse(ABSENT);
    };
    out[..BINS].fill(0);
    for found in &frame.items[at + 1..] {
        match found.item {
            Item::Bin { bin, count } => out[bin as usize] = count as u32,
            _ => break,
        }
    }
    Ok(())
}

/// The word index of the sample at a time, of one channel of event `ordinal`:
/// what an edit takes.
pub fn sample_word(
    bytes: &[u8],
    ordinal: u64,
    chip: u64,
    channel: u64,
    time: u64,
) -> Result<usize, Refusal> {
    let frame = read(bytes)?;
    let header = Item::Channel { card: frame.card, chip, channel };
    let items = event_items(&frame, ordinal).unwrap_or(&[]);
    let mut next = 0;
    for found in items.iter().skip_while(|found| found.item != header).skip(1) {
        match found.item {
            Item::TimeBin { time: start } => next = start,
            Item::Sample { .. } if next == time => return Ok(found.index),
            Item::Sample { .. } => next += 1,
            _ => break,
        }
    }
    refuse(ABSENT)
}

/// The word index of a bin of one histogram.
pub fn bin_word(bytes: &[u8], chip: u64, channel: u64, number: u64) -> Result<usize, Refusal> {
    let frame = read(bytes)?;
    let header = Item::Histogram { card: frame.card, chip, channel };
    let behind = frame.items.iter().skip_while(|found| found.item != header).skip(1);
    let mut bins = behind.map_while(|found| match found.item {
        Item::Bin { bin, .. } => Some((bin, found.index)),
        _ => None,
    });
    match bins.find(|(bin, _)| *bin == number) {
        Some((_, index)) => Ok(index),
        None => refuse(ABSENT),
    }
}
