//! Drafts of sound frames: a frame as a list of items that can still be
//! changed before its bytes are laid out.

use crate::book::*;
use crate::item::{item_at, text_words, to_bytes, Item};
use crate::rng::Rng;
use crate::rules::Kind;

/// A frame to be: start and sequence word, and the words of each item.
#[derive(Clone, Debug)]
pub struct Draft {
    pub start: u16,
    pub sequence: u16,
    pub items: Vec<Vec<u16>>,
}

/// How many words the items of the longest frame have.
pub const FULL: usize = 4096 - 4;

impl Draft {
    pub fn card(&self) -> u64 {
        (self.start & 0x1F) as u64
    }

    /// The whole frame, with its size and end words.
    pub fn frame(&self) -> Vec<u8> {
        let items = self.items.concat();
        let size = 2 * items.len() as u16 + 8;
        to_bytes(&[&[self.start, size, self.sequence], &items[..], &[FRAME_END]].concat())
    }

    /// The partial frame of the first items: size word 0 and no end word.
    pub fn partial(&self, items: usize) -> Vec<u8> {
        let items = self.items[..items].concat();
        to_bytes(&[&[self.start, 0, self.sequence], &items[..]].concat())
    }

    /// Makes every End event name the bytes since the Start event before it,
    /// so that other faults are not hidden behind its size. Behind a Continue
    /// event any size will do.
    pub fn fix_events(&mut self) {
        let (mut start, mut index) = (None, 0);
        for words in &mut self.items {
            let first = words.first().map_or(Class::Unassigned, |word| classify(*word));
            match (first, start) {
                (Class::StartEvent, _) => start = Some(index),
                (Class::EndEvent, Some(from)) if words.len() == 3 => {
                    let size = 2 * (index + 3 - from);
                    words[1] = size as u16;
                    words[2] = (size >> 16) as u16;
                    start = None;
                }
                _ => {}
            }
            index += words.len();
        }
    }

    /// Item `at` as an item; none for a text.
    pub fn item(&self, at: usize) -> Option<Item> {
        let item = item_at(&to_bytes(&self.items[at]), 0)?;
        (item.class() != Class::Text).then_some(item)
    }

    /// The content of the text that is item `at`.
    pub fn text(&self, at: usize) -> Vec<u8> {
        let bytes = to_bytes(&self.items[at]);
        let n = bytes[0] as usize;
        bytes[2..2 + n - 1].to_vec()
    }
}

/// A card: at an edge now and then.
pub fn any_card(rng: &mut Rng) -> u64 {
    if rng.percent(70) {
        rng.within(0, 31)
    } else {
        rng.pick(&[0, 5, 31])
    }
}

/// A sound frame with exactly so many words of items where the kind can have
/// that many, else about as many.
pub fn sound(rng: &mut Rng, kind: Kind, words: usize) -> Draft {
    let card = any_card(rng);
    sound_of(rng, kind, card, words)
}

/// The same of a card.
pub fn sound_of(rng: &mut Rng, kind: Kind, card: u64, words: usize) -> Draft {
    let number = rng.within(0, 255) as u16;
    let sequence = rng.pick(&[0, 1, 0xFF, 0x100, number, number]);
    let items = match kind {
        // A whole event has nine words at least.
        Kind::Data if (1..9).contains(&words) => events(rng, card, 9 + words),
        Kind::Data => events(rng, card, words),
        Kind::Monitor => histograms(rng, card, words),
        Kind::Command => texts(rng, words),
    };
    Draft { start: kind.start(card), sequence, items }
}

/// A number of item words: mostly few, some full.
pub fn small_size(rng: &mut Rng) -> usize {
    match rng.below(100) {
        0 => FULL,
        1 => rng.within(FULL as u64 - 8, FULL as u64 - 1) as usize,
        2..=12 => rng.below(300),
        13..=20 => 0,
        _ => rng.below(48),
    }
}

/// A field value: at an edge now and then.
fn field(rng: &mut Rng, max: u64) -> u64 {
    match rng.below(8) {
        0 => 0,
        1 => max,
        2 => max - 1,
        _ => rng.within(0, max),
    }
}

/// A 32-bit number: now and then one whose words look like words of the book.
pub fn long(rng: &mut Rng) -> u64 {
    let looks = [0x00F1, 0x000F, 0x30FA, 0x2100, 0x8A4E, 0x00E0, 0xCB0A, 0x0805, 0x0A00];
    match rng.below(4) {
        0 => rng.pick(&looks),
        1 => rng.pick(&looks) << 16 | rng.pick(&looks),
        2 => rng.pick(&[1, 2, 0xFFFF, 0x10000, 0xFFFF_FFFF]),
        _ => rng.within(1, 0xFFFF_FFFF),
    }
}

/// What a frame has of an event: does it begin here, does it end here?
#[derive(Clone, Copy)]
pub struct Shape {
    pub begins: bool,
    pub ends: bool,
}

pub const WHOLE: Shape = Shape { begins: true, ends: true };

impl Shape {
    /// The words of its Start or Continue event and its End event.
    fn least(self) -> usize {
        let opener = if self.begins { 6 } else { 3 };
        opener + if self.ends { 3 } else { 0 }
    }
}

/// Which events a frame of so many words can have: at first perhaps the rest
/// of one, at last perhaps the beginning of one.
fn shapes(rng: &mut Rng, words: usize) -> Vec<Shape> {
    let mut shapes = Vec::new();
    let mut left = words;
    let mut take = |shape: Shape, chosen: bool| {
        if chosen && shape.least() <= left {
            left -= shape.least();
            shapes.push(shape);
        }
    };
    if rng.percent(8) {
        take(Shape { begins: false, ends: false }, true);
        return shapes;
    }
    take(Shape { begins: false, ends: true }, rng.percent(22));
    let open = rng.percent(22);
    take(WHOLE, !open || rng.percent(50));
    while rng.percent(50) && words > 0 {
        take(WHOLE, true);
    }
    take(Shape { begins: true, ends: false }, open);
    shapes
}

/// Events that fill the words exactly. A whole event has at least nine words.
fn events(rng: &mut Rng, card: u64, words: usize) -> Vec<Vec<u16>> {
    let mut items = Vec::new();
    let shapes = shapes(rng, words);
    let mut left = words - shapes.iter().map(|shape| shape.least()).sum::<usize>();
    for (at, shape) in shapes.iter().enumerate() {
        let all = at + 1 == shapes.len() || rng.percent(40);
        let inner = if all { left } else { rng.below(left + 1) };
        event(rng, card, *shape, inner, &mut items);
        left -= inner;
    }
    items
}

/// An event with so many words beside its Start, Continue and End event.
pub fn event(rng: &mut Rng, card: u64, shape: Shape, inner: usize, items: &mut Vec<Vec<u16>>) {
    let number = long(rng);
    if shape.begins {
        items.push(start_event(rng, number).words());
    } else {
        items.push(Item::ContinueEvent { zero: 0, number }.words());
    }
    let mut channel = first_channel(rng);
    body(rng, card, inner, &mut channel, items);
    if shape.ends {
        let here = 2 * (shape.least() + inner) as u64;
        // What an event had before is not known here: any size is sound.
        let size = if shape.begins { here } else { rng.pick(&[here, here + 18, 0, number]) };
        items.push(Item::EndEvent { zero: 0, size }.words());
    }
}

pub fn start_event(rng: &mut Rng, number: u64) -> Item {
    let timestamp = match rng.below(4) {
        0 => field(rng, MAX_TIMESTAMP),
        1 => long(rng) << 16,
        _ => rng.within(0, 0xFFFF_FFFF),
    };
    Item::StartEvent { kind: field(rng, MAX_TYPE), timestamp, number }
}

/// Channels are counted through by chip and channel; this is the first one.
pub fn first_channel(rng: &mut Rng) -> usize {
    if rng.percent(70) {
        rng.below(40)
    } else {
        rng.below(316)
    }
}

/// Exactly so many words of channels, from `channel` on, and loose items;
/// leaves in `channel` the one that may come next.
pub fn body(
    rng: &mut Rng,
    card: u64,
    words: usize,
    channel: &mut usize,
    items: &mut Vec<Vec<u16>>,
) {
    let mut left = words;
    while left > 0 {
        if left < 3 || *channel >= 316 || rng.percent(30) {
            items.push(loose_item(rng, card).words());
            left -= 1;
        } else {
            let most = left.min(if left > 500 { 300 } else { 40 });
            let size = 3 + rng.below(most - 2);
            left -= channel_block(rng, card, *channel as u64, size, items);
            *channel += 1 + rng.pick(&[0, 0, 0, 1, 5, 78, 79]);
        }
    }
}

/// A Hit count or Last cell, which may stand anywhere between channels.
fn loose_item(rng: &mut Rng, card: u64) -> Item {
    let chip = rng.within(0, MAX_CHIP);
    if rng.percent(50) {
        Item::HitCount { card, chip, count: field(rng, MAX_HIT_COUNT) }
    } else {
        Item::LastCell { chip, cell: field(rng, MAX_CELL) }
    }
}

/// A Channel with Time bins and Samples, at most so many words; answers how
/// many it took. It ends early when the times are used up.
fn channel_block(
    rng: &mut Rng,
    card: u64,
    channel: u64,
    words: usize,
    items: &mut Vec<Vec<u16>>,
) -> usize {
    let count = MAX_CHANNEL + 1;
    let header = Item::Channel { card, chip: channel / count, channel: channel % count };
    items.push(header.words());
    let mut used = 1;
    let mut time = rng.pick(&[0, 0, 1, 3, 100, 500, 509, 510, 511]);
    while used + 2 <= words && time <= MAX_TIME {
        items.push(Item::TimeBin { time }.words());
        let room = (words - used - 1).min((MAX_TIME + 1 - time) as usize);
        let most = if rng.percent(20) { room } else { room.min(4) };
        let run = 1 + rng.below(most);
        for _ in 0..run {
            items.push(Item::Sample { value: field(rng, MAX_VALUE) }.words());
        }
        used += 1 + run;
        // The last sample was at time + run - 1; a Time bin is 2 above at least.
        time += run as u64 + rng.pick(&[1, 1, 2, 10]);
    }
    used
}

/// Histograms that fill the words exactly: a header is one word, a bin three.
fn histograms(rng: &mut Rng, card: u64, words: usize) -> Vec<Vec<u16>> {
    let mut items = Vec::new();
    let mut left = words;
    let mut histogram = rng.below(60) as u64;
    while left > 0 && histogram < 316 {
        let count = MAX_CHANNEL + 1;
        let header = Item::Histogram { card, chip: histogram / count, channel: histogram % count };
        items.push(header.words());
        left -= 1;
        if left >= 3 && rng.percent(85) {
            // All that is left in whole bins, or a few of them.
            let bins = left / 3;
            let bins = if rng.percent(30) { bins } else { 1 + rng.below(bins) };
            left -= 3 * bin_run(rng, bins, &mut items);
        }
        histogram += 1 + if words < 200 { rng.pick(&[0, 0, 1, 5, 79]) } else { 0 };
    }
    items
}

/// Rising bins, dense or sparse, at most so many; answers how many.
fn bin_run(rng: &mut Rng, bins: usize, items: &mut Vec<Vec<u16>>) -> usize {
    let dense = rng.percent(50);
    let mut bin = match rng.below(3) {
        0 => 0,
        1 => MAX_BIN - (bins as u64 - 1),
        _ => rng.below(2000) as u64,
    };
    let mut made = 0;
    while made < bins && bin <= MAX_BIN {
        items.push(Item::Bin { bin, count: long(rng) }.words());
        made += 1;
        bin += if dense { 1 } else { rng.within(1, 60) };
    }
    made
}

/// Texts that fill the words exactly; a text has 2 to 129 words.
fn texts(rng: &mut Rng, words: usize) -> Vec<Vec<u16>> {
    let mut items = Vec::new();
    let mut left = words;
    while left >= 2 {
        let most = left.min(129);
        let mut size = if rng.percent(40) { most } else { 2 + rng.below(most - 1) };
        if left - size == 1 {
            // One word is too little for a text of its own.
            size = if size > 2 { size - 1 } else { 3 };
        }
        let n = 2 * (size - 1) - if rng.percent(50) || size == 129 { 1 } else { 0 };
        items.push(text_words(&text_content(rng, n - 1)));
        left -= size;
    }
    items
}

/// So many bytes, none of them zero.
pub fn text_content(rng: &mut Rng, length: usize) -> Vec<u8> {
    (0..length).map(|_| rng.within(1, 255) as u8).collect()
}

#[cfg(test)]
mod tests {
    use super::*;
    use crate::frame;

    #[test]
    fn sound_frames_are_accepted() {
        let mut rng = Rng::new(3);
        for round in 0..600 {
            for kind in Kind::ALL {
                let words = if round % 100 == 0 { FULL } else { rng.below(200) };
                let draft = sound(&mut rng, kind, words);
                let read = frame::read(&draft.frame()).expect("a sound frame");
                assert_eq!(read.items.len(), draft.items.len());
                assert_eq!(read.kind, kind);
                if words == FULL && kind != Kind::Monitor {
                    assert_eq!(draft.frame().len(), 8192);
                }
            }
        }
    }
}
