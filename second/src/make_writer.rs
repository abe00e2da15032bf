//! Cases for the writer: begin, and add or close on partial frames.

use crate::book::*;
use crate::cases::*;
use crate::damage::{damage_draft, flip_bit, put_word, start_word};
use crate::draft::{long, small_size, sound, text_content, Draft};
use crate::item::{text_words, Item};
use crate::rng::Rng;
use crate::rules::{Kind, Standing};
use crate::writer;

pub fn begin_case(rng: &mut Rng) -> Case {
    let kind = rng.below(3) as u64;
    let any = rng.next() as u16 as u64;
    let good = rng.within(0, 31);
    let card = rng.pick(&[good, good, good, good, 0, 31, 32, 33, 37, any, 0xFFFF]);
    let good = rng.within(0, 256);
    let sequence = rng.pick(&[good, good, good, good, 0, 0xFF, 0x100, 0x101, any, 0xFFFF]);
    let short = rng.below(8);
    let length = rng.pick(&[8, 8, 9, 10, 12, 40, 6, 7, short]);
    let length = if rng.percent(1) { 8190 + rng.below(6) } else { length };
    Case::new(BEGIN, &[kind, card, sequence]).p(&rng.bytes(length))
}

/// A buffer of that length which begins with the content, as far as it goes.
pub fn lend(rng: &mut Rng, content: &[u8], length: usize) -> Vec<u8> {
    let mut buffer = rng.bytes(length);
    let shared = content.len().min(length);
    buffer[..shared].copy_from_slice(&content[..shared]);
    buffer
}

/// A buffer length around what a call needs, given what stands already.
pub fn room(rng: &mut Rng, standing: usize, need: usize) -> usize {
    match rng.below(20) {
        0..=8 => need,
        9 => need - 1,
        10 | 11 => need - 2,
        12 => need + 1,
        13..=16 => need + rng.below(40),
        17 => standing,
        18 => standing.saturating_sub(1 + rng.below(3)),
        _ if rng.percent(3) => 8188 + rng.below(10),
        _ => need + 2,
    }
}

/// The length that the caller says the partial frame has: mostly the right one.
fn said_length(rng: &mut Rng, right: usize, buffer: usize) -> u64 {
    let (right, buffer) = (right as u64, buffer as u64);
    if rng.percent(92) {
        return right;
    }
    match rng.below(6) {
        0 => rng.pick(&[0, 1, 2, 4, 5, 6, 7, 8]),
        1 => rng.pick(&[right - 2, right - 1, right + 1, right + 2]),
        2 => buffer + rng.pick(&[0, 1, 2]),
        3 => rng.pick(&[8188, 8189, 8190, 8191, 8192, 8194]),
        4 => rng.pick(&[1 << 16, 1 << 32, 1 << 63]) + right,
        _ => rng.pick(&[u64::MAX, u64::MAX - 1, u64::MAX - 5, 1 << 32]),
    }
}

/// An add, add text or close on a partial frame.
pub fn partial_case(rng: &mut Rng, op: u8) -> Case {
    let any = rng.pick(&Kind::ALL);
    let kind = match op {
        ADD => rng.pick(&[Kind::Data, Kind::Data, Kind::Monitor, any]),
        ADD_TEXT => rng.pick(&[Kind::Command, Kind::Command, any]),
        _ => any,
    };
    let words = small_size(rng);
    let mut draft = sound(rng, kind, words);
    let keep = kept_items(rng, op, &draft);
    let next = draft.items.get(keep).cloned();
    draft.items.truncate(keep);
    let partial = if rng.percent(72) { draft.partial(keep) } else { damaged_partial(rng, draft) };
    match op {
        ADD => add_case(rng, &partial, next),
        ADD_TEXT => add_text_case(rng, &partial, next),
        _ => {
            let length = room(rng, partial.len(), partial.len() + 2);
            let said = said_length(rng, partial.len(), length);
            Case::new(CLOSE, &[said]).p(&lend(rng, &partial, length))
        }
    }
}

/// How many items of the draft stand. Of a long one nearly all, as the limit
/// of the frame is what it is for.
fn kept_items(rng: &mut Rng, op: u8, draft: &Draft) -> usize {
    let count = draft.items.len();
    let long = draft.items.iter().map(Vec::len).sum::<usize>() > 4000;
    if (op == CLOSE && rng.percent(65)) || (long && rng.percent(80)) {
        let open = if op == CLOSE { 0 } else { rng.below(3) };
        count.saturating_sub(open)
    } else {
        rng.below(count + 1)
    }
}

/// A partial frame with a fault in its items, its head or anywhere.
fn damaged_partial(rng: &mut Rng, mut draft: Draft) -> Vec<u8> {
    if rng.percent(55) {
        damage_draft(rng, &mut draft);
        return draft.partial(draft.items.len());
    }
    let mut bytes = draft.partial(draft.items.len());
    let closed = bytes.len() as u16 + 2;
    match rng.below(8) {
        0 => put_word(&mut bytes, 0, start_word(rng)),
        1 => put_word(&mut bytes, 1, rng.pick(&[1, 6, 8, closed, 0x0100, 0x8000])),
        2 => put_word(&mut bytes, 2, rng.pick(&[0x100, 0x101, 0x101, 0x200, 0xFFFF])),
        3 => bytes.truncate(6 + rng.below(bytes.len() - 5) / 2 * 2),
        4 => bytes.extend(FRAME_END.to_le_bytes()),
        5 => bytes = rng.bytes(bytes.len()),
        _ => flip_bit(rng, &mut bytes),
    }
    bytes
}

fn add_case(rng: &mut Rng, partial: &[u8], next: Option<Vec<u16>>) -> Case {
    let standing = writer::partial(partial, partial.len() as u64).map(|(standing, _)| standing);
    let next = next.and_then(|words| crate::item::item_at(&crate::item::to_bytes(&words), 0));
    let next = next.filter(|item| item.class() != Class::Text);
    let item = match (standing, next) {
        (_, Some(item)) if rng.percent(35) => item,
        (Ok(standing), _) => aimed_item(rng, &standing, partial.len() / 2),
        _ => aimed_item(rng, &Standing::new(Kind::Data, 5), 3),
    };
    let need = partial.len() + 2 + 2 * (1 + item_words_after(&item));
    let length = room(rng, partial.len(), need);
    let said = said_length(rng, partial.len(), length);
    add(said, &item).p(&lend(rng, partial, length))
}

/// The add of an item to a partial frame of the said length.
pub fn add(said: u64, item: &Item) -> Case {
    Case::new(ADD, &[vec![said, item.class().row()], item.fields()].concat())
}

fn item_words_after(item: &Item) -> usize {
    match item.class() {
        Class::Bin | Class::EndEvent | Class::ContinueEvent => 2,
        Class::StartEvent => 5,
        _ => 0,
    }
}

fn add_text_case(rng: &mut Rng, partial: &[u8], next: Option<Vec<u16>>) -> Case {
    let text = match next {
        Some(words) if classify(words[0]) == Class::Text && rng.percent(35) => {
            Draft { start: 0x0400, sequence: 0, items: vec![words] }.text(0)
        }
        _ => aimed_text(rng),
    };
    let need = partial.len() + 2 + 2 * text_words(&text[..text.len().min(MAX_TEXT)]).len();
    let length = room(rng, partial.len(), need);
    let said = said_length(rng, partial.len(), length);
    Case::new(ADD_TEXT, &[said]).p(&lend(rng, partial, length)).q(&text)
}

/// A text: mostly short, some at the limit or over it, some with a zero.
pub fn aimed_text(rng: &mut Rng) -> Vec<u8> {
    let length = match rng.below(12) {
        0 => rng.pick(&[252, 253, 254, 255, 256, 257, 300]),
        1 => rng.below(256),
        2 if rng.percent(3) => 65_536usize.min(MAX_PAYLOAD) - rng.below(3),
        _ => rng.below(20),
    };
    let mut text = text_content(rng, length);
    if length > 0 && rng.percent(12) {
        let any = rng.below(length);
        let at = rng.pick(&[0, length - 1, any]);
        text[at] = 0;
    }
    text
}

/// An item at or around what the standing items allow at this word index.
pub fn aimed_item(rng: &mut Rng, standing: &Standing, index: usize) -> Item {
    let addable = [1, 2, 3, 4, 5, 6, 7, 12, 13, 15].map(Class::of_row);
    let allowed: Vec<Class> = addable.into_iter().filter(|c| standing.allows(*c)).collect();
    let good = !allowed.is_empty() && rng.percent(88);
    let mut class = if good { rng.pick(&allowed) } else { rng.pick(&addable) };
    if standing.allows(Class::Sample) && standing.next_time > MAX_TIME && rng.percent(60) {
        class = Class::Sample;
    }
    let mut fields = near(rng, standing, class, index);
    if rng.percent(12) {
        widen(rng, class, &mut fields);
    }
    Item::from_fields(class, fields).expect("a class that can be added")
}

/// Card, chip and channel beside the last header of the class.
fn near_header(rng: &mut Rng, card: u64, last: Option<u64>) -> [u64; 3] {
    let content = last.unwrap_or(0) & 0x1FF;
    let content = match rng.below(8) {
        0 => content,
        1 => content.saturating_sub(1),
        2 => rng.within(0, 0x1FF),
        3 => content / 128 * 128 + rng.pick(&[77, 78, 79]),
        _ => content + rng.pick(&[1, 1, 1, 2, 50, 128]),
    };
    [card, content >> 7, content & 0x7F]
}

/// A value up to the largest, at its edges, or one over.
fn edge(rng: &mut Rng, max: u64) -> u64 {
    let any = rng.within(0, max);
    rng.pick(&[any, any, 0, max, max + 1])
}

/// Fields for a class, at or beside the edge that the order rules draw.
fn near(rng: &mut Rng, standing: &Standing, class: Class, index: usize) -> [u64; 3] {
    let card = if rng.percent(92) { standing.card } else { rng.within(0, 33) };
    match class {
        Class::Channel => near_header(rng, card, standing.channel),
        Class::Histogram => near_header(rng, card, standing.histogram),
        Class::HitCount => [card, rng.within(0, 3), rng.pick(&[0, 1, 40, 78, 79, 79, 80, 127])],
        Class::Sample => [edge(rng, MAX_VALUE), 0, 0],
        Class::Bin => {
            let last = standing.bin.unwrap_or(0);
            let bin = last.saturating_add_signed(rng.pick(&[-1, 0, 1, 1, 1, 2, 100]));
            [bin, rng.pick(&[0, 1, 2, 70_000, 0xFFFF_FFFF, 0x00F1, 0x10000]), 0]
        }
        Class::LastCell => [rng.within(0, 3), edge(rng, MAX_CELL), 0],
        Class::TimeBin => {
            let last = standing.sampled.unwrap_or(0);
            let later = last + rng.pick(&[0, 1, 2, 2, 2, 3, 10]);
            let edge = rng.pick(&[last.saturating_sub(1), 509, 510, 511, 512, 513]);
            [if rng.percent(35) { later } else { edge }, 0, 0]
        }
        Class::StartEvent => {
            let timestamp = rng.pick(&[0, 1, 1000, 1 << 32, MAX_TIMESTAMP, MAX_TIMESTAMP, 1 << 48]);
            [edge(rng, MAX_TYPE), timestamp, rng.next() >> rng.within(32, 63)]
        }
        Class::ContinueEvent => [long(rng), 0, 0],
        _ => {
            let size = standing.event_size(index).unwrap_or(long(rng));
            let off = rng.pick(&[0, 0, 0, 0, 0, 0, 1, 2, -1, -2, 65_536]);
            [size.saturating_add_signed(off).min(0xFFFF_FFFF), 0, 0]
        }
    }
}

/// Puts one field beyond its bits, but not beyond what a case can carry.
fn widen(rng: &mut Rng, class: Class, fields: &mut [u64; 3]) {
    let bits: &[u32] = match class {
        Class::Channel | Class::Histogram | Class::HitCount => &[5, 2, 7],
        Class::Sample | Class::Bin => &[12],
        Class::LastCell => &[2, 9],
        Class::TimeBin => &[9],
        Class::StartEvent => &[4, 48],
        _ => return,
    };
    let at = rng.below(bits.len());
    let most = if bits[at] == 48 { 64 } else { 16 };
    fields[at] |= 1 << rng.within(bits[at] as u64, most - 1);
    if rng.percent(15) {
        fields[at] = u64::MAX >> (64 - most);
    }
}
