//! Damage to sound frames: on the list of items, on single fields, and on the
//! laid-out bytes.

use crate::book::*;
use crate::draft::{long, Draft};
use crate::item::{text_words, to_bytes, Item};
use crate::rng::Rng;
use crate::rules::Kind;

/// A word at or right beside an edge of the book.
pub fn edge_word(rng: &mut Rng) -> u16 {
    let (first, last, _) = rng.pick(&BOOK);
    match rng.below(5) {
        0 => first.wrapping_sub(1),
        1 => first,
        2 => last,
        3 => last.wrapping_add(1),
        _ => rng.within(first as u64, last as u64) as u16,
    }
}

/// An item of any class with any content, or a word that begins none.
fn any_item(rng: &mut Rng, card: u64) -> Vec<u16> {
    let mut first = if rng.percent(50) { edge_word(rng) } else { rng.next() as u16 };
    // With the right card and low bits such items get further.
    if first >= 0x4000 && rng.percent(80) {
        first = (first & 0xC1CF) | (card as u16) << 9;
    }
    if classify(first) == Class::Text {
        let n = (first & 0xFF).saturating_sub(1) as usize;
        return text_words(&crate::draft::text_content(rng, n));
    }
    let after = words_after(first);
    let mut words = vec![first];
    words.extend((0..after).map(|_| rng.within(1, 40) as u16));
    words
}

/// Damages a draft and lays out its frame; the size words are put right again
/// in most cases, so that the fault itself is what is met.
pub fn damaged_frame(rng: &mut Rng, draft: &Draft) -> Vec<u8> {
    let mut draft = draft.clone();
    match rng.below(100) {
        0..=69 => {
            damage_draft(rng, &mut draft);
            draft.frame()
        }
        70..=96 => frame_damage(rng, draft.frame()),
        _ => {
            let length = rng.below(40);
            rng.bytes(length)
        }
    }
}

/// Damages the items of a draft.
pub fn damage_draft(rng: &mut Rng, draft: &mut Draft) {
    match rng.below(12) {
        0..=4 => items_damage(rng, draft),
        5..=7 => field_damage(rng, draft),
        8 | 9 => order_damage(rng, draft),
        _ => cut_channel(rng, draft),
    }
}

/// Puts one header, bin or time at, just under or far from the edge that the
/// order rules draw for it.
fn order_damage(rng: &mut Rng, draft: &mut Draft) {
    let classes = [Class::Channel, Class::Histogram, Class::Bin, Class::TimeBin];
    let class_at = |items: &[Vec<u16>], at: usize| classify(items[at][0]);
    let ordered = |at: &usize| classes.contains(&class_at(&draft.items, *at));
    let places: Vec<usize> = (0..draft.items.len()).filter(ordered).collect();
    if places.is_empty() {
        return items_damage(rng, draft);
    }
    let at = rng.pick(&places);
    let class = class_at(&draft.items, at);
    if class == Class::TimeBin {
        return time_damage(rng, draft, at);
    }
    let before = places.iter().rev().find(|p| **p < at && class_at(&draft.items, **p) == class);
    match before.map(|before| draft.items[*before][0]) {
        Some(word) => draft.items[at][0] = word.wrapping_add(rng.pick(&[0, 0, 1, 0xFFFF])),
        None => draft.items[at][0] ^= 1 << rng.below(9),
    }
}

/// Moves a Time bin so that its last sample is about at time 511, or so that
/// it is about 2 above the last sample before it.
fn time_damage(rng: &mut Rng, draft: &mut Draft, at: usize) {
    let is_sample = |words: &&Vec<u16>| classify(words[0]) == Class::Sample;
    let run = draft.items[at + 1..].iter().take_while(is_sample).count() as u16;
    let before = draft.items[..at].iter().rev().take_while(is_sample).count();
    let time = if before > 0 && rng.percent(60) {
        let first = draft.items[at - before - 1][0] & 0x1FF;
        (first + before as u16).wrapping_add(rng.pick(&[0xFFFE, 0xFFFF, 0, 1]))
    } else {
        512 + rng.pick(&[0, 1, 1, 2]) - run
    };
    draft.items[at][0] = 0x0E00 | time.min(511);
}

/// Swaps, duplicates, drops, inserts or cuts items.
fn items_damage(rng: &mut Rng, draft: &mut Draft) {
    let count = draft.items.len();
    let card = draft.card();
    let at = rng.below(count.max(1));
    match rng.below(9) {
        0 if at + 1 < count => draft.items.swap(at, at + 1),
        1 if count > 0 => draft.items.swap(at, rng.below(count)),
        2 if count > 0 => draft.items.insert(at, draft.items[at].clone()),
        3 if count > 0 => drop(draft.items.remove(at)),
        4 if count > 0 => drop(draft.items.pop()),
        5 if count > 0 => {
            // The last item loses words.
            let last = draft.items.last_mut().unwrap();
            let kept = 1 + rng.below(last.len());
            last.truncate(kept);
        }
        6 => {
            let at = rng.below(count + 1);
            draft.items.insert(at, vec![edge_word(rng)]);
        }
        7 => {
            // A Continue event where it may stand, and where it may not.
            let at = if rng.percent(40) { 0 } else { rng.below(count + 1) };
            draft.items.insert(at, Item::ContinueEvent { zero: 0, number: long(rng) }.words());
        }
        _ => {
            let at = rng.below(count + 1);
            draft.items.insert(at, any_item(rng, card));
        }
    }
    if rng.percent(80) {
        draft.fix_events();
    }
}

/// Ends the items right behind a Channel or Time bin.
fn cut_channel(rng: &mut Rng, draft: &mut Draft) {
    let cuts =
        |at: &usize| matches!(classify(draft.items[*at][0]), Class::Channel | Class::TimeBin);
    let places: Vec<usize> = (0..draft.items.len()).filter(cuts).collect();
    if places.is_empty() {
        return items_damage(rng, draft);
    }
    draft.items.truncate(rng.pick(&places) + 1);
}

/// Moves one field of one item to or over an edge.
fn field_damage(rng: &mut Rng, draft: &mut Draft) {
    if draft.items.is_empty() {
        draft.items.push(vec![edge_word(rng)]);
        return;
    }
    let at = if rng.percent(40) { draft.items.len() - 1 } else { rng.below(draft.items.len()) };
    let before = draft.items[..at].iter().rev().take(40).map(|words| words[0]);
    let class = classify(draft.items[at][0]);
    let like = before.filter(|word| classify(*word) == class).collect::<Vec<_>>();
    let words = &mut draft.items[at];
    match class {
        Class::Text => text_damage(rng, words),
        Class::EndEvent => end_damage(rng, words),
        Class::ContinueEvent => words[0] = 0x0A00 | rng.pick(&[0, 1, 2, 0x10, 0x100, 0x1FF]),
        Class::Bin if rng.percent(40) => (words[1], words[2]) = (0, rng.pick(&[0, 0, 1])),
        _ if !like.is_empty() && rng.percent(50) => {
            // Equal to an earlier one of its class, or just beside it.
            words[0] = rng.pick(&like).wrapping_add(rng.pick(&[0, 0, 1, 2, 0xFFFF]));
        }
        Class::Channel | Class::Histogram => {
            words[0] = (words[0] & 0xFF80) | rng.pick(&[77, 78, 79, 79, 80, 127]);
            words[0] ^= rng.pick(&[0, 0, 0, 0x200, 0x2000, 0x4000]);
        }
        Class::HitCount => {
            words[0] = (words[0] & 0xFF80) | rng.pick(&[78, 79, 80, 80, 127]);
            words[0] ^= rng.pick(&[0, 0, 0, 0x200, 0x2000]);
        }
        Class::TimeBin => words[0] = 0x0E00 | rng.pick(&[0, 1, 2, 508, 509, 510, 511]),
        _ => words[0] = edge_word(rng),
    }
}

/// Head length, a zero too early, no final zero, a padding byte.
fn text_damage(rng: &mut Rng, words: &mut [u16]) {
    let last = words.len() - 1;
    match rng.below(6) {
        0 => words[0] = 0x0100 | rng.pick(&[0, 1, 2, 3, 254, 255]),
        1 => words[0] = words[0].wrapping_add(rng.pick(&[1, 0xFFFF])),
        2 => words[last] |= 0x0100 * rng.within(0, 255) as u16,
        3 => words[last] |= rng.within(1, 0xFFFF) as u16,
        4 => words[1.min(last)] &= 0xFF00,
        _ => words[1 + rng.below(last.max(1)).min(last.saturating_sub(1))] &= 0x00FF,
    }
}

/// Low bits that are not zero, or another size.
fn end_damage(rng: &mut Rng, words: &mut [u16]) {
    match rng.below(4) {
        0 => words[0] |= rng.within(1, 15) as u16,
        1 if words.len() == 3 => words[2] = rng.pick(&[1, 0xFFFF]),
        _ if words.len() == 3 => {
            words[1] = words[1].wrapping_add(rng.pick(&[1, 2, 0xFFFF, 0xFFFE]));
        }
        _ => words[0] ^= 1,
    }
}

/// Damage to the laid-out bytes.
pub fn frame_damage(rng: &mut Rng, mut frame: Vec<u8>) -> Vec<u8> {
    let words = frame.len() / 2;
    match rng.below(10) {
        0 | 1 => flip_bit(rng, &mut frame),
        2 => {
            let index = rng.below(words);
            let word = if rng.percent(70) { edge_word(rng) } else { rng.next() as u16 };
            put_word(&mut frame, index, word);
        }
        3 => {
            let cut = rng.pick(&[1, 2, 3, 4, 6]).min(frame.len());
            frame.truncate(if rng.percent(70) {
                frame.len() - cut
            } else {
                rng.below(frame.len())
            });
        }
        4 => {
            let more = rng.pick(&[1, 2, 4]);
            frame.extend(rng.bytes(more));
        }
        5 => return out_of_length(rng),
        6 => put_word(&mut frame, 0, start_word(rng)),
        7 => put_word(&mut frame, 1, rng.pick(&[0, 1, 6, 8, 8192, 0xFFFF, words as u16])),
        8 => put_word(&mut frame, 2, rng.pick(&[0x100, 0x101, 0x101, 0x102, 0x200, 0xFFFF])),
        _ => {
            let last = words - 1;
            put_word(&mut frame, last, rng.pick(&[0, 0x000E, 0x0010, 0x0F00, 0x010F, 0x00E0]));
        }
    }
    if rng.percent(50) && frame.len() >= 8 {
        let size = frame.len() as u16;
        put_word(&mut frame, 1, size);
    }
    frame
}

/// Lengths that no frame has, around the limits.
fn out_of_length(rng: &mut Rng) -> Vec<u8> {
    let kind = rng.pick(&Kind::ALL);
    let length = if rng.percent(90) { rng.pick(&[0, 1, 2, 6, 7, 9]) } else { 8191 + rng.below(4) };
    let mut frame = to_bytes(&[kind.start(5), length as u16, 0]);
    frame.resize(length.max(6) + 1, 0);
    frame.truncate(length);
    if length >= 8 {
        put_word(&mut frame, length / 2 - 1, FRAME_END);
    }
    frame
}

/// A start word at the edges of card, version and kind.
pub fn start_word(rng: &mut Rng) -> u16 {
    let first = rng.pick(&[0x0400, 0x0600, 0x0800]);
    let version_and_card = rng.pick(&[0x000, 0x01F, 0x020, 0x025, 0x1FF]);
    let others = rng.pick(&[0x000F, 0x03FF, 0x0A00, 0x0000, 0x0C00]);
    if rng.percent(80) {
        first | version_and_card
    } else {
        others
    }
}

pub fn flip_bit(rng: &mut Rng, bytes: &mut [u8]) {
    if !bytes.is_empty() {
        let bit = rng.below(8 * bytes.len());
        bytes[bit / 8] ^= 1 << (bit % 8);
    }
}

pub fn put_word(bytes: &mut [u8], index: usize, word: u16) {
    if let Some(place) = bytes.get_mut(2 * index..2 * index + 2) {
        place.copy_from_slice(&word.to_le_bytes());
    }
}
