//! The frame writer: begins, adds one item, or closes, on a partial frame in
//! a lent buffer.

use crate::book::{Class, FRAME_END, MAX_CARD, MAX_SEQUENCE, MAX_TEXT};
use crate::frame::{walk, MAX_FRAME, MIN_FRAME};
use crate::item::{text_words, to_bytes, word, Item};
use crate::rules::*;

/// The bytes of a partial frame without items: start, size and sequence word.
pub const MIN_PARTIAL: u64 = 6;
/// The longest partial frame: an end word must still follow it.
pub const MAX_PARTIAL: u64 = MAX_FRAME as u64 - 2;

pub fn begin(buffer: &mut [u8], kind: Kind, card: u64, sequence: u16) -> Result<usize, Refusal> {
    if card > MAX_CARD {
        return refuse(VALUE);
    }
    if sequence > MAX_SEQUENCE {
        return refuse(SEQUENCE);
    }
    if buffer.len() < MIN_FRAME {
        return refuse(ROOM);
    }
    let head = to_bytes(&[kind.start(card), 0, sequence]);
    buffer[..head.len()].copy_from_slice(&head);
    Ok(head.len())
}

/// Judges the partial frame by rules 1 to 4 and 6 to 10. Answers what stands
/// and the length, which is now known to lie in the buffer.
pub fn partial(buffer: &[u8], length: u64) -> Result<(Standing, usize), Refusal> {
    let in_range = (MIN_PARTIAL..=MAX_PARTIAL).contains(&length);
    if length % 2 != 0 || !in_range || length > buffer.len() as u64 {
        return refuse(LENGTH);
    }
    let length = length as usize;
    let Some((kind, card)) = Kind::of_start(word(buffer, 0)) else {
        return refuse(KIND);
    };
    if word(buffer, 1) != 0 {
        return refuse(SIZE);
    }
    if word(buffer, 2) > MAX_SEQUENCE {
        return refuse(SEQUENCE);
    }
    let (_, standing) = walk(&buffer[..length], Standing::new(kind, card), length / 2)?;
    Ok((standing, length))
}

/// Puts the new item's words after the partial frame, if the end word would
/// fit behind them too.
fn append(buffer: &mut [u8], length: usize, words: &[u16]) -> Result<usize, Refusal> {
    let end = length + 2 * words.len();
    if end + 2 > buffer.len().min(MAX_FRAME) {
        return refuse(ROOM);
    }
    buffer[length..end].copy_from_slice(&to_bytes(words));
    Ok(end)
}

/// Adds an item that is not a text.
pub fn add(buffer: &mut [u8], length: u64, item: &Item) -> Result<usize, Refusal> {
    let (standing, length) = partial(buffer, length)?;
    let place = length / 2;
    if !standing.allows(item.class()) {
        return refuse_at(PLACE, place);
    }
    if !standing.value_holds(item, place) {
        return refuse_at(VALUE, place);
    }
    if !standing.order_holds(item) {
        return refuse_at(ORDER, place);
    }
    append(buffer, length, &item.words())
}

/// Adds a text, given without its final zero.
pub fn add_text(buffer: &mut [u8], length: u64, text: &[u8]) -> Result<usize, Refusal> {
    let (standing, length) = partial(buffer, length)?;
    let place = length / 2;
    if !standing.allows(Class::Text) {
        return refuse_at(PLACE, place);
    }
    if text.len() > MAX_TEXT || text.contains(&0) {
        return refuse_at(VALUE, place);
    }
    append(buffer, length, &text_words(text))
}

/// Writes the size and end words.
pub fn close(buffer: &mut [u8], length: u64) -> Result<usize, Refusal> {
    let (standing, length) = partial(buffer, length)?;
    if standing.is_cut() {
        return refuse_at(OPEN, length / 2);
    }
    let end = length + 2;
    if end > buffer.len() {
        return refuse(ROOM);
    }
    buffer[2..4].copy_from_slice(&(end as u16).to_le_bytes());
    buffer[length..end].copy_from_slice(&FRAME_END.to_le_bytes());
    Ok(end)
}
