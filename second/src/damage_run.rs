//! Damage to sound runs: frames that come from elsewhere, are lost, changed or
//! out of order, and each rule between frames broken by itself.

use crate::book::{classify, Class};
use crate::damage::{damage_draft, frame_damage as bytes_damage};
use crate::draft::{long, sound_of, start_event, Draft};
use crate::draft_run::{befores, Move};
use crate::item::Item;
use crate::rng::Rng;
use crate::rules::Kind;

/// One fault: a frame changed, moved or put in.
pub fn damage_run(rng: &mut Rng, card: u64, moves: &mut Vec<Move>) {
    let before = moves.clone();
    let changed = match rng.below(17) {
        0 | 1 => sequence_damage(rng, moves),
        2 | 3 => number_damage(rng, moves),
        4 | 5 => size_damage(rng, moves),
        6 | 7 => header_damage(rng, moves),
        8 => opener_damage(rng, moves),
        9 | 10 => frame_damage(rng, moves),
        11 => other_card(rng, card, moves),
        12 => return order_damage(rng, moves),
        13 => return moves.insert(rng.below(moves.len() + 1), Move::GiveUp),
        _ => None,
    };
    match changed {
        // No place for the fault that was drawn, or none drawn.
        None => stray(rng, card, moves),
        // The refused frame and then the right one.
        Some(at) if rng.percent(55) => moves.insert(at + 1, before[at].clone()),
        // Or the run goes on without the event.
        Some(at) if rng.percent(50) => moves.insert(at + 1, Move::GiveUp),
        Some(_) => {}
    }
}

fn class_of(words: &[u16]) -> Class {
    classify(words[0])
}

/// The drafts of the run with their places.
fn drafts(moves: &mut [Move]) -> Vec<(usize, &mut Draft)> {
    let drafts = moves.iter_mut().enumerate().filter_map(|(at, step)| match step {
        Move::Frame(draft) => Some((at, draft)),
        _ => None,
    });
    drafts.collect()
}

/// One of the drafts that the test lets through.
fn choose<'a>(
    rng: &mut Rng,
    moves: &'a mut [Move],
    test: impl Fn(usize, &Draft) -> bool,
) -> Option<(usize, &'a mut Draft)> {
    let mut fit = drafts(moves);
    fit.retain(|(at, draft)| test(*at, draft));
    if fit.is_empty() {
        return None;
    }
    let at = rng.below(fit.len());
    Some(fit.swap_remove(at))
}

/// Does it begin with a whole Continue event? An earlier fault may have cut it.
fn continues(draft: &Draft) -> bool {
    let whole = |words: &Vec<u16>| words.len() == 3 && class_of(words) == Class::ContinueEvent;
    draft.items.first().is_some_and(whole)
}

/// Another sequence word: a loss, a new start, a number not in use.
fn sequence_damage(rng: &mut Rng, moves: &mut [Move]) -> Option<usize> {
    let inside = rng.percent(60);
    let (at, draft) = choose(rng, moves, |_, draft| !inside || continues(draft))?;
    let near = draft.sequence.wrapping_add(rng.pick(&[1, 1, 0xFFFF, 2, 128])) & 0xFF;
    draft.sequence = rng.pick(&[near, near, near, 0x0100, 0x0000, 0x0005]);
    Some(at)
}

/// Another number in a Continue event, in the low or the high word.
fn number_damage(rng: &mut Rng, moves: &mut [Move]) -> Option<usize> {
    let (at, draft) = choose(rng, moves, |_, draft| continues(draft))?;
    let word = &mut draft.items[0][1 + rng.below(2)];
    *word = rng.pick(&[*word ^ 1, word.wrapping_add(1), *word ^ 0x8000, !*word]);
    Some(at)
}

/// Another size in the End event of an event that began earlier: as if some of
/// its bytes did not count, or others did.
fn size_damage(rng: &mut Rng, moves: &mut [Move]) -> Option<usize> {
    let befores = befores(moves);
    let end = |draft: &Draft| draft.items.iter().position(|w| class_of(w) == Class::EndEvent);
    let fits = |at: usize, draft: &Draft| {
        !befores[at].parts.is_empty() && continues(draft) && end(draft).is_some()
    };
    let (at, draft) = choose(rng, moves, fits)?;
    let end = end(draft)?;
    let here: u64 = draft.items[..=end].iter().map(|words| 2 * words.len() as u64).sum();
    let parts = &befores[at].parts;
    let frames = parts.len() as u64 + 1;
    let all = parts.iter().sum::<u64>() + here;
    let size = rng.pick(&[
        // Without the Continue items, or without one item of three words.
        all.saturating_sub(6 * parts.len() as u64),
        all - 6,
        // With the head and end words of all frames, or of those before.
        all + 8 * frames,
        all + 8 * (frames - 1),
        // One part, or the parts before.
        here,
        all - here,
        parts[0],
        all + 2,
        all - 2,
        all + 1,
        all ^ 0x1_0000,
        0,
    ]);
    draft.items[end] = Item::EndEvent { zero: 0, size }.words();
    Some(at)
}

/// The first Channel of a part at, below or just above the last one of the
/// parts before.
fn header_damage(rng: &mut Rng, moves: &mut [Move]) -> Option<usize> {
    let befores = befores(moves);
    let first = |draft: &Draft| {
        let inner = draft.items.iter().take_while(|words| class_of(words) != Class::EndEvent);
        inner.map(|words| class_of(words)).position(|class| class == Class::Channel)
    };
    let fits = |at: usize, draft: &Draft| {
        befores[at].header.is_some() && continues(draft) && first(draft).is_some()
    };
    let (at, draft) = choose(rng, moves, fits)?;
    let last = befores[at].header?;
    let next = last.wrapping_add(rng.pick(&[0, 0, 0xFFFF, 1, 1]));
    let place = first(draft)?;
    // It stays a Channel of the card.
    draft.items[place][0] = (last & 0xFE00) | (next & 0x01FF);
    Some(at)
}

/// A Continue event too few, a Start event in its place, or one too many.
fn opener_damage(rng: &mut Rng, moves: &mut [Move]) -> Option<usize> {
    let (at, draft) = choose(rng, moves, |_, _| true)?;
    let number = long(rng);
    match rng.below(3) {
        0 if continues(draft) => drop(draft.items.remove(0)),
        1 if continues(draft) => draft.items[0] = start_event(rng, number).words(),
        _ => draft.items.insert(0, Item::ContinueEvent { zero: 0, number }.words()),
    }
    draft.fix_events();
    Some(at)
}

/// A frame that is lost, comes twice, or too early.
fn order_damage(rng: &mut Rng, moves: &mut Vec<Move>) {
    if moves.len() < 2 {
        return;
    }
    let at = rng.below(moves.len() - 1);
    match rng.below(3) {
        0 => drop(moves.remove(at)),
        1 => moves.insert(at, moves[at].clone()),
        _ => moves.swap(at, at + 1),
    }
}

/// A frame that is mostly refused for itself.
fn frame_damage(rng: &mut Rng, moves: &mut [Move]) -> Option<usize> {
    let (at, draft) = choose(rng, moves, |_, _| true)?;
    if rng.percent(40) {
        damage_draft(rng, draft);
    } else {
        let frame = draft.frame();
        moves[at] = Move::Bytes(bytes_damage(rng, frame));
    }
    Some(at)
}

/// A frame as another card would have sent it.
fn other_card(rng: &mut Rng, card: u64, moves: &mut [Move]) -> Option<usize> {
    let (at, draft) = choose(rng, moves, |_, _| true)?;
    let other = (card ^ (1 << rng.below(5))) as u16;
    draft.start = Kind::Data.start(other as u64);
    for words in &mut draft.items {
        if matches!(class_of(words), Class::Channel | Class::HitCount) {
            words[0] = (words[0] & 0xC1FF) | other << 9;
        }
    }
    Some(at)
}

/// A frame put in: of another kind or card, empty, or of some other event,
/// with the number that would be next or with another one.
fn stray(rng: &mut Rng, card: u64, moves: &mut Vec<Move>) {
    let at = rng.below(moves.len() + 1);
    let other = card ^ (1 << rng.below(5));
    let words = rng.pick(&[0, 0, 9, 12, 20]);
    let mut draft = match rng.below(6) {
        0 => sound_of(rng, Kind::Monitor, card, words),
        1 => sound_of(rng, Kind::Command, card, words),
        2 => sound_of(rng, Kind::Data, other, words),
        3 => sound_of(rng, Kind::Data, card, 0),
        4 => sound_of(rng, Kind::Monitor, other, words),
        _ => sound_of(rng, Kind::Data, card, words),
    };
    let next = match moves.get(at) {
        Some(Move::Frame(draft)) => draft.sequence,
        _ => 0,
    };
    let any = rng.within(0, 0xFF) as u16;
    draft.sequence = rng.pick(&[next, next, next, next.wrapping_add(1) & 0xFF, any, 5, 0, 0x0100]);
    moves.insert(at, Move::Frame(draft));
}
