//! Cases for the assembler: runs, and single steps from a state in numbers.

use crate::book::{classify, Class};
use crate::cases::*;
use crate::damage::{damaged_frame, frame_damage};
use crate::damage_run::damage_run;
use crate::draft::*;
use crate::draft_run::{lay_out, sound_run, Move};
use crate::item::Item;
use crate::rng::Rng;
use crate::rules::Kind;

/// A run, sound or with one to three faults.
pub fn run_case(rng: &mut Rng) -> Case {
    let card = any_card(rng);
    let moves = any_run(rng, card);
    let asked = match rng.below(30) {
        0 => rng.pick(&[card ^ 1, card + 32, card | 0x0100, 0xFFFF]),
        _ => card,
    };
    Case::new(RUN, &[asked]).p(&lay_out(&moves))
}

pub fn any_run(rng: &mut Rng, card: u64) -> Vec<Move> {
    let mut moves = sound_run(rng, card);
    if rng.percent(15) {
        // Giving up between frames is no fault; what goes on after it is.
        moves.insert(rng.below(moves.len() + 1), Move::GiveUp);
    }
    if rng.percent(50) {
        for _ in 0..rng.pick(&[1, 1, 2, 3]) {
            damage_run(rng, card, &mut moves);
        }
    }
    moves
}

/// A state and a frame that fits it, or misses it by one thing or more.
pub fn step_case(rng: &mut Rng) -> Case {
    let card = any_card(rng);
    let open = rng.percent(75);
    let goes_on = if rng.percent(88) { open } else { !open };
    let mut items = Vec::new();
    let number = long(rng);
    let ends = goes_on && rng.percent(55);
    if goes_on {
        part(rng, card, number, ends, &mut items);
    }
    let bytes = items.iter().map(|words| 2 * words.len() as u64).sum();
    if ends || !goes_on {
        others(rng, card, &mut items);
    }
    let size = size_so_far(rng, bytes);
    if ends {
        put_size(rng, size, bytes, &mut items);
    }
    let state = state_of(rng, open, number, size, &items);
    let (follower, sequence) = numbers(rng, open);
    let mut draft = Draft { start: Kind::Data.start(card), sequence, items };
    if rng.percent(3) {
        draft = sound_of(rng, Kind::Monitor, card, 4);
    }
    let frame = match rng.below(100) {
        0..=5 => damaged_frame(rng, &draft),
        6..=11 => frame_damage(rng, draft.frame()),
        _ => draft.frame(),
    };
    let asked = if rng.percent(4) { card ^ (1 << rng.below(5)) } else { card };
    Case::new(STEP, &[&[asked, follower][..], &state].concat()).p(&frame)
}

/// A part of the event: Continue event, some words, perhaps End event, whose
/// size is put in later.
fn part(rng: &mut Rng, card: u64, number: u64, ends: bool, items: &mut Vec<Vec<u16>>) {
    items.push(Item::ContinueEvent { zero: 0, number }.words());
    let few = rng.below(30);
    let words = rng.pick(&[0, 1, 3, few, few]);
    let words = if rng.percent(1) { 4080 } else { words };
    let mut channel = first_channel(rng);
    body(rng, card, words, &mut channel, items);
    if ends {
        items.push(Item::EndEvent { zero: 0, size: 0 }.words());
    }
}

/// Events of the frame itself: whole ones, then perhaps one that stays open.
fn others(rng: &mut Rng, card: u64, items: &mut Vec<Vec<u16>>) {
    if items.len() > 100 {
        return;
    }
    for _ in 0..rng.pick(&[0, 0, 1, 2]) {
        let inner = rng.below(12);
        event(rng, card, WHOLE, inner, items);
    }
    if rng.percent(40) {
        let inner = rng.below(12);
        event(rng, card, Shape { begins: true, ends: false }, inner, items);
    }
}

/// A size so far; in many draws one with which the part comes to about 2^32.
fn size_so_far(rng: &mut Rng, part: u64) -> u64 {
    let limit = 1u64 << 32;
    let about = (limit - part).saturating_add_signed(rng.pick(&[-6, -2, -1, -1, 0, 0, 1, 2]));
    let any = rng.next() & 0xFFFF_FFFF;
    let few = 12 + 2 * rng.below(5000) as u64;
    rng.pick(&[about, about, about, few, few, few, few, any, 0, 0xFFFF_FFFF]).min(limit - 1)
}

/// Puts the event's size into its End event: all of it, cut to 32 bits, or in
/// some draws another one.
fn put_size(rng: &mut Rng, so_far: u64, part: u64, items: &mut [Vec<u16>]) {
    let all = so_far + part;
    let wrong = rng.pick(&[so_far, part, all + 2, all - 6, all + 8, all - 1, all ^ 0x1_0000]);
    let size = if rng.percent(85) { all } else { wrong } & 0xFFFF_FFFF;
    let end = items.iter_mut().find(|words| classify(words[0]) == Class::EndEvent);
    *end.expect("the End event of the part") = Item::EndEvent { zero: 0, size }.words();
}

/// Whether an event is open, its number, size and last header, coded.
fn state_of(rng: &mut Rng, open: bool, number: u64, size: u64, items: &[Vec<u16>]) -> [u64; 4] {
    if !open {
        return [0; 4];
    }
    let first = items.iter().find(|words| classify(words[0]) == Class::Channel);
    let any = rng.within(0, 512);
    let header = match first.map(|words| words[0] as u64 & 0x01FF) {
        // Code 1 + h: from two below the part's first header to one above it.
        Some(next) => {
            let below = rng.pick(&[0, next.saturating_sub(1), next, next, next]);
            rng.pick(&[below, below, below, below, next + 1, next + 2, any]).min(512)
        }
        None => rng.pick(&[0, any, 512]),
    };
    let other = number ^ (1 << rng.below(32));
    let number = if rng.percent(94) { number } else { other };
    [1, number, size, header]
}

/// A follower and a sequence word: mostly nothing is lost between them.
fn numbers(rng: &mut Rng, open: bool) -> (u64, u16) {
    if rng.percent(35) {
        return (0, rng.pick(&[0, 0, 0, 0, 0, 0, 0x0100, 0x0100, 1, 0xFF]));
    }
    let expected = rng.pick(&[0, 1, 7, 254, 255]);
    let lost = rng.pick(&[1, 2, 128, 255]);
    let late = (expected + lost) & 0xFF;
    let fits = if open { 85 } else { 50 };
    let word = if rng.percent(fits) { expected } else { late };
    (1 + expected, if rng.percent(6) { 0x0100 } else { word as u16 })
}

#[cfg(test)]
mod tests {
    use super::*;
    use crate::answer::answer;
    use crate::reasons::Alone;

    #[test]
    fn every_reason_comes_up_alone() {
        let mut rng = Rng::new(5);
        let mut alone = Alone::default();
        for _ in 0..3000 {
            alone.count(&run_case(&mut rng));
            alone.count(&step_case(&mut rng));
        }
        assert_eq!(alone.under(10), []);
    }

    /// Nothing is refused in a good share of the runs, and most of these have
    /// several frames.
    #[test]
    fn many_runs_are_accepted() {
        let mut rng = Rng::new(6);
        let (mut accepted, mut several) = (0, 0);
        for _ in 0..1000 {
            let line = answer(&mut run_case(&mut rng));
            if !line.contains("refused") {
                accepted += 1;
                several += (line.matches("lost").count() >= 3) as usize;
            }
        }
        assert!(accepted > 400 && several > 250, "{accepted} {several}");
    }
}
