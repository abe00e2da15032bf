//! Drafts of sound runs: frames of one card that an assembler takes one by one,
//! with events that go on from frame to frame.

use crate::book::{classify, Class};
use crate::cases::MAX_PAYLOAD;
use crate::draft::*;
use crate::item::Item;
use crate::rng::Rng;
use crate::rules::Kind;
use crate::run::{payload, Step, MAX_STEPS};

/// A step to be.
#[derive(Clone, Debug)]
pub enum Move {
    Frame(Draft),
    /// Bytes that are a frame no longer.
    Bytes(Vec<u8>),
    GiveUp,
}

/// The payload of the moves, as far as a payload and its steps go.
pub fn lay_out(moves: &[Move]) -> Vec<u8> {
    let steps = moves.iter().take(MAX_STEPS).map(|step| match step {
        Move::Frame(draft) => Step::Frame(draft.frame()),
        Move::Bytes(bytes) => Step::Frame(bytes.clone()),
        Move::GiveUp => Step::GiveUp,
    });
    let mut steps: Vec<Step> = steps.collect();
    while steps.iter().map(Step::length).sum::<usize>() > MAX_PAYLOAD {
        steps.pop();
    }
    payload(&steps)
}

/// Gives out sequence words that an assembler can take.
struct Numbers {
    /// The number that the follower expects; none while it is idle.
    expected: Option<u8>,
    /// Are the numbers in use from the first frame on?
    used: bool,
}

impl Numbers {
    fn next(&mut self, rng: &mut Rng, inside: bool) -> u16 {
        let Some(expected) = self.expected else {
            if self.used || rng.percent(4) {
                self.expected = Some(1);
                return 0x0100;
            }
            return 0;
        };
        if rng.percent(4) {
            // A new start loses nothing, inside an event too.
            self.expected = Some(1);
            return 0x0100;
        }
        let lost = rng.pick(&[0, 0, 0, 0, 0, 1, 2, 200, 254, 255]);
        let number = expected.wrapping_add(if inside { 0 } else { lost });
        self.expected = Some(number.wrapping_add(1));
        number as u16
    }
}

/// The event that goes on.
struct Going {
    number: u64,
    bytes: u64,
    channel: usize,
    /// In how many more frames it stands.
    more: usize,
}

/// A sound run of the card: up to 24 frames, events in one to five of them.
pub fn sound_run(rng: &mut Rng, card: u64) -> Vec<Move> {
    let frames = match rng.below(20) {
        0 => 24,
        1 => rng.below(25),
        _ => 1 + rng.below(8),
    };
    let mut numbers = Numbers { expected: None, used: rng.percent(60) };
    let mut going = None;
    let mut moves = Vec::new();
    for _ in 0..frames {
        let sequence = numbers.next(rng, going.is_some());
        let mut items = Vec::new();
        going = fill(rng, card, going, &mut items);
        moves.push(Move::Frame(Draft { start: Kind::Data.start(card), sequence, items }));
    }
    moves
}

/// How many words a part has beside its Start, Continue and End event.
fn part_words(rng: &mut Rng) -> usize {
    match rng.below(100) {
        0 => rng.pick(&[4000, FULL]),
        1..=4 => rng.below(200),
        5..=24 => 0,
        _ => rng.below(16),
    }
}

/// Fills a frame: the rest of the event that goes on, whole ones, and the
/// beginning of one. Answers the event that goes on behind it.
fn fill(
    rng: &mut Rng,
    card: u64,
    going: Option<Going>,
    items: &mut Vec<Vec<u16>>,
) -> Option<Going> {
    if let Some(mut event) = going {
        items.push(Item::ContinueEvent { zero: 0, number: event.number }.words());
        grow(rng, card, &mut event, 6, items);
        event.more -= 1;
        if event.more > 0 {
            return Some(event);
        }
        items.push(Item::EndEvent { zero: 0, size: event.bytes + 6 }.words());
    }
    for _ in 0..rng.pick(&[0, 0, 0, 1, 1, 2]) {
        let inner = rng.below(10);
        event(rng, card, WHOLE, inner, items);
    }
    if rng.percent(30) {
        return None;
    }
    let number = long_or_near(rng, items);
    items.push(start_event(rng, number).words());
    let more = rng.pick(&[1, 1, 1, 2, 2, 3, 4]);
    let mut event = Going { number, bytes: 0, channel: first_channel(rng), more };
    grow(rng, card, &mut event, 12, items);
    Some(event)
}

/// An event number: now and then that of the event before it in the frame.
fn long_or_near(rng: &mut Rng, items: &[Vec<u16>]) -> u64 {
    let before = items.iter().rev().find(|words| classify(words[0]) == Class::ContinueEvent);
    match before {
        Some(words) if rng.percent(30) => words[1] as u64 | (words[2] as u64) << 16,
        _ => long(rng),
    }
}

/// A part of the event, behind an opener of so many bytes.
fn grow(rng: &mut Rng, card: u64, event: &mut Going, opener: u64, items: &mut Vec<Vec<u16>>) {
    // An End event fits behind it, and behind a long rest two small events.
    let used: usize = items.iter().map(Vec::len).sum();
    let most = if opener == 6 { 4000 } else { FULL - used };
    let words = part_words(rng).min(most);
    // Some parts have no Channel, though others of the event have.
    let mut used_up = 316;
    let channel = if rng.percent(25) { &mut used_up } else { &mut event.channel };
    body(rng, card, words, channel, items);
    event.bytes += opener + 2 * words as u64;
}

/// What a run has left open before a step.
#[derive(Clone, Default, Debug)]
pub struct Before {
    /// The bytes of the open event's parts, one for each frame.
    pub parts: Vec<u64>,
    /// Its last Channel word.
    pub header: Option<u16>,
}

/// What is open before each step, by the items alone.
pub fn befores(moves: &[Move]) -> Vec<Before> {
    let mut befores = Vec::new();
    let mut open = Before::default();
    for step in moves {
        befores.push(open.clone());
        let items: &[Vec<u16>] = match step {
            Move::Frame(draft) => &draft.items,
            Move::Bytes(_) => &[],
            Move::GiveUp => {
                open = Before::default();
                &[]
            }
        };
        for words in items {
            match classify(words[0]) {
                Class::StartEvent => open = Before { parts: vec![0], header: None },
                Class::ContinueEvent => open.parts.push(0),
                Class::Channel => open.header = Some(words[0]),
                Class::EndEvent => open = Before::default(),
                _ => {}
            }
            if let Some(part) = open.parts.last_mut() {
                *part += 2 * words.len() as u64;
            }
        }
    }
    befores
}

#[cfg(test)]
mod tests {
    use super::*;
    use crate::assembler::Assembler;
    use crate::follower::Follower;
    use crate::run::steps;

    /// Sound runs are taken whole; they have events in one to five frames, and
    /// use numbers or do not.
    #[test]
    fn sound_runs_are_accepted() {
        let mut rng = Rng::new(11);
        let (mut in_frames, mut used, mut lost) = ([0; 6], [0; 2], 0);
        for _ in 0..400 {
            let card = any_card(&mut rng);
            let moves = sound_run(&mut rng, card);
            let mut assembler = Assembler::new(card);
            for step in steps(&lay_out(&moves)).unwrap() {
                let Step::Frame(bytes) = step else { unreachable!() };
                lost += assembler.step(&bytes).expect("a sound run").min(1);
                used[(assembler.follower != Follower::Idle) as usize] += 1;
            }
            for (step, before) in moves.iter().zip(befores(&moves)) {
                let Move::Frame(draft) = step else { unreachable!() };
                let ends = draft.items.iter().find(|words| classify(words[0]) == Class::EndEvent);
                if ends.is_some() {
                    in_frames[before.parts.len() + 1] += 1;
                }
            }
        }
        assert!(in_frames[2..].iter().all(|count| *count > 30), "{in_frames:?}");
        assert!(used[0] > 300 && used[1] > 300 && lost > 50, "{used:?} {lost}");
    }
}
