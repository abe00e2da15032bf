//! Cases for lists of corrections: mostly good ones in sound records, with one
//! at the first, a middle or the last place that is to be refused.

use crate::cases::*;
use crate::corrections::{payload, CORRECTION_BYTES};
use crate::damage::damaged_frame;
use crate::draft::sound;
use crate::make_record::*;
use crate::make_writer::lend;
use crate::record::{Correction, Entry, Target, Version, ENTRY_BYTES, MAX_ENTRIES};
use crate::rng::Rng;
use crate::rules::Kind;
use std::collections::BTreeMap;

/// One case of a list.
pub fn edit_all_case(rng: &mut Rng) -> Case {
    match rng.below(1000) {
        0..=49 => empty_list(rng),
        50..=219 => {
            let record = any_record(rng, 20);
            on_record(rng, &record)
        }
        220..=304 => {
            let draft = recorded_draft(rng);
            let record = lay_out(Version::Second, &damaged_frame(rng, &draft), &[]);
            on_record(rng, &record)
        }
        305..=329 => near_full(rng),
        330 => up_to_full(rng),
        _ => in_sound_record(rng),
    }
}

/// The correction that the arguments of a single edit name.
pub fn correction(arguments: [u64; 5]) -> Correction {
    let [index, value, operator, reason, _] = arguments.map(|long| long as u32);
    Correction { index, value, operator, reason, time: arguments[4] }
}

fn list_case(buffer: &[u8], list: &[Correction]) -> Case {
    Case::new(EDIT_ALL, &[]).p(buffer).q(&payload(list))
}

/// No correction: accepted on records, sound and damaged, and on anything else.
fn empty_list(rng: &mut Rng) -> Case {
    let record = if rng.percent(15) { vec![] } else { any_record(rng, 40) };
    let length = if rng.percent(80) { record.len() } else { rng.below(60) };
    list_case(&lend(rng, &record, length), &[])
}

/// A few corrections of a record that may be damaged. What is wrong with it is
/// told of the first one, whatever that one is.
fn on_record(rng: &mut Rng, record: &[u8]) -> Case {
    let count = rng.pick(&[1, 1, 2, 3, 5]);
    let list: Vec<Correction> =
        (0..count).map(|_| correction(edit_arguments(rng, record))).collect();
    let length = record_room(rng, record.len(), ENTRY_BYTES * count);
    list_case(&lend(rng, record, length), &list)
}

fn in_sound_record(rng: &mut Rng) -> Case {
    let mut frame = recorded_draft(rng).frame();
    if targets(&frame).is_empty() && rng.percent(80) {
        return in_sound_record(rng);
    }
    let few = rng.below(6);
    let some = rng.below(40);
    let count = rng.pick(&[0, 0, 0, few, few, some]);
    let entries = history(rng, &mut frame, count);
    let count = list_length(rng);
    sound_case(rng, &frame, &entries, count)
}

/// How many corrections a list has: mostly few, since each is a call.
fn list_length(rng: &mut Rng) -> usize {
    match rng.below(20) {
        0..=2 => 1,
        3..=13 => 2 + rng.below(7),
        14 => 40,
        _ => 1 + rng.below(60),
    }
}

/// A small frame that has something to edit.
fn small_frame(rng: &mut Rng) -> Vec<u8> {
    let kind = rng.pick(&[Kind::Data, Kind::Monitor]);
    let frame = sound(rng, kind, 14).frame();
    if targets(&frame).is_empty() {
        small_frame(rng)
    } else {
        frame
    }
}

/// The history gets full inside the list, with its last one or behind it.
fn near_full(rng: &mut Rng) -> Case {
    let mut frame = small_frame(rng);
    let left = rng.below(5);
    let entries = history(rng, &mut frame, MAX_ENTRIES - left);
    let more = rng.below(6);
    let count = rng.pick(&[left, left + 1, left + 1, left + more]).max(1);
    sound_case(rng, &frame, &entries, count)
}

/// A list so long that it fills the history by itself, or nearly does. This is
/// dear and so it is rare.
fn up_to_full(rng: &mut Rng) -> Case {
    let frame = small_frame(rng);
    let most = MAX_PAYLOAD / CORRECTION_BYTES;
    let count = rng.pick(&[MAX_ENTRIES - 1, MAX_ENTRIES, MAX_ENTRIES + 1, most]);
    sound_case(rng, &frame, &[], count)
}

/// So many corrections of a sound record of version 2, in a buffer that has room
/// for all of them or not.
fn sound_case(rng: &mut Rng, frame: &[u8], entries: &[Entry], count: usize) -> Case {
    let record = lay_out(Version::Second, frame, entries);
    let list = list_for(rng, frame, count);
    let length = list_room(rng, record.len(), count).min(MAX_PAYLOAD);
    list_case(&lend(rng, &record, length), &list)
}

/// Buffer length: room for every entry, for all but the last, for some or for
/// none; at times a byte is missing for one more.
fn list_room(rng: &mut Rng, total: usize, count: usize) -> usize {
    let entries = match rng.below(20) {
        0..=13 => count,
        14 | 15 => count - 1,
        16 | 17 => rng.below(count),
        18 => 0,
        _ => count + rng.below(4),
    };
    total + ENTRY_BYTES * entries + rng.pick(&[0, 0, 0, 1, 16, 23])
}

/// Good corrections of a sound frame; in many lists one is spoilt.
fn list_for(rng: &mut Rng, frame: &[u8], count: usize) -> Vec<Correction> {
    let targets = targets(frame);
    if targets.is_empty() {
        // Nothing can be corrected, so anything is refused.
        let record = lay_out(Version::Second, frame, &[]);
        return (0..count).map(|_| correction(edit_arguments(rng, &record))).collect();
    }
    let spoilt = if rng.percent(33) { place(rng, count) } else { count };
    let in_turn = rng.percent(40);
    let mut standing = Standing { frame: frame.to_vec(), before: BTreeMap::new() };
    let mut list: Vec<Correction> = Vec::new();
    for at in 0..count {
        // One word after the other, or few words many times.
        let among = if rng.percent(40) { targets.len().min(2) } else { targets.len() };
        let found = targets[if in_turn { at % targets.len() } else { rng.below(among) }];
        let next = match list.last() {
            Some(last) if at == spoilt && rng.percent(20) => *last,
            _ if at == spoilt => standing.spoilt(rng, found),
            _ => standing.good(rng, found),
        };
        list.push(next);
    }
    list
}

/// The first, the last or any place of so many.
fn place(rng: &mut Rng, count: usize) -> usize {
    let any = rng.below(count);
    rng.pick(&[0, any, any, count - 1])
}

/// The frame as the good corrections so far leave it, and what each word that
/// they changed had before.
struct Standing {
    frame: Vec<u8>,
    before: BTreeMap<u64, u32>,
}

impl Standing {
    /// A correction that is accepted if there is room; now and then it puts
    /// back what the word had.
    fn good(&mut self, rng: &mut Rng, found: (u64, Target)) -> Correction {
        let good = self.proposed(rng, found);
        let (index, target) = found;
        self.before.insert(index, target.value(&self.frame, index as usize));
        target.put(&mut self.frame, index as usize, good.value);
        good
    }

    /// The same, without making it.
    fn proposed(&self, rng: &mut Rng, (index, target): (u64, Target)) -> Correction {
        let old = target.value(&self.frame, index as usize);
        let value = match self.before.get(&index) {
            Some(before) if rng.percent(20) => *before,
            _ => another_value(rng, target, old),
        };
        let any = rng.within(1, 0xFFFF) as u32;
        let operator = rng.pick(&[1, 9, 0xFFFF, any, any]);
        let (index, reason) = (index as u32, rng.within(1, 5) as u32);
        Correction { index, value, operator, reason, time: kept_time(rng) }
    }

    /// One with a fault or several at once, so that their order shows.
    fn spoilt(&self, rng: &mut Rng, (index, target): (u64, Target)) -> Correction {
        let mut spoilt = self.proposed(rng, (index, target));
        let faults = rng.pick(&[1, 1, 1, 2, 2, 2, 4, 4, 8, 8, 16, 16, 3, 6, 12, 18, 24, 31]);
        let (at, words) = (spoilt.index, self.frame.len() as u32 / 2);
        if faults & 1 != 0 {
            let beside = [at - 1, at + 1, at + 2, 0, 3, words - 1, words];
            let far = [at + 0x1_0000, u32::MAX];
            spoilt.index = if rng.percent(75) { rng.pick(&beside) } else { rng.pick(&far) };
        }
        if faults & 2 != 0 {
            let old = target.value(&self.frame, index as usize);
            spoilt.value = match target {
                Target::Sample => rng.pick(&[old, old, 4096, 0xFFFF, old ^ 0x1_0000, u32::MAX]),
                Target::Bin => rng.pick(&[old, old, 0]),
            };
        }
        if faults & 4 != 0 {
            spoilt.operator = rng.pick(&[0, 0x1_0000, 0x1_0001, u32::MAX]);
        }
        if faults & 8 != 0 {
            spoilt.reason = rng.pick(&[0, 6, 0x1_0001, u32::MAX]);
        }
        if faults & 16 != 0 {
            spoilt.time = rng.pick(&[1 << 48, spoilt.time | 1 << 48, 1 << 63, u64::MAX]);
        }
        spoilt
    }
}

/// A value that may stand in such an item and is not the old one.
fn another_value(rng: &mut Rng, target: Target, old: u32) -> u32 {
    let value = legal_value(rng, target);
    if value != old {
        value
    } else {
        another_value(rng, target, old)
    }
}

#[cfg(test)]
mod tests {
    use super::*;
    use crate::answer::answer;
    use crate::corrections;
    use crate::tally::possible;
    use std::collections::BTreeSet;

    /// Number and position of a refusal.
    fn stopped(line: &str) -> Option<(u8, usize)> {
        let line = line.split(" |").next()?;
        let (refusal, position) = line.strip_prefix("refused ")?.split_once(" position ")?;
        Some((refusal.split(' ').next()?.parse().ok()?, position.parse().ok()?))
    }

    /// Makes the corrections by single calls, up to the first that is refused,
    /// and answers what a list is to say in front of the check sum.
    fn singly(buffer: &mut Vec<u8>, list: &[Correction]) -> String {
        for (position, correction) in list.iter().enumerate() {
            let mut edit = Case::new(EDIT, &correction.arguments()).p(buffer);
            let line = answer(&mut edit);
            *buffer = edit.p;
            if !line.starts_with("ok") {
                return format!("{} position {position}", line.split(" |").next().unwrap());
            }
        }
        "ok".to_string()
    }

    #[test]
    fn a_list_is_its_single_calls() {
        let mut rng = Rng::new(11);
        for _ in 0..3000 {
            let mut case = edit_all_case(&mut rng);
            let mut buffer = case.p.clone();
            let said = singly(&mut buffer, &corrections::read(&case.q).unwrap());
            let line = answer(&mut case);
            assert_eq!(line.split(" |").next(), Some(said.as_str()));
            assert_eq!(case.p, buffer);
        }
    }

    /// Each refusal stops lists at their first place. Those of the correction
    /// itself, of the entries' number and of the room come in the middle and
    /// last too, and no other does: an accepted edit leaves a sound record.
    #[test]
    fn every_refusal_comes_up_at_every_place() {
        let mut rng = Rng::new(12);
        let mut met = BTreeSet::new();
        for _ in 0..6000 {
            let mut case = edit_all_case(&mut rng);
            let count = case.q.len() / CORRECTION_BYTES;
            if let Some((number, position)) = stopped(&answer(&mut case)) {
                let last = position > 0 && position + 1 == count;
                met.insert((
                    number,
                    if last { "last" } else { ["first", "middle"][(position > 0) as usize] },
                ));
            }
        }
        let mut all = BTreeSet::new();
        for number in possible(EDIT_ALL) {
            all.insert((*number, "first"));
            if matches!(number, 12 | 22..=25) {
                all.extend([(*number, "middle"), (*number, "last")]);
            }
        }
        assert_eq!(met, all);
    }

    /// A good share of the lists is accepted, and of these many are long.
    #[test]
    fn many_lists_are_accepted() {
        let mut rng = Rng::new(13);
        let (mut accepted, mut several, mut empty) = (0, 0, 0);
        for _ in 0..3000 {
            let mut case = edit_all_case(&mut rng);
            if answer(&mut case).starts_with("ok") {
                accepted += 1;
                several += (case.q.len() >= 5 * CORRECTION_BYTES) as usize;
                empty += case.q.is_empty() as usize;
            }
        }
        assert!(accepted > 1000 && several > 480 && empty > 100, "{accepted} {several} {empty}");
    }
}
