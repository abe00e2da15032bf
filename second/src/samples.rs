//! The samples: frames written by calls of the writer, records by calls of the
//! editor, a run taken by the assembler. Each call is also given out as a case,
//! so that the proved library can be asked whether it leaves the same bytes.
//! Records of version 1, which no call makes, it is asked about.

use crate::answer::answer;
use crate::cases::*;
use crate::corpus_record::WHEN;
use crate::item::Item;
use crate::known::figures;
use crate::make_record::{lay_out, targets};
use crate::record::{self, Version, ENTRY_BYTES, HEADER_BYTES};
use crate::rules::Kind;
use crate::run::{payload, Step};

/// A sample by its name, and the calls that made all of them.
#[derive(Default)]
pub struct Samples {
    pub files: Vec<(&'static str, Vec<u8>)>,
    pub cases: Vec<u8>,
}

impl Samples {
    /// Does a call, which has to be accepted, and answers its values.
    fn call(&mut self, case: &mut Case) -> String {
        case.write(&mut self.cases);
        let line = answer(case);
        assert!(line.starts_with("ok"), "a sample's call: {line}");
        line
    }

    /// A frame of the items, then the texts.
    fn frame(
        &mut self,
        kind: u64,
        card: u64,
        sequence: u64,
        items: &[Item],
        texts: &[&str],
    ) -> Vec<u8> {
        let mut buffer = vec![0; 8192];
        let mut step = |samples: &mut Samples, case: Case| -> u64 {
            let mut case = case.p(&buffer);
            let line = samples.call(&mut case);
            buffer = case.p;
            line.split(' ').nth(1).and_then(|word| word.parse().ok()).expect("a length")
        };
        let mut at = step(self, Case::new(BEGIN, &[kind, card, sequence]));
        for item in items {
            let arguments = [vec![at, item.class().row()], item.fields()].concat();
            at = step(self, Case::new(ADD, &arguments));
        }
        for text in texts {
            at = step(self, Case::new(ADD_TEXT, &[at]).q(text.as_bytes()));
        }
        at = step(self, Case::new(CLOSE, &[at]));
        buffer.truncate(at as usize);
        buffer
    }

    /// A record of the frame after the edits: word, value, operator, reason and
    /// time.
    fn record(&mut self, frame: &[u8], edits: &[[u64; 5]]) -> Vec<u8> {
        let room = HEADER_BYTES + frame.len() + ENTRY_BYTES * edits.len();
        let mut case = Case::new(OPEN, &[]).p(&vec![0; room]).q(frame);
        self.call(&mut case);
        for edit in edits {
            case = Case::new(EDIT, edit).p(&case.p);
            self.call(&mut case);
        }
        self.ask(&case.p);
        case.p
    }

    /// The record as people hold it who edited it by version 1: the same frame
    /// and entries, without their times.
    fn first(&mut self, record: &[u8]) -> Vec<u8> {
        let judged = record::judge(record).expect("a sample");
        let frame = &record[HEADER_BYTES..HEADER_BYTES + judged.frame_length];
        let first = lay_out(Version::First, frame, &record::entries(record, &judged));
        self.ask(&first);
        first
    }

    /// Every question about a record.
    fn ask(&mut self, record: &[u8]) {
        let judged = record::judge(record).expect("a sample");
        self.call(&mut Case::new(RECORD, &[]).p(record));
        for k in 0..=judged.entries as u64 {
            self.call(&mut Case::new(RESTORE, &[k]).p(record).q(&vec![0; judged.frame_length]));
        }
        for number in 1..=judged.entries as u64 {
            self.call(&mut Case::new(ENTRY, &[number]).p(record));
        }
        self.list(record);
    }

    /// What is listed of a record, a damaged one too.
    fn list(&mut self, record: &[u8]) {
        self.call(&mut Case::new(LIST, &[]).p(record).q(&[0; 2048]));
    }

    /// The record with the new value of its fourth entry rewritten.
    fn damaged(&mut self, record: &[u8], version: Version) -> Vec<u8> {
        let mut damaged = record.to_vec();
        let entries = crate::item::word(record, 4) as usize;
        damaged[entries + 3 * version.entry_bytes() + 8] ^= 1;
        self.list(&damaged);
        damaged
    }
}

/// A pedestal histogram: bins about the middle, with counts that fall off to
/// both sides.
fn pedestal(chip: u64, channel: u64, middle: u64) -> Vec<Item> {
    let counts = [3, 21, 118, 460, 1210, 2130, 2515, 2098, 1234, 449, 131, 19, 2];
    let mut items = vec![Item::Histogram { card: 14, chip, channel }];
    let bins = counts.iter().enumerate();
    items.extend(bins.map(|(at, count)| Item::Bin { bin: middle - 6 + at as u64, count: *count }));
    items
}

/// Plane 14's pedestals: four channels of one card.
fn pedestals() -> Vec<Item> {
    [(0, 3, 251), (0, 17, 248), (1, 40, 255), (2, 5, 244)]
        .iter()
        .flat_map(|(chip, channel, middle)| pedestal(*chip, *channel, *middle))
        .collect()
}

/// Eleven bins of the second channel are mended after a readout fault, one
/// every half minute, and one of them again on the next day.
fn mending(frame: &[u8]) -> Vec<[u64; 5]> {
    let bins: Vec<u64> = targets(frame).iter().map(|(index, _)| *index).collect();
    let counts = [117, 463, 1198, 2140, 2502, 2111, 1226, 452, 129, 20, 3];
    let mended = counts.iter().enumerate();
    let mut edits: Vec<[u64; 5]> =
        mended.map(|(at, count)| [bins[15 + at], *count, 9, 2, WHEN + 30 * at as u64]).collect();
    edits.push([bins[19], 2499, 31, 4, WHEN + 86_400]);
    edits
}

fn start(number: u64) -> Item {
    Item::StartEvent { kind: 1, timestamp: 1000 * number, number }
}

fn channel(chip: u64, channel: u64) -> Item {
    Item::Channel { card: 5, chip, channel }
}

/// A Time bin and its samples.
fn pulse(time: u64, values: &[u64]) -> Vec<Item> {
    let samples = values.iter().map(|value| Item::Sample { value: *value });
    std::iter::once(Item::TimeBin { time }).chain(samples).collect()
}

/// Two events of one card: pulses on two channels, and on one.
fn pulses() -> Vec<Item> {
    let mut items = vec![start(7), Item::HitCount { card: 5, chip: 2, count: 2 }];
    items.push(channel(2, 10));
    items.extend(pulse(3, &[250, 251, 390, 812, 604, 301]));
    items.push(channel(2, 11));
    items.extend(pulse(4, &[249, 270, 255]));
    items.push(Item::LastCell { chip: 2, cell: 307 });
    let size = 2 * (6 + 1 + 2 + 6 + 2 + 3 + 1 + 3);
    items.push(Item::EndEvent { zero: 0, size });
    items.push(start(8));
    items.push(channel(0, 78));
    items.extend(pulse(500, &[251, 1900, 4095, 1702]));
    items.push(Item::EndEvent { zero: 0, size: 2 * (6 + 2 + 4 + 3) });
    items
}

/// One event over three frames: pulses on two channels, on two more, on one.
fn parts() -> [Vec<Item>; 3] {
    let goes_on = Item::ContinueEvent { zero: 0, number: 9 };
    let mut first = vec![start(9), Item::HitCount { card: 5, chip: 0, count: 2 }];
    first.push(channel(0, 20));
    first.extend(pulse(17, &[251, 260, 402, 655, 480, 297]));
    first.push(channel(0, 21));
    first.extend(pulse(18, &[249, 301, 366, 280]));
    let mut second = vec![goes_on, channel(1, 4)];
    second.extend(pulse(17, &[250, 288, 917, 640, 311]));
    second.push(channel(2, 33));
    second.extend(pulse(16, &[252, 270, 259]));
    second.extend(pulse(40, &[266, 258]));
    let mut third = vec![goes_on, channel(3, 60)];
    third.extend(pulse(19, &[247, 355, 342, 261]));
    third.push(Item::LastCell { chip: 3, cell: 12 });
    // The three frames' items, the Continue events too.
    let size = 2 * ((6 + 1 + 8 + 6) + (3 + 7 + 5 + 3) + (3 + 6 + 1 + 3));
    third.push(Item::EndEvent { zero: 0, size });
    [first, second, third]
}

impl Samples {
    /// The frames of an event, numbered from a new start on. They have to be
    /// taken one behind the other.
    fn run(&mut self, kind: u64, card: u64) -> [Vec<u8>; 3] {
        let mut sequence = [0x0100, 1, 2].into_iter();
        let mut frame = |items: Vec<Item>| {
            self.frame(kind, card, sequence.next().expect("three frames"), &items, &[])
        };
        let frames = parts().map(&mut frame);
        let steps = frames.clone().map(Step::Frame);
        let line = self.call(&mut Case::new(RUN, &[card]).p(&payload(&steps)));
        assert_eq!(line, "ok lost 0 lost 0 lost 0 none", "a sample's run");
        frames
    }
}

pub fn samples() -> Samples {
    let mut samples = Samples::default();
    let kind = |kind| Kind::ALL.iter().position(|k| *k == kind).expect("a kind") as u64;
    let monitor = samples.frame(kind(Kind::Monitor), 14, 0, &pedestals(), &[]);
    let data = samples.frame(kind(Kind::Data), 5, 0x0100, &pulses(), &[]);
    let command =
        samples.frame(kind(Kind::Command), 14, 3, &[], &["isobus 0x6C", "hped getbins 1 40"]);
    let [first, second, third] = samples.run(kind(Kind::Data), 5);
    let plane_2 = samples.record(&monitor, &mending(&monitor));
    let tenth_2 = samples.record(&figures()[2].bytes, &[[11, 260, 9, 2, WHEN]]);
    let (plane, tenth) = (samples.first(&plane_2), samples.first(&tenth_2));
    let damaged = samples.damaged(&plane, Version::First);
    let damaged_2 = samples.damaged(&plane_2, Version::Second);
    samples.files = vec![
        ("plane-14.record", plane),
        ("plane-14-v2.record", plane_2),
        ("plane-10.record", tenth),
        ("plane-10-v2.record", tenth_2),
        ("damaged.record", damaged),
        ("damaged-v2.record", damaged_2),
        ("data.frame", data),
        ("monitor.frame", monitor),
        ("command.frame", command),
        ("run-1.frame", first),
        ("run-2.frame", second),
        ("run-3.frame", third),
    ];
    samples
}

#[cfg(test)]
mod tests {
    use super::*;
    use crate::corpus_list::printed;

    fn file(name: &str) -> Vec<u8> {
        samples().files.into_iter().find(|file| file.0 == name).expect("a name").1
    }

    /// The records of version 2 are listed with a time in each line, those of
    /// version 1 without.
    #[test]
    fn records_are_of_both_versions() {
        let first = printed(&file("plane-14.record"));
        let second = printed(&file("plane-14-v2.record"));
        assert_eq!((first.lines().count(), second.lines().count()), (14, 14));
        for (number, (old, new)) in first.lines().zip(second.lines()).enumerate() {
            let time = match number {
                0 | 13 => String::new(),
                12 => " at 1731486400".to_string(),
                number => format!(" at {}", 1_731_400_000 + 30 * (number - 1)),
            };
            assert_eq!(format!("{old}{time}"), new);
        }
        for name in ["damaged.record", "damaged-v2.record"] {
            assert_eq!(printed(&file(name)), "refused 21 at 4\n", "{name}");
        }
        assert!(printed(&file("plane-10.record")).contains(" by 9 reason 2\n"));
        assert!(printed(&file("plane-10-v2.record")).contains(" by 9 reason 2 at 1731400000\n"));
    }

    /// The parts of event 9 as the questions about each frame tell them.
    #[test]
    fn the_run_is_one_event() {
        let lines = ["run-1.frame", "run-2.frame", "run-3.frame"]
            .map(|name| answer(&mut Case::new(EVENT, &[0]).p(&file(name))));
        assert_eq!(lines, ["ok 1 9000 9 - 3", "ok - - 9 - 3", "ok - - 9 104 3"]);
    }
}
