//! The rules for one item after another: place, value and order. Reader and
//! writer both go through `Standing`, which holds what the items so far leave.

use crate::book::*;
use crate::item::Item;

/// A refusal: its number and the place it speaks of.
#[derive(Clone, Copy, PartialEq, Eq, Debug)]
pub struct Refusal {
    pub number: u8,
    pub place: u64,
}

pub const LENGTH: u8 = 1;
pub const KIND: u8 = 2;
pub const SIZE: u8 = 3;
pub const SEQUENCE: u8 = 4;
pub const END: u8 = 5;
pub const CLASS: u8 = 6;
pub const CUT: u8 = 7;
pub const PLACE: u8 = 8;
pub const VALUE: u8 = 9;
pub const ORDER: u8 = 10;
pub const OPEN: u8 = 11;
pub const ROOM: u8 = 12;
pub const ABSENT: u8 = 13;
pub const NO_START: u8 = 14;
pub const LINK: u8 = 15;
pub const HEADER: u8 = 20;
pub const ENTRY: u8 = 21;
pub const TARGET: u8 = 22;
pub const NEW_VALUE: u8 = 23;
pub const SIGNER: u8 = 24;
pub const FULL: u8 = 25;
pub const NO_ENTRY: u8 = 26;

/// A refusal at a word index or an entry number.
pub fn refuse_at<T>(number: u8, place: usize) -> Result<T, Refusal> {
    Err(Refusal { number, place: place as u64 })
}

/// A refusal that names no place.
pub fn refuse<T>(number: u8) -> Result<T, Refusal> {
    refuse_at(number, 0)
}

#[derive(Clone, Copy, PartialEq, Eq, Debug)]
pub enum Kind {
    Data,
    Monitor,
    Command,
}

impl Kind {
    pub const ALL: [Kind; 3] = [Kind::Data, Kind::Monitor, Kind::Command];

    /// Kind and card of a frame start word of version 0.
    pub fn of_start(word: u16) -> Option<(Kind, u64)> {
        let kind = match classify(word) {
            Class::DataFrame => Kind::Data,
            Class::MonitorFrame => Kind::Monitor,
            Class::CommandFrame => Kind::Command,
            _ => return None,
        };
        let (version, card) = ((word >> 5) & 0xF, word & 0x1F);
        (version == 0).then_some((kind, card as u64))
    }

    pub fn start(self, card: u64) -> u16 {
        let first = match self {
            Kind::Data => 0x0800,
            Kind::Monitor => 0x0600,
            Kind::Command => 0x0400,
        };
        first | card as u16
    }

    pub fn letter(self) -> char {
        match self {
            Kind::Data => 'D',
            Kind::Monitor => 'M',
            Kind::Command => 'C',
        }
    }
}

/// What opened the event that stands open.
#[derive(Clone, Copy, PartialEq, Eq, Debug)]
pub enum Opener {
    /// A Start event of this frame, at that word index.
    Start(usize),
    /// The frame's leading Continue event: the Start is in an earlier frame.
    Continue,
}

/// What stands before the next item, as far as the rules ask.
#[derive(Clone, Debug)]
pub struct Standing {
    pub kind: Kind,
    pub card: u64,
    /// The open event, if any.
    pub event: Option<Opener>,
    /// Class of the item just before.
    pub last: Option<Class>,
    /// Content of the last Channel header since the event was opened here.
    pub channel: Option<u64>,
    /// Time of the last sample in the present channel.
    pub sampled: Option<u64>,
    /// Time at which the next sample would be.
    pub next_time: u64,
    /// Content of the last Histogram header in the frame.
    pub histogram: Option<u64>,
    /// Last bin number in the present histogram.
    pub bin: Option<u64>,
}

impl Standing {
    pub fn new(kind: Kind, card: u64) -> Standing {
        Standing {
            kind,
            card,
            event: None,
            last: None,
            channel: None,
            sampled: None,
            next_time: 0,
            histogram: None,
            bin: None,
        }
    }

    /// PLACE: may an item of this class come next?
    pub fn allows(&self, class: Class) -> bool {
        use Class::*;
        let inside = matches!(class, HitCount | LastCell | Channel | EndEvent);
        match self.kind {
            Kind::Data if self.event.is_none() => {
                class == StartEvent || (class == ContinueEvent && self.last.is_none())
            }
            Kind::Data => match self.last {
                Some(Channel) => class == TimeBin,
                Some(TimeBin) => class == Sample,
                Some(Sample) => inside || class == Sample || class == TimeBin,
                _ => inside,
            },
            Kind::Monitor => match class {
                Histogram => true,
                Bin => matches!(self.last, Some(Histogram | Bin)),
                _ => false,
            },
            Kind::Command => class == Text,
        }
    }

    /// VALUE for an item that starts at a word index. A text's bytes are
    /// judged where they are at hand.
    pub fn value_holds(&self, item: &Item, index: usize) -> bool {
        match *item {
            Item::Channel { card, chip, channel } | Item::Histogram { card, chip, channel } => {
                card == self.card && chip <= MAX_CHIP && channel <= MAX_CHANNEL
            }
            Item::HitCount { card, chip, count } => {
                card == self.card && chip <= MAX_CHIP && count <= MAX_HIT_COUNT
            }
            Item::Sample { value } => value <= MAX_VALUE,
            Item::Bin { bin, count } => bin <= MAX_BIN && 1 <= count && count <= u32::MAX as u64,
            Item::LastCell { chip, cell } => chip <= MAX_CHIP && cell <= MAX_CELL,
            Item::TimeBin { time } => time <= MAX_TIME,
            Item::Text { length } => length >= 1,
            Item::StartEvent { kind, timestamp, number } => {
                kind <= MAX_TYPE && timestamp <= MAX_TIMESTAMP && number <= u32::MAX as u64
            }
            Item::EndEvent { zero, size } => {
                let right = self.event_size(index).is_none_or(|right| size == right);
                zero == 0 && size <= u32::MAX as u64 && right
            }
            Item::ContinueEvent { zero, number } => zero == 0 && number <= u32::MAX as u64,
        }
    }

    /// The bytes of the open event if an End event starts at this word index;
    /// none where they are not known here, as it began in an earlier frame.
    pub fn event_size(&self, index: usize) -> Option<u64> {
        match self.event {
            Some(Opener::Start(start)) => Some(2 * (index + 3 - start) as u64),
            _ => None,
        }
    }

    /// OPEN: a frame may not end right after a Channel or Time bin.
    pub fn is_cut(&self) -> bool {
        matches!(self.last, Some(Class::Channel | Class::TimeBin))
    }

    /// ORDER: times, headers and bins rise.
    pub fn order_holds(&self, item: &Item) -> bool {
        let above = |last: Option<u64>, now: u64| last.is_none_or(|last| now > last);
        match *item {
            Item::Channel { card, chip, channel } => {
                above(self.channel, content(card, chip, channel))
            }
            Item::Histogram { card, chip, channel } => {
                above(self.histogram, content(card, chip, channel))
            }
            Item::Bin { bin, .. } => above(self.bin, bin),
            Item::TimeBin { time } => self.sampled.is_none_or(|last| time >= last + 2),
            Item::Sample { .. } => self.next_time <= MAX_TIME,
            _ => true,
        }
    }

    /// Takes an item that kept all rules as standing.
    pub fn take(&mut self, item: &Item, index: usize) {
        match *item {
            Item::StartEvent { .. } => {
                self.event = Some(Opener::Start(index));
                self.channel = None;
            }
            Item::ContinueEvent { .. } => self.event = Some(Opener::Continue),
            Item::EndEvent { .. } => self.event = None,
            Item::Channel { card, chip, channel } => {
                self.channel = Some(content(card, chip, channel));
                self.sampled = None;
            }
            Item::TimeBin { time } => self.next_time = time,
            Item::Sample { .. } => {
                self.sampled = Some(self.next_time);
                self.next_time += 1;
            }
            Item::Histogram { card, chip, channel } => {
                self.histogram = Some(content(card, chip, channel));
                self.bin = None;
            }
            Item::Bin { bin, .. } => self.bin = Some(bin),
            _ => {}
        }
        self.last = Some(item.class());
    }
}
