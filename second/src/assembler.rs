//! The assembler: takes the data frames of one card one by one and holds the
//! event that runs on from frame to frame (document 02, request 1).

use crate::book::content;
use crate::follower::{follow, Follower};
use crate::frame::{events, read, Found, Frame};
use crate::item::Item;
use crate::rules::*;

/// The event that the frames so far leave open.
#[derive(Clone, Copy, PartialEq, Eq, Debug)]
pub struct Open {
    pub number: u64,
    /// Its bytes in all parts so far, Continue items counted.
    pub size: u64,
    /// Chip and channel of its last Channel header in any part, in nine bits.
    pub header: Option<u64>,
}

#[derive(Clone, Copy, PartialEq, Eq, Debug)]
pub struct Assembler {
    pub card: u64,
    pub follower: Follower,
    pub open: Option<Open>,
}

/// The reasons for LINK. The answer does not tell them apart; the tests that
/// look for each of them in the cases do.
#[derive(Clone, Copy, PartialEq, Eq, PartialOrd, Ord, Debug)]
pub enum Reason {
    NoDataFrame,
    OtherCard,
    Lost,
    NoContinue,
    OtherNumber,
    Falling,
    WrongSize,
    PastLimit,
    NotOpen,
}

/// What one frame holds of an event.
struct Part {
    bytes: u64,
    first_header: Option<u64>,
    last_header: Option<u64>,
    /// The size that its End event names, if it ends here.
    ended: Option<u64>,
}

impl Part {
    fn of(items: &[Found]) -> Part {
        let mut headers = items.iter().filter_map(|found| match found.item {
            Item::Channel { chip, channel, .. } => Some(content(0, chip, channel)),
            _ => None,
        });
        let first_header = headers.next();
        let last_header = headers.last().or(first_header);
        let ended = items.iter().find_map(|found| match found.item {
            Item::EndEvent { size, .. } => Some(size),
            _ => None,
        });
        let words = items.iter().map(|found| found.next - found.index).sum::<usize>();
        Part { bytes: 2 * words as u64, first_header, last_header, ended }
    }
}

impl Assembler {
    pub fn new(card: u64) -> Assembler {
        Assembler { card, follower: Follower::Idle, open: None }
    }

    /// Takes the next frame and answers how many were lost before it. A
    /// refusal leaves everything as it was, the follower too.
    pub fn step(&mut self, bytes: &[u8]) -> Result<u64, Refusal> {
        let frame = read(bytes)?;
        let (lost, follower) = follow(self.follower, frame.sequence)?;
        if !self.broken(&frame, lost).is_empty() {
            return refuse(LINK);
        }
        self.open = self.open_after(&frame);
        self.follower = follower;
        Ok(lost)
    }

    /// Gives the open event up, if there is one.
    pub fn give_up(&mut self) {
        self.open = None;
    }

    /// Every reason to refuse an accepted frame here.
    pub fn broken(&self, frame: &Frame, lost: u64) -> Vec<Reason> {
        let mut broken = Vec::new();
        let mut rule = |holds: bool, reason| {
            if !holds {
                broken.push(reason);
            }
        };
        rule(frame.kind == Kind::Data, Reason::NoDataFrame);
        rule(frame.card == self.card, Reason::OtherCard);
        // With no event open a loss is only reported.
        rule(lost == 0 || self.open.is_none(), Reason::Lost);
        match (self.open, continued(frame)) {
            (None, None) => {}
            (None, Some(_)) => rule(false, Reason::NotOpen),
            (Some(_), None) => rule(false, Reason::NoContinue),
            (Some(open), Some((number, part))) => {
                rule(number == open.number, Reason::OtherNumber);
                let pair = open.header.zip(part.first_header);
                rule(pair.is_none_or(|(last, next)| next > last), Reason::Falling);
                // Both fit in 64 bits, however full the 32 of the size are.
                let size = open.size + part.bytes;
                rule(part.ended.is_none_or(|ended| ended == size), Reason::WrongSize);
                rule(size <= u32::MAX as u64, Reason::PastLimit);
            }
        }
        broken
    }

    /// The event that is open behind a frame that breaks no rule.
    fn open_after(&self, frame: &Frame) -> Option<Open> {
        let items = events(frame).last()?;
        let part = Part::of(items);
        if part.ended.is_some() {
            return None;
        }
        if let Item::StartEvent { number, .. } = items[0].item {
            return Some(Open { number, size: part.bytes, header: part.last_header });
        }
        // The one that was open goes on; a part without a Channel keeps the
        // header of an earlier part.
        self.open.map(|open| Open {
            size: open.size + part.bytes,
            header: part.last_header.or(open.header),
            ..open
        })
    }
}

/// Number and part of the event that a frame continues, if it begins so.
fn continued(frame: &Frame) -> Option<(u64, Part)> {
    let items = events(frame).next()?;
    match items[0].item {
        Item::ContinueEvent { number, .. } => Some((number, Part::of(items))),
        _ => None,
    }
}
