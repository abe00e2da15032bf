//! The plane record: header, the frame as it now stands, the edit history.

use crate::book::MAX_VALUE;
use crate::frame::{self, Frame};
use crate::item::{word, Item};
use crate::rules::*;

pub const HEADER_BYTES: usize = 16;
/// What an edit adds: an entry of version 2.
pub const ENTRY_BYTES: usize = 24;
pub const MAX_ENTRIES: usize = 512;
pub const MAX_REASON: u64 = 5;
/// A time is kept in 6 bytes.
pub const MAX_TIME: u64 = (1 << 48) - 1;

/// A record's version, its first header word. It decides how long an entry is
/// and nothing else of the form.
#[derive(Clone, Copy, PartialEq, Eq, Debug)]
pub enum Version {
    /// Document 01's. Such a record is read, restored and listed, not edited.
    First,
    /// Document 02's, request 3: an entry ends in a time and a desk number.
    Second,
}

impl Version {
    pub const BOTH: [Version; 2] = [Version::First, Version::Second];

    pub fn number(self) -> u16 {
        match self {
            Version::First => 1,
            Version::Second => 2,
        }
    }

    pub fn entry_bytes(self) -> usize {
        match self {
            Version::First => 16,
            Version::Second => ENTRY_BYTES,
        }
    }

    /// The version that a buffer's first word names.
    fn of(buffer: &[u8]) -> Option<Version> {
        let named = |version: &Version| buffer.starts_with(&version.number().to_le_bytes());
        Version::BOTH.into_iter().find(named)
    }
}

/// What can be edited: a sample's value or a bin's count.
#[derive(Clone, Copy, PartialEq, Eq, Debug)]
pub enum Target {
    Sample,
    Bin,
}

/// An entry. Time and desk are 0 in version 1, which has neither.
#[derive(Clone, Copy, PartialEq, Eq, Debug)]
pub struct Entry {
    pub index: u16,
    pub kind: u16,
    pub old: u32,
    pub new: u32,
    pub operator: u16,
    pub reason: u16,
    pub time: u64,
    pub desk: u16,
}

impl Entry {
    /// The entry of its bytes, as many as either version gives it.
    pub fn of(bytes: &[u8]) -> Entry {
        let mut whole = [0; ENTRY_BYTES];
        whole[..bytes.len()].copy_from_slice(bytes);
        let long = |at| word(&whole, at) as u32 | (word(&whole, at + 1) as u32) << 16;
        Entry {
            index: word(&whole, 0),
            kind: word(&whole, 1),
            old: long(2),
            new: long(4),
            operator: word(&whole, 6),
            reason: word(&whole, 7),
            time: long(8) as u64 | (word(&whole, 10) as u64) << 32,
            desk: word(&whole, 11),
        }
    }

    /// Its bytes in a record of a version; time and desk are the last.
    pub fn bytes(&self, version: Version) -> Vec<u8> {
        let mut bytes = Vec::new();
        bytes.extend(self.index.to_le_bytes());
        bytes.extend(self.kind.to_le_bytes());
        bytes.extend(self.old.to_le_bytes());
        bytes.extend(self.new.to_le_bytes());
        bytes.extend(self.operator.to_le_bytes());
        bytes.extend(self.reason.to_le_bytes());
        bytes.extend(&self.time.to_le_bytes()[..6]);
        bytes.extend(self.desk.to_le_bytes());
        bytes.truncate(version.entry_bytes());
        bytes
    }
}

impl Target {
    pub fn number(self) -> u16 {
        match self {
            Target::Sample => 1,
            Target::Bin => 2,
        }
    }

    /// May this value stand in such an item?
    pub fn legal(self, value: u64) -> bool {
        match self {
            Target::Sample => value <= MAX_VALUE,
            Target::Bin => value >= 1 && value <= u32::MAX as u64,
        }
    }

    /// The value in the frame's item at a word index.
    pub fn value(self, frame: &[u8], index: usize) -> u32 {
        match self {
            Target::Sample => (word(frame, index) & 0x0FFF) as u32,
            Target::Bin => word(frame, index + 1) as u32 | (word(frame, index + 2) as u32) << 16,
        }
    }

    /// Puts a legal value into the frame's item at a word index.
    pub fn put(self, frame: &mut [u8], index: usize, value: u32) {
        let at = 2 * index;
        match self {
            Target::Sample => {
                frame[at..at + 2].copy_from_slice(&(0x3000 | value as u16).to_le_bytes())
            }
            Target::Bin => frame[at + 2..at + 6].copy_from_slice(&value.to_le_bytes()),
        }
    }
}

/// The Sample or Bin that starts at a word index.
pub fn target_at(frame: &Frame, index: u64) -> Option<Target> {
    let found = frame.items.binary_search_by_key(&index, |found| found.index as u64).ok()?;
    match frame.items[found].item {
        Item::Sample { .. } => Some(Target::Sample),
        Item::Bin { .. } => Some(Target::Bin),
        _ => None,
    }
}

/// An accepted record: its version and lengths, and its frame, read.
pub struct Record {
    pub version: Version,
    pub frame_length: usize,
    pub entries: usize,
    pub total: usize,
    pub frame: Frame,
}

/// What the header names, if every header word is right.
struct Header {
    version: Version,
    frame_length: usize,
    entries: usize,
    total: usize,
}

fn header(record: &[u8]) -> Option<Header> {
    if record.len() < HEADER_BYTES {
        return None;
    }
    let version = Version::of(record)?;
    let at = |index| word(record, index) as usize;
    let (frame_length, history, entries, total) = (at(3), at(4), at(5), at(6));
    let fixed = at(1) == 1 && at(2) == HEADER_BYTES && at(7) == 0;
    let behind = history + version.entry_bytes() * entries;
    let sums = history == HEADER_BYTES + frame_length && total == behind;
    let right = fixed && sums && entries <= MAX_ENTRIES && total <= record.len();
    right.then_some(Header { version, frame_length, entries, total })
}

/// Entry `number`, from 1, of a record whose header is right.
fn entry_of(record: &[u8], version: Version, frame_length: usize, number: usize) -> Entry {
    let size = version.entry_bytes();
    let at = HEADER_BYTES + frame_length + size * (number - 1);
    Entry::of(&record[at..at + size])
}

/// Does the entry fit the frame that stood right after it? If so, the item's
/// kind.
fn entry_fits(frame: &Frame, standing: &[u8], entry: &Entry) -> Option<Target> {
    let target = target_at(frame, entry.index as u64)?;
    let kind_holds = entry.kind == target.number();
    let stands = target.value(standing, entry.index as usize) == entry.new;
    let old_holds = target.legal(entry.old as u64) && entry.old != entry.new;
    let signed = signer_holds(entry.operator as u64, entry.reason as u64, entry.time);
    let desk_holds = entry.desk == 0;
    (kind_holds && stands && old_holds && signed && desk_holds).then_some(target)
}

/// Who, why and when. A time is not held to the one before it.
fn signer_holds(operator: u64, reason: u64, time: u64) -> bool {
    let who_and_why = (1..=0xFFFF).contains(&operator) && (1..=MAX_REASON).contains(&reason);
    who_and_why && time <= MAX_TIME
}

/// Judges a record and goes back to the frame that stood after `keep` entries.
/// The whole history is judged, also the part that is kept.
fn go_back(record: &[u8], keep: u64) -> Result<(Record, Vec<u8>), Refusal> {
    let Some(Header { version, frame_length, entries, total }) = header(record) else {
        return refuse(HEADER);
    };
    let now = &record[HEADER_BYTES..HEADER_BYTES + frame_length];
    let frame = frame::read(now)?;
    let mut standing = now.to_vec();
    let mut kept = standing.clone();
    for number in (1..=entries).rev() {
        let entry = entry_of(record, version, frame_length, number);
        match entry_fits(&frame, &standing, &entry) {
            None => return refuse_at(ENTRY, number),
            Some(target) => target.put(&mut standing, entry.index as usize, entry.old),
        }
        if number as u64 - 1 == keep {
            kept.copy_from_slice(&standing);
        }
    }
    Ok((Record { version, frame_length, entries, total, frame }, kept))
}

pub fn judge(record: &[u8]) -> Result<Record, Refusal> {
    go_back(record, u64::MAX).map(|(record, _)| record)
}

/// Entry `number`, from 1, of an accepted record, and the record's version.
pub fn entry(record: &[u8], number: u64) -> Result<(Version, Entry), Refusal> {
    let judged = judge(record)?;
    if number == 0 || number > judged.entries as u64 {
        return refuse(NO_ENTRY);
    }
    let entry = entry_of(record, judged.version, judged.frame_length, number as usize);
    Ok((judged.version, entry))
}

/// The entries of an accepted record, from the oldest.
pub fn entries(record: &[u8], judged: &Record) -> Vec<Entry> {
    let of = |number| entry_of(record, judged.version, judged.frame_length, number);
    (1..=judged.entries).map(of).collect()
}

/// The eight header words of a record.
pub fn header_bytes(version: Version, frame_length: usize, entries: usize) -> Vec<u8> {
    let history = HEADER_BYTES + frame_length;
    let total = history + version.entry_bytes() * entries;
    let number = version.number() as usize;
    let words = [number, 1, HEADER_BYTES, frame_length, history, entries, total, 0];
    words.iter().flat_map(|word| (*word as u16).to_le_bytes()).collect()
}

/// Makes a record with no history of a frame.
pub fn open(buffer: &mut [u8], frame: &[u8]) -> Result<(), Refusal> {
    frame::read(frame)?;
    let total = HEADER_BYTES + frame.len();
    if buffer.len() < total {
        return refuse(ROOM);
    }
    let header = header_bytes(Version::Second, frame.len(), 0);
    buffer[..HEADER_BYTES].copy_from_slice(&header);
    buffer[HEADER_BYTES..total].copy_from_slice(frame);
    Ok(())
}

/// Puts a value into a Sample or Bin and writes the edit down as an entry. A
/// record of version 1 is refused before anything else of it is looked at.
pub fn edit(
    buffer: &mut [u8],
    index: u64,
    value: u64,
    operator: u64,
    reason: u64,
    time: u64,
) -> Result<(), Refusal> {
    if Version::of(buffer) != Some(Version::Second) {
        return refuse(HEADER);
    }
    let record = judge(buffer)?;
    let Some(target) = target_at(&record.frame, index) else {
        return refuse(TARGET);
    };
    let index = index as usize;
    let old = target.value(&buffer[HEADER_BYTES..], index);
    if !target.legal(value) || value == old as u64 {
        return refuse(NEW_VALUE);
    }
    if !signer_holds(operator, reason, time) {
        return refuse(SIGNER);
    }
    if record.entries >= MAX_ENTRIES {
        return refuse(FULL);
    }
    let end = record.total + ENTRY_BYTES;
    if buffer.len() < end {
        return refuse(ROOM);
    }
    let (new, operator, reason) = (value as u32, operator as u16, reason as u16);
    let (at, kind) = (index as u16, target.number());
    let entry = Entry { index: at, kind, old, new, operator, reason, time, desk: 0 };
    target.put(&mut buffer[HEADER_BYTES..], index, new);
    let header = header_bytes(record.version, record.frame_length, record.entries + 1);
    buffer[..HEADER_BYTES].copy_from_slice(&header);
    buffer[record.total..end].copy_from_slice(&entry.bytes(record.version));
    Ok(())
}

/// One correction of a list.
#[derive(Clone, Copy, PartialEq, Eq, Debug)]
pub struct Correction {
    pub index: u32,
    pub value: u32,
    pub operator: u32,
    pub reason: u32,
    pub time: u64,
}

impl Correction {
    /// What the single edit is given for it.
    pub fn arguments(&self) -> [u64; 5] {
        let [index, value, operator, reason] =
            [self.index, self.value, self.operator, self.reason].map(u64::from);
        [index, value, operator, reason, self.time]
    }
}

/// Where a list stopped, counted from 0, and why.
#[derive(Clone, Copy, PartialEq, Eq, Debug)]
pub struct Stopped {
    pub position: usize,
    pub refusal: Refusal,
}

/// Makes the corrections one after the other, each as a call of its own, up to
/// the first that is refused. Those before it stand. The record is judged for a
/// correction only, so an empty list is accepted whatever the buffer holds.
pub fn edit_all(buffer: &mut [u8], corrections: &[Correction]) -> Result<(), Stopped> {
    for (position, correction) in corrections.iter().enumerate() {
        let [index, value, operator, reason, time] = correction.arguments();
        edit(buffer, index, value, operator, reason, time)
            .map_err(|refusal| Stopped { position, refusal })?;
    }
    Ok(())
}

/// Writes the frame that stood after the k-th edit to the start of `out`.
pub fn restore(record: &[u8], k: u64, out: &mut [u8]) -> Result<(), Refusal> {
    let (judged, kept) = go_back(record, k)?;
    if k > judged.entries as u64 {
        return refuse(NO_ENTRY);
    }
    if out.len() < kept.len() {
        return refuse(ROOM);
    }
    out[..kept.len()].copy_from_slice(&kept);
    Ok(())
}
