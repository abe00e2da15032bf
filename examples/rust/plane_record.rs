//! The plane record library for Rust on x86-64 Linux, by the standard library alone: what include/plane_record.h says, with a safe function for each
//! call. Copy this file into a program of your own; it fits the editions 2021 and 2024 (tried with Rust 1.95). Link libexports.a: build.rs beside this
//! file has the two lines for cargo, examples/README.md the line for rustc.
//!
//! A call that can be refused answers a `Result`, whose `Err` has the refusal and its place; a refused call has left all lent memory as it was, but
//! for `edit_all`, the one exception: the corrections before the one that was refused have been made and stand. No call panics, whatever bytes and
//! numbers it is given, and none gives a refusal that is not named at the call. Rust's own rules for `&` and `&mut` are all that the library asks of
//! lent memory. docs/FORMAT.md has frames and records byte by byte, and an example of each refusal.
#![allow(dead_code)] // a program uses some of it

use std::fmt;

/// That of the header whose layouts these are.
pub const VERSION: u32 = 5;

/// No frame has more bytes.
pub const MOST_FRAME: usize = 8192;
/// The word index of item 0.
pub const FIRST_ITEM: usize = 3;
/// The words that `samples` writes.
pub const SAMPLES: usize = 512;
/// What `samples` writes where no sample stands.
pub const NO_SAMPLE: u16 = 0xFFFF;
/// The words that `counts` writes.
pub const COUNTS: usize = 4096;
/// A record's frame begins behind so many bytes.
pub const HEADER_BYTES: usize = 16;
/// The bytes of an entry in a record of version 2, which `open` makes: what an edit adds to the record.
pub const ENTRY_BYTES: usize = 24;
/// The same in a record of version 1.
pub const ENTRY_BYTES_1: usize = 16;
pub const MOST_ENTRIES: usize = 512;
/// No record has more bytes, and in a buffer of so many no edit is refused by ROOM.
pub const MOST_RECORD: usize = 20496;

/// The classes of words, by their numbers in the word book: what `classify` answers, and `Item::item_class`.
pub mod class {
    pub const UNASSIGNED: u32 = 0;
    pub const CHANNEL: u32 = 1;
    pub const HISTOGRAM: u32 = 2;
    pub const HIT_COUNT: u32 = 3;
    pub const SAMPLE: u32 = 4;
    pub const BIN: u32 = 5;
    pub const LAST_CELL: u32 = 6;
    pub const TIME_BIN: u32 = 7;
    pub const DATA_FRAME: u32 = 8;
    pub const MONITOR_FRAME: u32 = 9;
    pub const COMMAND_FRAME: u32 = 10;
    pub const TEXT: u32 = 11;
    pub const START_EVENT: u32 = 12;
    pub const END_EVENT: u32 = 13;
    pub const FRAME_END: u32 = 14;
    pub const CONTINUE_EVENT: u32 = 15;
}

/// The kinds of frames: `Frame::kind`, and what `begin` takes.
pub mod kind {
    pub const DATA: u16 = 1;
    pub const MONITOR: u16 = 2;
    pub const COMMAND: u16 = 3;
}

/// What an entry corrects: `Entry::kind`.
pub mod corrected {
    pub const SAMPLE: u16 = 1;
    pub const BIN: u16 = 2;
}

/// The numbered refusals.
#[derive(Clone, Copy, Debug, PartialEq, Eq, Hash)]
#[repr(u32)]
pub enum Refusal {
    /// The length is odd, under 8 or over 8,192 bytes.
    Length = 1,
    /// Word 0 is no frame start, or its version is not 0.
    Kind = 2,
    /// Word 1 differs from the length.
    Size = 3,
    /// Word 2 is above 0x0100.
    Sequence = 4,
    /// The last word is not 0x000F.
    End = 5,
    /// An unassigned word begins an item.
    Class = 6,
    /// The item runs into the frame-end word.
    Cut = 7,
    /// This class is not allowed after the item before it.
    Place = 8,
    /// A value is out of its range.
    Value = 9,
    /// Times, channels, histograms or bins do not rise.
    Order = 10,
    /// The items end after a Channel or a Time bin.
    Open = 11,
    /// The output buffer is too short, or a frame that is written would pass 8,192 bytes.
    Room = 12,
    /// There is no such item, event, channel, histogram, sample or bin.
    Absent = 13,
    /// A sequence number 1 to 255 before the first 0x0100.
    NoStart = 14,
    /// The frame is not one that can come next in the run: `Assembler::take` says when.
    Link = 15,
    /// The buffer is too short for the record, or a header word is wrong; of an edit also: the record is of version 1.
    Header = 20,
    /// A history entry does not fit the frame.
    Entry = 21,
    /// The word index is not that of a Sample or a Bin.
    Target = 22,
    /// A sample over 4,095, a bin of 0, or the value that stands there.
    NewValue = 23,
    /// The operator is not 1 to 65,535, the reason not 1 to 5, or the time 2^48 or more.
    Signer = 24,
    /// 512 entries stand.
    Full = 25,
    /// There are not that many entries.
    NoEntry = 26,
}

const REFUSALS: [(Refusal, &str); 22] = [
    (Refusal::Length, "LENGTH"),
    (Refusal::Kind, "KIND"),
    (Refusal::Size, "SIZE"),
    (Refusal::Sequence, "SEQUENCE"),
    (Refusal::End, "END"),
    (Refusal::Class, "CLASS"),
    (Refusal::Cut, "CUT"),
    (Refusal::Place, "PLACE"),
    (Refusal::Value, "VALUE"),
    (Refusal::Order, "ORDER"),
    (Refusal::Open, "OPEN"),
    (Refusal::Room, "ROOM"),
    (Refusal::Absent, "ABSENT"),
    (Refusal::NoStart, "NO START"),
    (Refusal::Link, "LINK"),
    (Refusal::Header, "HEADER"),
    (Refusal::Entry, "ENTRY"),
    (Refusal::Target, "TARGET"),
    (Refusal::NewValue, "NEW VALUE"),
    (Refusal::Signer, "SIGNER"),
    (Refusal::Full, "FULL"),
    (Refusal::NoEntry, "NO ENTRY"),
];

impl Refusal {
    /// The refusal of a number; `None` for a number that is no refusal.
    pub fn of_number(number: u32) -> Option<Refusal> {
        REFUSALS.iter().map(|row| row.0).find(|refusal| refusal.number() == number)
    }

    pub fn number(self) -> u32 {
        self as u32
    }

    /// As docs/FORMAT.md has it: "NO START".
    pub fn name(self) -> &'static str {
        REFUSALS.iter().find(|row| row.0 == self).map_or("", |row| row.1)
    }
}

impl fmt::Display for Refusal {
    fn fmt(&self, f: &mut fmt::Formatter<'_>) -> fmt::Result {
        write!(f, "{} {}", self.number(), self.name())
    }
}

/// A refusal and its place: a word index (from 0) for 6 to 11, an entry's number (from 1) for 21, else 0; the 9 of `begin` is at 0 too.
#[derive(Clone, Copy, Debug, PartialEq, Eq, Hash)]
pub struct Refused {
    pub refusal: Refusal,
    pub place: usize,
}

impl fmt::Display for Refused {
    fn fmt(&self, f: &mut fmt::Formatter<'_>) -> fmt::Result {
        write!(f, "refused {} at {}", self.refusal, self.place)
    }
}

impl std::error::Error for Refused {}

/// What every call answers that can be refused.
pub type Answer<T> = Result<T, Refused>;

/// A frame that was accepted.
#[derive(Clone, Copy, Debug, PartialEq, Eq)]
pub struct Frame {
    /// One of `kind`.
    pub kind: u16,
    pub card: u16,
    pub sequence: u16,
    /// How many items it has.
    pub items: usize,
}

/// An item: its class, and the fields that the class has; the others are 0 where it is read, and not looked at where it is written.
#[repr(C)]
#[derive(Clone, Copy, Debug, Default, PartialEq, Eq)]
pub struct Item {
    /// One of `class`.
    pub item_class: u32,
    /// Channel, Histogram, Hit count.
    pub card: u16,
    /// Channel, Histogram, Hit count, Last cell.
    pub chip: u16,
    /// Channel, Histogram.
    pub channel: u16,
    /// Hit count.
    pub hits: u16,
    /// Sample.
    pub value: u16,
    /// Bin.
    pub bin: u16,
    /// Last cell.
    pub cell: u16,
    /// Time bin.
    pub time: u16,
    /// Text: its bytes, the final zero included.
    pub length: u16,
    /// Start event: its type.
    pub kind: u16,
    /// Bin.
    pub count: u32,
    /// Start event, Continue event.
    pub number: u32,
    /// End event: the event's bytes, in all frames that it stands in.
    pub size: u32,
    /// Start event.
    pub timestamp: u64,
}

/// An item, its own word index, and that of the next one, or of the end word.
#[derive(Clone, Copy, Debug, PartialEq, Eq)]
pub struct Found {
    pub index: usize,
    pub next: usize,
    pub item: Item,
}

/// What an event's Start event tells beside its number.
#[derive(Clone, Copy, Debug, PartialEq, Eq)]
pub struct Began {
    /// Its type.
    pub kind: u16,
    pub timestamp: u64,
}

/// An event, or the part of one that stands in this frame.
#[derive(Clone, Copy, Debug, PartialEq, Eq)]
pub struct Event {
    /// `None` where it began in another frame, which has its type and timestamp.
    pub began: Option<Began>,
    pub number: u32,
    /// Its bytes, in all frames that it stands in; `None` where it does not end in this one, and another has its size.
    pub size: Option<u32>,
    /// The word index of its Start event, or of its Continue event where it began in another frame.
    pub index: usize,
}

/// Idle where `expecting` is 0, else it expects `number`. The default has seen nothing.
#[repr(C)]
#[derive(Clone, Copy, Debug, Default, PartialEq, Eq)]
pub struct Follower {
    pub expecting: u8,
    pub number: u8,
}

#[derive(Clone, Copy, Debug, PartialEq, Eq)]
pub struct Followed {
    /// The frames lost before this one, modulo 256.
    pub lost: u8,
    /// The follower from here on.
    pub next: Follower,
}

/// What is known of a run, the data frames of one card one behind the other, after those that were taken. `new` makes one that has seen nothing. The
/// fields are yours to read, to store and to set: any numbers are taken, and answered by the same rules; an `open` that is not 0 is read as 1, and
/// where it is 0 the last three are not looked at.
#[repr(C)]
#[derive(Clone, Copy, Debug, PartialEq, Eq)]
pub struct Assembler {
    /// The frames' card. One over 31 is no frame's, so that no frame is taken.
    pub card: u16,
    /// 1 where an event is open, else 0, and then the last three are 0: `open_event` has number and size as an `Option`.
    pub open: u8,
    /// That of the run's sequence words.
    pub follower: Follower,
    /// The open event's number.
    pub number: u32,
    /// Its bytes so far, in all its parts, their Continue events included.
    pub size: u32,
    /// The least key that its next Channel may have, or 0 for any: 2048 * card + 128 * chip + channel.
    pub key: u32,
}

/// An event that is open behind the frames that were taken.
#[derive(Clone, Copy, Debug, PartialEq, Eq)]
pub struct OpenEvent {
    pub number: u32,
    /// Its bytes so far, in all its parts, their Continue events included.
    pub size: u32,
}

/// A record that was accepted. Its first word is its version: 2 in those that `open` makes, whose entries keep a time, 1 in those that were made
/// before there were times.
#[derive(Clone, Copy, Debug, PartialEq, Eq)]
pub struct Record {
    /// The bytes of its frame, which begins at byte 16.
    pub length: usize,
    /// How many entries it has.
    pub count: usize,
    /// Its own bytes.
    pub total: usize,
}

/// One correction of a record's history.
#[derive(Clone, Copy, Debug, PartialEq, Eq)]
pub struct Entry {
    /// The item's first word, in its frame.
    pub word: u16,
    /// One of `corrected`.
    pub kind: u16,
    pub old_value: u32,
    pub new_value: u32,
    pub operator_id: u16,
    pub reason: u16,
    /// As the correction gave it; `None` in a record of version 1, which keeps none.
    pub time: Option<u64>,
}

/// What an edit asks.
#[repr(C)]
#[derive(Clone, Copy, Debug, PartialEq, Eq)]
pub struct Correction {
    /// The item's first word, in its frame: `sample_word` and `bin_word` find it.
    pub word: usize,
    pub value: u32,
    pub operator_id: u32,
    pub reason: u32,
    /// Below 2^48, by your clock and in your unit: it is kept as given, and may be before that of an earlier edit.
    pub time: u64,
}

/// Where a list of corrections stopped: the first that was refused. Those before it have been made and stand; it and those behind it have changed
/// nothing.
#[derive(Clone, Copy, Debug, PartialEq, Eq, Hash)]
pub struct Stopped {
    /// Its position in the list, from 0.
    pub position: usize,
    /// What `edit` answers for it.
    pub refused: Refused,
}

impl fmt::Display for Stopped {
    fn fmt(&self, f: &mut fmt::Formatter<'_>) -> fmt::Result {
        write!(f, "{}, position {}", self.refused, self.position)
    }
}

impl std::error::Error for Stopped {}

/// The calls and answers as C has them: include/plane_record.h, field by field in the same order (tests/header/run holds them to it).
pub mod ffi {
    pub use super::{Assembler, Correction, Follower, Item as ItemFields};

    #[repr(C)]
    pub struct Done {
        pub refused: u32,
        pub place: usize,
    }

    #[repr(C)]
    pub struct Frame {
        pub refused: u32,
        pub place: usize,
        pub kind: u16,
        pub card: u16,
        pub sequence: u16,
        pub items: usize,
    }

    #[repr(C)]
    pub struct Found {
        pub refused: u32,
        pub place: usize,
        pub index: usize,
        pub next: usize,
        pub item: ItemFields,
    }

    #[repr(C)]
    pub struct TextPart {
        pub offset: usize,
        pub length: usize,
    }

    #[repr(C)]
    pub struct EventFound {
        pub refused: u32,
        pub place: usize,
        pub began: u8,
        pub ended: u8,
        pub kind: u16,
        pub number: u32,
        pub timestamp: u64,
        pub size: u32,
        pub index: usize,
    }

    #[repr(C)]
    pub struct WordFound {
        pub refused: u32,
        pub place: usize,
        pub word: usize,
    }

    #[repr(C)]
    pub struct Written {
        pub refused: u32,
        pub place: usize,
        pub length: usize,
    }

    #[repr(C)]
    pub struct Followed {
        pub refused: u32,
        pub place: usize,
        pub lost: u8,
        pub next: Follower,
    }

    #[repr(C)]
    pub struct Taken {
        pub refused: u32,
        pub place: usize,
        pub lost: u8,
        pub next: Assembler,
    }

    #[repr(C)]
    pub struct RecordFound {
        pub refused: u32,
        pub place: usize,
        pub length: usize,
        pub count: usize,
        pub total: usize,
    }

    #[repr(C)]
    pub struct EntryFound {
        pub refused: u32,
        pub place: usize,
        pub word: u16,
        pub kind: u16,
        pub old_value: u32,
        pub new_value: u32,
        pub operator_id: u16,
        pub reason: u16,
        pub timed: u8,
        pub time: u64,
    }

    #[repr(C)]
    pub struct Stopped {
        pub refused: u32,
        pub place: usize,
        pub position: usize,
    }

    unsafe extern "C" {
        pub fn plane_classify(word: u16) -> u32;
        pub fn plane_read(frame: *const u8, length: usize) -> Frame;
        pub fn plane_item(frame: *const u8, length: usize, ordinal: usize) -> Found;
        pub fn plane_text(frame: *const u8, length: usize, ordinal: usize) -> TextPart;
        pub fn plane_event(frame: *const u8, length: usize, ordinal: usize) -> EventFound;
        pub fn plane_samples(
            frame: *const u8,
            length: usize,
            ordinal: usize,
            chip: u16,
            channel: u16,
            out: *mut u16,
            room: usize,
        ) -> Done;
        pub fn plane_counts(
            frame: *const u8,
            length: usize,
            chip: u16,
            channel: u16,
            out: *mut u32,
            room: usize,
        ) -> Done;
        pub fn plane_sample_word(
            frame: *const u8,
            length: usize,
            ordinal: usize,
            chip: u16,
            channel: u16,
            time: u16,
        ) -> WordFound;
        pub fn plane_bin_word(
            frame: *const u8,
            length: usize,
            chip: u16,
            channel: u16,
            bin: u16,
        ) -> WordFound;
        pub fn plane_begin(
            buffer: *mut u8,
            room: usize,
            kind: u16,
            card: u16,
            sequence: u16,
        ) -> Written;
        pub fn plane_add(buffer: *mut u8, room: usize, length: usize, item: ItemFields) -> Written;
        pub fn plane_add_text(
            buffer: *mut u8,
            room: usize,
            length: usize,
            text: *const u8,
            text_length: usize,
        ) -> Written;
        pub fn plane_close(buffer: *mut u8, room: usize, length: usize) -> Written;
        pub fn plane_follow(follower: Follower, word: u16) -> Followed;
        pub fn plane_new_assembler(card: u16) -> Assembler;
        pub fn plane_take(assembler: Assembler, frame: *const u8, length: usize) -> Taken;
        pub fn plane_give_up(assembler: Assembler) -> Assembler;
        pub fn plane_record(buffer: *const u8, room: usize) -> RecordFound;
        pub fn plane_entry(buffer: *const u8, room: usize, number: usize) -> EntryFound;
        pub fn plane_open(buffer: *mut u8, room: usize, frame: *const u8, length: usize) -> Done;
        pub fn plane_edit(buffer: *mut u8, room: usize, correction: Correction) -> Done;
        pub fn plane_edit_all(
            buffer: *mut u8,
            room: usize,
            corrections: *const Correction,
            count: usize,
        ) -> Stopped;
        pub fn plane_restore(
            buffer: *const u8,
            room: usize,
            k: usize,
            out: *mut u8,
            out_room: usize,
        ) -> Done;
    }
}

// The answer, where the call was accepted. The panic is for an archive of another version: this one answers no number that is not in the table.
fn answer<T>(refused: u32, place: usize, accepted: T) -> Answer<T> {
    match (refused, Refusal::of_number(refused)) {
        (0, _) => Ok(accepted),
        (_, Some(refusal)) => Err(Refused { refusal, place }),
        _ => panic!("refusal {refused}: archive and binding are not of one version"),
    }
}

/// The class of a word, one of `class`. Refuses nothing.
pub fn classify(word: u16) -> u32 {
    unsafe { ffi::plane_classify(word) }
}

/// Whether the bytes are a frame: its first words and how many items it has. Refused by 1 to 5 for the whole, by 6 to 10 at the first faulty item,
/// by 11 where the last item is a Channel or a Time bin.
pub fn read(frame: &[u8]) -> Answer<Frame> {
    let r = unsafe { ffi::plane_read(frame.as_ptr(), frame.len()) };
    let ffi::Frame { kind, card, sequence, items, .. } = r;
    answer(r.refused, r.place, Frame { kind, card, sequence, items })
}

/// Item `ordinal`, from 0. Refused as `read` refuses, then by 13. Each call judges the whole frame.
pub fn item(frame: &[u8], ordinal: usize) -> Answer<Found> {
    let r = unsafe { ffi::plane_item(frame.as_ptr(), frame.len(), ordinal) };
    answer(r.refused, r.place, Found { index: r.index, next: r.next, item: r.item })
}

/// The bytes of the text that is item `ordinal`, without the final zero: a slice of your own frame, not copied. Refuses nothing: it is empty on any
/// refusal or another class, and `item` tells this from an empty text.
pub fn text(frame: &[u8], ordinal: usize) -> &[u8] {
    let part = unsafe { ffi::plane_text(frame.as_ptr(), frame.len(), ordinal) };
    &frame[part.offset..part.offset + part.length]
}

/// Event `ordinal`, from 0; a part that begins with a Continue event is event 0. Refused as `read` refuses, then by 13.
pub fn event(frame: &[u8], ordinal: usize) -> Answer<Event> {
    let r = unsafe { ffi::plane_event(frame.as_ptr(), frame.len(), ordinal) };
    let began = (r.began != 0).then_some(Began { kind: r.kind, timestamp: r.timestamp });
    let size = (r.ended != 0).then_some(r.size);
    answer(r.refused, r.place, Event { began, number: r.number, size, index: r.index })
}

/// The samples of event `ordinal`, a chip and a channel: into the first 512 words of `out`, each at its time, `NO_SAMPLE` where none stands; words
/// beyond are untouched. Refused as `read` refuses, then by 12 where `out` has under 512 words, then by 13, also for a channel of the event that
/// stands in another frame; in a run no channel of an event stands in two.
pub fn samples(
    frame: &[u8],
    ordinal: usize,
    chip: u16,
    channel: u16,
    out: &mut [u16],
) -> Answer<()> {
    let (length, room) = (frame.len(), out.len());
    let r = unsafe {
        ffi::plane_samples(frame.as_ptr(), length, ordinal, chip, channel, out.as_mut_ptr(), room)
    };
    answer(r.refused, r.place, ())
}

/// The counts of a chip's and a channel's histogram: into the first 4,096 words of `out`, each at its bin, 0 where no bin stands; words beyond are
/// untouched. Refused as `read` refuses, then by 12 where `out` has under 4,096 words, then by 13.
pub fn counts(frame: &[u8], chip: u16, channel: u16, out: &mut [u32]) -> Answer<()> {
    let (length, room) = (frame.len(), out.len());
    let r =
        unsafe { ffi::plane_counts(frame.as_ptr(), length, chip, channel, out.as_mut_ptr(), room) };
    answer(r.refused, r.place, ())
}

/// The word of the sample at a time, of event `ordinal`, a chip and a channel: what `Correction::word` takes. Refused as `read` refuses, then by 13
/// where there is no such event, channel or sample: exactly where `samples` is refused by 13 or writes `NO_SAMPLE` at that time, and for a time over
/// 511.
pub fn sample_word(
    frame: &[u8],
    ordinal: usize,
    chip: u16,
    channel: u16,
    time: u16,
) -> Answer<usize> {
    let (start, length) = (frame.as_ptr(), frame.len());
    let r = unsafe { ffi::plane_sample_word(start, length, ordinal, chip, channel, time) };
    answer(r.refused, r.place, r.word)
}

/// The word of a bin, the first of its three, of a chip's and a channel's histogram: what `Correction::word` takes. Refused as `read` refuses, then by
/// 13 where there is no such histogram or bin: exactly where `counts` is refused by 13 or writes 0 at that bin, and for a bin over 4,095.
pub fn bin_word(frame: &[u8], chip: u16, channel: u16, bin: u16) -> Answer<usize> {
    let r = unsafe { ffi::plane_bin_word(frame.as_ptr(), frame.len(), chip, channel, bin) };
    answer(r.refused, r.place, r.word)
}

fn written(w: ffi::Written) -> Answer<usize> {
    answer(w.refused, w.place, w.length)
}

/// Begins a partial frame at the buffer's start; its length, 6. Refused by 2 where `kind` is none of `kind`, by 9 for a card over 31, by 4 for a
/// sequence word over 0x0100, by 12 where the buffer is under 8 bytes.
pub fn begin(buffer: &mut [u8], kind: u16, card: u16, sequence: u16) -> Answer<usize> {
    written(unsafe { ffi::plane_begin(buffer.as_mut_ptr(), buffer.len(), kind, card, sequence) })
}

/// Adds an item to the partial frame in the first `length` bytes; the new length. Refused by what is wrong with the partial frame; then, at the word
/// where the item would start, by 6 for a class that is none, and by 8, 9 or 10 by the rules (8 for a frame start or Frame end; a text is added by
/// `add_text`, here it is 8 or 9); then by 12. The caller gives an End event its size: a wrong one is 9 where the event's Start event is in this
/// frame; where it began in another, any size is taken here, and `Assembler::take` judges it. Each call judges the whole partial frame.
pub fn add(buffer: &mut [u8], length: usize, item: Item) -> Answer<usize> {
    written(unsafe { ffi::plane_add(buffer.as_mut_ptr(), buffer.len(), length, item) })
}

/// Adds a text, which comes without its final zero; the new length. Refused as `add` refuses; a text over 254 bytes or holding a zero is 9.
pub fn add_text(buffer: &mut [u8], length: usize, text: &[u8]) -> Answer<usize> {
    let (room, letters) = (buffer.len(), text.len());
    written(unsafe {
        ffi::plane_add_text(buffer.as_mut_ptr(), room, length, text.as_ptr(), letters)
    })
}

/// Closes the partial frame: writes its size and its end word; the frame's length. Refused by what is wrong with the partial frame, then by 11 where
/// its last item is a Channel or a Time bin, then by 12 where the end word does not fit. An event may be open: it goes on in the card's next frame.
pub fn close(buffer: &mut [u8], length: usize) -> Answer<usize> {
    written(unsafe { ffi::plane_close(buffer.as_mut_ptr(), buffer.len(), length) })
}

/// Feeds a follower the sequence word of a frame. Refused by 4 for a word over 0x0100, by 14 for a number 1 to 255 before the first 0x0100; the
/// follower is then as it was.
pub fn follow(follower: Follower, word: u16) -> Answer<Followed> {
    let r = unsafe { ffi::plane_follow(follower, word) };
    answer(r.refused, r.place, Followed { lost: r.lost, next: r.next })
}

impl Assembler {
    /// An assembler that has seen nothing: its follower is idle, and no event is open. Refuses nothing.
    pub fn new(card: u16) -> Assembler {
        unsafe { ffi::plane_new_assembler(card) }
    }

    /// Takes the next frame of the run; how many were lost before it, modulo 256. Refused as `read` refuses, then by 14 as `follow` refuses, then by
    /// 15, at 0, for a frame that
    /// - is no data frame, or of another card;
    /// - where no event is open, begins with a Continue event;
    /// - where one is open, does not begin with a Continue event of its number; has frames lost before it; has a Channel of the event whose key is
    ///   under `key`; ends the event by another size than `size` and the bytes of its own part together; or brings these to 2^32 or more.
    ///
    /// Where no event is open a loss is only reported. A refused frame counts as one that did not come, and leaves the assembler as it was. So the
    /// right frame can still be taken; where it does not come, `give_up` goes on without the event.
    pub fn take(&mut self, frame: &[u8]) -> Answer<u8> {
        let r = unsafe { ffi::plane_take(*self, frame.as_ptr(), frame.len()) };
        let lost = answer(r.refused, r.place, r.lost)?;
        *self = r.next;
        Ok(lost)
    }

    /// Gives up the open event, if there is one: card and follower stay, and no event is open. A frame that goes on with it is then refused by 15.
    /// Refuses nothing.
    pub fn give_up(&mut self) {
        *self = unsafe { ffi::plane_give_up(*self) };
    }

    /// The event that is open.
    pub fn open_event(&self) -> Option<OpenEvent> {
        (self.open != 0).then_some(OpenEvent { number: self.number, size: self.size })
    }
}

/// Whether a buffer begins with a record, of either version. Refused by 20, then as `read` refuses its frame, then by 21 at the newest entry that does
/// not fit.
pub fn record(buffer: &[u8]) -> Answer<Record> {
    let r = unsafe { ffi::plane_record(buffer.as_ptr(), buffer.len()) };
    let ffi::RecordFound { length, count, total, .. } = r;
    answer(r.refused, r.place, Record { length, count, total })
}

/// Entry `number` of a record, from 1 as the oldest. Refused as `record` refuses, then by 26.
pub fn entry(buffer: &[u8], number: usize) -> Answer<Entry> {
    let r = unsafe { ffi::plane_entry(buffer.as_ptr(), buffer.len(), number) };
    let ffi::EntryFound { word, kind, old_value, new_value, operator_id, reason, .. } = r;
    let time = (r.timed != 0).then_some(r.time);
    let entry = Entry { word, kind, old_value, new_value, operator_id, reason, time };
    answer(r.refused, r.place, entry)
}

/// Opens a record of the frame, of version 2 and with no history: writes header and frame to the buffer's start. Refused as `read` refuses, then by
/// 12 where the buffer is under 16 bytes and the frame.
pub fn open(buffer: &mut [u8], frame: &[u8]) -> Answer<()> {
    let (room, length) = (buffer.len(), frame.len());
    let r = unsafe { ffi::plane_open(buffer.as_mut_ptr(), room, frame.as_ptr(), length) };
    answer(r.refused, r.place, ())
}

/// Edits the record: writes the value, the two header words that change and one entry. Refused by 20 for a record of version 1, whatever its frame
/// and entries are; then as `record` refuses, then by 22, 23, 24, 25, and by 12 where the buffer has under 24 bytes behind the record.
pub fn edit(buffer: &mut [u8], correction: Correction) -> Answer<()> {
    let r = unsafe { ffi::plane_edit(buffer.as_mut_ptr(), buffer.len(), correction) };
    answer(r.refused, r.place, ())
}

/// Makes a list of corrections in their order, each as `edit` makes it, on the record that those before it have left. Stops at the first that is
/// refused: by 20 for a record of version 1, else as `record` refuses, then by 22, 23, 24, 25, 12. Those before it then stand; every other call that is
/// refused has changed nothing. An empty list is accepted and changes nothing, whatever the buffer holds. The list is lent as it is, not copied.
pub fn edit_all(buffer: &mut [u8], corrections: &[Correction]) -> Result<(), Stopped> {
    let (room, count) = (buffer.len(), corrections.len());
    let r = unsafe { ffi::plane_edit_all(buffer.as_mut_ptr(), room, corrections.as_ptr(), count) };
    let position = r.position;
    answer(r.refused, r.place, ()).map_err(|refused| Stopped { position, refused })
}

/// Restores the frame as it stood after its first `k` edits, to the start of `out`; the record, of either version, is only read. Refused as `record`
/// refuses, then by 26 where there are not `k` entries, then by 12 where `out` is under the frame's length.
pub fn restore(buffer: &[u8], k: usize, out: &mut [u8]) -> Answer<()> {
    let (room, out_room) = (buffer.len(), out.len());
    let r = unsafe { ffi::plane_restore(buffer.as_ptr(), room, k, out.as_mut_ptr(), out_room) };
    answer(r.refused, r.place, ())
}
