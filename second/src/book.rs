//! The word book: the class of a 16-bit word, the words after it, and how a
//! word is put together from its fields.

/// The rows of the book in its own order, behind them the classes that came
/// later; `Unassigned` is every other word.
#[derive(Clone, Copy, PartialEq, Eq, Debug)]
pub enum Class {
    Unassigned,
    Channel,
    Histogram,
    HitCount,
    Sample,
    Bin,
    LastCell,
    TimeBin,
    DataFrame,
    MonitorFrame,
    CommandFrame,
    Text,
    StartEvent,
    EndEvent,
    FrameEnd,
    ContinueEvent,
}

/// First and last word of each class. The ranges do not touch each other, so
/// the first hit is the only one.
pub const BOOK: [(u16, u16, Class); 15] = [
    (0xC000, 0xFFFF, Class::Channel),
    (0x8000, 0xBFFF, Class::Histogram),
    (0x4000, 0x7FFF, Class::HitCount),
    (0x3000, 0x3FFF, Class::Sample),
    (0x2000, 0x2FFF, Class::Bin),
    (0x1800, 0x1FFF, Class::LastCell),
    (0x0E00, 0x0FFF, Class::TimeBin),
    (0x0800, 0x09FF, Class::DataFrame),
    (0x0600, 0x07FF, Class::MonitorFrame),
    (0x0400, 0x05FF, Class::CommandFrame),
    (0x0100, 0x01FF, Class::Text),
    (0x00F0, 0x00FF, Class::StartEvent),
    (0x00E0, 0x00EF, Class::EndEvent),
    (0x000F, 0x000F, Class::FrameEnd),
    (0x0A00, 0x0BFF, Class::ContinueEvent),
];

pub const MAX_CARD: u64 = 31;
pub const MAX_CHIP: u64 = 3;
pub const MAX_CHANNEL: u64 = 78;
pub const MAX_HIT_COUNT: u64 = 79;
pub const MAX_VALUE: u64 = 4095;
pub const MAX_BIN: u64 = 4095;
pub const MAX_CELL: u64 = 511;
pub const MAX_TIME: u64 = 511;
pub const MAX_TYPE: u64 = 15;
pub const MAX_TIMESTAMP: u64 = (1 << 48) - 1;
pub const MAX_TEXT: usize = 254;
pub const MAX_SEQUENCE: u16 = 0x0100;
pub const FRAME_END: u16 = 0x000F;

impl Class {
    /// The row of the book, 1 to 15; 0 for an unassigned word.
    pub fn row(self) -> u64 {
        BOOK.iter().position(|row| row.2 == self).map_or(0, |at| at as u64 + 1)
    }

    /// The class of a row; anything but 1 to 15 is unassigned.
    pub fn of_row(row: u64) -> Class {
        match row {
            1..=15 => BOOK[row as usize - 1].2,
            _ => Class::Unassigned,
        }
    }
}

pub fn classify(word: u16) -> Class {
    let row = BOOK.iter().find(|row| row.0 <= word && word <= row.1);
    row.map_or(Class::Unassigned, |row| row.2)
}

/// How many words after this one belong to the same item. Frame starts and
/// Frame end have none where they are met among the items.
pub fn words_after(word: u16) -> usize {
    match classify(word) {
        Class::Bin | Class::EndEvent | Class::ContinueEvent => 2,
        Class::StartEvent => 5,
        Class::Text => (word as usize & 0xFF).div_ceil(2),
        _ => 0,
    }
}

/// The 14-bit content that Channel, Histogram and Hit count words share.
pub fn content(card: u64, chip: u64, low: u64) -> u64 {
    (card << 9) | (chip << 7) | low
}

#[cfg(test)]
mod tests {
    use super::*;

    #[test]
    fn unassigned_words_are_3295() {
        // Document 01's 3,807 without the 512 words of Continue event.
        let unassigned = (0..=0xFFFFu16).filter(|w| classify(*w) == Class::Unassigned);
        assert_eq!(unassigned.count(), 3295);
    }

    #[test]
    fn edges_of_the_book() {
        for (first, last, class) in BOOK {
            assert_eq!(classify(first), class);
            assert_eq!(classify(last), class);
            assert_ne!(classify(first - 1), class);
            assert_ne!(classify(last.wrapping_add(1)), class);
        }
        assert_eq!(Class::of_row(0), Class::Unassigned);
        assert_eq!((1..=15).map(Class::of_row).map(Class::row).sum::<u64>(), 120);
        assert_eq!((Class::FrameEnd.row(), Class::ContinueEvent.row()), (14, 15));
    }

    #[test]
    fn words_after_by_class() {
        let pairs = [(0x2FFF, 2), (0x00E0, 2), (0x00F0, 5), (0x0100, 0), (0x0101, 1), (0x0102, 1)];
        let more = [(0x0103, 2), (0x01FF, 128), (0x0805, 0), (0x09FF, 0), (0x0A00, 2), (0x0BFF, 2)];
        for (word, after) in pairs.into_iter().chain(more) {
            assert_eq!(words_after(word), after, "{word:04X}");
        }
    }
}
