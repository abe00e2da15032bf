//! Writes a frame, opens a record of it, edits it, lists its history and restores the frame as it was; then lists and restores a record of version 1,
//! whose edit is refused.
mod plane_record;
use plane_record::{
    Answer, Correction, ENTRY_BYTES, HEADER_BYTES, Item, MOST_FRAME, add, begin, class, close,
    corrected, edit, entry, kind, open, read, record, restore, sample_word,
};

/// When the correction is made: milliseconds since 1970, on 16 November 2026 at 12:34:56. The library keeps the number, whatever clock it is of.
const NOW: u64 = 1794832496000;

/// The record of document 01's case 10 after its edit, made before entries had a time: version 1.
const EARLIER: [u16; 33] = [
    0x0001, 0x0001, 0x0010, 0x0022, 0x0032, 0x0001, 0x0042, 0x0000, 0x0805, 0x0022, 0x0100, 0x00F1,
    0x03E8, 0x0000, 0x0000, 0x0007, 0x0000, 0xCB0A, 0x0E03, 0x3104, 0x30FB, 0x00E0, 0x001A, 0x0000,
    0x000F, 0x000B, 0x0001, 0x00FA, 0x0000, 0x0104, 0x0000, 0x0009, 0x0002,
];

fn word_at(s: &[u8], i: usize) -> u16 {
    u16::from_le_bytes([s[2 * i], s[2 * i + 1]])
}

fn told(what: &str, done: Answer<()>) {
    match done {
        Ok(()) => println!("{what}: accepted"),
        Err(refused) => println!("{what}: {refused}"),
    }
}

/// The frame of document 01's case 3, item by item; its length.
fn write_frame(frame: &mut [u8]) -> Answer<usize> {
    let none = Item::default();
    let items = [
        Item { item_class: class::START_EVENT, kind: 1, timestamp: 1000, number: 7, ..none },
        Item { item_class: class::CHANNEL, card: 5, chip: 2, channel: 10, ..none },
        Item { item_class: class::TIME_BIN, time: 3, ..none },
        Item { item_class: class::SAMPLE, value: 250, ..none },
        Item { item_class: class::SAMPLE, value: 251, ..none },
        Item { item_class: class::END_EVENT, size: 26, ..none },
    ];
    let mut length = begin(frame, kind::DATA, 5, 0x0100)?;
    for item in items {
        length = add(frame, length, item)?;
    }
    close(frame, length)
}

/// What the program `list` prints of a record.
fn list(buffer: &[u8]) -> Answer<()> {
    let r = record(buffer)?;
    let f = read(&buffer[HEADER_BYTES..HEADER_BYTES + r.length])?;
    let kind = ["?", "D", "M", "C"][f.kind as usize];
    println!(
        "frame {kind} card {} seq {:04X} bytes {} items {}",
        f.card, f.sequence, r.length, f.items
    );
    for n in 1..=r.count {
        let e = entry(buffer, n)?;
        let kind = if e.kind == corrected::SAMPLE { "sample" } else { "bin" };
        let at = e.time.map_or(String::new(), |time| format!(" at {time}"));
        println!(
            "edit {n} word {} {kind} {} -> {} by {} reason {}{at}",
            e.word, e.old_value, e.new_value, e.operator_id, e.reason
        );
    }
    println!("end {}", r.count);
    Ok(())
}

fn print_header(buffer: &[u8]) {
    let words: Vec<String> =
        (0..HEADER_BYTES / 2).map(|i| format!("{:04X}", word_at(buffer, i))).collect();
    println!("header {}", words.join(" "));
}

/// The frame before its first edit: what stands at a word, and what stood there.
fn restored(buffer: &[u8], word: usize) {
    let mut before = [0; MOST_FRAME];
    told("restore to 0", restore(buffer, 0, &mut before));
    println!(
        "word {word}: {:04X}, and as it was {:04X}",
        word_at(&buffer[HEADER_BYTES..], word),
        word_at(&before, word)
    );
}

fn use_earlier(correction: Correction) -> Answer<()> {
    let mut buffer: Vec<u8> = EARLIER.iter().flat_map(|w| w.to_le_bytes()).collect();
    buffer.resize(128, 0);
    println!("a record of version 1");
    list(&buffer)?;
    told("edit", edit(&mut buffer, correction));
    restored(&buffer, correction.word);
    Ok(())
}

fn main() -> Answer<()> {
    let (mut frame, mut buffer) = ([0; MOST_FRAME], [0; 128]);
    let length = write_frame(&mut frame)?;
    told("open", open(&mut buffer, &frame[..length]));
    print_header(&buffer);

    // The sample at time 3 of event 0, chip 2, channel 10: nobody counts words by hand.
    let word = sample_word(&frame[..length], 0, 2, 10, 3)?;
    let correction = Correction { word, value: 260, operator_id: 9, reason: 2, time: NOW };
    told("edit", edit(&mut buffer, correction));
    told("the same edit again", edit(&mut buffer, correction));
    print_header(&buffer);
    let entries = &buffer[HEADER_BYTES + length..];
    let bytes: Vec<String> = entries[..ENTRY_BYTES].iter().map(|b| format!("{b:02X}")).collect();
    println!("entry {}", bytes.join(" "));
    list(&buffer)?;
    restored(&buffer, word);

    let correction = Correction { value: 270, ..correction };
    use_earlier(correction)?;
    told("edit at 2^48", edit(&mut buffer, Correction { time: 1 << 48, ..correction }));
    Ok(())
}
