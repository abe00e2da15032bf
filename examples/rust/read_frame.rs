//! Reads a frame: its first words, its items, an event and the samples of a channel; then the same frame with a wrong size in its End event.
mod plane_record;
use plane_record::{Answer, Item, NO_SAMPLE, SAMPLES, class, event, item, read, samples};

/// Case 3 of document 01.
const WORDS: [u16; 17] = [
    0x0805, 0x0022, 0x0100, 0x00F1, 0x03E8, 0x0000, 0x0000, 0x0007, 0x0000, 0xCB0A, 0x0E03, 0x30FA,
    0x30FB, 0x00E0, 0x001A, 0x0000, 0x000F,
];

fn shown(x: Item) -> String {
    match x.item_class {
        class::CHANNEL => format!("channel card {} chip {} channel {}", x.card, x.chip, x.channel),
        class::SAMPLE => format!("sample {}", x.value),
        class::TIME_BIN => format!("time bin {}", x.time),
        class::START_EVENT => {
            format!("start event type {} timestamp {} number {}", x.kind, x.timestamp, x.number)
        }
        class::END_EVENT => format!("end event size {}", x.size),
        class => format!("class {class}"),
    }
}

fn list(frame: &[u8]) -> Answer<()> {
    let f = read(frame)?;
    let kind = ["?", "D", "M", "C"][f.kind as usize];
    println!(
        "frame {kind} card {} seq {:04X} bytes {} items {}",
        f.card,
        f.sequence,
        frame.len(),
        f.items
    );
    for n in 0..f.items {
        let found = item(frame, n)?;
        println!("item {n} at word {}: {}", found.index, shown(found.item));
    }
    Ok(())
}

fn main() -> Answer<()> {
    let mut frame: Vec<u8> = WORDS.iter().flat_map(|w| w.to_le_bytes()).collect();
    list(&frame)?;

    let e = event(&frame, 0)?;
    if let Some(size) = e.size {
        println!("event 0: number {} size {size} at word {}", e.number, e.index);
    }
    let mut out = [0; SAMPLES];
    samples(&frame, 0, 2, 10, &mut out)?;
    for (time, value) in out.iter().enumerate().filter(|(_, value)| **value != NO_SAMPLE) {
        println!("chip 2 channel 10 time {time}: {value}");
    }

    frame[28] = 0x1C;
    if let Err(refused) = list(&frame) {
        println!("{refused}");
    }
    Ok(())
}
