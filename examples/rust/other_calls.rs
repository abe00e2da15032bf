//! The calls that the other examples leave out: the class of a word, counts, the word of a bin, texts, what is no kind and no item, and the follower.
mod plane_record;
use plane_record::{
    Answer, COUNTS, Follower, Item, add, add_text, begin, bin_word, class, classify, close, counts,
    follow, kind, text,
};

/// Case 7 of document 01.
const WORDS: [u16; 8] = [0x0605, 0x0010, 0x0000, 0x8A4E, 0x2100, 0x1170, 0x0001, 0x000F];

fn print_counts() -> Answer<()> {
    let frame: Vec<u8> = WORDS.iter().flat_map(|w| w.to_le_bytes()).collect();
    let mut out = [0; COUNTS];
    counts(&frame, 0, 78, &mut out)?;
    for (bin, count) in out.iter().enumerate().filter(|(_, count)| **count != 0) {
        println!("chip 0 channel 78 bin {bin}: {count}");
    }
    for bin in 256..258 {
        match bin_word(&frame, 0, 78, bin) {
            Ok(word) => println!("bin {bin}: word {word}"),
            Err(refused) => println!("bin {bin}: {refused}"),
        }
    }
    Ok(())
}

fn told(what: &str, written: Answer<usize>) -> Answer<usize> {
    match written {
        Ok(length) => println!("{what}: {length} bytes"),
        Err(refused) => println!("{what}: {refused}"),
    }
    written
}

fn write_text() -> Answer<()> {
    let mut frame = [0; 64];
    let none = Item::default();
    let _ = told("begin, kind 4", begin(&mut frame, 4, 5, 0));
    let length = told("begin", begin(&mut frame, kind::COMMAND, 5, 0))?;
    let start = Item { item_class: class::DATA_FRAME, ..none };
    let _ = told("add, class 99", add(&mut frame, length, Item { item_class: 99, ..none }));
    let _ = told("add, class 8", add(&mut frame, length, start));
    let length = told("add text", add_text(&mut frame, length, b"beam off"))?;
    let length = told("close", close(&mut frame, length))?;
    let part = text(&frame[..length], 0);
    let offset = part.as_ptr() as usize - frame.as_ptr() as usize;
    println!(
        "item 0: a text of {} bytes from byte {offset}: {}",
        part.len(),
        String::from_utf8_lossy(part)
    );
    Ok(())
}

fn shown(f: Follower) -> String {
    match f.expecting {
        0 => "idle".to_string(),
        _ => format!("expecting {}", f.number),
    }
}

fn followed(f: Follower, word: u16) -> Follower {
    let (said, next) = match follow(f, word) {
        Ok(answer) => (format!("lost {}", answer.lost), answer.next),
        Err(refused) => (refused.to_string(), f),
    };
    println!("{}, word {word:04X}: {said}, {}", shown(f), shown(next));
    next
}

fn main() -> Answer<()> {
    println!("word 0825: class {}", classify(0x0825));
    print_counts()?;
    write_text()?;
    // Case 12 of document 01, and a number before a start.
    let next = followed(Follower { expecting: 1, number: 255 }, 0x00FF);
    followed(next, 0x0000);
    followed(Follower::default(), 0x0001);
    Ok(())
}
