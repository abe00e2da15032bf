//! Assembles events over several frames: assemble CARD STEP .., where a step is the file of a frame, the card's next one, or the word give-up.
mod plane_record;
use plane_record::{Assembler, Began, event};

/// What begins and what ends in this frame. Type and timestamp are where an event begins, its size is where it ends.
fn print_events(frame: &[u8]) {
    for e in (0..).map_while(|n| event(frame, n).ok()) {
        if let Some(Began { kind, timestamp }) = e.began {
            println!("  event {} begins: type {kind}, timestamp {timestamp}", e.number);
        }
        if let Some(size) = e.size {
            println!("  event {} ends: {size} bytes", e.number);
        }
    }
}

fn main() -> Result<(), Box<dyn std::error::Error>> {
    let mut words = std::env::args().skip(1);
    let card = words.next().ok_or("usage: assemble CARD STEP ..")?.parse()?;
    let mut assembler = Assembler::new(card);
    for word in words {
        if word == "give-up" {
            assembler.give_up();
            println!("{word}");
        } else {
            let frame = std::fs::read(&word)?;
            match assembler.take(&frame) {
                Ok(lost) => {
                    println!("{word}: lost {lost}");
                    print_events(&frame);
                }
                Err(refused) => println!("{word}: {refused}"), // the assembler is as it was
            }
        }
        match assembler.open_event() {
            Some(open) => println!("  event {} is open: {} bytes so far", open.number, open.size),
            None => println!("  no event is open"),
        }
    }
    Ok(())
}
