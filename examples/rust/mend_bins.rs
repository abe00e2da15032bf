//! Mends bins of a monitor frame: mend_bins FRAME. Opens a record of the frame, makes eleven corrections in one call and prints the history; then a
//! list that stops at its second correction, and lists for a buffer that holds no record.
mod plane_record;
use plane_record::{
    Answer, COUNTS, Correction, HEADER_BYTES, MOST_RECORD, Stopped, bin_word, counts, edit_all,
    entry, open, record,
};

/// The histogram, and the counts of its bins from 244 on as they should be.
const CHIP: u16 = 0;
const CHANNEL: u16 = 17;
const BINS: [u32; 11] = [117, 463, 1198, 2140, 2502, 2111, 1226, 452, 129, 20, 3];

/// When the bins are mended, in milliseconds since 1970; the clock of operator 31, who is at work later, is an hour behind, and that is kept too.
const MENDED: u64 = 1794832496000;
const BEHIND: u64 = 1794828896000;

/// What corrects the count of a bin. An edit moves no word, so that the frame as it was read tells where the bin stands.
fn correction(
    frame: &[u8],
    bin: u16,
    value: u32,
    operator_id: u32,
    reason: u32,
    time: u64,
) -> Answer<Correction> {
    let word = bin_word(frame, CHIP, CHANNEL, bin)?;
    Ok(Correction { word, value, operator_id, reason, time })
}

fn told(what: &str, done: Result<(), Stopped>) {
    match done {
        Ok(()) => println!("{what}: accepted"),
        Err(stopped) => println!("{what}: {stopped}"),
    }
}

/// The corrections of a record from number `from` on, and how many there are.
fn list(buffer: &[u8], from: usize) -> Answer<()> {
    let count = record(buffer)?.count;
    for n in from..=count {
        let e = entry(buffer, n)?;
        println!(
            "edit {n} word {} bin {} -> {} by {} reason {} at {}",
            e.word,
            e.old_value,
            e.new_value,
            e.operator_id,
            e.reason,
            e.time.unwrap_or(0)
        );
    }
    println!("end {count}");
    Ok(())
}

fn main() -> Result<(), Box<dyn std::error::Error>> {
    let frame = std::fs::read(std::env::args().nth(1).ok_or("usage: mend_bins FRAME")?)?;
    let mut buffer = [0; MOST_RECORD];
    open(&mut buffer, &frame)?;

    let mending: Answer<Vec<Correction>> = (244..)
        .zip(BINS)
        .map(|(bin, value)| correction(&frame, bin, value, 9, 2, MENDED))
        .collect();
    let mending = mending?;
    told("eleven corrections", edit_all(&mut buffer, &mending));
    list(&buffer, 1)?;

    // 2111 stands in bin 249 already: the second is refused, the first stands, the third is not made.
    let three = [
        correction(&frame, 248, 2499, 31, 4, BEHIND)?,
        correction(&frame, 249, 2111, 31, 4, BEHIND)?,
        correction(&frame, 250, 1230, 31, 4, BEHIND)?,
    ];
    told("three corrections", edit_all(&mut buffer, &three));
    list(&buffer, BINS.len() + 1)?;
    let mut stand = [0; COUNTS];
    counts(&buffer[HEADER_BYTES..HEADER_BYTES + frame.len()], CHIP, CHANNEL, &mut stand)?;
    for (bin, count) in (248..).zip(&stand[248..=250]) {
        println!("bin {bin} has {count}");
    }

    // A buffer that holds no record: any correction is refused, and none at all is accepted.
    let mut junk = [0xA5; 64];
    told("one correction of junk", edit_all(&mut junk, &mending[..1]));
    told("no correction of junk", edit_all(&mut junk, &[]));
    println!("the junk is {}", if junk == [0xA5; 64] { "as it was" } else { "changed" });
    Ok(())
}
