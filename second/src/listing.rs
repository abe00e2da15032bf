//! What `list` prints of a record buffer: the frame's line, one line an entry,
//! and the entry count, or a refusal alone.

use crate::record::{self, Entry, Record, Version};
use crate::rules::Refusal;

/// So many bytes are read of the input, of either version: as many as the
/// largest record of version 2 has.
pub const READ: usize = 20_496;

fn frame_line(record: &Record) -> String {
    let frame = &record.frame;
    format!(
        "frame {} card {} seq {:04X} bytes {} items {}\n",
        frame.kind.letter(),
        frame.card,
        frame.sequence,
        record.frame_length,
        frame.items.len()
    )
}

/// The line of an entry; in version 2 the time is its last word.
fn entry_line(version: Version, number: usize, entry: &Entry) -> String {
    let kind = match entry.kind {
        1 => "sample",
        2 => "bin",
        other => panic!("an accepted entry of kind {other}"),
    };
    let line = format!(
        "edit {number} word {} {kind} {} -> {} by {} reason {}",
        entry.index, entry.old, entry.new, entry.operator, entry.reason
    );
    match version {
        Version::First => format!("{line}\n"),
        Version::Second => format!("{line} at {}\n", entry.time),
    }
}

fn accepted(buffer: &[u8]) -> Result<String, Refusal> {
    let record = record::judge(buffer)?;
    let mut lines = frame_line(&record);
    for (at, entry) in record::entries(buffer, &record).iter().enumerate() {
        lines.push_str(&entry_line(record.version, at + 1, entry));
    }
    lines.push_str(&format!("end {}\n", record.entries));
    Ok(lines)
}

/// The listing of a buffer.
pub fn listing(buffer: &[u8]) -> String {
    accepted(buffer)
        .unwrap_or_else(|Refusal { number, place }| format!("refused {number} at {place}\n"))
}

#[cfg(test)]
mod tests {
    use super::*;
    use crate::corpus::third;

    #[test]
    fn a_record_is_listed() {
        let mut buffer = vec![0; 74];
        record::open(&mut buffer, &third()).unwrap();
        assert_eq!(listing(&buffer), "frame D card 5 seq 0100 bytes 34 items 6\nend 0\n");
        record::edit(&mut buffer, 11, 260, 9, 2, 1_731_400_000).unwrap();
        let lines = "frame D card 5 seq 0100 bytes 34 items 6\n\
                     edit 1 word 11 sample 250 -> 260 by 9 reason 2 at 1731400000\n\
                     end 1\n";
        assert_eq!(listing(&buffer), lines);
        buffer[64] = 6;
        assert_eq!(listing(&buffer), "refused 21 at 1\n");
        assert_eq!(listing(&[]), "refused 20 at 0\n");
    }
}
