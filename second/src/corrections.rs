//! A list of corrections as a case carries it: 24 bytes each, word index,
//! value, operator and reason in 4 bytes each, then the time in 8, any number.

use crate::record::Correction;

/// How many bytes a correction takes in a payload.
pub const CORRECTION_BYTES: usize = 24;

/// The corrections of a payload; none where it ends inside one.
pub fn read(payload: &[u8]) -> Option<Vec<Correction>> {
    let corrections = payload.chunks_exact(CORRECTION_BYTES);
    let whole = corrections.remainder().is_empty();
    whole.then(|| corrections.map(correction).collect())
}

fn correction(bytes: &[u8]) -> Correction {
    let long = |at: usize| u32::from_le_bytes(bytes[at..at + 4].try_into().unwrap());
    let time = long(16) as u64 | (long(20) as u64) << 32;
    Correction { index: long(0), value: long(4), operator: long(8), reason: long(12), time }
}

/// The payload of the corrections.
pub fn payload(corrections: &[Correction]) -> Vec<u8> {
    let mut payload = Vec::new();
    for Correction { index, value, operator, reason, time } in corrections {
        [index, value, operator, reason].iter().for_each(|long| payload.extend(long.to_le_bytes()));
        payload.extend(time.to_le_bytes());
    }
    payload
}

#[cfg(test)]
mod tests {
    use super::*;

    #[test]
    fn corrections_read_back() {
        let first = [11, 0, 0, 0, 4, 1, 0, 0, 9, 0, 0, 0, 2, 0, 0, 0, 0, 0, 0, 0, 0, 0, 0, 0];
        let longs = [&[0xFF; 4][..], &[0, 0, 0, 1], &[0, 0, 1, 0], &[0, 1, 0, 0]];
        let second = [&longs.concat()[..], &[2, 0, 0, 0, 3, 0, 0, 0]].concat();
        let third = [&[0; 16][..], &[0xFF; 8]].concat();
        let bytes = [&first[..], &second, &third].concat();
        let (value, operator, reason) = (1 << 24, 1 << 16, 1 << 8);
        let list = [
            Correction { index: 11, value: 260, operator: 9, reason: 2, time: 0 },
            Correction { index: u32::MAX, value, operator, reason, time: 3 << 32 | 2 },
            Correction { index: 0, value: 0, operator: 0, reason: 0, time: u64::MAX },
        ];
        assert_eq!(read(&bytes).unwrap(), list);
        assert_eq!(payload(&list), bytes);
        assert_eq!(read(&[]), Some(vec![]));
        assert_eq!(read(&[0; 24 * 1024]).map(|list| list.len()), Some(1024));
    }

    #[test]
    fn what_is_no_list() {
        for length in [1, 8, 16, 23, 25, 47, 49] {
            assert_eq!(read(&vec![0; length]), None, "{length}");
        }
    }
}
