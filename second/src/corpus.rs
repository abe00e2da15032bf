//! The fixed corpus: cases laid down by rule, at the edges of every limit.

use crate::book::BOOK;
use crate::cases::*;
use crate::corpus_corrections;
use crate::corpus_list;
use crate::corpus_record;
use crate::corpus_run;
use crate::corpus_writer;
use crate::item::to_bytes;
use crate::known::*;
use crate::known_parts::part;
use crate::known_versions;

/// The cases of the given ops, in the order of the ops.
pub fn corpus(ops: &[u8]) -> Vec<u8> {
    let mut out = Vec::new();
    for case in all().iter().filter(|case| ops.contains(&case.op)) {
        case.write(&mut out);
    }
    out
}

fn all() -> Vec<Case> {
    let mut cases = [
        classify_cases(),
        read_cases(),
        item_cases(),
        text_cases(),
        event_cases(),
        samples_cases(),
        counts_cases(),
        corpus_writer::begin_cases(),
        corpus_writer::add_cases(),
        corpus_writer::add_text_cases(),
        corpus_writer::close_cases(),
        follow_cases(),
        corpus_record::figure_cases(),
        corpus_record::judge_cases(),
        corpus_record::entry_cases(),
        corpus_record::open_cases(),
        corpus_record::edit_cases(),
        corpus_record::restore_cases(),
        corpus_list::list_cases(),
        sample_word_cases(),
        bin_word_cases(),
        corpus_run::run_cases(),
        corpus_run::step_cases(),
        corpus_corrections::edit_all_cases(),
        known_versions::versions().into_iter().map(|(case, _)| case).collect(),
    ]
    .concat();
    cases.sort_by_key(|case| case.op);
    cases
}

/// At most so many frames of each refusal.
pub fn refused_known(of_each: usize) -> Vec<Known> {
    let mut met = [0; 12];
    let mut known = frames();
    known.retain(|known| {
        let Some((number, _)) = known.refusal else {
            return false;
        };
        met[number as usize] += 1;
        met[number as usize] <= of_each
    });
    known
}

/// These frames, and as many that end right behind a Start event, which
/// document 01 alone refuses by 11.
pub fn tried_frames(of_each: usize) -> Vec<Vec<u8>> {
    let open = [framed(DATA, &START), framed(DATA, &[event(&[]), START.to_vec()].concat())];
    let refused = refused_known(of_each).into_iter().map(|known| known.bytes);
    refused.chain(open.into_iter().take(of_each)).collect()
}

/// Numbers far out, among them such that look small when cut short.
pub const FAR: [u64; 5] = [0xFFFF, 1 << 16, 1 << 32, 1 << 63, u64::MAX];

/// Case 3 of document 01, accepted.
pub fn third() -> Vec<u8> {
    figures()[2].bytes.clone()
}

/// Case 7 of document 01, accepted.
pub fn seventh() -> Vec<u8> {
    figures()[6].bytes.clone()
}

/// Two events; the second has every class, pauses, and samples to time 511.
pub fn two_events() -> Vec<u8> {
    let first = event(&[0x4A4F, 0x1FFF, 0xCA05, 0x0E00, 0x3000, 0x3FFF, 0x0E04, 0x3123]);
    let inner = [0x1801, 0xCA05, 0x0E10, 0x3111, 0x0FFE, 0x3222, 0x3333, 0x4A00, 0x1A02, 0xCBCE];
    let second = event(&[&inner[..], &[0x0FFF, 0x3444, 0x4BCF]].concat());
    framed(DATA, &[first, second].concat())
}

/// The rest of an event, a whole one, and the beginning of a third.
pub fn three_parts() -> Vec<u8> {
    let block = [0xCA05, 0x0E00, 0x3001, 0x3002, 0x0E08, 0x3003];
    let rest = part(&[&[0x4A05][..], &block, &[0x00E0, 99, 0]].concat());
    let whole = event(&[0xCA05, 0x0E03, 0x30FA]);
    let open = [&START[..], &[0xCA05, 0x0FFF, 0x3111, 0xCBCE, 0x0E00, 0x3222]].concat();
    framed(DATA, &[rest, whole, open].concat())
}

/// Three histograms: bins at both ends, no bin, counts that look like words.
pub fn three_histograms() -> Vec<u8> {
    let first = [0x8A00, 0x2000, 1, 0, 0x2001, 0xFFFF, 0xFFFF, 0x2FFF, 0, 1];
    let rest = [0x8A4E, 0x8BCE, 0x2100, 0x00F1, 0x000F, 0x2200, 0x30FA, 0x8A4E];
    framed(MONITOR, &[&first[..], &rest].concat())
}

/// Five texts: empty, odd, even, and the two longest.
pub fn five_texts() -> Vec<u8> {
    let short = [0x0101, 0, 0x0102, 0x00FF, 0x0103, 0x4241, 0];
    let almost = [&[0x01FE][..], &[0x4443; 126], &[0x0045]].concat();
    let longest = [&[0x01FF][..], &[0x4847; 127], &[0]].concat();
    framed(COMMAND, &[&short[..], &almost, &longest].concat())
}

fn classify_cases() -> Vec<Case> {
    let mut words: Vec<u16> = (0..0x12).collect();
    for (first, last, _) in BOOK {
        words.extend([first.wrapping_sub(1), first, last, last.wrapping_add(1)]);
    }
    words.sort();
    words.dedup();
    words.iter().map(|word| Case::new(CLASSIFY, &[*word as u64])).collect()
}

fn read_cases() -> Vec<Case> {
    let sound = [two_events(), three_histograms(), five_texts(), three_parts()]
        .map(|b| Case::new(READ, &[]).p(&b));
    let known = frames().into_iter().chain(long_frames());
    known.map(|known| Case::new(READ, &[]).p(&known.bytes)).chain(sound).collect()
}

fn item_cases() -> Vec<Case> {
    let mut cases = Vec::new();
    for (frame, items) in [
        (third(), 6),
        (two_events(), 25),
        (three_histograms(), 8),
        (five_texts(), 5),
        (three_parts(), 21),
    ] {
        for ordinal in 0..=items + 1 {
            cases.push(Case::new(ITEM, &[ordinal]).p(&frame));
        }
    }
    cases.extend(FAR.map(|ordinal| Case::new(ITEM, &[ordinal]).p(&third())));
    for frame in tried_frames(1).iter().chain([&figures()[0].bytes]) {
        cases.push(Case::new(ITEM, &[0]).p(frame));
    }
    cases
}

fn text_cases() -> Vec<Case> {
    let mut cases = Vec::new();
    for ordinal in (0..=6).chain(FAR) {
        cases.push(Case::new(TEXT, &[ordinal]).p(&five_texts()));
    }
    for frame in [third(), seventh(), three_parts()].iter().chain(&tried_frames(1)) {
        cases.push(Case::new(TEXT, &[0]).p(frame));
    }
    // An accepted text in front of one that is refused.
    cases.push(Case::new(TEXT, &[0]).p(&framed(COMMAND, &[0x0102, 0x0041, 0x0100])));
    cases
}

fn event_cases() -> Vec<Case> {
    let mut cases = Vec::new();
    for ordinal in (0..=3).chain(FAR) {
        cases.push(Case::new(EVENT, &[ordinal]).p(&two_events()));
    }
    for fill in [0, 0xFFFF] {
        let start = [0x00F0 | (fill & 15), fill, fill ^ 1, fill ^ 2, fill ^ 3, fill ^ 4];
        let frame = framed(DATA, &[&start[..], &[0x00E0, 18, 0]].concat());
        cases.push(Case::new(EVENT, &[0]).p(&frame));
    }
    for frame in [third(), seventh(), five_texts()].iter().chain(&tried_frames(1)) {
        cases.push(Case::new(EVENT, &[0]).p(frame));
    }
    cases.push(Case::new(EVENT, &[0]).p(&framed(DATA, &filled(DATA, 4092))));
    cases.extend(event_parts());
    cases
}

/// Events of which something stands in another frame.
fn event_parts() -> Vec<Case> {
    let ask = |ordinal: u64, frame: &[u8]| Case::new(EVENT, &[ordinal]).p(frame);
    let mut cases: Vec<Case> =
        (0..=4).chain(FAR).map(|ordinal| ask(ordinal, &three_parts())).collect();
    for fill in [0, 0xFFFF] {
        let alone = framed(DATA, &[0x0A00, fill, fill ^ 1]);
        let start = framed(DATA, &[0x00F0 | (fill & 15), fill, fill, fill, fill ^ 1, fill]);
        let ended = framed(DATA, &part(&[0x00E0, fill, fill ^ 1]));
        for frame in [alone, start, ended] {
            cases.extend([0, 1].map(|ordinal| ask(ordinal, &frame)));
        }
    }
    // A whole event and the beginning of a next one, which a Channel cuts.
    let open = [event(&[]), START.to_vec()].concat();
    cases.extend([0, 1, 2].map(|ordinal| ask(ordinal, &framed(DATA, &open))));
    let cut = [event(&[]), START.to_vec(), vec![0xCA05]].concat();
    cases.extend([0, 1].map(|ordinal| ask(ordinal, &framed(DATA, &cut))));
    cases
}

fn samples_cases() -> Vec<Case> {
    let frame = two_events();
    let ask = |e: u64, chip: u64, channel: u64, elements: u64, fill: u64| {
        Case::new(SAMPLES, &[e, chip, channel, elements, fill]).p(&frame)
    };
    let mut cases = vec![
        ask(0, 0, 5, 512, 0),
        ask(1, 0, 5, 512, 0x1234),
        ask(1, 3, 78, 512, 0xFFFF),
        ask(0, 3, 78, 512, 7),
        ask(0, 0, 6, 512, 7),
        ask(0, 1, 5, 512, 7),
    ];
    for (chip, channel) in [(3, 79), (4, 5), (4, 78), (0, 133), (0xFFFF, 0xFFFF), (0, 0xFFFF)] {
        cases.push(ask(0, chip, channel, 512, 7));
    }
    cases.extend([0, 1, 511, 512, 513, 600].map(|elements| ask(0, 0, 5, elements, 0xABCD)));
    // Too few elements come before no such event.
    cases.extend([0, 511, 512].map(|elements| ask(2, 0, 5, elements, 1)));
    cases.extend(FAR.map(|event| ask(event, 0, 5, 512, 1)));
    let known = [third(), seventh(), five_texts(), framed(DATA, &filled(DATA, 4092))];
    for frame in &known {
        cases.push(Case::new(SAMPLES, &[0, 2, 10, 512, 9]).p(frame));
    }
    // A refused frame comes before too few elements.
    for frame in &tried_frames(1) {
        cases.push(Case::new(SAMPLES, &[0, 2, 10, 511, 9]).p(frame));
    }
    cases.push(Case::new(SAMPLES, &[0, 0, 6, 512, 9]).p(&known[3]));
    // Of the rest of an event, a whole one, the beginning of one; the channel
    // of another event, and one that may stand in another frame.
    for (event, chip, channel) in
        [(0, 0, 5), (1, 0, 5), (2, 0, 5), (2, 3, 78), (0, 3, 78), (1, 3, 78), (0, 0, 4), (3, 0, 5)]
    {
        cases.push(Case::new(SAMPLES, &[event, chip, channel, 512, 9]).p(&three_parts()));
    }
    cases
}

fn counts_cases() -> Vec<Case> {
    let frame = three_histograms();
    let ask = |chip: u64, channel: u64, elements: u64, fill: u64| {
        Case::new(COUNTS, &[chip, channel, elements, fill]).p(&frame)
    };
    let mut cases = vec![
        ask(0, 0, 4096, 1),
        ask(0, 78, 4096, 0xFFFF_FFFF),
        ask(3, 78, 4096, 0),
        ask(0, 1, 4096, 5),
        ask(1, 0, 4096, 5),
        ask(2, 78, 4096, 5),
    ];
    for (chip, channel) in [(0, 79), (4, 0), (4, 78), (0, 128), (0xFFFF, 0xFFFF), (0, 0xFFFF)] {
        cases.push(ask(chip, channel, 4096, 7));
    }
    cases.extend([0, 1, 4095, 4096, 4097, 4200].map(|elements| ask(0, 0, elements, 0x8765_4321)));
    cases.extend([0, 4095, 4096].map(|elements| ask(1, 0, elements, 3)));
    let known = [third(), seventh(), five_texts(), framed(MONITOR, &filled(MONITOR, 4092))];
    for frame in &known {
        cases.push(Case::new(COUNTS, &[0, 78, 4096, 9]).p(frame));
    }
    for frame in &tried_frames(1) {
        cases.push(Case::new(COUNTS, &[0, 78, 4095, 9]).p(frame));
    }
    cases.push(Case::new(COUNTS, &[0, 0, 4096, 9]).p(&known[3]));
    cases
}

fn sample_word_cases() -> Vec<Case> {
    let frame = two_events();
    let ask = |e: u64, chip: u64, channel: u64, time: u64| {
        Case::new(SAMPLE_WORD, &[e, chip, channel, time]).p(&frame)
    };
    // Every sample that stands, and the pauses, both ends and far beyond.
    let times = [0, 1, 2, 3, 4, 5, 15, 16, 17, 509, 510, 511, 512, 513, 0x1FF + 0x200, 0xFFFF];
    let mut cases = Vec::new();
    for (event, chip, channel) in [(0, 0, 5), (1, 0, 5), (1, 3, 78)] {
        cases.extend(times.map(|time| ask(event, chip, channel, time)));
    }
    cases.extend([(3, 78), (0, 6), (1, 5), (4, 5), (0, 133)].map(|(b, c)| ask(0, b, c, 0)));
    cases.extend([2, 3].iter().chain(&FAR).map(|event| ask(*event, 0, 5, 0)));
    let known = [third(), seventh(), five_texts(), framed(DATA, &filled(DATA, 4092))];
    for frame in &known {
        for time in [3, 4, 5, 511] {
            cases.push(Case::new(SAMPLE_WORD, &[0, 2, 10, time]).p(frame));
        }
    }
    for frame in &tried_frames(1) {
        cases.push(Case::new(SAMPLE_WORD, &[0, 2, 10, 3]).p(frame));
    }
    for (event, chip, channel) in [(0, 0, 5), (1, 0, 5), (2, 0, 5), (2, 3, 78), (0, 3, 78)] {
        for time in [0, 1, 2, 3, 8, 9, 511] {
            let case = Case::new(SAMPLE_WORD, &[event, chip, channel, time]);
            cases.push(case.p(&three_parts()));
        }
    }
    cases
}

fn bin_word_cases() -> Vec<Case> {
    let frame = three_histograms();
    let ask =
        |chip: u64, channel: u64, bin: u64| Case::new(BIN_WORD, &[chip, channel, bin]).p(&frame);
    // Every bin that stands under its own header and under the others.
    let bins = [0, 1, 2, 0x0FF, 0x100, 0x101, 0x1FF, 0x200, 0x201, 0xFFE, 0xFFF, 0x1000, 0xFFFF];
    let mut cases = Vec::new();
    for (chip, channel) in [(0, 0), (0, 78), (3, 78)] {
        cases.extend(bins.map(|bin| ask(chip, channel, bin)));
    }
    cases.extend([(0, 1), (1, 0), (0, 79), (4, 0), (0, 128)].map(|(b, c)| ask(b, c, 0)));
    let known = [third(), seventh(), five_texts(), framed(MONITOR, &filled(MONITOR, 4092))];
    for frame in &known {
        for bin in [0, 255, 256, 257] {
            cases.push(Case::new(BIN_WORD, &[0, 78, bin]).p(frame));
        }
    }
    cases.extend([0, 5, 4095].map(|bin| Case::new(BIN_WORD, &[0, 0, bin]).p(&known[3])));
    for frame in &tried_frames(1) {
        cases.push(Case::new(BIN_WORD, &[0, 78, 256]).p(frame));
    }
    cases
}

fn follow_cases() -> Vec<Case> {
    let mut cases = Vec::new();
    for state in [0, 1, 2, 255, 256] {
        for word in [0, 1, 0xFE, 0xFF, 0x100, 0x101, 0xFFFF] {
            cases.push(Case::new(FOLLOW, &[state, word]));
        }
    }
    cases
}

/// The partial frame of a frame: size word 0, no end word.
pub fn partial_of(frame: &[u8]) -> Vec<u8> {
    let mut partial = frame[..frame.len().saturating_sub(2)].to_vec();
    if partial.len() >= 4 {
        partial[2..4].fill(0);
    }
    partial
}

/// A partial frame of the items.
pub fn partial(start: u16, items: &[u16]) -> Vec<u8> {
    to_bytes(&[&[start, 0, 0x0100], items].concat())
}

#[cfg(test)]
mod tests {
    use super::*;
    use crate::answer::answers;
    use crate::tally::Tally;

    #[test]
    fn every_refusal_of_every_op_is_met() {
        let ops: Vec<u8> = (0..OPS as u8).collect();
        let bytes = corpus(&ops);
        let tally = Tally::of_cases(&bytes);
        assert_eq!(tally.missing(), Vec::<String>::new());
        assert_eq!(tally.cases(), all().len() as u64);
        assert!(answers(&bytes).all(|line| line != crate::answer::BAD_CASE));
        assert!((300..=4000).contains(&tally.cases()), "{}", tally.cases());
        assert!(bytes.len() < 2_800_000, "{}", bytes.len());
    }

    #[test]
    fn the_examples_are_accepted() {
        let others = [(three_histograms(), 8), (five_texts(), 5), (third(), 6)];
        let events = [(two_events(), 25), (three_parts(), 21)];
        for (frame, items) in events.into_iter().chain(others) {
            assert_eq!(crate::frame::read(&frame).unwrap().items.len(), items);
        }
    }
}
