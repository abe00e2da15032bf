//! The fixed corpus of the writer: begin, add, add text, close.

use crate::cases::*;
use crate::corpus::*;
use crate::known::*;

/// A buffer of that length which begins with the partial frame; the rest is
/// a pattern in which a byte written by mistake shows.
fn lent(partial: &[u8], length: usize) -> Vec<u8> {
    let pattern = (0..length).map(|at| 0xA5 ^ at as u8);
    partial.iter().copied().take(length).chain(pattern.skip(partial.len())).collect()
}

pub fn begin_cases() -> Vec<Case> {
    let mut cases = Vec::new();
    let mut ask = |kind, card, sequence, length: usize| {
        cases.push(Case::new(BEGIN, &[kind, card, sequence]).p(&lent(&[], length)));
    };
    for card in [31, 32] {
        for sequence in [0x100, 0x101] {
            [7, 8].into_iter().for_each(|length| ask(0, card, sequence, length));
        }
    }
    [0, 1, 30, 33, 37, 63, 64, 0xFFFF].into_iter().for_each(|card| ask(0, card, 0, 8));
    [0, 1, 0xFF, 0x200, 0xFFFF].into_iter().for_each(|word| ask(1, 5, word, 8));
    [0, 5, 6, 9, 100, 8192].into_iter().for_each(|length| ask(2, 5, 0, length));
    cases
}

/// Row and fields of an item in words of known meaning, for the rows that can
/// be added.
fn fields_of(words: &[u16]) -> Vec<u64> {
    let bytes = crate::item::to_bytes(words);
    let item = crate::item::item_at(&bytes, 0).expect("an item");
    [vec![item.class().row()], item.fields()].concat()
}

fn add(partial: &[u8], fields: &[u64], length: usize) -> Case {
    let arguments = [&[partial.len() as u64], fields].concat();
    Case::new(ADD, &arguments).p(&lent(partial, length))
}

pub fn add_cases() -> Vec<Case> {
    let mut cases = Vec::new();
    let mut tried_short = Vec::new();
    // The classes after everything; each class once without room.
    for before in befores() {
        let partial = partial(before.start, &before.items);
        let addable = [1, 2, 3, 4, 5, 6, 7, 12, 13, 15];
        for row in addable.into_iter().filter(|row| before.is_worth(*row)) {
            let words = next_item(&before, row);
            let fields = fields_of(&words);
            let need = partial.len() + 2 * words.len() + 2;
            cases.push(add(&partial, &fields, need));
            if before.allowed.contains(&row) && !tried_short.contains(&row) {
                tried_short.push(row);
                cases.extend([need - 2, need - 1].map(|length| add(&partial, &fields, length)));
            }
        }
    }
    cases.extend(add_values());
    cases.extend(add_parts());
    cases.extend(add_orders());
    cases.extend(add_lengths());
    for frame in partials_with_faults(1) {
        cases.push(add(&frame, &[12, 1, 2, 3], frame.len() + 20));
    }
    cases
}

/// Fields at their limits and too wide, where the class is allowed.
fn add_values() -> Vec<Case> {
    let inside = partial(DATA, &START);
    let timed = partial(DATA, &[&START[..], &[0xCA05]].concat());
    let sampled = partial(DATA, &[&START[..], &[0xCA05, 0x0E03]].concat());
    let (outside, monitor) = (partial(DATA, &[]), partial(MONITOR, &[0x8A05]));
    let fields: [(&[u8], &[&[u64]]); 6] = [
        (&inside, &[&[1, 5, 3, 78], &[1, 5, 3, 79], &[1, 5, 4, 0], &[1, 4, 0, 0], &[1, 37, 0, 0]]),
        (&inside, &[&[3, 5, 3, 79], &[3, 5, 0, 80], &[3, 5, 4, 0], &[3, 6, 0, 0], &[3, 5, 0, 128]]),
        (&inside, &[&[6, 3, 511], &[6, 3, 512], &[6, 4, 0], &[6, 0xFFFF, 0], &[6, 0, 0xFFFF]]),
        (&timed, &[&[7, 0], &[7, 511], &[7, 512], &[7, 513], &[7, 0xFFFF]]),
        (&sampled, &[&[4, 0], &[4, 4095], &[4, 4096], &[4, 0xFFFF]]),
        (&monitor, &[&[2, 5, 3, 78], &[2, 5, 3, 79], &[2, 5, 4, 0], &[2, 4, 3, 0], &[2, 37, 3, 0]]),
    ];
    let mut cases = Vec::new();
    for (partial, fields) in fields {
        cases.extend(fields.iter().map(|fields| add(partial, fields, partial.len() + 20)));
    }
    for (bin, count) in [(0, 1), (4095, 0xFFFF_FFFF), (4096, 1), (0xFFFF, 1), (0, 0), (1, 0x10000)]
    {
        cases.push(add(&monitor, &[5, bin, count], monitor.len() + 8));
    }
    let widest = (1 << 48) - 1;
    for (kind, timestamp) in
        [(0, 0), (15, widest), (16, 0), (0, widest + 1), (0xFFFF, 1), (0, u64::MAX), (0, 1 << 63)]
    {
        cases.push(add(&outside, &[12, kind, timestamp, 0xFFFF_FFFF], outside.len() + 14));
    }
    for size in [0, 16, 17, 18, 19, 20, 0x1_0012, 0xFFFF_FFFF] {
        cases.push(add(&inside, &[13, size], inside.len() + 8));
    }
    cases
}

/// Continue events by their numbers and room; what follows one: End events of
/// any size, and Channels that rise since it.
fn add_parts() -> Vec<Case> {
    let (outside, inside) = (partial(DATA, &[]), partial(DATA, &CONTINUE));
    let mut cases = Vec::new();
    for number in [0, 1, 0xFFFF, 0x10000, 0xFFFF_FFFF] {
        cases.push(add(&outside, &[15, number], 14));
    }
    cases.extend([12, 13, 15].map(|length| add(&outside, &[15, 7], length)));
    // In each kind of frame, and behind items of it.
    for partial in [partial(MONITOR, &[]), partial(COMMAND, &[]), partial(MONITOR, &[0x8A05])] {
        cases.push(add(&partial, &[15, 7], partial.len() + 8));
    }
    for size in [0, 12, 13, 18, 0x1_0000, 0xFFFF_FFFF] {
        cases.push(add(&inside, &[13, size], inside.len() + 8));
    }
    // An event that starts behind the rest of one is measured as ever.
    let ended = partial(DATA, &[&CONTINUE[..], &[0x00E0, 99, 0], &START].concat());
    cases.extend([18, 30].map(|size| add(&ended, &[13, size], ended.len() + 8)));
    let block = [0xCA85, 0x0E03, 0x30FA];
    let sampled = partial(DATA, &[&CONTINUE[..], &block].concat());
    for (chip, channel) in [(1, 4), (1, 5), (1, 6), (0, 79)] {
        cases.push(add(&sampled, &[1, 5, chip, channel], sampled.len() + 4));
    }
    cases
}

/// Times, headers and bins beside the one that stands. Order comes before
/// room and after value.
fn add_orders() -> Vec<Case> {
    let block = [&START[..], &[0xCA85, 0x0E03, 0x30FA, 0x30FB]].concat();
    let sampled = partial(DATA, &block);
    let full = partial(DATA, &[&START[..], &[0xCA85, 0x0FFF, 0x30FA]].concat());
    let binned = partial(MONITOR, &[0x8A85, 0x2100, 1, 0]);
    let mut cases = Vec::new();
    for time in [0, 4, 5, 6, 7, 511, 512] {
        cases.push(add(&sampled, &[7, time], sampled.len() + 4));
    }
    for (chip, channel) in [(0, 78), (1, 4), (1, 5), (1, 6), (2, 0), (1, 79), (0, 79)] {
        cases.push(add(&sampled, &[1, 5, chip, channel], sampled.len() + 4));
        cases.push(add(&binned, &[2, 5, chip, channel], binned.len() + 4));
    }
    for bin in [0, 255, 256, 257, 4095, 4096] {
        cases.push(add(&binned, &[5, bin, 1], binned.len() + 8));
    }
    cases.push(add(&full, &[4, 1], full.len() + 4));
    cases.push(add(&full, &[4, 1], full.len()));
    cases.push(add(&full, &[4, 4096], full.len()));
    cases.push(add(&binned, &[5, 256, 1], binned.len()));
    cases.push(add(&binned, &[5, 256, 0], binned.len()));
    cases
}

/// Lengths that are none, and partial frames at 8,190 bytes.
fn add_lengths() -> Vec<Case> {
    let mut cases = Vec::new();
    let before = partial(MONITOR, &[0x8A05]);
    for length in [0, 2, 4, 5, 6, 7, 8, 9, 10, 12, 14, 8190, 8192].into_iter().chain(FAR) {
        cases.push(Case::new(ADD, &[length, 2, 5, 1, 0]).p(&lent(&before, 12)));
    }
    // One bin more would end at 8,190, 8,192 or 8,194 bytes with the end word.
    for words in [4088, 4089, 4090, 4091, 4092] {
        let long = partial(MONITOR, &filled(MONITOR, words));
        cases.push(add(&long, &[2, 5, 3, 1], 8200));
        cases.push(add(&long, &[2, 5, 3, 1], 8192));
    }
    let long = partial(DATA, &[&START[..], &vec![0x4A01; 4081]].concat());
    for size in [8180, 8182] {
        cases.push(add(&long, &[13, size], 8300));
    }
    cases.push(add(&partial(MONITOR, &filled(MONITOR, 4093)), &[2, 5, 3, 1], 8300));
    cases
}

/// At most so many partial frames for each refusal of a partial frame.
fn partials_with_faults(of_each: usize) -> Vec<Vec<u8>> {
    let mut partials: Vec<Vec<u8>> = tried_frames(of_each).iter().map(|f| partial_of(f)).collect();
    for size in [1, 6, 8, 0x0100] {
        let mut sized = partial(COMMAND, &[]);
        sized[2..4].copy_from_slice(&(size as u16).to_le_bytes());
        partials.push(sized);
    }
    // The end word of a closed frame is an item here.
    partials.push(partial(DATA, &[0x000F]));
    partials
}

pub fn add_text_cases() -> Vec<Case> {
    let mut cases = Vec::new();
    let mut ask = |partial: &[u8], text: &[u8], length: usize| {
        let case = Case::new(ADD_TEXT, &[partial.len() as u64]);
        cases.push(case.p(&lent(partial, length)).q(text));
    };
    for before in befores() {
        let partial = partial(before.start, &before.items);
        ask(&partial, b"AB", partial.len() + 8);
    }
    let empty = partial(COMMAND, &[]);
    for length in [0, 1, 2, 252, 253, 254] {
        // Head, text, final zero, padding and end word, exactly and not quite.
        let need = 6 + 2 + (length + 2) / 2 * 2 + 2;
        [need - 1, need].into_iter().for_each(|room| ask(&empty, &vec![0x41; length], room));
    }
    for length in [255, 256, 510] {
        [8, 600].into_iter().for_each(|room| ask(&empty, &vec![0x41; length], room));
    }
    for at in [0, 1, 2] {
        let mut text = b"ABC".to_vec();
        text[at] = 0;
        ask(&empty, &text, 40);
    }
    ask(&empty, &[0], 40);
    ask(&empty, &[0xFF; 5], 40);
    for frame in partials_with_faults(1) {
        ask(&frame, b"A", frame.len() + 20);
    }
    for words in [4088, 4089, 4090] {
        [8192, 8200].into_iter().for_each(|room| {
            ask(&partial(COMMAND, &filled(COMMAND, words)), b"AB", room);
        });
    }
    for length in [0, 4, 5, 7, 9, 8190].into_iter().chain(FAR) {
        cases.push(Case::new(ADD_TEXT, &[length]).p(&lent(&empty, 8)).q(b"A"));
    }
    cases
}

pub fn close_cases() -> Vec<Case> {
    let mut cases = Vec::new();
    let mut ask = |partial: &[u8], length: usize| {
        cases.push(Case::new(CLOSE, &[partial.len() as u64]).p(&lent(partial, length)));
    };
    for frame in partials_with_faults(2) {
        ask(&frame, frame.len() + 4);
    }
    let sound = [third(), seventh(), two_events(), three_histograms(), five_texts(), three_parts()];
    for frame in sound {
        let partial = partial_of(&frame);
        (0..3).for_each(|more| ask(&partial, partial.len() + more));
    }
    // After each class in an event and in a part: a cut comes before room.
    for opener in [&START[..], &CONTINUE] {
        let block = [0xCA05, 0x0E03, 0x30FA];
        for items in [&[][..], &[0x4A05], &[0x1805], &block[..1], &block[..2], &block] {
            let open = partial(DATA, &[opener, items].concat());
            [0, 2].into_iter().for_each(|more| ask(&open, open.len() + more));
        }
    }
    for size in [0, 12, 0xFFFF] {
        let ended = partial(DATA, &[&CONTINUE[..], &[0x00E0, size, size]].concat());
        [0, 2].into_iter().for_each(|more| ask(&ended, ended.len() + more));
    }
    for words in [4091, 4092, 4093] {
        let long = partial(DATA, &filled(DATA, words));
        [0, 2, 10].into_iter().for_each(|more| ask(&long, long.len() + more));
    }
    for length in [0, 4, 5, 6, 7, 8, 10, 8190, 8191, 8192].into_iter().chain(FAR) {
        cases.push(Case::new(CLOSE, &[length]).p(&lent(&partial(MONITOR, &[]), 8)));
    }
    cases
}
