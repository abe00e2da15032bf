//! Chains of calls: a whole frame written by calls, a record edited by calls.
//! Each case is given the buffer that the call before it left. Edits that were
//! asked singly are in some chains asked again in lists.

use crate::answer::state_code;
use crate::assembler::Assembler;
use crate::cases::*;
use crate::corrections::payload;
use crate::draft::{any_card, long, sound, Draft};
use crate::draft_run::lay_out as lay_out_run;
use crate::item::Item;
use crate::make::Sink;
use crate::make_corrections::correction;
use crate::make_record::{edit_arguments, history, lay_out, recorded_draft};
use crate::make_run::any_run;
use crate::make_writer::{add, aimed_item, aimed_text, begin_case};
use crate::record::{Correction, Version, ENTRY_BYTES, HEADER_BYTES, MAX_ENTRIES};
use crate::rng::Rng;
use crate::rules::Kind;
use crate::run::{steps, Step};
use crate::writer;

/// The length that an accepted writer call answered.
fn new_length(line: &str) -> Option<u64> {
    line.strip_prefix("ok ")?.split(' ').next()?.parse().ok()
}

/// Does a call and keeps what it left in the buffer, and the length if new.
fn step(sink: &mut Sink, case: Case, buffer: &mut Vec<u8>, length: &mut u64) {
    let mut case = case.p(buffer);
    if let Some(new) = new_length(&sink.call(&mut case)) {
        *length = new;
    }
    *buffer = case.p;
}

/// Begins, adds and closes a frame, then asks about it.
pub fn writing(rng: &mut Rng, sink: &mut Sink) {
    let kind = rng.pick(&Kind::ALL);
    let words = if rng.percent(10) { rng.below(120) } else { rng.below(30) };
    let draft = sound(rng, kind, words);
    let whole = draft.frame().len();
    let room = match rng.below(8) {
        0 => whole.saturating_sub(1 + rng.below(12)),
        1..=3 => whole,
        _ => whole + rng.below(60),
    };
    let mut buffer = rng.bytes(room);
    let mut length = 0;
    if rng.percent(30) {
        // Refused or not, the next begin starts over.
        step(sink, Case { p: vec![], ..begin_case(rng) }, &mut buffer, &mut length);
    }
    let code = Kind::ALL.iter().position(|k| *k == kind).unwrap() as u64;
    let begin = Case::new(BEGIN, &[code, draft.card(), draft.sequence as u64]);
    step(sink, begin, &mut buffer, &mut length);
    if rng.percent(65) {
        write_draft(rng, sink, &draft, &mut buffer, &mut length);
    } else {
        wander(rng, sink, &mut buffer, &mut length);
    }
    step(sink, Case::new(CLOSE, &[length]), &mut buffer, &mut length);
    // A closed frame is no partial frame.
    let again = Case::new(CLOSE, &[length]);
    step(sink, again, &mut buffer, &mut length);
    ask(sink, &buffer[..buffer.len().min(length as usize)]);
}

/// Adds the items of a draft one by one, with a stray call now and then.
fn write_draft(
    rng: &mut Rng,
    sink: &mut Sink,
    draft: &Draft,
    buffer: &mut Vec<u8>,
    length: &mut u64,
) {
    let stray = rng.pick(&[0, 0, 10, 25]);
    for at in 0..draft.items.len() {
        if rng.percent(stray) {
            wander_once(rng, sink, buffer, length);
        }
        let case = match draft.item(at) {
            Some(item) => add(*length, &item),
            None => Case::new(ADD_TEXT, &[*length]).q(&draft.text(at)),
        };
        step(sink, case, buffer, length);
    }
}

/// Adds items that are aimed at what stands, good and bad, to the last one.
fn wander(rng: &mut Rng, sink: &mut Sink, buffer: &mut Vec<u8>, length: &mut u64) {
    for _ in 0..rng.below(25) {
        wander_once(rng, sink, buffer, length);
    }
    // Often the open event is ended; close takes an open one too.
    if let Ok((standing, _)) = writer::partial(buffer, *length) {
        if standing.event.is_some() && rng.percent(50) {
            let size = standing.event_size(*length as usize / 2).unwrap_or(long(rng));
            step(sink, add(*length, &Item::EndEvent { zero: 0, size }), buffer, length);
        }
    }
}

fn wander_once(rng: &mut Rng, sink: &mut Sink, buffer: &mut Vec<u8>, length: &mut u64) {
    let case = match writer::partial(buffer, *length) {
        Ok((standing, _)) if standing.kind != Kind::Command || rng.percent(20) => {
            add(*length, &aimed_item(rng, &standing, *length as usize / 2))
        }
        _ => Case::new(ADD_TEXT, &[*length]).q(&aimed_text(rng)),
    };
    step(sink, case, buffer, length);
}

/// Every question about a frame that has been written.
fn ask(sink: &mut Sink, frame: &[u8]) {
    sink.emit(&Case::new(READ, &[]).p(frame));
    let items = crate::frame::read(frame).map_or(Vec::new(), |frame| frame.items);
    for ordinal in 0..=items.len().min(12) as u64 {
        sink.emit(&Case::new(ITEM, &[ordinal]).p(frame));
    }
    for (ordinal, found) in items.iter().enumerate().take(12) {
        if matches!(found.item, Item::Text { .. }) {
            sink.emit(&Case::new(TEXT, &[ordinal as u64]).p(frame));
        }
    }
}

/// A run, and each of its steps from the state that the steps before it left.
pub fn running(rng: &mut Rng, sink: &mut Sink) {
    let card = any_card(rng);
    let payload = lay_out_run(&any_run(rng, card));
    sink.emit(&Case::new(RUN, &[card]).p(&payload));
    let mut assembler = Assembler::new(card);
    for step in steps(&payload).expect("a run") {
        match step {
            Step::GiveUp => assembler.give_up(),
            Step::Frame(bytes) => {
                sink.emit(&Case::new(STEP, &state_code(&assembler)).p(&bytes));
                let _ = assembler.step(&bytes);
            }
        }
    }
}

/// Opens a record and edits it, with refused calls among the accepted ones.
pub fn recording(rng: &mut Rng, sink: &mut Sink) {
    if rng.percent(6) {
        return filling(rng, sink);
    }
    let frame = recorded_draft(rng).frame();
    if frame.len() > 1000 {
        return;
    }
    let edits = rng.below(10);
    let slack = rng.pick(&[0, 0, 1, 16, 23, 24, 25, 40]);
    let room = HEADER_BYTES + frame.len() + ENTRY_BYTES * edits + slack;
    let mut open = Case::new(OPEN, &[]).p(&rng.bytes(room)).q(&frame);
    sink.call(&mut open);
    let (record, tried) = singly(rng, sink, &open.p, edits + edits / 2);
    if rng.percent(30) {
        in_lists(sink, &open.p, &tried);
    }
    look_back(rng, sink, &record, frame.len());
}

/// So many edits, one by one; answers what they leave and what they were, the
/// refused ones too.
fn singly(
    rng: &mut Rng,
    sink: &mut Sink,
    record: &[u8],
    edits: usize,
) -> (Vec<u8>, Vec<Correction>) {
    let mut record = record.to_vec();
    let mut tried = Vec::new();
    for _ in 0..edits {
        let arguments = edit_arguments(rng, &record);
        let mut edit = Case::new(EDIT, &arguments).p(&record);
        sink.call(&mut edit);
        record = edit.p;
        tried.push(correction(arguments));
    }
    (record, tried)
}

/// Where a list stopped.
fn position(line: &str) -> Option<usize> {
    line.split(" position ").nth(1)?.split(' ').next()?.parse().ok()
}

/// The same edits by lists: each takes those behind the one at which the list
/// before it stopped. Answers what they leave.
fn in_lists(sink: &mut Sink, record: &[u8], edits: &[Correction]) -> Vec<u8> {
    let mut list = Case::new(EDIT_ALL, &[]).p(record).q(&payload(edits));
    match position(&sink.call(&mut list)) {
        Some(at) => in_lists(sink, &list.p, &edits[at + 1..]),
        None => list.p,
    }
}

/// Judges the record, asks for every entry and restores to every k.
fn look_back(rng: &mut Rng, sink: &mut Sink, record: &[u8], frame: usize) {
    sink.emit(&Case::new(RECORD, &[]).p(record));
    let count = crate::item::word(record, 5) as u64;
    for number in 0..=count + 1 {
        sink.emit(&Case::new(ENTRY, &[number]).p(record));
        let more = rng.pick(&[0, 0, 0, 3]);
        let q = rng.bytes(frame + more);
        sink.emit(&Case::new(RESTORE, &[number]).p(record).q(&q));
    }
}

/// Edits a record whose history is full or nearly so.
fn filling(rng: &mut Rng, sink: &mut Sink) {
    let kind = rng.pick(&[Kind::Data, Kind::Monitor]);
    let mut frame = sound(rng, kind, 12).frame();
    let count = MAX_ENTRIES - rng.below(2);
    let entries = history(rng, &mut frame, count);
    let mut record = lay_out(Version::Second, &frame, &entries);
    let more = rng.pick(&[0, 16, ENTRY_BYTES, ENTRY_BYTES, 2 * ENTRY_BYTES]);
    record.extend(rng.bytes(more));
    let (after, tried) = singly(rng, sink, &record, 3);
    in_lists(sink, &record, &tried);
    let count = entries.len() as u64;
    let any = rng.within(0, count);
    let k = rng.pick(&[0, 1, count, count + 1, any, any]);
    let q = rng.bytes(frame.len());
    sink.emit(&Case::new(RESTORE, &[k]).p(&after).q(&q));
    sink.emit(&Case::new(ENTRY, &[k]).p(&after));
}

#[cfg(test)]
mod tests {
    use super::*;

    /// What single calls leave, the lists of the same edits leave.
    #[test]
    fn lists_leave_what_single_calls_leave() {
        let mut rng = Rng::new(9);
        let (mut changed, mut stopped) = (0, 0);
        for _ in 0..500 {
            let frame = recorded_draft(&mut rng).frame();
            let mut record = lay_out(Version::Second, &frame, &[]);
            let more = rng.below(180);
            record.extend(rng.bytes(more));
            let mut sink = Sink::new(&[EDIT_ALL], usize::MAX);
            let (after, tried) = singly(&mut rng, &mut sink, &record, 8);
            assert_eq!(in_lists(&mut sink, &record, &tried), after);
            changed += (after != record) as usize;
            stopped += (Cases::of(&sink.bytes()).count() > 1) as usize;
        }
        assert!(changed > 200 && stopped > 200, "{changed} {stopped}");
    }
}
