//! Runs whose lines are known from request 1 alone. The lines are written down
//! here and not computed.

use crate::cases::{Case, RUN};
use crate::known::*;
use crate::known_parts::part;
use crate::run::{payload, Step};

/// A case and the line that answers it.
pub type KnownLine = (Case, String);

/// What a step is to come to.
type Said = (Step, String);

fn taken(lost: u64, frame: Vec<u8>) -> Said {
    (Step::Frame(frame), format!("lost {lost}"))
}

fn refused(number: u8, place: u64, frame: Vec<u8>) -> Said {
    (Step::Frame(frame), format!("refused {number} at {place}"))
}

/// Refused by LINK.
fn link(frame: Vec<u8>) -> Said {
    refused(15, 0, frame)
}

fn given_up() -> Said {
    (Step::GiveUp, "given up".to_string())
}

fn run_of(card: u64, said: &[Said], end: &str) -> KnownLine {
    let steps: Vec<Step> = said.iter().map(|(step, _)| step.clone()).collect();
    let words = said.iter().map(|(_, words)| format!(" {words}"));
    let line = format!("ok{} {end}", words.collect::<String>());
    (Case::new(RUN, &[card]).p(&payload(&steps)), line)
}

/// A run of card 5, what its steps come to, and what is open at its end.
fn run(said: &[Said], end: &str) -> KnownLine {
    run_of(5, said, end)
}

pub fn data(sequence: u16, items: &[u16]) -> Vec<u8> {
    framed_with(sequence, DATA, items)
}

/// Event 7 begins: 18 bytes, the last header CA05.
pub fn first(sequence: u16) -> Vec<u8> {
    first_with(sequence, 0xCA05)
}

fn first_with(sequence: u16, channel: u16) -> Vec<u8> {
    data(sequence, &[&START[..], &[channel, 0x0E03, 0x30FA]].concat())
}

/// It goes on in 6 bytes.
pub fn goes_on(sequence: u16) -> Vec<u8> {
    data(sequence, &CONTINUE)
}

/// It goes on in 12 bytes, with a Channel.
pub fn channel(sequence: u16, word: u16) -> Vec<u8> {
    data(sequence, &part(&[word, 0x0E03, 0x30FA]))
}

/// It ends in 12 bytes.
pub fn ends(sequence: u16, size: u16) -> Vec<u8> {
    data(sequence, &part(&[0x00E0, size, 0]))
}

pub fn whole(sequence: u16) -> Vec<u8> {
    data(sequence, &event(&[0x4A05]))
}

pub fn empty(sequence: u16) -> Vec<u8> {
    data(sequence, &[])
}

pub fn runs() -> Vec<KnownLine> {
    let sound = [sound(), many_frames(), headers(), sizes(), numbers_inside(), numbers_outside()];
    [sound.concat(), strays(), faulty(), giving_up(), links()].concat()
}

/// Runs in which nothing is refused.
fn sound() -> Vec<KnownLine> {
    let (open, end) = ([&START[..], &vec![0x4A01; 4086]].concat(), [0x00E0, 0x3FF0, 0]);
    let long_end = [&CONTINUE[..], &vec![0x1801; 4086], &end].concat();
    // Event 7 ends, a whole one follows, event 8 begins: 14 bytes.
    let eighth = [0x00F2, 0, 0, 0, 8, 0, 0x4A05];
    let turns = [&part(&[0x00E0, 30, 0])[..], &event(&[]), &eighth].concat();
    let eighth_ends = data(2, &[0x0A00, 8, 0, 0x00E0, 26, 0]);
    // Event 7 ends and another of the same number begins.
    let again = [&part(&[0x00E0, 30, 0])[..], &START].concat();
    vec![
        run(&[], "none"),
        run(&[taken(0, empty(0))], "none"),
        run(&[taken(0, whole(0x0100)), taken(0, empty(1)), taken(0, whole(2))], "none"),
        run(&[taken(0, first(0x0100))], "open 7 18"),
        run(&[taken(0, first(0x0100)), taken(0, ends(1, 30))], "none"),
        run(&[taken(0, first(0)), taken(0, goes_on(0)), taken(0, ends(0, 36))], "none"),
        run(&[taken(0, first(0)), taken(0, data(0, &turns))], "open 8 14"),
        run(&[taken(0, first(0x0100)), taken(0, data(1, &turns)), taken(0, eighth_ends)], "none"),
        run(&[taken(0, first(0)), taken(0, data(0, &again)), taken(0, ends(0, 24))], "none"),
        run(&[taken(0, data(0, &open)), taken(0, data(0, &long_end))], "none"),
        run(&vec![taken(0, empty(0)); 24], "none"),
    ]
}

/// Events in one, five and 24 frames.
fn many_frames() -> Vec<KnownLine> {
    // 18, 12, 6, 12 and 12 bytes.
    let five = [
        taken(0, first(0x0100)),
        taken(0, channel(1, 0xCA06)),
        taken(0, goes_on(2)),
        taken(0, channel(3, 0xCBCE)),
        taken(0, ends(4, 60)),
    ];
    let mut many = vec![taken(0, first(0))];
    many.extend((0..22).map(|_| taken(0, goes_on(0))));
    many.push(taken(0, ends(0, 18 + 22 * 6 + 12)));
    // A number that is all ones, and no Channel.
    let full = [0x00FF, 0, 0, 0, 0xFFFF, 0xFFFF];
    vec![
        run(&five[..4], "open 7 48"),
        run(&five, "none"),
        run(&many, "none"),
        run(&[taken(0, data(0, &full))], "open 4294967295 12"),
    ]
}

/// The headers of the next part, with and without a part between.
fn headers() -> Vec<KnownLine> {
    let next = |between: &[Said], at: u16, before: u64| {
        let mut said = vec![taken(0, first(0x0100))];
        said.extend(between.to_vec());
        said.extend([0xCA05, 0xCA04, 0xCA00].map(|word| link(channel(at, word))));
        said.push(taken(0, channel(at, 0xCA06)));
        run(&said, &format!("open 7 {}", before + 12))
    };
    let two = |one: u16, other: u16| [taken(0, first_with(0, one)), taken(0, channel(0, other))];
    let fall = [taken(0, first_with(0, 0xCA80)), link(channel(0, 0xCA4E))];
    // A next event begins anew, in the same frame and in its own parts.
    let ended = [&part(&[0x00E0, 30, 0])[..], &START, &[0xCA00, 0x0E00, 0x3001]].concat();
    let anew = [taken(0, first(0)), taken(0, data(0, &ended)), taken(0, channel(0, 0xCA01))];
    let bare = [&part(&[0x00E0, 30, 0])[..], &START].concat();
    let kept = [taken(0, first(0)), taken(0, data(0, &bare)), taken(0, channel(0, 0xCA00))];
    vec![
        next(&[], 1, 18),
        next(&[taken(0, goes_on(1))], 2, 24),
        next(&[taken(0, goes_on(1)), taken(0, data(2, &part(&[0x4A05])))], 3, 32),
        run(&two(0xCA4E, 0xCA80), "open 7 30"),
        run(&two(0xCA00, 0xCA01), "open 7 30"),
        run(&fall, "open 7 18"),
        run(&anew, "open 7 30"),
        run(&kept, "open 7 24"),
    ]
}

/// Sizes that count too little or too much: of 18, 6 and 12 bytes.
fn sizes() -> Vec<KnownLine> {
    // Without both Continue items, without one; the three frames' other words,
    // those of two; single parts; one off; none.
    let wrong = [24, 30, 36 + 24, 36 + 16, 36 + 8, 12, 18, 6, 34, 35, 37, 38, 0];
    let mut said = vec![taken(0, first(0x0100)), taken(0, goes_on(1))];
    said.extend(wrong.map(|size| link(ends(2, size))));
    said.push(link(data(2, &part(&[0x00E0, 36, 1]))));
    said.push(taken(0, ends(2, 36)));
    // In two frames: the part's own size, the first part's, both.
    let two = [
        taken(0, first(0)),
        link(ends(0, 12)),
        link(ends(0, 18)),
        link(ends(0, 24)),
        taken(0, ends(0, 30)),
    ];
    vec![run(&said, "none"), run(&two, "none")]
}

/// Sequence words inside an event: numbers in use and not, and around 255.
fn numbers_inside() -> Vec<KnownLine> {
    let counted = [
        taken(0, first(0x0100)),
        link(goes_on(0)),
        link(goes_on(2)),
        link(goes_on(0x00FF)),
        taken(0, goes_on(1)),
        taken(0, goes_on(0x0100)),
        taken(0, ends(1, 42)),
    ];
    let idle = [
        taken(0, first(0)),
        refused(14, 0, goes_on(1)),
        refused(14, 0, goes_on(0x00FF)),
        taken(0, goes_on(0)),
        taken(0, goes_on(0x0100)),
        link(goes_on(0)),
        taken(0, ends(1, 42)),
    ];
    let around = [
        taken(0, empty(0x0100)),
        taken(253, empty(0x00FE)),
        taken(0, first(0x00FF)),
        taken(0, ends(0, 30)),
        taken(0, empty(1)),
    ];
    vec![run(&counted, "none"), run(&idle, "none"), run(&around, "none")]
}

/// Sequence words outside an event, where a loss is only told.
fn numbers_outside() -> Vec<KnownLine> {
    let losses = [
        taken(0, whole(0x0100)),
        taken(4, whole(5)),
        taken(255, whole(5)),
        taken(250, whole(0)),
        taken(0, whole(0x0100)),
        taken(1, first(2)),
        link(goes_on(4)),
        taken(0, goes_on(3)),
    ];
    // What was lost inside is told by the next frame that is taken.
    let later = [taken(0, first(0x0100)), link(ends(3, 30)), given_up(), taken(3, whole(4))];
    let early = [refused(14, 0, whole(1)), taken(0, whole(0x0100)), taken(0, whole(1))];
    vec![run(&losses, "open 7 24"), run(&later, "none"), run(&early, "none")]
}

/// A monitor frame, a command frame and one of another card.
pub fn others(sequence: u16) -> [Vec<u8>; 3] {
    let monitor = framed_with(sequence, MONITOR, &[0x8A05, 0x2100, 1, 0]);
    let command = framed_with(sequence, COMMAND, &[0x0102, 0x0041]);
    [monitor, command, framed_with(sequence, 0x0804, &event(&[0x4805]))]
}

/// Frames of other kinds and cards, and empty ones: inside and outside, with a
/// number before a start, the right number and another one.
fn strays() -> Vec<KnownLine> {
    let links = |sequence| others(sequence).map(link);
    let early = |sequence| others(sequence).map(|frame| refused(14, 0, frame));
    let mut idle = vec![taken(0, first(0))];
    idle.extend([early(5), links(0), links(0x0100)].concat());
    idle.extend([refused(14, 0, empty(5)), link(empty(0)), link(empty(0x0100))]);
    idle.push(taken(0, ends(0, 30)));
    let mut counted = vec![taken(0, first(0x0100))];
    counted.extend([links(1), links(9), links(0x0100)].concat());
    counted.extend([link(empty(1)), link(empty(9)), link(empty(0x0100)), taken(0, ends(1, 30))]);
    let mut outside = [early(5), links(0), links(0x0100)].concat();
    outside.extend([refused(14, 0, empty(5)), taken(0, empty(0)), taken(0, empty(0x0100))]);
    outside.extend([links(1), links(9)].concat());
    outside.extend([taken(0, empty(1)), taken(7, empty(9)), taken(0, first(10))]);
    // A part of the open event, but of another card or in no data frame.
    let part_of = |start| framed_with(1, start, &CONTINUE);
    let parts = [
        taken(0, first(0x0100)),
        link(part_of(0x0804)),
        refused(8, 3, part_of(MONITOR)),
        taken(0, part_of(DATA)),
    ];
    vec![
        run(&idle, "none"),
        run(&counted, "none"),
        run(&outside, "open 7 18"),
        run(&parts, "open 7 24"),
    ]
}

/// Frames that are refused for themselves, one of each number, and then the
/// right one.
fn faulty() -> Vec<KnownLine> {
    let one_of = |number: u8| {
        let of_number = |known: &Known| known.refusal.is_some_and(|refusal| refusal.0 == number);
        frames().into_iter().find(of_number).expect("a frame of each refusal")
    };
    let each = (1..=11).map(|number| {
        let known = one_of(number);
        refused(number, known.refusal.map_or(0, |refusal| refusal.1), known.bytes)
    });
    let each: Vec<Said> = each.collect();
    let inside = [&[taken(0, first(0))], &each[..], &[taken(0, ends(0, 30))]].concat();
    let outside = [&each[..], &[taken(0, whole(0x0100))]].concat();
    // The frame's own fault comes before 14 and 15.
    let mixed = [
        refused(9, 3, data(5, &[0x0A01, 7, 0])),
        refused(11, 7, data(5, &part(&[0xCA05]))),
        refused(14, 0, data(5, &CONTINUE)),
        link(goes_on(0)),
        refused(1, 0, vec![]),
        refused(1, 0, vec![5]),
    ];
    vec![run(&inside, "none"), run(&outside, "none"), run(&mixed, "none")]
}

/// Giving up inside and outside, then Continue, then Start.
fn giving_up() -> Vec<KnownLine> {
    let inside = [
        taken(0, first(0x0100)),
        taken(0, goes_on(1)),
        given_up(),
        link(goes_on(2)),
        link(ends(2, 36)),
        taken(0, first(2)),
        taken(0, ends(3, 30)),
    ];
    let outside = [given_up(), link(goes_on(0)), taken(0, first(0)), given_up(), given_up()];
    // The header of the event that was given up is gone with it.
    let anew = [
        taken(0, first_with(0, 0xCBCE)),
        given_up(),
        taken(0, data(0, &START)),
        taken(0, channel(0, 0xCA00)),
    ];
    vec![
        run(&inside, "none"),
        run(&outside, "none"),
        run(&anew, "open 7 24"),
        run(&vec![given_up(); 24], "none"),
        run(&[taken(0, empty(0x0100)), given_up(), taken(1, first(2))], "open 7 18"),
    ]
}

/// No Continue event, another number, no open event, another card asked.
fn links() -> Vec<KnownLine> {
    let number = |low, high| data(1, &[0x0A00, low, high]);
    let open = [
        taken(0, first(0x0100)),
        link(number(8, 0)),
        link(number(7, 1)),
        link(number(0, 7)),
        link(first(1)),
        link(whole(1)),
        link(empty(1)),
        link(data(1, &part(&[&[0x00E0, 36, 0], &START[..], &[0x4A05]].concat()))),
        taken(0, number(7, 0)),
    ];
    let none = [link(goes_on(0)), taken(0, whole(0)), link(goes_on(0)), link(ends(0, 12))];
    let mut known = vec![run(&open, "open 7 24"), run(&none, "none")];
    for card in [0, 4, 6, 31, 32, 37, 0x0105, 0xFFFF] {
        known.push(run_of(card, &[link(first(0)), link(empty(0))], "none"));
    }
    let highest = [framed_with(0, 0x081F, &START), framed_with(0, 0x081F, &CONTINUE)];
    known.push(run_of(31, &highest.map(|frame| taken(0, frame)), "open 7 18"));
    known.push(run_of(0, &[taken(0, framed_with(0, 0x0800, &START))], "open 7 12"));
    known.push(run_of(63, &[link(framed_with(0, 0x081F, &START))], "none"));
    known
}
