//! The line that answers a case: `ok` and the values in decimals, or
//! `refused NUMBER at PLACE`. Where a call was lent memory to write in, ` | `
//! follows with the length of that memory and a check sum over it, as the call
//! left it, refused or not. A value that stands in another frame is `-`. A run
//! is always `ok`, with what each step came to and what is open at its end. A
//! list of corrections that stops is `refused NUMBER at PLACE position K`.

use crate::assembler::{Assembler, Open};
use crate::book::{classify, Class};
use crate::cases::*;
use crate::corrections;
use crate::follower::{follow, Follower};
use crate::frame;
use crate::item::Item;
use crate::listing::listing;
use crate::record::{self, Stopped, Version};
use crate::rules::{refuse, Kind, Refusal, ROOM};
use crate::run::{steps, Step};
use crate::writer;

/// The line for input that is no case.
pub const BAD_CASE: &str = "bad case";

/// Length and check sum of the elements as a call left them.
fn sum<T: Copy + Into<u64>>(elements: &[T]) -> String {
    const MODULUS: u64 = 4_294_967_291;
    let (mut a, mut b) = (1u64, 0u64);
    for element in elements {
        a = (a + (*element).into()) % MODULUS;
        b = (b + a) % MODULUS;
    }
    format!("{} {}", elements.len(), (b << 32) + a)
}

/// `ok` and the values, or the refusal.
fn verdict(answer: Result<Vec<String>, Refusal>) -> String {
    match answer {
        Ok(values) if values.is_empty() => "ok".to_string(),
        Ok(values) => format!("ok {}", values.join(" ")),
        Err(refusal) => refused(refusal),
    }
}

fn refused(Refusal { number, place }: Refusal) -> String {
    format!("refused {number} at {place}")
}

fn numbers(values: &[u64]) -> Vec<String> {
    values.iter().map(|value| value.to_string()).collect()
}

/// The line of a case, without its line feed. The case's payloads are left as
/// the call leaves them, so that a chain of calls can go on from there.
pub fn answer(case: &mut Case) -> String {
    match case.op {
        CLASSIFY => verdict(Ok(numbers(&[classify(case.a[0] as u16).row()]))),
        READ..=COUNTS | SAMPLE_WORD | BIN_WORD => question(case),
        BEGIN..=CLOSE => {
            let written = write(case).map(|length| numbers(&[length as u64]));
            format!("{} | {}", verdict(written), sum(&case.p))
        }
        FOLLOW => verdict(follow_coded(case.a[0], case.a[1] as u16)),
        RUN => run_line(case.a[0], &case.p),
        STEP => verdict(step_coded(&case.a, &case.p)),
        _ => record_call(case),
    }
}

fn word_line(word: Result<usize, Refusal>) -> String {
    verdict(word.map(|index| numbers(&[index as u64])))
}

fn question(case: &Case) -> String {
    let (a, p) = (&case.a, case.p.as_slice());
    match case.op {
        READ => verdict(frame::read(p).map(|frame| {
            let values = [frame.card, frame.sequence as u64, frame.items.len() as u64];
            [vec![frame.kind.letter().to_string()], numbers(&values)].concat()
        })),
        ITEM => verdict(frame::item(p, a[0]).map(|found| {
            let class = vec![found.item.class().row()];
            let mut values = numbers(&[class, found.item.fields()].concat());
            values.extend(["next".to_string(), found.next.to_string()]);
            values
        })),
        TEXT => format!("ok {}", sum(frame::text(p, a[0]))),
        EVENT => verdict(frame::event(p, a[0]).map(|e| {
            let values = [e.kind, e.timestamp, Some(e.number), e.size, Some(e.index as u64)];
            // What stands in another frame is missing.
            values.map(|value| value.map_or("-".to_string(), |value| value.to_string())).to_vec()
        })),
        SAMPLE_WORD => word_line(frame::sample_word(p, a[0], a[1], a[2], a[3])),
        BIN_WORD => word_line(frame::bin_word(p, a[0], a[1], a[2])),
        SAMPLES => {
            let mut out = vec![a[4] as u16; a[3] as usize];
            let done = frame::samples(p, a[0], a[1], a[2], &mut out);
            format!("{} | {}", verdict(done.map(|()| vec![])), sum(&out))
        }
        _ => {
            let mut out = vec![a[3] as u32; a[2] as usize];
            let done = frame::counts(p, a[0], a[1], &mut out);
            format!("{} | {}", verdict(done.map(|()| vec![])), sum(&out))
        }
    }
}

fn write(case: &mut Case) -> Result<usize, Refusal> {
    let a = case.a;
    match case.op {
        BEGIN => writer::begin(&mut case.p, Kind::ALL[a[0] as usize], a[1], a[2] as u16),
        ADD => writer::add(&mut case.p, a[0], &added_item(&a)),
        ADD_TEXT => writer::add_text(&mut case.p, a[0], &case.q),
        _ => writer::close(&mut case.p, a[0]),
    }
}

/// The item that an add names by class and fields.
fn added_item(a: &[u64; 7]) -> Item {
    Item::from_fields(Class::of_row(a[1]), [a[2], a[3], a[4]]).expect("a row that can be added")
}

/// A follower is coded 0 for idle and 1 + e for expecting e.
fn follower_of(code: u64) -> Follower {
    match code {
        0 => Follower::Idle,
        coded => Follower::Expects((coded - 1) as u8),
    }
}

fn follower_code(follower: Follower) -> u64 {
    match follower {
        Follower::Idle => 0,
        Follower::Expects(number) => 1 + number as u64,
    }
}

fn follow_coded(state: u64, word: u16) -> Result<Vec<String>, Refusal> {
    let (lost, after) = follow(follower_of(state), word)?;
    Ok(numbers(&[lost, follower_code(after)]))
}

/// What each step of a run comes to, and what is open at its end.
fn run_line(card: u64, payload: &[u8]) -> String {
    let mut assembler = Assembler::new(card);
    let mut line = "ok".to_string();
    for step in steps(payload).expect("a case that is allowed") {
        let said = match step {
            Step::GiveUp => {
                assembler.give_up();
                "given up".to_string()
            }
            Step::Frame(bytes) => {
                assembler.step(&bytes).map_or_else(refused, |lost| format!("lost {lost}"))
            }
        };
        line = format!("{line} {said}");
    }
    match assembler.open {
        None => format!("{line} none"),
        Some(open) => format!("{line} open {} {}", open.number, open.size),
    }
}

/// The assembler whose state is given in numbers.
pub fn assembler_of(a: &[u64; 7]) -> Assembler {
    let header = a[5].checked_sub(1);
    let open = (a[2] == 1).then_some(Open { number: a[3], size: a[4], header });
    Assembler { card: a[0], follower: follower_of(a[1]), open }
}

/// The numbers that give its state: a0 to a5.
pub fn state_code(assembler: &Assembler) -> [u64; 6] {
    let [open, number, size, header] = assembler.open.map_or([0; 4], |open| {
        [1, open.number, open.size, open.header.map_or(0, |header| header + 1)]
    });
    [assembler.card, follower_code(assembler.follower), open, number, size, header]
}

/// One step from such a state: the loss, then the new state but for the card.
fn step_coded(a: &[u64; 7], frame: &[u8]) -> Result<Vec<String>, Refusal> {
    let mut assembler = assembler_of(a);
    let lost = assembler.step(frame)?;
    Ok(numbers(&[&[lost], &state_code(&assembler)[1..]].concat()))
}

fn record_call(case: &mut Case) -> String {
    let a = case.a;
    match case.op {
        RECORD => verdict(
            record::judge(&case.p)
                .map(|r| numbers(&[r.frame_length as u64, r.entries as u64, r.total as u64])),
        ),
        ENTRY => verdict(record::entry(&case.p, a[0]).map(|(version, e)| {
            let values = [e.index as u64, e.kind as u64, e.old as u64, e.new as u64];
            let ends = [e.operator as u64, e.reason as u64, e.time];
            // The time is a value of version 2 alone.
            let told = if version == Version::First { 2 } else { 3 };
            numbers(&[&values[..], &ends[..told]].concat())
        })),
        OPEN => {
            let done = record::open(&mut case.p, &case.q);
            format!("{} | {}", verdict(done.map(|()| vec![])), sum(&case.p))
        }
        EDIT => {
            let done = record::edit(&mut case.p, a[0], a[1], a[2], a[3], a[4]);
            format!("{} | {}", verdict(done.map(|()| vec![])), sum(&case.p))
        }
        EDIT_ALL => {
            let list = corrections::read(&case.q).expect("a case that is allowed");
            let done = record::edit_all(&mut case.p, &list);
            format!("{} | {}", list_verdict(done), sum(&case.p))
        }
        LIST => {
            let done = list(&case.p, &mut case.q);
            format!("{} | {}", verdict(done.map(|n| numbers(&[n as u64]))), sum(&case.q))
        }
        _ => {
            let done = record::restore(&case.p, a[0], &mut case.q);
            format!("{} | {}", verdict(done.map(|()| vec![])), sum(&case.q))
        }
    }
}

/// The refusal of a list is that of one correction, whose position it has.
fn list_verdict(done: Result<(), Stopped>) -> String {
    match done {
        Ok(()) => "ok".to_string(),
        Err(Stopped { position, refusal }) => format!("{} position {position}", refused(refusal)),
    }
}

/// Puts the listing of a buffer at the start of another.
fn list(buffer: &[u8], out: &mut [u8]) -> Result<usize, Refusal> {
    let text = listing(buffer);
    let Some(start) = out.get_mut(..text.len()) else {
        return refuse(ROOM);
    };
    start.copy_from_slice(text.as_bytes());
    Ok(text.len())
}

/// All lines of an input. A bad case is the last line.
pub fn answers(input: &[u8]) -> impl Iterator<Item = String> + '_ {
    Cases::of(input).map(|case| match case {
        Ok(mut case) => answer(&mut case),
        Err(BadCase) => BAD_CASE.to_string(),
    })
}

#[cfg(test)]
mod tests {
    use super::*;

    #[test]
    fn check_sums() {
        assert_eq!(sum::<u8>(&[]), "0 1");
        // a = 1, 3, 6; b = 0, 3, 9.
        assert_eq!(sum(&[2u8, 3]), format!("2 {}", (9u64 << 32) + 6));
        // 1 + 4,294,967,295 is 5 beyond the modulus.
        assert_eq!(sum(&[u32::MAX]), format!("1 {}", (5u64 << 32) + 5));
    }

    #[test]
    fn a_bad_case_ends_the_lines() {
        let mut input = Vec::new();
        Case::new(CLASSIFY, &[0xC000]).write(&mut input);
        Case::new(CLASSIFY, &[0x10000]).write(&mut input);
        Case::new(CLASSIFY, &[0]).write(&mut input);
        assert_eq!(answers(&input).collect::<Vec<_>>(), ["ok 1", "bad case"]);
    }
}
