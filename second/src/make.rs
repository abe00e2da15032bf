//! The generator of fresh cases. A draw picks an op and makes one case for it,
//! or a chain of calls in which each works on what the one before left.

use crate::answer::answer;
use crate::book::Class;
use crate::cases::*;
use crate::chains;
use crate::damage::{damaged_frame, edge_word};
use crate::draft::{small_size, sound};
use crate::frame::{self, Found};
use crate::item::Item;
use crate::make_corrections;
use crate::make_record;
use crate::make_run;
use crate::make_writer;
use crate::rng::Rng;
use crate::rules::Kind;

/// Where cases go: those of a wanted op are written until enough are there.
pub struct Sink {
    wanted: [bool; OPS],
    left: usize,
    out: Vec<u8>,
}

impl Sink {
    pub fn new(ops: &[u8], count: usize) -> Sink {
        let wanted = std::array::from_fn(|op| ops.contains(&(op as u8)));
        Sink { wanted, left: count, out: Vec::new() }
    }

    pub fn is_full(&self) -> bool {
        self.left == 0
    }

    pub fn emit(&mut self, case: &Case) {
        if self.wanted[case.op as usize] && self.left > 0 {
            case.write(&mut self.out);
            self.left -= 1;
        }
    }

    /// Writes the case as it stands and then does the call, so that a chain
    /// can go on from what it leaves.
    pub fn call(&mut self, case: &mut Case) -> String {
        self.emit(case);
        answer(case)
    }

    pub fn bytes(self) -> Vec<u8> {
        self.out
    }
}

/// So many cases of the given ops, decided by the seed alone.
pub fn make(seed: u64, count: usize, ops: &[u8]) -> Vec<u8> {
    let mut rng = Rng::new(seed);
    let mut sink = Sink::new(ops, count);
    while !sink.is_full() {
        let op = rng.pick(ops);
        draw(&mut rng, op, &mut sink);
    }
    sink.bytes()
}

fn draw(rng: &mut Rng, op: u8, sink: &mut Sink) {
    let chain = rng.percent(4);
    match op {
        CLASSIFY => sink.emit(&classify_case(rng)),
        READ..=COUNTS | SAMPLE_WORD | BIN_WORD => sink.emit(&question(rng, op)),
        BEGIN..=CLOSE if chain => chains::writing(rng, sink),
        BEGIN => sink.emit(&make_writer::begin_case(rng)),
        ADD..=CLOSE => sink.emit(&make_writer::partial_case(rng, op)),
        FOLLOW => sink.emit(&follow_case(rng)),
        RUN | STEP if chain => chains::running(rng, sink),
        RUN => sink.emit(&make_run::run_case(rng)),
        STEP => sink.emit(&make_run::step_case(rng)),
        _ if chain => chains::recording(rng, sink),
        EDIT_ALL => sink.emit(&make_corrections::edit_all_case(rng)),
        _ => sink.emit(&make_record::record_case(rng, op)),
    }
}

fn classify_case(rng: &mut Rng) -> Case {
    let word = if rng.percent(60) { rng.next() as u16 } else { edge_word(rng) };
    // Half of the book lies under 0x4000, and most of the edges.
    let word = if rng.percent(30) { word >> rng.below(16) } else { word };
    Case::new(CLASSIFY, &[word as u64])
}

fn follow_case(rng: &mut Rng) -> Case {
    let state =
        if rng.percent(40) { rng.pick(&[0, 0, 1, 2, 255, 256]) } else { rng.within(0, 256) };
    let any = rng.next() as u16;
    let near = (state as u16).wrapping_add(rng.pick(&[0xFFFE, 0xFFFF, 0, 1])) & 0xFF;
    let edge = rng.pick(&[0, 1, 0xFE, 0xFF, 0x100, 0x101, 0x1FF, 0x200, 0xFFFF]);
    let word = rng.pick(&[any, any & 0xFF, any & 0x1FF, near, edge, edge]);
    Case::new(FOLLOW, &[state, word as u64])
}

/// A frame kind that suits the question in most draws.
fn kind_for(rng: &mut Rng, op: u8) -> Kind {
    let any = rng.pick(&Kind::ALL);
    let suited = match op {
        TEXT => Kind::Command,
        EVENT | SAMPLES | SAMPLE_WORD => Kind::Data,
        COUNTS | BIN_WORD => Kind::Monitor,
        _ => any,
    };
    if rng.percent(75) {
        suited
    } else {
        any
    }
}

fn question(rng: &mut Rng, op: u8) -> Case {
    let kind = kind_for(rng, op);
    let words = small_size(rng);
    let draft = sound(rng, kind, words);
    let bytes = if rng.percent(58) { draft.frame() } else { damaged_frame(rng, &draft) };
    let items = frame::read(&bytes).map_or(Vec::new(), |frame| frame.items);
    let count_of = |class| items.iter().filter(|found| found.item.class() == class).count();
    let arguments = match op {
        READ => vec![],
        EVENT => {
            let events = count_of(Class::StartEvent) + count_of(Class::ContinueEvent);
            vec![ordinal(rng, events)]
        }
        SAMPLES => {
            let [event, chip, channel] = aim_at_channel(rng, &items);
            let fill = rng.pick(&[0xFFFF, 0, 0x1234, 0x0FFF]);
            vec![event, chip, channel, elements(rng, 512), fill]
        }
        COUNTS => {
            let [_, chip, channel] = aim_at_channel(rng, &items);
            let fill = rng.pick(&[0, 1, 0xFFFF_FFFF, 0x1234_5678]);
            vec![chip, channel, elements(rng, 4096), fill]
        }
        SAMPLE_WORD => aim_at_value(rng, &items).to_vec(),
        BIN_WORD => aim_at_value(rng, &items)[1..].to_vec(),
        _ => vec![ordinal(rng, items.len())],
    };
    Case::new(op, &arguments).p(&bytes)
}

/// An ordinal: mostly one of `count`, else just past the end or far out. Far
/// out are also numbers that look small when cut to 16 or 32 bits.
pub fn ordinal(rng: &mut Rng, count: usize) -> u64 {
    let inside = rng.below(count.max(1)) as u64;
    let end = count as u64;
    match rng.below(12) {
        0 => end,
        1 => end + 1,
        2 => end.saturating_sub(1),
        3 => rng.pick(&[1 << 16, 1 << 32, 1 << 63]) + inside,
        4 => u64::MAX - rng.below(2) as u64,
        _ => inside,
    }
}

/// How many elements are lent where `need` are asked for.
fn elements(rng: &mut Rng, need: u64) -> u64 {
    let more = if need == 512 { 600 } else { 4200 };
    rng.pick(&[need, need, need, need, need, need, need - 1, need + 1, more, 0])
}

/// Event, chip and channel of a Channel or Histogram that stands, mostly.
fn aim_at_channel(rng: &mut Rng, items: &[Found]) -> [u64; 3] {
    let mut standing = Vec::new();
    let mut events = 0u64;
    for found in items {
        match found.item {
            Item::StartEvent { .. } | Item::ContinueEvent { .. } => events += 1,
            Item::Channel { chip, channel, .. } => standing.push([events - 1, chip, channel]),
            Item::Histogram { chip, channel, .. } => standing.push([0, chip, channel]),
            _ => {}
        }
    }
    let mut aim = [0, rng.within(0, 4), rng.within(0, 80)];
    if !standing.is_empty() && rng.percent(90) {
        aim = rng.pick(&standing);
    }
    if rng.percent(25) {
        // Beside it, or equal to it only if cut to the field's bits.
        let at = rng.below(3);
        aim[at] = match at {
            0 => ordinal(rng, events as usize),
            1 => rng.pick(&[aim[1] ^ 1, aim[1] + 4, 4, 0xFFFF]),
            _ => rng.pick(&[aim[2] + 1, aim[2] + 128, 78, 79, 0xFFFF]),
        };
    }
    aim
}

/// Event, chip, channel and time or bin of a Sample or Bin that stands,
/// mostly; else beside one, in a pause, or under another header.
fn aim_at_value(rng: &mut Rng, items: &[Found]) -> [u64; 4] {
    let mut standing = Vec::new();
    let (mut event, mut under, mut next) = (0u64, [0, 0], 0);
    for found in items {
        match found.item {
            Item::StartEvent { .. } | Item::ContinueEvent { .. } => event += 1,
            Item::Channel { chip, channel, .. } => under = [chip, channel],
            Item::Histogram { chip, channel, .. } => under = [chip, channel],
            Item::TimeBin { time } => next = time,
            Item::Sample { .. } => {
                standing.push([event - 1, under[0], under[1], next]);
                next += 1;
            }
            Item::Bin { bin, .. } => standing.push([0, under[0], under[1], bin]),
            _ => {}
        }
    }
    let [event, chip, channel] = aim_at_channel(rng, items);
    let mut aim = [event, chip, channel, rng.within(0, 600)];
    if !standing.is_empty() && rng.percent(85) {
        aim = rng.pick(&standing);
    }
    if !standing.is_empty() && rng.percent(20) {
        // A time or number of some other one, under this header or not.
        aim[3] = rng.pick(&standing)[3];
    }
    if rng.percent(20) {
        let at = rng.below(4);
        let edges = [0, 3, 4, 78, 79, 511, 512, 4095, 4096, 0xFFFF];
        let old = aim[at];
        let beside = [old.wrapping_add(1), old.saturating_sub(1), old ^ 0x200, old ^ 0x1000];
        let new = if rng.percent(30) { rng.pick(&edges) } else { rng.pick(&beside) };
        // All but the event are of 16 bits.
        aim[at] = if at == 0 { new } else { new & 0xFFFF };
    }
    aim
}

#[cfg(test)]
mod tests {
    use super::*;
    use crate::tally::Tally;

    #[test]
    fn every_refusal_of_every_op_comes_up() {
        let ops: Vec<u8> = (0..OPS as u8).collect();
        let tally = Tally::of_cases(&make(2, 60_000, &ops));
        assert_eq!(tally.missing(), Vec::<String>::new());
        assert_eq!(tally.cases(), 60_000);
    }

    #[test]
    fn the_seed_decides() {
        assert_eq!(make(7, 300, &[8, 15]), make(7, 300, &[8, 15]));
        assert_ne!(make(7, 300, &[8, 15]), make(8, 300, &[8, 15]));
    }
}
