//! The wire format of cases: what a case is, how it is read and written, and
//! which arguments an op allows.
//!
//! A case is 72 bytes and two payloads, all numbers low byte first: the op and
//! seven bytes of zero; seven arguments a0 to a6 of 8 bytes; the lengths of P
//! and Q, 4 bytes each, at most 24,576; then P and Q. What an op does not use
//! is zero or empty. Anything else is a bad case and ends the input.

use crate::book::Class;
use crate::corrections;
use crate::run;

pub const OPS: usize = 23;
pub const MAX_PAYLOAD: usize = 24_576;
const FIXED_BYTES: usize = 72;

pub const CLASSIFY: u8 = 0;
pub const READ: u8 = 1;
pub const ITEM: u8 = 2;
pub const TEXT: u8 = 3;
pub const EVENT: u8 = 4;
pub const SAMPLES: u8 = 5;
pub const COUNTS: u8 = 6;
pub const BEGIN: u8 = 7;
pub const ADD: u8 = 8;
pub const ADD_TEXT: u8 = 9;
pub const CLOSE: u8 = 10;
pub const FOLLOW: u8 = 11;
pub const RECORD: u8 = 12;
pub const ENTRY: u8 = 13;
pub const OPEN: u8 = 14;
pub const EDIT: u8 = 15;
pub const RESTORE: u8 = 16;
pub const LIST: u8 = 17;
pub const SAMPLE_WORD: u8 = 18;
pub const BIN_WORD: u8 = 19;
pub const RUN: u8 = 20;
pub const STEP: u8 = 21;
pub const EDIT_ALL: u8 = 22;

pub const NAMES: [&str; OPS] = [
    "classify",
    "read",
    "item",
    "text",
    "event",
    "samples",
    "counts",
    "begin",
    "add",
    "add text",
    "close",
    "follow",
    "record",
    "entry",
    "open",
    "edit",
    "restore",
    "list",
    "sample word",
    "bin word",
    "run",
    "step",
    "edit all",
];

/// One call: the op, its arguments, and the payloads P and Q.
#[derive(Clone, PartialEq, Eq, Debug)]
pub struct Case {
    pub op: u8,
    pub a: [u64; 7],
    pub p: Vec<u8>,
    pub q: Vec<u8>,
}

impl Case {
    pub fn new(op: u8, arguments: &[u64]) -> Case {
        let mut a = [0; 7];
        a[..arguments.len()].copy_from_slice(arguments);
        Case { op, a, p: Vec::new(), q: Vec::new() }
    }

    pub fn p(mut self, p: &[u8]) -> Case {
        self.p = p.to_vec();
        self
    }

    pub fn q(mut self, q: &[u8]) -> Case {
        self.q = q.to_vec();
        self
    }

    pub fn write(&self, out: &mut Vec<u8>) {
        out.extend([self.op, 0, 0, 0, 0, 0, 0, 0]);
        self.a.iter().for_each(|a| out.extend(a.to_le_bytes()));
        out.extend((self.p.len() as u32).to_le_bytes());
        out.extend((self.q.len() as u32).to_le_bytes());
        out.extend(&self.p);
        out.extend(&self.q);
    }

    /// Are the arguments and payloads what the table of ops allows?
    fn allowed(&self) -> bool {
        let Some((limits, uses_p, uses_q)) = table(self) else {
            return false;
        };
        let limit = |at: usize| limits.get(at).copied().unwrap_or(0);
        let in_limits = self.a.iter().enumerate().all(|(at, a)| *a <= limit(at));
        let uses = (uses_p || self.p.is_empty()) && (uses_q || self.q.is_empty());
        in_limits && uses && self.fits()
    }

    /// What the largest values cannot say.
    fn fits(&self) -> bool {
        match self.op {
            RUN => run::steps(&self.p).is_some(),
            // With no event open there is nothing to say of it.
            STEP => self.a[2] == 1 || self.a[3..6] == [0, 0, 0],
            EDIT_ALL => corrections::read(&self.q).is_some(),
            _ => true,
        }
    }
}

const U16: u64 = u16::MAX as u64;
const U32: u64 = u32::MAX as u64;
const ANY: u64 = u64::MAX;

/// The largest value of each argument that the op uses, and which payloads it
/// uses; none for an op, or a class to add, that is not listed.
fn table(case: &Case) -> Option<(Vec<u64>, bool, bool)> {
    Some(match case.op {
        CLASSIFY => (vec![U16], false, false),
        READ | RECORD => (vec![], true, false),
        ITEM | TEXT | EVENT | CLOSE | ENTRY => (vec![ANY], true, false),
        SAMPLES => (vec![ANY, U16, U16, 600, U16], true, false),
        COUNTS => (vec![U16, U16, 4200, U32], true, false),
        SAMPLE_WORD => (vec![ANY, U16, U16, U16], true, false),
        BIN_WORD => (vec![U16, U16, U16], true, false),
        BEGIN => (vec![2, U16, U16], true, false),
        ADD => ([vec![ANY, 15], field_limits(case.a[1])?].concat(), true, false),
        ADD_TEXT | RESTORE => (vec![ANY], true, true),
        FOLLOW => (vec![256, U16], false, false),
        OPEN | LIST | EDIT_ALL => (vec![], true, true),
        EDIT => (vec![U32, U32, U32, U32, ANY], true, false),
        RUN => (vec![U16], true, false),
        STEP => (vec![31, 256, 1, U32, U32, 512], true, false),
        _ => return None,
    })
}

/// The widths in which the fields of a class to add are handed over.
fn field_limits(row: u64) -> Option<Vec<u64>> {
    Some(match Class::of_row(row) {
        Class::Channel | Class::Histogram | Class::HitCount => vec![U16, U16, U16],
        Class::Sample | Class::TimeBin => vec![U16],
        Class::Bin => vec![U16, U32],
        Class::LastCell => vec![U16, U16],
        Class::StartEvent => vec![U16, ANY, U32],
        Class::EndEvent | Class::ContinueEvent => vec![U32],
        _ => return None,
    })
}

/// Input that is no case where one should stand.
#[derive(Clone, Copy, PartialEq, Eq, Debug)]
pub struct BadCase;

/// Takes the cases one by one from the front of the input. After a bad case
/// nothing more is given.
pub struct Cases<'a> {
    rest: &'a [u8],
}

impl<'a> Cases<'a> {
    pub fn of(input: &'a [u8]) -> Cases<'a> {
        Cases { rest: input }
    }

    fn take(&mut self) -> Option<Case> {
        let fixed = self.rest.get(..FIXED_BYTES)?;
        let long = |at: usize| u64::from_le_bytes(fixed[at..at + 8].try_into().unwrap());
        let length = |at: usize| u32::from_le_bytes(fixed[at..at + 4].try_into().unwrap());
        let (n, m) = (length(64) as usize, length(68) as usize);
        if long(0) >= OPS as u64 || n > MAX_PAYLOAD || m > MAX_PAYLOAD {
            return None;
        }
        let payloads = self.rest.get(FIXED_BYTES..FIXED_BYTES + n + m)?;
        let a = std::array::from_fn(|i| long(8 + 8 * i));
        let case = Case { op: fixed[0], a, p: payloads[..n].to_vec(), q: payloads[n..].to_vec() };
        self.rest = &self.rest[FIXED_BYTES + n + m..];
        case.allowed().then_some(case)
    }
}

impl Iterator for Cases<'_> {
    type Item = Result<Case, BadCase>;

    fn next(&mut self) -> Option<Result<Case, BadCase>> {
        if self.rest.is_empty() {
            return None;
        }
        let case = self.take();
        if case.is_none() {
            self.rest = &[];
        }
        Some(case.ok_or(BadCase))
    }
}

#[cfg(test)]
mod tests {
    use super::*;
    use crate::corrections::CORRECTION_BYTES;

    fn bytes_of(case: &Case) -> Vec<u8> {
        let mut out = Vec::new();
        case.write(&mut out);
        out
    }

    fn is_bad(bytes: &[u8]) -> bool {
        Cases::of(bytes).any(|case| case.is_err())
    }

    #[test]
    fn cases_read_back() {
        let first = Case::new(RESTORE, &[7]).p(&[1, 2, 3]).q(&[4]);
        let second = Case::new(CLASSIFY, &[0xFFFF]);
        let bytes = [bytes_of(&first), bytes_of(&second)].concat();
        assert_eq!(bytes.len(), 72 + 4 + 72);
        assert_eq!(Cases::of(&bytes).collect::<Vec<_>>(), [Ok(first), Ok(second)]);
        assert_eq!(Cases::of(&[]).count(), 0);
    }

    #[test]
    fn bad_cases() {
        let good = bytes_of(&Case::new(FOLLOW, &[256, 0xFFFF]));
        assert!(!is_bad(&good));
        assert!(is_bad(&good[..71]));
        for (at, value) in
            [(0, 17), (0, OPS as u8), (1, 1), (7, 1), (10, 1), (18, 1), (24, 1), (66, 1), (71, 1)]
        {
            let mut bytes = good.clone();
            bytes[at] = value;
            assert!(is_bad(&bytes), "byte {at}");
        }
        for (row, fields, bad) in [
            (7, 1, false),
            (8, 1, true),
            (11, 1, true),
            (14, 0, true),
            (13, 2, true),
            (15, 1, false),
        ] {
            let mut a = vec![6, row];
            a.resize(2 + fields, 1);
            assert_eq!(is_bad(&bytes_of(&Case::new(ADD, &a))), bad, "row {row}");
        }
        assert!(is_bad(&bytes_of(&Case::new(READ, &[]).q(&[1]))));
        let long = Case::new(READ, &[]).p(&vec![0; MAX_PAYLOAD]);
        assert!(!is_bad(&bytes_of(&long)));
        assert!(is_bad(&bytes_of(&Case::new(READ, &[]).p(&vec![0; MAX_PAYLOAD + 1]))));
    }

    #[test]
    fn bad_continue_events() {
        let add = |fields: &[u64]| is_bad(&bytes_of(&Case::new(ADD, &[&[6], fields].concat())));
        assert!(!add(&[15, U32]));
        for fields in [&[15, U32 + 1][..], &[15, 1, 1], &[16, 1], &[0, 1], &[14, 0]] {
            assert!(add(fields), "{fields:?}");
        }
    }

    #[test]
    fn bad_runs() {
        let run = |card, payload: &[u8]| is_bad(&bytes_of(&Case::new(RUN, &[card]).p(payload)));
        assert!(!run(U16, &[]) && !run(0, &[2, 0, 1, 2, 0xFF, 0xFF]) && !run(5, &[0; 48]));
        assert!(run(U16 + 1, &[]) && run(0, &[2, 0, 1]) && run(0, &[0]) && run(5, &[0; 50]));
        assert!(is_bad(&bytes_of(&Case::new(RUN, &[0, 1]))));
        assert!(is_bad(&bytes_of(&Case::new(RUN, &[0]).q(&[0, 0]))));
    }

    #[test]
    fn bad_steps() {
        let step = |a: &[u64]| is_bad(&bytes_of(&Case::new(STEP, a)));
        let good: [&[u64]; 3] = [&[], &[31, 256, 1, U32, U32, 512], &[0, 0, 1, 0, 0, 0]];
        good.iter().for_each(|a| assert!(!step(a), "{a:?}"));
        let most = [31, 256, 1, U32, U32, 512];
        for at in 0..6 {
            let mut a = most;
            a[at] += 1;
            assert!(step(&a), "{a:?}");
        }
        assert!(step(&[31, 256, 1, U32, U32, 512, 1]));
        // With no event open its number, size and header are zero.
        for at in 3..6 {
            let mut a = [0; 6];
            a[at] = 1;
            assert!(step(&a), "{a:?}");
        }
        assert!(is_bad(&bytes_of(&Case::new(STEP, &[]).q(&[0]))));
    }

    #[test]
    fn bad_edits() {
        let edit = |a: &[u64]| is_bad(&bytes_of(&Case::new(EDIT, a).p(&[1, 2, 3])));
        // A time may be any number, the others are of 32 bits.
        let most = [U32, U32, U32, U32, ANY];
        assert!(!edit(&most) && !edit(&[]));
        for at in 0..4 {
            let mut a = most;
            a[at] += 1;
            assert!(edit(&a), "{a:?}");
        }
        assert!(edit(&[1, 1, 1, 1, 1, 1]));
        assert!(is_bad(&bytes_of(&Case::new(EDIT, &most).q(&[1]))));
    }

    #[test]
    fn bad_lists() {
        let list = |payload: &[u8]| Case::new(EDIT_ALL, &[]).p(&[1, 2, 3]).q(payload);
        let bad = |case: &Case| is_bad(&bytes_of(case));
        [0, 24, 48, MAX_PAYLOAD].iter().for_each(|length| assert!(!bad(&list(&vec![0; *length]))));
        for length in [1, 16, 23, 25, MAX_PAYLOAD - 1, MAX_PAYLOAD + 24] {
            assert!(bad(&list(&vec![0; length])), "{length}");
        }
        // Any bytes may stand in a correction.
        let full = [0xFF; CORRECTION_BYTES];
        assert!(!bad(&list(&[full, full].concat())));
        for at in 0..7 {
            let mut case = list(&full);
            case.a[at] = 1;
            assert!(bad(&case), "a{at}");
        }
    }
}
