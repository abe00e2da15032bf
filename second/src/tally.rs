//! How often each op and each refusal came up, and the comparison of lines.

use crate::answer::{answer, BAD_CASE};
use crate::cases::*;
use std::collections::BTreeMap;
use std::fmt::Write;

/// The refusals that each op can give; those of a run are its steps'.
pub fn possible(op: u8) -> &'static [u8] {
    match op {
        READ => &[1, 2, 3, 4, 5, 6, 7, 8, 9, 10, 11],
        ITEM | EVENT | SAMPLE_WORD | BIN_WORD => &[1, 2, 3, 4, 5, 6, 7, 8, 9, 10, 11, 13],
        SAMPLES | COUNTS => &[1, 2, 3, 4, 5, 6, 7, 8, 9, 10, 11, 12, 13],
        BEGIN => &[4, 9, 12],
        ADD | ADD_TEXT => &[1, 2, 3, 4, 6, 7, 8, 9, 10, 12],
        CLOSE => &[1, 2, 3, 4, 6, 7, 8, 9, 10, 11, 12],
        FOLLOW => &[4, 14],
        RECORD => &[1, 2, 3, 4, 5, 6, 7, 8, 9, 10, 11, 20, 21],
        ENTRY => &[1, 2, 3, 4, 5, 6, 7, 8, 9, 10, 11, 20, 21, 26],
        OPEN => &[1, 2, 3, 4, 5, 6, 7, 8, 9, 10, 11, 12],
        EDIT | EDIT_ALL => &[1, 2, 3, 4, 5, 6, 7, 8, 9, 10, 11, 12, 20, 21, 22, 23, 24, 25],
        LIST => &[12],
        RESTORE => &[1, 2, 3, 4, 5, 6, 7, 8, 9, 10, 11, 12, 20, 21, 26],
        RUN | STEP => &[1, 2, 3, 4, 5, 6, 7, 8, 9, 10, 11, 14, 15],
        _ => &[],
    }
}

/// Counts of the cases by op, and of the answers by op and refusal number; 0
/// stands for a line without a refusal. A run's line can have several.
#[derive(Default)]
pub struct Tally {
    cases: BTreeMap<u8, u64>,
    counts: BTreeMap<(u8, u8), u64>,
}

impl Tally {
    pub fn of_cases(input: &[u8]) -> Tally {
        let mut tally = Tally::default();
        for mut case in Cases::of(input).flatten() {
            tally.count(case.op, &answer(&mut case));
        }
        tally
    }

    fn count(&mut self, op: u8, line: &str) {
        *self.cases.entry(op).or_default() += 1;
        let mut numbers: Vec<u8> = refusals(line).collect();
        if numbers.is_empty() {
            numbers.push(0);
        }
        for number in numbers {
            *self.counts.entry((op, number)).or_default() += 1;
        }
    }

    fn get(&self, op: u8, number: u8) -> u64 {
        self.counts.get(&(op, number)).copied().unwrap_or(0)
    }

    #[cfg(test)]
    pub fn cases(&self) -> u64 {
        self.cases.values().sum()
    }

    /// What an op that came up can answer and never did.
    pub fn missing(&self) -> Vec<String> {
        let mut missing = Vec::new();
        for op in 0..OPS as u8 {
            let came_up = self.cases.contains_key(&op);
            for number in std::iter::once(&0).chain(possible(op)) {
                if came_up && self.get(op, *number) == 0 {
                    missing.push(format!("op {op} refusal {number}"));
                }
            }
        }
        missing
    }

    /// One row for each op that came up: op, name, cases, those with nothing
    /// refused, and every refusal that it can give with how often it did.
    pub fn table(&self) -> String {
        let mut table = format!("{:>2} {:<12}{:>9}{:>9}  refused\n", "op", "call", "cases", "ok");
        for (op, all) in &self.cases {
            let op = *op;
            let numbers = self.counts.keys().filter(|key| key.0 == op && key.1 > 0);
            let mut refusals: Vec<u8> = numbers.map(|key| key.1).collect();
            refusals.extend(possible(op));
            refusals.sort();
            refusals.dedup();
            let name = NAMES[op as usize];
            write!(table, "{op:>2} {name:<12}{all:>9}{:>9} ", self.get(op, 0)).unwrap();
            for number in refusals {
                write!(table, " {number}:{}", self.get(op, number)).unwrap();
            }
            table.push('\n');
        }
        table
    }

    /// Adds a table that was printed before. Lines that are no row are passed
    /// over.
    pub fn add_table(&mut self, table: &str) {
        for line in table.lines() {
            let mut tokens = line.split_whitespace();
            let Some(op) = tokens.next().and_then(|token| token.parse::<u8>().ok()) else {
                continue;
            };
            // Cases, accepted; the name is what is no number.
            let rest: Vec<&str> = tokens.collect();
            let plain: Vec<u64> = rest.iter().filter_map(|token| token.parse().ok()).collect();
            *self.cases.entry(op).or_default() += plain.first().unwrap_or(&0);
            *self.counts.entry((op, 0)).or_default() += plain.get(1).unwrap_or(&0);
            for (number, count) in rest.iter().filter_map(|token| token.split_once(':')) {
                let (number, count) = (number.parse().unwrap_or(0), count.parse().unwrap_or(0));
                *self.counts.entry((op, number)).or_default() += count;
            }
        }
        self.counts.retain(|_, count| *count > 0);
    }
}

/// The numbers of the refusals in a line.
fn refusals(line: &str) -> impl Iterator<Item = u8> + '_ {
    let behind = line.split("refused ").skip(1);
    behind.filter_map(|rest| rest.split(' ').next()?.parse().ok())
}

/// Compares the lines of another program with our own answers. The error is
/// the report of the first difference.
pub fn compare(input: &[u8], lines: &[u8]) -> Result<Tally, String> {
    let mut tally = Tally::default();
    let theirs = String::from_utf8_lossy(lines);
    if !theirs.is_empty() && !theirs.ends_with('\n') {
        return Err("the lines do not end in a line feed\n".to_string());
    }
    let mut theirs = theirs.split_terminator('\n');
    for (number, case) in Cases::of(input).enumerate() {
        let case = case.ok();
        // The call works on a copy, as the report shows the case as it was.
        let ours = case.clone().map_or(BAD_CASE.to_string(), |mut case| answer(&mut case));
        let line = theirs.next();
        if line != Some(ours.as_str()) {
            return Err(report(number, case.as_ref(), &ours, line));
        }
        if let Some(case) = case {
            tally.count(case.op, &ours);
        }
    }
    match theirs.next() {
        Some(line) => Err(format!("a line too many: {line}\n")),
        None => Ok(tally),
    }
}

fn report(number: usize, case: Option<&Case>, ours: &str, theirs: Option<&str>) -> String {
    let mut report = format!("case {} (from 1) differs\n", number + 1);
    if let Some(case) = case {
        writeln!(report, "op       {} {}", case.op, NAMES[case.op as usize]).unwrap();
        writeln!(report, "a0..a6   {:?}", case.a).unwrap();
    }
    writeln!(report, "second   {ours}").unwrap();
    writeln!(report, "other    {}", theirs.unwrap_or("(no line)")).unwrap();
    if let Some(case) = case {
        writeln!(report, "P {:>6} {}", case.p.len(), hex(&case.p)).unwrap();
        writeln!(report, "Q {:>6} {}", case.q.len(), hex(&case.q)).unwrap();
    }
    report
}

fn hex(bytes: &[u8]) -> String {
    bytes.iter().map(|byte| format!("{byte:02x}")).collect()
}

#[cfg(test)]
mod tests {
    use super::*;

    fn input() -> Vec<u8> {
        let mut input = Vec::new();
        Case::new(CLASSIFY, &[0]).write(&mut input);
        Case::new(FOLLOW, &[0, 5]).write(&mut input);
        input
    }

    #[test]
    fn equal_lines_pass() {
        let tally = compare(&input(), b"ok 0\nrefused 14 at 0\n").ok().unwrap();
        assert_eq!((tally.cases(), tally.get(FOLLOW, 14)), (2, 1));
    }

    #[test]
    fn any_difference_fails() {
        let wrong: [&[u8]; 5] = [
            b"ok 0\n",
            b"ok 0\nrefused 14 at 1\n",
            b"ok 0\nrefused 14 at 0",
            b"ok 0\nrefused 14 at 0\nok 0\n",
            b"",
        ];
        for lines in wrong {
            assert!(compare(&input(), lines).is_err());
        }
        let report = compare(&input(), b"ok 0\nok\n").err().unwrap();
        assert!(report.contains("case 2") && report.contains("refused 14 at 0"));
    }

    #[test]
    fn tables_add_up() {
        let tally = Tally::of_cases(&input());
        let mut twice = Tally::default();
        twice.add_table(&tally.table());
        twice.add_table(&tally.table());
        assert_eq!(twice.get(FOLLOW, 14), 2);
        assert_eq!(twice.get(CLASSIFY, 0), 2);
        assert_eq!(twice.cases(), 4);
    }

    #[test]
    fn a_list_counts_by_its_refusal() {
        let mut tally = Tally::default();
        tally.count(EDIT_ALL, "refused 23 at 0 position 12 | 82 7");
        tally.count(EDIT_ALL, "refused 21 at 2 position 0 | 82 7");
        tally.count(EDIT_ALL, "ok | 82 7");
        let counts = [23, 21, 0, 12, 2, 7].map(|number| tally.get(EDIT_ALL, number));
        assert_eq!((counts, tally.cases()), ([1, 1, 1, 0, 0, 0], 3));
    }

    #[test]
    fn every_refusal_of_a_run_counts() {
        let mut tally = Tally::default();
        tally.count(RUN, "ok lost 0 refused 15 at 0 given up refused 9 at 3 refused 15 at 0 none");
        tally.count(RUN, "ok lost 3 open 7 18");
        let mut read = Tally::default();
        read.add_table(&tally.table());
        for tally in [tally, read] {
            assert_eq!((tally.get(RUN, 15), tally.get(RUN, 9), tally.get(RUN, 0)), (2, 1, 1));
            assert_eq!(tally.cases(), 2);
        }
    }
}
