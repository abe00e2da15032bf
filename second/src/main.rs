//! The independent second program: answers cases by document 01 and requests 1
//! to 3 of document 02, makes fresh ones, and compares another program's lines
//! with its own.

mod answer;
mod assembler;
mod book;
mod cases;
mod chains;
mod corpus;
mod corpus_corrections;
mod corpus_list;
mod corpus_record;
mod corpus_run;
mod corpus_writer;
mod corrections;
mod damage;
mod damage_run;
mod draft;
mod draft_run;
#[cfg(test)]
mod figures;
#[cfg(test)]
mod figures_corrections;
#[cfg(test)]
mod figures_parts;
#[cfg(test)]
mod figures_versions;
mod follower;
mod frame;
mod item;
mod known;
mod known_corrections;
mod known_parts;
mod known_runs;
mod known_steps;
mod known_versions;
mod listing;
mod make;
mod make_corrections;
mod make_record;
mod make_run;
mod make_writer;
#[cfg(test)]
mod reasons;
mod record;
mod rng;
mod rules;
mod run;
mod samples;
mod tally;
mod writer;

use std::fs;
use std::io::{self, BufWriter, Read, Write};
use std::process::ExitCode;
use tally::Tally;

const USAGE: &str = "second answer               cases on standard input, lines on standard output
second make SEED COUNT [OPS] writes fresh cases; OPS is a list like 1,2,8
second corpus [OPS]          writes the fixed cases
second compare CASES LINES   compares the lines of another program
second tally CASES           how often each op and refusal came up
second sum                   adds up tables given on standard input
second list                  lists a record buffer given on standard input
second lists DIR             writes fixed buffers NAME.record and NAME.listing
second lists DIR SEED COUNT  the same of fresh buffers
second samples DIR           writes the samples, and the cases that made them
                             on standard output
";

type Outcome = Result<(), String>;

fn main() -> ExitCode {
    let arguments: Vec<String> = std::env::args().skip(1).collect();
    let arguments: Vec<&str> = arguments.iter().map(String::as_str).collect();
    let outcome = match arguments[..] {
        ["answer"] => answer_all(),
        ["make", seed, count] => make_cases(seed, count, "all"),
        ["make", seed, count, ops] => make_cases(seed, count, ops),
        ["corpus"] => corpus_cases("all"),
        ["corpus", ops] => corpus_cases(ops),
        ["compare", cases, lines] => compare_files(cases, lines),
        ["tally", cases] => tally_file(cases),
        ["sum"] => sum_tables(),
        ["list"] => list_input(),
        ["samples", folder] => write_samples(folder),
        ["lists", folder] => fixed_lists(folder),
        ["lists", folder, seed, count] => fresh_lists(folder, seed, count),
        _ => Err(USAGE.to_string()),
    };
    match outcome {
        Ok(()) => ExitCode::SUCCESS,
        Err(message) => {
            eprint!("{message}");
            ExitCode::FAILURE
        }
    }
}

fn say(error: io::Error) -> String {
    format!("{error}\n")
}

fn input() -> Result<Vec<u8>, String> {
    let mut input = Vec::new();
    io::stdin().lock().read_to_end(&mut input).map_err(say)?;
    Ok(input)
}

fn file(name: &str) -> Result<Vec<u8>, String> {
    fs::read(name).map_err(|error| format!("{name}: {error}\n"))
}

fn print(bytes: &[u8]) -> Outcome {
    let mut out = io::stdout().lock();
    out.write_all(bytes).and_then(|()| out.flush()).map_err(say)
}

/// The ops of a list; `all` stands for every one.
fn ops_of(list: &str) -> Result<Vec<u8>, String> {
    if list == "all" {
        return Ok((0..cases::OPS as u8).collect());
    }
    let parsed = list.split(',').map(|op| op.parse().ok().filter(|op| *op < cases::OPS as u8));
    parsed.collect::<Option<Vec<u8>>>().ok_or(format!("no list of ops: {list}\n"))
}

fn answer_all() -> Outcome {
    let input = input()?;
    let mut out = BufWriter::new(io::stdout().lock());
    for line in answer::answers(&input) {
        writeln!(out, "{line}").map_err(say)?;
    }
    out.flush().map_err(say)
}

fn make_cases(seed: &str, count: &str, ops: &str) -> Outcome {
    let seed = seed.parse().map_err(|_| format!("no seed: {seed}\n"))?;
    let count = count.parse().map_err(|_| format!("no count: {count}\n"))?;
    print(&make::make(seed, count, &ops_of(ops)?))
}

fn corpus_cases(ops: &str) -> Outcome {
    print(&corpus::corpus(&ops_of(ops)?))
}

fn compare_files(cases: &str, lines: &str) -> Outcome {
    let tally = tally::compare(&file(cases)?, &file(lines)?)?;
    print(tally.table().as_bytes())
}

fn tally_file(cases: &str) -> Outcome {
    let tally = Tally::of_cases(&file(cases)?);
    print(tally.table().as_bytes())?;
    for missing in tally.missing() {
        println!("never came up: {missing}");
    }
    Ok(())
}

fn sum_tables() -> Outcome {
    let mut tally = Tally::default();
    tally.add_table(&String::from_utf8_lossy(&input()?));
    print(tally.table().as_bytes())
}

fn list_input() -> Outcome {
    print(corpus_list::printed(&input()?).as_bytes())
}

/// Writes a buffer and its listing beside each other.
fn write_list(folder: &str, name: &str, record: &[u8]) -> Outcome {
    let listing = corpus_list::printed(record);
    fs::write(format!("{folder}/{name}.record"), record).map_err(say)?;
    fs::write(format!("{folder}/{name}.listing"), listing).map_err(say)
}

fn fixed_lists(folder: &str) -> Outcome {
    corpus_list::fixed().iter().try_for_each(|(name, record)| write_list(folder, name, record))
}

fn fresh_lists(folder: &str, seed: &str, count: &str) -> Outcome {
    let seed = seed.parse().map_err(|_| format!("no seed: {seed}\n"))?;
    let count = count.parse().map_err(|_| format!("no count: {count}\n"))?;
    let records = corpus_list::fresh(seed, count);
    let mut numbered = records.iter().enumerate();
    numbered.try_for_each(|(at, record)| write_list(folder, &format!("{at:06}"), record))
}

fn write_samples(folder: &str) -> Outcome {
    let samples = samples::samples();
    for (name, bytes) in &samples.files {
        fs::write(format!("{folder}/{name}"), bytes).map_err(say)?;
    }
    print(&samples.cases)
}
